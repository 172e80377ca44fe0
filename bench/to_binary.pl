# Writes a mesh of whole coordinates and triangles in ASCII, as finest.sh makes it, as binary PLY of the same mesh.
#
#     perl to_binary.pl little|big <input.ply >binary.ply
use strict;
use warnings;

my $order = shift @ARGV // '';
my ($format, $word) = $order eq 'little' ? ('binary_little_endian', 'l<') : $order eq 'big' ? ('binary_big_endian', 'l>') : die "little or big?\n";
binmode STDOUT;
my $vertices = 0;
while (my $line = <STDIN>) {
    $line =~ s/^format ascii/format $format/;
    $vertices = $1 if $line =~ /^element vertex (\d+)/;
    print $line;
    last if $line =~ /^end_header/;
}
while (my $line = <STDIN>) {
    my @numbers = split ' ', $line;
    print $vertices-- > 0 ? pack("($word)3", @numbers) : pack("C($word)3", @numbers);
}
