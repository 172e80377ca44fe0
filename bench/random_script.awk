# Prints a script of `views` random views of a mesh, with a `write` behind each and behind some another: the eye is within three times
# the extent of the box of the mesh's vertices, and the tolerance 0 to 4 units per unit of distance. Read is an ASCII mesh;
# coordinates are scaled by 10^digits.
#
#     awk -v seed=1 -v views=8 -v digits=0 -f bench/random_script.awk MESH.ply

function eye(i) { return sprintf("%.0f", least[i] + (rand() * 3 - 1) * (most[i] - least[i])) }

BEGIN { srand(seed); scale = 10 ^ digits; left = -1 }
$1 == "element" && $2 == "vertex" { count = $3 }
$1 == "end_header" { left = count; next }
left > 0 {
    for (i = 1; i <= 3; i++) {
        v = $i * scale
        if (left == count || v < least[i]) least[i] = v
        if (left == count || v > most[i]) most[i] = v
    }
    left--
}
END {
    if (count == 0) for (i = 1; i <= 3; i++) least[i] = most[i] = 0
    print "# a view from " count " vertices"
    print "write"
    for (k = 1; k <= views; k++) {
        tol = int(rand() * 262145)
        if (rand() < 0.2) tol = 0
        print "view " eye(1) " " eye(2) " " eye(3) " " tol
        print "write"
        if (rand() < 0.2) print "write"
    }
}
