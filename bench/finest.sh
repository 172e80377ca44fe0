#!/bin/sh
# Times the command `finest` beside a plain program of the same job, over one closed mesh of about a million triangles: in
# ASCII, and in both binary formats.
#
#     YARDSTICK=/path/to/its/sources bench/finest.sh [SCRATCH]
#
# YARDSTICK is the folder of the plain program, whose build.sh puts it at the path that it is given; or YARDSTICK_BIN is
# that program, built. PROVED is the proved program; without it ./tpz builds it where need be. SCRATCH is a folder for
# the mesh and the parts, about 100 MB; without it a temporary one is made, and removed at the end. SIZE is the number
# of cells along an edge (288 where it isn't given), so there are 12 SIZE^2 triangles; INPUT is a plain mesh to take in
# place of that surface; RUNS is how often each program runs (3); FORMATS is which of ascii, little and big (all three);
# CAPS is the caps to split by, where none is no cap (none and 1024).
#
# Both programs run in turn. Printed are the least wall time, the least processor time (user and system) and the
# greatest peak of memory of each, the ratios, and whether the two parts are the same byte for byte. The exit status is
# 0 where they are. It needs awk, perl, cmp, and GNU time at /usr/bin/time.
set -eu

here=$(CDPATH='' cd -- "$(dirname -- "$0")" && pwd)
script=finest.sh
# shellcheck source=common.sh
. "$here/common.sh"
size=${SIZE:-288}
runs=${RUNS:-3}

prepare "${1:-}"
mesh=$scratch/mesh.ply
if [ -n "${INPUT:-}" ]; then
    cp "$INPUT" "$mesh"
else
    awk -v n="$size" -f "$here/bumpy_cube.awk" >"$mesh"
fi

same=0

# Both programs in turn over one input and one cap.
compare() {
    fresh_times
    run=0
    while [ "$run" -lt "$runs" ]; do
        # shellcheck disable=SC2086 # no option, or two words
        measure "$proved" proved finest $words
        # shellcheck disable=SC2086
        measure "$yardstick" plain finest $words
        run=$((run + 1))
    done
    printf '%s%s: ' "$format" "${words:+ $words}"
    cat "$scratch/proved.note"
    table
    if cmp "$scratch/proved/part-1.ply" "$scratch/plain/part-1.ply" && cmp "$scratch/proved.note" "$scratch/plain.note"; then
        echo "the two parts and notes are the same"
    else
        same=1
    fi
}

for format in ${FORMATS:-ascii little big}; do
    case $format in
    ascii) cp "$mesh" "$scratch/proved/input.ply" ;;
    *) perl "$here/to_binary.pl" "$format" <"$mesh" >"$scratch/proved/input.ply" ;;
    esac
    cp "$scratch/proved/input.ply" "$scratch/plain/input.ply"
    for cap in ${CAPS:-none 1024}; do
        case $cap in
        none) words= ;;
        *) words="--cap $cap" ;;
        esac
        compare
    done
done
exit "$same"
