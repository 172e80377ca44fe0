#!/bin/sh
# Times the command `build` beside a plain program of the same job, over closed meshes of three sizes, or over meshes that are hard.
#
#     YARDSTICK=/path/to/its/sources bench/build.sh [SCRATCH]
#
# YARDSTICK, YARDSTICK_BIN, PROVED and SCRATCH are as for finest.sh; SCRATCH takes about 400 MB. SIZES is the numbers of cells
# along an edge (40, 100 and 200 where it isn't given), so there are 12 SIZE^2 triangles; WORDS is the options of `build`
# (none); RUNS is how often each program runs (3). MESHES is names and numbers of hard_meshes.py, as `fan:30000 flat:400`, in the place of
# SIZES.
#
# Both programs run in turn, each over the mesh that the plain one makes (`gen --size`). Printed are the least wall time, the
# least processor time and the greatest peak of memory of each, the ratios, and whether the two stores and notes are the same
# byte for byte. The exit status is 0 where they are.
set -eu

here=$(CDPATH='' cd -- "$(dirname -- "$0")" && pwd)
script=build.sh
# shellcheck source=common.sh
. "$here/common.sh"
runs=${RUNS:-3}

prepare "${1:-}"
same=0

# The mesh of a size, or a hard one.
make_input() {
    case $1 in
    *:*) "$here/hard_meshes.py" "${1%%:*}" "${1##*:}" "$scratch/plain/input.ply" ;;
    *)
        "$yardstick" "$scratch/plain" gen --size "$1" >/dev/null
        mv "$scratch/plain/part-1.ply" "$scratch/plain/input.ply"
        ;;
    esac
}

# Both programs in turn over one mesh.
compare() {
    make_input "$1"
    cp "$scratch/plain/input.ply" "$scratch/proved/input.ply"
    fresh_times
    run=0
    while [ "$run" -lt "$runs" ]; do
        rm -f "$scratch/plain/store.tpz" "$scratch/proved/store.tpz"
        # shellcheck disable=SC2086 # no option, or several words
        measure "$proved" proved build ${WORDS:-}
        # shellcheck disable=SC2086
        measure "$yardstick" plain build ${WORDS:-}
        run=$((run + 1))
    done
    cat "$scratch/proved.note"
    table
    if cmp "$scratch/proved/store.tpz" "$scratch/plain/store.tpz" && cmp "$scratch/proved.note" "$scratch/plain.note"; then
        echo "the two stores and notes are the same"
    else
        same=1
    fi
}

for mesh in ${MESHES:-${SIZES:-40 100 200}}; do
    echo "$mesh:"
    compare "$mesh"
done
exit "$same"
