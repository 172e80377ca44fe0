#!/bin/sh
# Times the command `replay` beside a plain program of the same job: a flight of 50 views with a `write` behind each.
#
#     YARDSTICK=/path/to/its/sources bench/replay.sh [SCRATCH]
#
# YARDSTICK, YARDSTICK_BIN, PROVED and SCRATCH are as for finest.sh; SCRATCH takes about 3 GB. SIZES is the numbers of cells along an
# edge of the generated mesh (40, 100 and 200 where it isn't given), so there are 12 SIZE^2 triangles; WORDS is the options of the
# build of the store, which the plain program makes (--cap 16 --budget 256); VIEWS is the number of views (50); RUNS is how
# often each program runs (3).
#
# The eye comes from far along a diagonal of the mesh down to one of its corners and flies on along an edge. Printed are the
# least wall time, the least processor time and the greatest peak of memory of each, the ratios, and whether all parts are the
# same byte for byte. The exit status is 0 where they are. The notes differ: the plain program keeps blocks and moves its front,
# so it reads and tests less.
set -eu

here=$(CDPATH='' cd -- "$(dirname -- "$0")" && pwd)
script=replay.sh
# shellcheck source=common.sh
. "$here/common.sh"
runs=${RUNS:-3}
views=${VIEWS:-50}

prepare "${1:-}"
same=0

# The script of a flight over a mesh of so many cells along an edge.
flight() {
    awk -v edge="$(($1 * 64))" -v views="$views" 'BEGIN {
        for (k = 0; k < views; k++) {
            t = k / (views > 1 ? views - 1 : 1)
            if (t < 0.5) {
                far = edge * 20 * (1 - 2 * t)
                x = -far; y = -far; z = -far
            } else {
                x = edge * (2 * t - 1); y = 0; z = 0
            }
            printf "view %.0f %.0f %.0f 65536\nwrite\n", x, y, z
        }
    }'
}

compare() {
    "$yardstick" "$scratch/plain" gen --size "$1" >/dev/null
    mv "$scratch/plain/part-1.ply" "$scratch/plain/input.ply"
    rm -f "$scratch/plain/store.tpz" "$scratch/proved/store.tpz"
    # shellcheck disable=SC2086 # several words
    "$yardstick" "$scratch/plain" build ${WORDS:---cap 16 --budget 256}
    cp "$scratch/plain/store.tpz" "$scratch/proved/store.tpz"
    flight "$1" >"$scratch/plain/script.txt"
    cp "$scratch/plain/script.txt" "$scratch/proved/script.txt"
    fresh_times
    run=0
    while [ "$run" -lt "$runs" ]; do
        measure "$proved" proved replay
        measure "$yardstick" plain replay --cache 1048576
        run=$((run + 1))
    done
    cat "$scratch/proved.note" "$scratch/plain.note"
    table
    different=0
    part=1
    while [ "$part" -le "$views" ]; do
        cmp "$scratch/proved/part-$part.ply" "$scratch/plain/part-$part.ply" || different=1
        part=$((part + 1))
    done
    if [ "$different" -eq 0 ]; then
        echo "the $views parts are the same"
    else
        same=1
    fi
    rm -f "$scratch/proved"/part-*.ply "$scratch/plain"/part-*.ply
}

for size in ${SIZES:-40 100 200}; do
    compare "$size"
done
exit "$same"
