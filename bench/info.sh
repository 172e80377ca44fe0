#!/bin/sh
# Times the command `info` beside a plain program of the same job, over the store of a closed mesh with about half a million
# records.
#
#     YARDSTICK=/path/to/its/sources bench/info.sh [SCRATCH]
#
# The plain program makes the mesh (`gen --size`) and the store (`build --cap`). YARDSTICK, YARDSTICK_BIN, PROVED and SCRATCH
# are as for finest.sh; SCRATCH takes about 700 MB. SIZE is the number of cells along an edge (200 where it isn't given);
# CAP is the cap (1); RUNS is how often each program runs (3).
#
# Both programs run in turn. Printed are the least wall time, the least processor time and the greatest peak of memory of
# each, the ratios, and whether the two notes are the same. The exit status is 0 where they are.
set -eu

here=$(CDPATH='' cd -- "$(dirname -- "$0")" && pwd)
script=info.sh
# shellcheck source=common.sh
. "$here/common.sh"
size=${SIZE:-200}
cap=${CAP:-1}
runs=${RUNS:-3}

prepare "${1:-}"
rm -f "$scratch/plain/store.tpz" "$scratch/proved/store.tpz"
"$yardstick" "$scratch/plain" gen --size "$size"
mv "$scratch/plain/part-1.ply" "$scratch/plain/input.ply"
"$yardstick" "$scratch/plain" build --cap "$cap"
ln "$scratch/plain/store.tpz" "$scratch/proved/store.tpz"

fresh_times
run=0
while [ "$run" -lt "$runs" ]; do
    measure "$proved" proved info
    measure "$yardstick" plain info
    run=$((run + 1))
done
cat "$scratch/proved.note"
table
if cmp "$scratch/proved.note" "$scratch/plain.note"; then
    echo "the two notes are the same"
else
    exit 1
fi
