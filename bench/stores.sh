#!/bin/sh
# Compares the stores of the proved program and of a plain one, byte for byte, over random meshes: polygons, borders, several
# components, vertices at one place, faces twice, floats; with caps of 1 and 1024 and budgets of 1, 64 and 32768.
#
#     YARDSTICK=/path/to/its/sources bench/stores.sh [SCRATCH]
#
# YARDSTICK, YARDSTICK_BIN, PROVED and SCRATCH are as for finest.sh. SEEDS is the numbers of the meshes (1 to 20 where it isn't
# given); WHAT is what is compared: `build`, the two stores, notes, lines and statuses; `info`, the notes of the two over the
# plain program's store; or `replay`, all parts of eight random views over it, lines and statuses (build).
#
# One line for each difference, and the number of runs. The exit status is 0 where nothing differs.
set -eu

here=$(CDPATH='' cd -- "$(dirname -- "$0")" && pwd)
script=stores.sh
# shellcheck source=common.sh
. "$here/common.sh"
what=${WHAT:-build}

prepare "${1:-}"
runs=0
different=0
parts=0

# One run of the program $1 in the folder of the side $2, with the words behind: its note, line and status.
answer() {
    program=$1
    side=$2
    shift 2
    status=0
    "$program" "$scratch/$side" "$@" >"$scratch/$side.note" 2>"$scratch/$side.line" || status=$?
    echo "$status" >"$scratch/$side.status"
}

differ() {
    echo "$1"
    different=$((different + 1))
}

# The same parts, as many on both sides.
same_parts() {
    part=1
    while [ -e "$scratch/plain/part-$part.ply" ] || [ -e "$scratch/proved/part-$part.ply" ]; do
        cmp -s "$scratch/proved/part-$part.ply" "$scratch/plain/part-$part.ply" || differ "seed $seed $words: part $part"
        part=$((part + 1))
        parts=$((parts + 1))
    done
}

# The notes of replays differ: the plain program keeps blocks and moves its front, so it reads and tests less.
same_answer() {
    [ "$what" != replay ] || : >"$scratch/proved.note"
    [ "$what" != replay ] || : >"$scratch/plain.note"
    for one in note line status; do
        cmp -s "$scratch/proved.$one" "$scratch/plain.$one" || differ "seed $seed $words: the $one"
    done
}

for seed in ${SEEDS:-1 2 3 4 5 6 7 8 9 10 11 12 13 14 15 16 17 18 19 20}; do
    awk -v seed="$seed" -f "$here/random_mesh.awk" >"$scratch/plain/input.ply"
    cp "$scratch/plain/input.ply" "$scratch/proved/input.ply"
    for cap in 1 1024; do
        for budget in 1 64 32768; do
            words="--cap $cap --budget $budget"
            rm -f "$scratch/plain/store.tpz" "$scratch/proved/store.tpz"
            # shellcheck disable=SC2086 # four words
            answer "$yardstick" plain build $words
            case $what in
            info)
                cp "$scratch/plain/store.tpz" "$scratch/proved/store.tpz"
                answer "$yardstick" plain info
                answer "$proved" proved info
                ;;
            replay)
                cp "$scratch/plain/store.tpz" "$scratch/proved/store.tpz"
                digits=$("$yardstick" "$scratch/plain" info | sed 's/.* digits \([0-9]*\) .*/\1/')
                awk -v seed="$seed$cap$budget" -v views=8 -v digits="$digits" -f "$here/random_script.awk" \
                    "$scratch/plain/input.ply" >"$scratch/plain/script.txt"
                cp "$scratch/plain/script.txt" "$scratch/proved/script.txt"
                rm -f "$scratch/plain"/part-*.ply "$scratch/proved"/part-*.ply
                answer "$yardstick" plain replay
                answer "$proved" proved replay
                same_parts
                ;;
            *)
                # shellcheck disable=SC2086
                answer "$proved" proved build $words
                cmp -s "$scratch/proved/store.tpz" "$scratch/plain/store.tpz" || differ "seed $seed $words: the store"
                ;;
            esac
            same_answer
            runs=$((runs + 1))
        done
    done
done
[ "$what" != replay ] || echo "$parts parts"
echo "$runs runs, $different differences"
[ "$different" -eq 0 ]
