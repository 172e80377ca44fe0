#!/bin/sh
# Builds height fields of ever more triangles, and one that is more than twice as large as the memory that it is given.
#
#     bench/memory.sh [CELLS]                 707, 1000, 1414 and 2000 cells along an edge where none are given
#
# A field of CELLS by CELLS cells has 2 CELLS^2 triangles. Printed are the bytes of its file, the processor time and the peak of
# memory of a build with `--digits 3`, and the bytes of the store. Then LIMIT, in KB (49,152 where it isn't given), is set as
# `ulimit -v`, which counts the program itself too, and the first field of those given whose triangles take at least twice as
# much, at 36 bytes each, is built again under it. The exit status is 0 where that ends well and the two stores are the same byte
# for byte. TPZ names another program in the place of the built one. It wants GNU time, and some 2 GB in the folder for
# temporary files.
set -eu

top=$(CDPATH='' cd -- "$(dirname -- "$0")/.." && pwd)
tpz=${TPZ:-}
if [ -z "$tpz" ]; then
    "$top/tpz" --build
    tpz=$top/crates/tpz/out/tpz
fi
limit=${LIMIT:-49152}
work=$(mktemp -d)
trap 'rm -rf "$work"' EXIT
trap 'exit 1' HUP INT TERM
built=''

# One line of the table, of the field in $work.
line() {
    /usr/bin/time -o "$work/time" -f '%U %S %M' "$tpz" "$work" build --digits 3 >"$work/note"
    tris=$(awk '{ print $3; exit }' "$work/note")
    records=$(awk '{ print $7; exit }' "$work/note")
    awk -v tris="$tris" -v records="$records" -v input="$(wc -c <"$work/input.ply")" -v store="$(wc -c <"$work/store.tpz")" \
        '{ printf "| %d | %.0f MB | %d | %.1f s | %.1f MB | %.0f MB |\n", tris, input / 1e6, records, $1 + $2, $3 / 1000, store / 1e6 }' "$work/time"
}

# The field once more, under the limit.
under_limit() {
    mv "$work/store.tpz" "$work/first.tpz"
    # shellcheck disable=SC3045 # dash has it too
    if ! (ulimit -v "$limit" && "$tpz" "$work" build --digits 3 >"$work/note"); then
        echo "memory.sh: the build under ulimit -v $limit didn't end well"
        exit 1
    fi
    cmp "$work/first.tpz" "$work/store.tpz"
    rm "$work/first.tpz"
    built="$1 triangles, $(($1 * 36 / 1024)) KB of them, were built under ulimit -v $limit, with the same store"
}

echo '| Triangles | Input | Records | Build | Memory | Store |'
echo '|---|---|---|---|---|---|'
[ $# -gt 0 ] || set -- 707 1000 1414 2000
for cells in "$@"; do
    "$top/bench/hard_meshes.py" field "$cells" "$work/input.ply"
    line
    if [ -z "$built" ] && [ "$tris" -ge "$((limit * 1024 * 2 / 36))" ]; then
        under_limit "$tris"
    fi
    rm -f "$work/store.tpz"
done
if [ -z "$built" ]; then
    echo "memory.sh: no field is twice as large as $limit KB"
    exit 1
fi
echo "$built"
