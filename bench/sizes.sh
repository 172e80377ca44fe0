#!/bin/sh
# Measures the table of sizes in README: for three generated meshes the processor time and memory of a build with default
# options, the bytes, and the processor time of a flight of 50 views with a part each.
#
#     bench/sizes.sh [SIZES]                  40, 130 and 300 where none are given
#
# TPZ names another program in the place of the built one. It wants GNU time.
set -eu

top=$(CDPATH='' cd -- "$(dirname -- "$0")/.." && pwd)
tpz=${TPZ:-}
if [ -z "$tpz" ]; then
    "$top/tpz" --build
    tpz=$top/crates/tpz/out/tpz
fi
work=$(mktemp -d)
trap 'rm -rf "$work"' EXIT
trap 'exit 1' HUP INT TERM

# The processor seconds and peak KB of a run, which leaves its line in said.
measured() {
    /usr/bin/time -o "$work/time" -f '%U %S %M' "$@" >"$work/said"
    awk '{ printf "%.2f %d\n", $1 + $2, $3 }' "$work/time"
}

megabytes() {
    wc -c <"$1" | awk '{ printf "%.1f MB", $1 / 1e6 }'
}

echo '| Triangles | Input | Build | Memory | Store | Replay, 50 views |'
echo '|---|---|---|---|---|---|'
[ $# -gt 0 ] || set -- 40 130 300
for size in "$@"; do
    folder=$work/$size
    mkdir "$folder"
    "$tpz" "$folder" gen --size "$size" >/dev/null
    mv "$folder/part-1.ply" "$folder/input.ply"
    built=$(measured "$tpz" "$folder" build)
    "$top/tools/script" --steps 50 "$folder/input.ply" >"$folder/script.txt"
    played=$(measured "$tpz" "$folder" replay)
    printf '| %s | %s | %s s | %s MB | %s | %s s |\n' "$((12 * size * size))" "$(megabytes "$folder/input.ply")" "${built% *}" \
        "$((${built#* } / 1000))" "$(megabytes "$folder/store.tpz")" "${played% *}"
    rm -rf "$folder"
done
