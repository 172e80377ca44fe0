# shellcheck shell=sh disable=SC2154,SC2034
# Read by the scripts beside it: where things are, one measured run, and the table of two sides. The caller has set
# `here` to this folder and `script` to its own name, and gives its first argument, or nothing, to `prepare`.

stop() {
    printf '%s: %s\n' "$script" "$1" >&2
    exit 2
}

# The folder for all files, the plain program and the proved one, built where need be: scratch, yardstick, proved.
prepare() {
    [ -x /usr/bin/time ] || stop "GNU time isn't at /usr/bin/time"
    if [ -n "${1:-}" ]; then
        scratch=$1
        mkdir -p "$scratch"
    else
        scratch=$(mktemp -d)
        trap 'rm -rf "$scratch"' EXIT
        trap 'exit 1' HUP INT TERM
    fi
    yardstick=${YARDSTICK_BIN:-}
    if [ -z "$yardstick" ]; then
        [ -n "${YARDSTICK:-}" ] || stop "set YARDSTICK to the folder of the plain program's sources"
        yardstick=$scratch/yardstick
        sh "$YARDSTICK/build.sh" "$yardstick"
    fi
    proved=${PROVED:-}
    if [ -z "$proved" ]; then
        # A first build takes long.
        echo "$script: building the proved program where need be" >&2
        "$here/../tpz" --build || stop "the proved program couldn't be built: try ./tpz --build"
        proved=$here/../crates/tpz/out/tpz
    fi
    mkdir -p "$scratch/proved" "$scratch/plain"
    # The plain program writes the store in this format.
    TPZ_REF_STORE=1
    export TPZ_REF_STORE
}

# One run of the program $1 in the folder $2 with the words behind: its note stays in FOLDER.note, and its wall, user and
# system seconds and peak in KB are one more line of FOLDER.times.
measure() {
    program=$1
    side=$2
    shift 2
    /usr/bin/time -a -o "$scratch/$side.times" -f '%e %U %S %M' "$program" "$scratch/$side" "$@" >"$scratch/$side.note" ||
        stop "$program didn't end well"
}

fresh_times() {
    : >"$scratch/proved.times"
    : >"$scratch/plain.times"
}

# The least wall time, the least processor time and the greatest peak of each side, and their ratios.
table() {
    awk '
        FILENAME != last { last = FILENAME; side++ }
        {
            cpu = $2 + $3
            if (!(side in wall) || $1 < wall[side]) wall[side] = $1
            if (!(side in least) || cpu < least[side]) least[side] = cpu
            if ($4 > peak[side]) peak[side] = $4
        }
        function ratio(a, b) { return b > 0 ? sprintf("%.2f", a / b) : "-" }
        END {
            print "           wall s  processor s  peak MB"
            printf "proved    %7.2f %12.2f %8.1f\n", wall[1], least[1], peak[1] / 1000
            printf "plain     %7.2f %12.2f %8.1f\n", wall[2], least[2], peak[2] / 1000
            printf "ratio     %7s %12s %8s\n", ratio(wall[1], wall[2]), ratio(least[1], least[2]), ratio(peak[1], peak[2])
        }
    ' "$scratch/proved.times" "$scratch/plain.times"
}
