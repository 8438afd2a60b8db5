# Sourced by the scripts beside it, most of which time a proved program beside a plain one. Such a script says in two
# functions, `run_plain` and `run_proved`, what is timed. Its second word says how many runs of each are made.
set -e
name="$(basename "$0" .sh)"
top="$(cd "$(dirname "${BASH_SOURCE[0]}")/.." && pwd)"
runs="${2:-9}"
work="$(mktemp -d)"
trap 'rm -rf "$work"' EXIT

# stop WORDS: says why there is nothing to time
stop() {
    echo "$name: $*" >&2
    exit 1
}

# make_plain: `plain` becomes the plain program of the script, made optimised and in one piece
make_plain() {
    command -v rustc >/dev/null || stop "there is no rustc here, so there is no plain program"
    plain="$work/plain"
    rustc -O -C codegen-units=1 -o "$plain" "$top/bench/${name}_plain.rs"
}

# prepare CRATE: makes the plain program, and `proved` becomes the program of this crate, proved and built first where a
# source is newer. PROGRAM names a program of `ledger` that is timed as it is, for example the released one.
prepare() {
    make_plain
    find_proved "$1"
}

# find_proved CRATE: the same without the plain program
find_proved() {
    if [ "$1" = ledger ] && [ -n "$PROGRAM" ]; then
        proved="$PROGRAM"
        return
    fi
    proved="$("$top/tools/program" "$1")" || stop "there is no program of $1"
}

# the processor seconds, the kernel's aside, of what is run
seconds_of() {
    local TIMEFORMAT=%U
    { time "$@" >/dev/null; } 2>&1
}

# print_ratio TIMES PER_SECOND UNIT: runs both programs, each of which does its work so many times over, turn by turn, so
# that what else runs on the machine slows both alike; the least of all runs counts
print_ratio() {
    for _ in $(seq "$runs"); do
        echo "plain $(seconds_of run_plain)"
        echo "proved $(seconds_of run_proved)"
    done | awk -v times="$1" -v factor="$2" -v unit="$3" '
        !($1 in least) || $2 < least[$1] { least[$1] = $2 }
        END {
            plain = least["plain"] * factor / times
            proved = least["proved"] * factor / times
            printf "plain Rust %.2f %s, proved %.2f %s, ratio %.2f\n", plain, unit, proved, unit, proved / plain
        }'
}
