#!/bin/bash
# Times `check` on a full disk, proved and in plain Rust, and prints the ratio: of the check alone, and then of the whole process with
# the kernel's time:
#   bench/check.sh [ROUNDS] [RUNS]
# With 0 ROUNDS only the process is timed.
source "$(dirname "$0")/common.sh"
rounds="${1:-100000}"
make_plain
"$plain" make "$work/full.d64"

# both programs judge an image alike, and as is wanted: so many of three rounds find it clean, and the plain one tells this
same_of() {
    local said by_proved told
    said="$("$plain" judge 3 "$1")"
    by_proved="$("$proved" check 3 "$1")"
    told="$("$plain" tell "$1")"
    [ "$said" = "$2" ] && [ "$by_proved" = "$2" ] && [ "$told" = "$3" ] ||
        stop "$1: plain $said of 3 clean, proved $by_proved; the plain program tells $told, and $3 was to be told"
}

# the full disk under another name with one byte changed: damaged NAME INDEX BYTE VALUE, the value in octal digits
damaged() {
    cp "$work/full.d64" "$work/$1.d64"
    local at=$((256 * $2 + $3))
    printf "\\$4" | dd of="$work/$1.d64" bs=1 seek="$at" conv=notrunc status=none
}

# time_check: the check alone
time_check() {
    find_proved benchmarks
    same_of "$work/full.d64" 3 OK
    # a sector's index: 17/0 has 336, 18/0 357
    damaged link 336 0 044 && same_of "$work/link.d64" 0 "BADLINK 17/0"
    damaged loop 336 1 000 && same_of "$work/loop.d64" 0 "LOOP 17/0"
    damaged twice 358 36 000 && same_of "$work/twice.d64" 0 "OWNEDTWICE 17/0"
    damaged type 358 34 205 && same_of "$work/type.d64" 0 "BADTYPE 18/1"
    damaged open 358 34 004 && same_of "$work/open.d64" 0 "UNCLOSED 18/1"
    damaged length 358 23 000 && same_of "$work/length.d64" 0 "BADLENGTH 18/1"
    damaged pointer 337 255 001 && same_of "$work/pointer.d64" 0 "BADSIDE 17/1"
    damaged rest 339 100 001 && same_of "$work/rest.d64" 0 "BADSIDE 17/3"
    damaged count 358 30 001 && same_of "$work/count.d64" 0 "COUNTWRONG 18/1"
    damaged bit 357 5 001 && same_of "$work/bit.d64" 0 "MAPWRONG 1/0"
    damaged free 357 4 001 && same_of "$work/free.d64" 0 "MAPWRONG 18/0"

    run_plain() {
        "$plain" judge "$rounds" "$work/full.d64"
    }

    run_proved() {
        "$proved" check "$rounds" "$work/full.d64"
    }

    print_ratio "$rounds" 1e6 "us a check"
}

[ "$rounds" = 0 ] || time_check

find_proved ledger

# the processor seconds, the kernel's too
seconds_of() {
    local TIMEFORMAT="%U %S"
    { time "$@" >/dev/null; } 2>&1 | awk '{ print $1 + $2 }'
}

run_plain() {
    for _ in $(seq 100); do
        "$plain" tell "$work/full.d64"
    done
}

run_proved() {
    for _ in $(seq 100); do
        "$proved" check "$work/full.d64"
    done
}

echo -n "as a process: "
print_ratio 100 1000 "ms a run"
