#!/bin/bash
# Times messages of 64 tills to a shop on a disk in memory, proved and in plain Rust, and prints three ratios: 10,000 messages
# from a blank disk on, which is opened first and on which STOCK grows; a million; and openings of the disk of 100,000 messages.
# Each request is asked twice, since its first reply is lost, so every second message is a repeat. Both programs give the same
# checksum of all replies and of the image:
#   bench/requests.sh [MESSAGES] [RUNS]     so many messages in place of a million
source "$(dirname "$0")/common.sh"
messages="${1:-1000000}"
prepare benchmarks

run_plain() {
    for _ in $(seq "$times"); do "$plain" "$word" "$rounds"; done
}

run_proved() {
    for _ in $(seq "$times"); do "$proved" "$word" "$rounds"; done
}

# compare WORD ROUNDS TIMES PER_SECOND UNIT: both give the same number; then the ratio
compare() {
    word="$1" rounds="$2" times=1
    local want got
    want="$(run_plain)"
    got="$(run_proved)"
    [ "$want" = "$got" ] || stop "the checksums differ: plain $want, proved $got"
    times="$3"
    print_ratio "$4" "$5" "$6"
}

echo -n "10,000 messages: "
compare requests 10000 50 50 1000 "ms a run"
echo -n "$messages messages: "
compare requests "$messages" 1 "$messages" 1e9 "ns a message"
echo -n "1,000 openings: "
compare openings 1000 1 1000 1e6 "us an opening"
