#!/bin/bash
# Times a drive over a full disk with STOCK and REQUESTS, proved and in plain Rust, and prints the ratio: in each round a record
# of each of the two files is opened, gone to, written and closed:
#   bench/drive.sh [ROUNDS] [RUNS]
source "$(dirname "$0")/common.sh"
rounds="${1:-1000000}"
prepare benchmarks

run_plain() {
    "$plain" "$rounds"
}

run_proved() {
    "$proved" drive "$rounds"
}

want="$(run_plain)"
got="$(run_proved)"
[ "$want" = "$got" ] || stop "the checksums differ: plain $want, proved $got"
print_ratio "$rounds" 1e9 "ns a round"
