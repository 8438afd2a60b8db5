#!/bin/bash
# Times millions of rounds of read and write of a sector, proved and in plain Rust, and prints the ratio:
#   bench/sectors.sh [ROUNDS] [RUNS]
source "$(dirname "$0")/common.sh"
rounds="${1:-20000000}"
prepare benchmarks

run_plain() {
    "$plain" "$rounds"
}

run_proved() {
    "$proved" sectors "$rounds"
}

want="$(run_plain)"
got="$(run_proved)"
[ "$want" = "$got" ] || stop "the checksums differ: plain $want, proved $got"
print_ratio "$rounds" 1e9 "ns a round"
