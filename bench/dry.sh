#!/bin/bash
# Times `dry` on a script of 200,000 lines beside a plain Rust program that prints the same, and prints the ratio:
#   bench/dry.sh [LINES] [RUNS]
source "$(dirname "$0")/common.sh"
lines="${1:-200000}"
prepare ledger
awk -v lines="$lines" -f "$top/bench/script.awk" >"$work/script.txt"

# a run is short, so twenty are timed together
run_plain() {
    for _ in $(seq 20); do "$plain" "$work/script.txt"; done
}

run_proved() {
    for _ in $(seq 20); do "$proved" dry "$work/script.txt"; done
}

cmp -s <("$plain" "$work/script.txt") <("$proved" dry "$work/script.txt") || stop "the two programs print different replies"
print_ratio 20 1000 "ms a run"
