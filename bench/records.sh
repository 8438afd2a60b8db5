#!/bin/bash
# Times STOCK of a blank disk for two tills, proved and in plain Rust, and prints three ratios: grown to 9,256 records, which
# fill the disk (3,290 writes), and then records that are spread over the whole file read, and written:
#   bench/records.sh [ROUNDS] [RUNS]     so many growths, ten thousand times as many reads, and as many writes
source "$(dirname "$0")/common.sh"
growths="${1:-1000}"
prepare benchmarks

run_plain() {
    "$plain" "$word" "$rounds"
}

run_proved() {
    "$proved" "$word" "$rounds"
}

# compare WORD ROUNDS UNIT PER_SECOND: both give the same number, a checksum of the image or of the bytes read; then the ratio
compare() {
    word="$1" rounds="$2"
    local want got
    want="$(run_plain)"
    got="$(run_proved)"
    [ "$want" = "$got" ] || stop "$word: the checksums differ: plain $want, proved $got"
    echo -n "$word: "
    print_ratio "$rounds" "$4" "$3"
}

# the plain program reads and writes as many sectors for the growth as the tests of rel_records say of the proved one
counted="$("$plain" counts)"
[ "$counted" = "4 reads, 3290 writes" ] || stop "the plain program grows STOCK by $counted"

compare growth "$growths" "us a growth" 1e6
compare reads $((10000 * growths)) "ns a record" 1e9
compare writes $((10000 * growths)) "ns a record" 1e9
