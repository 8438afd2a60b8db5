#!/bin/bash
# Times `extract` of a full disk beside a plain Rust program that makes the same files:
#   bench/extract.sh [TIMES] [RUNS] [FOLDER]
# The disks: one relative file of 656 blocks, with records of 254 bytes and of one byte; and 144 programs of cc1541's (Debian's
# package of this name), where it is installed. Folders lie in FOLDER, in memory if there is room for it (/dev/shm). What is
# made and printed is compared first. The processor time is with the kernel's. Wants python3.
source "$(dirname "$0")/common.sh"
times="${1:-200}"
folder="$(mktemp -d "${3:-$([ -d /dev/shm ] && echo /dev/shm || echo /var/tmp)}/extract.XXXXXX")"
trap 'rm -rf "$work" "$folder"' EXIT

# the processor seconds, the kernel's too
seconds_of() {
    local TIMEFORMAT="%U %S"
    { time "$@" >/dev/null; } 2>&1 | awk '{ print $1 + $2 }'
}

# repeat NAME PROGRAM: what is timed, each time in a folder that is new
repeat() {
    for number in $(seq "$count"); do
        "$2" extract "$folder/disk.d64" "$folder/$1.$number"
    done
}

run_plain() {
    repeat plain "$plain"
    rm -rf "$folder"/plain.*
}

run_proved() {
    repeat proved "$proved"
    rm -rf "$folder"/proved.*
}

# compare WHAT: both make the same files and print the same, then the ratio
compare() {
    "$plain" extract "$folder/disk.d64" "$folder/a" >"$work/a"
    "$proved" extract "$folder/disk.d64" "$folder/b" >"$work/b"
    cmp -s "$work/a" "$work/b" || stop "$1: the two programs print different lines"
    diff -r "$folder/a" "$folder/b" || stop "$1: the two programs make different files"
    echo -n "$1 ($(ls "$folder/a" | wc -l) files): "
    rm -r "$folder/a" "$folder/b"
    count="$times"
    print_ratio "$times" 1000 "ms a disk"
}

prepare ledger
disks="$top/bench/keepers_disks.py"
for length in 254 1; do
    python3 "$disks" disk "$folder/disk.d64" "$length" $((656 * 254 / length)) 1
    compare "records of $length bytes"
done
if command -v cc1541 >/dev/null; then
    words=()
    head -c 1000 /dev/zero | tr '\0' A >"$work/data"
    for number in $(seq 100 243); do words+=(-f "file $number" -w "$work/data"); done
    rm "$folder/disk.d64"
    cc1541 -q -n full -m "${words[@]}" "$folder/disk.d64" >/dev/null
    compare "144 programs"
fi
