#!/bin/bash
# Times commands for keepers of disks beside plain Rust programs that print the same and leave the same image:
#   bench/keepers.sh [PART] [RUNS] [FOLDER]
# PART is one of these, or `all`:
#   records  of the longest file of a disk, and of one of as many bytes with records of one byte
#   store    9,000 changed records of 18 bytes, and the same lines again, which change nothing
#   pictures `picture` of a full disk, also by the clock; the pages of a full shop, a blank one, a day's, and of a full one with a
#            loop, with a block count and with a map that is wrong are compared first
#   sheet    a contact sheet of 100 images, a half of them full shops, also by the clock
# Images lie in FOLDER, in memory if there is room for it (/dev/shm): so a sync takes no time, and the processor time, the
# kernel's too, is the program's own. What is printed and the images are compared first. `strace`, where it is installed, tells
# how often each writes and syncs: the program changes an image by a log, the plain one sector by sector. Wants python3. A part is
# a function and a plain program, keepers_PART_plain.rs.
parts="records store pictures sheet"
chosen="${1:-all}"
source "$(dirname "$0")/common.sh"
folder="$(mktemp -d "${3:-$([ -d /dev/shm ] && echo /dev/shm || echo /var/tmp)}/keepers.XXXXXX")"
trap 'rm -rf "$work" "$folder"' EXIT

# the processor seconds, the kernel's too
seconds_of() {
    local TIMEFORMAT="%U %S"
    { time "$@" >/dev/null; } 2>&1 | awk '{ print $1 + $2 }'
}

# repeat NAME PROGRAM: what is timed, so many times over, each on a fresh image where it writes
repeat() {
    for _ in $(seq "$times"); do
        [ -z "$fresh" ] || cp "$fresh" "$folder/$1.d64"
        "$2" "${words[@]/IMAGE/$folder/$1.d64}"
    done
}

run_plain() {
    repeat plain "$plain"
}

run_proved() {
    repeat proved "$proved"
}

# calls_of NAME PROGRAM: how often the image is written and synced
calls_of() {
    [ -z "$fresh" ] || cp "$fresh" "$folder/$1.d64"
    strace -f -qq -e trace=pwrite64,fdatasync,fsync -o "$work/calls" "$2" "${words[@]/IMAGE/$folder/$1.d64}" >/dev/null
    echo "$(grep -c pwrite64 "$work/calls") writes, $(grep -c sync "$work/calls") syncs"
}

# compare TIMES WHAT: both do the words over IMAGE, print the same and leave the same image; then the ratio. FRESH is the image that each run begins with, where it writes.
compare() {
    times=1
    run_plain >"$work/plain.out"
    run_proved >"$work/proved.out"
    cmp -s "$work/plain.out" "$work/proved.out" || stop "$2: the two programs print different lines"
    cmp -s "$folder/plain.d64" "$folder/proved.d64" || stop "$2: the two images differ"
    local calls=""
    if [ -n "$fresh" ] && command -v strace >/dev/null; then
        calls=", $(calls_of proved "$proved"), by the plain program $(calls_of plain "$plain")"
    fi
    echo -n "$2 ($(wc -l <"$work/plain.out") lines$calls): "
    times="$1"
    print_ratio "$times" 1000 "ms a run"
}

disks="$top/bench/keepers_disks.py"

part_records() {
    fresh=""
    words=(records IMAGE RECORDS)
    for length in 254 1; do
        "$disks" disk "$folder/plain.d64" "$length" $((658 * 254 / length)) 1
        cp "$folder/plain.d64" "$folder/proved.d64"
        compare $((length == 1 ? 20 : 50)) "records, $((658 * 254 / length)) of $length"
    done
}

part_store() {
    fresh="$work/fresh.d64"
    words=(store IMAGE RECORDS "$work/lines.csv")
    "$disks" disk "$fresh" 18 9000 1
    "$disks" lines 18 9000 2 >"$work/lines.csv"
    compare 10 "store, 9000 changed records of 18"
    cp "$folder/proved.d64" "$fresh"
    compare 20 "store, the same again"
}

# make_shops: blank.d64, day.d64, and full.d64 with as many cards as a disk for 64 tills holds
make_shops() {
    "$proved" format "$work/blank.d64" --tills 64 >/dev/null
    "$proved" format "$work/day.d64" --tills 4 >/dev/null
    "$proved" play "$work/day.d64" "$top/examples/day_with_power_cuts.txt" >/dev/null
    seq 8819 | awk '{ print 1 + $1 % 64 "," 1 + int($1 / 64) ",S," $1 "," $1 }' >"$work/all.txt"
    cp "$work/blank.d64" "$work/full.d64"
    "$proved" play "$work/full.d64" "$work/all.txt" >/dev/null
}

# damaged NAME INDEX BYTE VALUE: the full shop under another name with one byte changed, the value in octal digits
damaged() {
    cp "$work/full.d64" "$work/$1.d64"
    printf "\\$4" | dd of="$work/$1.d64" bs=1 seek=$((256 * $2 + $3)) conv=notrunc status=none
}

# same_of NAME STATUS: both programs print the same page of the image, and end with this status
same_of() {
    local by_plain=0 by_proved=0
    "$plain" picture "$work/$1.d64" >"$work/plain.html" || by_plain=$?
    "$proved" picture "$work/$1.d64" >"$work/proved.html" || by_proved=$?
    cmp -s "$work/plain.html" "$work/proved.html" || stop "$1: the two pages differ"
    [ "$by_plain" = "$2" ] && [ "$by_proved" = "$2" ] || stop "$1: status $by_plain and $by_proved in place of $2"
}

part_pictures() {
    make_shops
    local name times=200 started ended
    run_plain() { for _ in $(seq "$times"); do "$plain" picture "$work/full.d64"; done; }
    run_proved() { for _ in $(seq "$times"); do "$proved" picture "$work/full.d64"; done; }
    # a sector's index: 17/0 has 336, 18/0 357
    damaged loop 336 1 000 && damaged count 358 30 001 && damaged map 357 5 001
    for name in loop count map; do same_of "$name" 1; done
    for name in blank day full; do same_of "$name" 0; done
    echo -n "pictures, a page of $(wc -c <"$work/proved.html") bytes: "
    print_ratio "$times" 1000 "ms a page"
    started=$(date +%s%N)
    run_proved >/dev/null
    ended=$(date +%s%N)
    awk -v spent=$((ended - started)) -v times="$times" 'BEGIN { printf "pictures by the clock: %.2f ms a page\n", spent / 1e6 / times }'
}

part_sheet() {
    make_shops
    local images=() times=1 started ended
    damaged loop 336 1 000
    for number in $(seq 50); do
        cp "$work/full.d64" "$folder/full$number.d64" && cp "$work/day.d64" "$folder/day$number.d64"
        images+=("$folder/full$number.d64" "$folder/day$number.d64")
    done
    cp "$work/loop.d64" "$folder/full50.d64"
    run_plain() { "$plain" picture --sheet "${images[@]}" || true; }
    run_proved() { "$proved" picture --sheet "${images[@]}" || true; }
    run_plain >"$work/plain.html"
    run_proved >"$work/proved.html"
    cmp -s "$work/plain.html" "$work/proved.html" || stop "sheet: the two pages differ"
    echo -n "a sheet of 100 images, $(wc -c <"$work/proved.html") bytes: "
    print_ratio "$times" 1000 "ms a sheet"
    started=$(date +%s%N)
    run_proved >/dev/null
    ended=$(date +%s%N)
    awk -v spent=$((ended - started)) 'BEGIN { printf "the sheet by the clock: %.0f ms\n", spent / 1e6 }'
}

for part in $parts; do
    [ "$chosen" = all ] || [ "$chosen" = "$part" ] || continue
    name="keepers_$part"
    [ "$part" = sheet ] && name=keepers_pictures
    prepare ledger
    "part_$part"
done
