#!/bin/bash
# Times the whole program beside a plain Rust program that does and prints the same, and prints three ratios: `play` of 10,000
# requests of 64 tills on a disk for them, `play` of the one request that makes STOCK as long as it can be there (item 8819),
# and `show` of a full disk:
#   bench/play.sh [REQUESTS] [RUNS] [FOLDER]
# Both write each sector to the file; the kernel's time is counted too, since most of the work is there. Then the first 20,
# 2,000 and all requests in each way to play, by the clock, on images in FOLDER, which has to be on the disk that is asked about
# (/var/tmp): three times each, of which the least counts. How many syncs each way takes, by `strace` where it is installed.
source "$(dirname "$0")/common.sh"
requests="${1:-10000}"
folder="$(mktemp -d "${3:-/var/tmp}/play.XXXXXX")"
trap 'rm -rf "$work" "$folder"' EXIT
prepare ledger
"$proved" format "$work/blank.d64" --tills 64 >/dev/null
awk -v lines="$requests" -f "$top/bench/script.awk" >"$work/requests.txt"
echo "1,1,S,8819,1" >"$work/growth.txt"
seq 8819 | awk '{ print 1 + $1 % 64 "," 1 + int($1 / 64) ",S," $1 "," $1 }' >"$work/all.txt"

# the processor seconds, the kernel's too
seconds_of() {
    local TIMEFORMAT="%U %S"
    { time "$@" >/dev/null; } 2>&1 | awk '{ print $1 + $2 }'
}

run_plain() {
    for _ in $(seq "$times"); do
        [ "$word" = show ] || cp "$work/blank.d64" "$work/plain.d64"
        "$plain" "$word" "$work/plain.d64" $script
    done
}

run_proved() {
    for _ in $(seq "$times"); do
        [ "$word" = show ] || cp "$work/blank.d64" "$work/proved.d64"
        "$proved" "$word" "$work/proved.d64" $script
    done
}

# compare WORD SCRIPT TIMES: both print the same and leave the same image; then the ratio
compare() {
    word="$1" script="$2" times=1
    cmp -s <(run_plain) <(run_proved) || stop "$word: the two programs print different lines"
    cmp -s "$work/plain.d64" "$work/proved.d64" || stop "$word: the two images differ"
    times="$3"
    print_ratio "$times" 1000 "ms a run"
}

echo -n "play, $requests requests: "
compare play "$work/requests.txt" 10
echo -n "play, growth to item 8819: "
compare play "$work/growth.txt" 20
echo -n "show, a card for each item: "
cp "$work/blank.d64" "$work/plain.d64"
"$plain" play "$work/plain.d64" "$work/all.txt" >/dev/null
cp "$work/plain.d64" "$work/proved.d64"
compare show "" 50

# play_some [WORDS]: some requests on a fresh disk in FOLDER
play_some() {
    "$proved" play "$@" "$folder/way.d64" "$work/some.txt"
}

# milliseconds_of [WORDS]: how long that takes, by the clock
milliseconds_of() {
    local TIMEFORMAT=%R
    cp "$work/blank.d64" "$folder/way.d64"
    sync -f "$folder"
    { time play_some "$@" >"$work/replies"; } 2>&1 | awk '{ print $1 * 1000 }'
}

# syncs_of [WORDS]: how many syncs it takes
syncs_of() {
    command -v strace >/dev/null || return 0
    cp "$work/blank.d64" "$folder/way.d64"
    strace -f -qq -e trace=fsync,fdatasync -o "$work/calls" "$proved" play "$@" "$folder/way.d64" "$work/some.txt" >/dev/null
    echo ", $(wc -l <"$work/calls") syncs"
}

# way COUNT [WORDS]: the first so many requests are played so, once the replies and the image are those of `play`
way() {
    head -n "$1" "$work/requests.txt" >"$work/some.txt"
    shift
    milliseconds_of >/dev/null
    cp "$work/replies" "$work/wanted"
    cp "$folder/way.d64" "$work/wanted.d64"
    local least
    least="$(for _ in 1 2 3; do milliseconds_of "$@"; done | sort -n | head -n 1)"
    cmp -s "$work/replies" "$work/wanted" || stop "play $* prints other lines than play"
    cmp -s "$folder/way.d64" "$work/wanted.d64" || stop "play $* leaves another image than play"
    echo "play${1:+ $*}, $(wc -l <"$work/some.txt") requests: $least ms by the clock$(syncs_of "$@")"
}

for count in 20 2000 "$requests"; do
    way "$count"
    way "$count" --sync
done
