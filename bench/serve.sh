#!/bin/bash
# Times `serve` of the program, a mixed day of 64 tills with 1, 8 or 64 lines sent when those before are answered:
#   bench/serve.sh [REQUESTS] [RUNS] [FOLDER]
# On a disk in memory beside a plain Rust program that does the same calls of the system: the processor time, the kernel's too, as a
# ratio. By the count of writes and syncs, by `strace` where it is installed. And by the clock beside the same ledger in SQLite
# (serve_sqlite.py) with its write-ahead log: a transaction a request, and a transaction for the requests at hand. How long it is from the start to a first reply of a
# full shop. Images and databases lie in FOLDER, which has to be on the disk that is asked about (/var/tmp). With
# SYNC_DELAY=MICROSECONDS in the environment each sync takes so much longer (by `strace`, which slows the rest too). All
# answers are compared first.
source "$(dirname "$0")/common.sh"
requests="${1:-2000}"
times=10
runs="${2:-5}"
folder="$(mktemp -d "${3:-/var/tmp}/serve.XXXXXX")"
memory="$(mktemp -d /dev/shm/serve.XXXXXX)"
trap 'rm -rf "$work" "$folder" "$memory"' EXIT
prepare ledger
"$top/bench/serve_turns.py" day "$requests" >"$work/day.txt"
"$proved" format "$work/blank.d64" --tills 64 >/dev/null

# the processor seconds, the kernel's too
seconds_of() {
    local TIMEFORMAT="%U %S"
    { time "$@" >/dev/null; } 2>&1 | awk '{ print $1 + $2 }'
}

# serve_days NAME PROGRAM: the day so many times over, each on a fresh disk in memory
serve_days() {
    for _ in $(seq "$times"); do
        cp "$work/blank.d64" "$memory/$1.d64"
        "$2" serve "$memory/$1.d64" <"$work/day.txt"
    done
}

run_plain() {
    serve_days plain "$plain"
}

run_proved() {
    serve_days proved "$proved"
}

# how many writes and syncs of the image and its log the day takes
calls_of() {
    cp "$work/blank.d64" "$folder/calls.d64"
    strace -f -qq -e trace=pwrite64,fdatasync -o "$work/calls" \
        "$proved" serve "$folder/calls.d64" <"$work/day.txt" >/dev/null
    echo "$(grep -c pwrite64 "$work/calls") writes and $(grep -c fdatasync "$work/calls") syncs"
}

# how a program is run whose syncs take longer
delayed=()
if [ -n "${SYNC_DELAY:-}" ]; then
    delayed=(strace -f -qq -o /dev/null -e trace=fsync,fdatasync
        -e "inject=fsync,fdatasync:delay_exit=$SYNC_DELAY" --seccomp-bpf)
fi

# turns_of NAME AT_HAND COMMAND..: answers the day, so many lines at a time, as `dry` does, and notes how long it took
turns_of() {
    local name="$1, $2 at hand" hand="$2"
    shift 2
    "$top/bench/serve_turns.py" turns "$hand" "$work/day.txt" "$work/replies" "${delayed[@]}" "$@" >"$work/turns"
    cmp -s "$work/replies" "$work/wanted" || stop "$name answers otherwise than dry"
    echo "$name: $(cat "$work/turns")" >>"$work/all_turns"
}

# serve_turns AT_HAND: a fresh disk served
serve_turns() {
    cp "$work/blank.d64" "$folder/turns.d64"
    rm -f "$folder"/turns.d64-log*
    turns_of serve "$1" "$proved" serve "$folder/turns.d64"
}

# sqlite_turns NAME AT_HAND [together]: the same of a fresh database
sqlite_turns() {
    rm -f "$folder"/stock.db*
    turns_of "$1" "$2" "$top/bench/serve_sqlite.py" "$folder/stock.db" wal "${@:3}"
}

"$proved" dry "$work/day.txt" >"$work/wanted"
times=1
run_plain | cmp -s - "$work/wanted" || stop "the plain program answers otherwise than dry"
run_proved | cmp -s - "$work/wanted" || stop "serve answers otherwise than dry"
cmp -s "$memory/plain.d64" "$memory/proved.d64" || stop "the two images differ"
times=10
echo -n "$requests requests on a disk in memory: "
print_ratio $((times * requests)) 1000000 "us a request"
if command -v strace >/dev/null; then
    echo "all lines at hand: $(calls_of), the log's beginning and end among them"
fi

seq 8819 | awk '{ print 1 + $1 % 64 "," 1 + int($1 / 64) ",S," $1 "," $1 }' >"$work/all.txt"
cp "$work/blank.d64" "$folder/full.d64"
"$proved" play "$folder/full.d64" "$work/all.txt" >/dev/null
echo "a full shop: $("$top/bench/serve_turns.py" opening 20 "$proved" serve "$folder/full.d64")"

# turn by turn, so that what else uses the disk slows all alike; of each the run with the least mean counts
for _ in $(seq "$runs"); do
    for hand in 1 8 64; do
        serve_turns "$hand"
        sqlite_turns "SQLite, synchronous=FULL" "$hand"
        sqlite_turns "SQLite, synchronous=FULL, one transaction" "$hand" together
    done
done
awk '{ split($0, parts, ": mean "); name = parts[1]; mean = parts[2] + 0
       if (!(name in least) || mean < least[name]) { least[name] = mean; row[name] = $0 } }
     END { for (name in row) print row[name] }' "$work/all_turns" | sort
