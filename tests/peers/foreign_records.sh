#!/bin/sh
# Reads relative files that another program made (Debian's package cbmconvert), record by record: each record holds its own
# number, in as many digits as it has bytes, and `ledger records` has to print them all in their order. The files: one
# block; exactly one block; records that lie in two blocks; record lengths 1, 2 and 254; two side sectors, and six; a last
# record that is cut, which is none.
#   tests/peers/foreign_records.sh PROGRAM
. "$(dirname "$0")/common.sh"


# numbers LENGTH COUNT: so many lines, each its own number, the last digits of it in LENGTH places
numbers() {
    awk -v places="$1" -v count="$2" 'BEGIN {
        for (r = 1; r <= count; r++) {
            text = sprintf("%0" (places < 8 ? 8 : places) "d", r)
            print substr(text, length(text) - places + 1)
        } }'
}

# same LENGTH COUNT REST: a file with so many records of this length, and REST bytes behind them, is read as it was made
same() {
    rm -f disk.d64 records.l*
    file=$(printf 'records.l%02X' "$1")
    numbers "$1" "$2" >wanted
    { tr -d '\n' <wanted; head -c "$3" /dev/zero; } >"$file"
    cbmconvert -v0 -n -D4o disk.d64 "$file"
    cp disk.d64 before.d64
    "$program" records disk.d64 RECORDS | sed 's/^[0-9]*,"//; s/"$//' >got
    cmp disk.d64 before.d64
    cmp got wanted || { echo "$2 records of $1 bytes are read otherwise"; exit 1; }
    echo "$2 records of $1 bytes: each is read as it was written"
}

same 10 20 0
same 254 1 0
same 127 2 0
same 1 600 0
same 2 1000 0
same 18 15 0
same 100 300 0
same 254 130 0
same 16 2064 7
same 18 9256 0
same 127 1306 100
echo "11 passed, 0 failed"
