#!/bin/sh
# Plays a day on disks that other programs made (Debian's packages cc1541 and cbmconvert), opens each image that they held
# on the way, and each image of those openings, two deep: `tests/power/every_cut.py` over an image of someone else's. The shop's
# files stand behind and between others there, in other sectors, in the other order in the directory, with a last
# block that isn't full, and on a disk with little room.
#   tests/peers/foreign_cuts.sh PROGRAM
. "$(dirname "$0")/common.sh"

# an empty record of this length, so many times
empty_records() {
    awk -v length_="$1" -v count="$2" 'BEGIN {
        for (r = 0; r < count; r++) { printf "ff"; for (i = 1; i < length_; i++) printf "00" } }' | xxd -r -p
}

# played IMAGE WORDS..: days on the image, which stays as it is
played() {
    image=$1
    shift
    cp "$image" before.d64
    for seed in 1 2 3; do
        "$top/tests/power/every_cut.py" "$program" --messages 200 --seed "$seed" --items "$1" --image "$image" >said || { echo "$image, seed $seed:"; cat said; exit 1; }
        cmp "$image" before.d64
        echo "$image, seed $seed: $(tr '\n' ',' <said | sed -e 's/,$//' -e 's/,/, /g')"
    done
}

head -c 20000 /dev/zero | tr '\0' 'x' >data
head -c 33016 /dev/zero | tr '\0' 'y' >middle.l10

# both files fresh, nothing else
empty_records 18 14 >stock.l12
empty_records 127 8 >requests.l7F
cbmconvert -v0 -n -D4o plain.d64 stock.l12 requests.l7F
played plain.d64 100

# behind and between others, REQUESTS first
cc1541 -q -n shop -f first -w data -f text -T SEQ -w data between.d64 >/dev/null
cbmconvert -v0 -n -D4 between.d64 requests.l7F middle.l10 stock.l12
cc1541 -q -f last -w data between.d64 >/dev/null
played between.d64 100

# last blocks that aren't full: five cards, seven tills
empty_records 18 5 >stock.l12
empty_records 127 7 >requests.l7F
cbmconvert -v0 -n -D4o short.d64 requests.l7F stock.l12
played short.d64 400

# little room: a disk on which the card of item 600 has none
head -c 76200 /dev/zero | tr '\0' 'z' >large.l7F
cc1541 -q -n shop -f first -w data -f second -w data narrow.d64 >/dev/null
cbmconvert -v0 -n -D4 narrow.d64 large.l7F stock.l12 middle.l10 requests.l7F
played narrow.d64 900
echo "12 passed, 0 failed"
