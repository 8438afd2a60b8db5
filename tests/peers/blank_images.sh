#!/bin/sh
# Reads the images that `format` makes with two programs that others wrote (Debian's packages cc1541 and cbmconvert):
# cc1541 has to list each as `list` does, case aside, and leave it as it is; cbmconvert has to extract both relative
# files with their names, record lengths and bytes.
#   tests/peers/blank_images.sh PROGRAM
. "$(dirname "$0")/common.sh"

# a directory listing as plain capitals with single spaces: `2 "STOCK" REL`
plain() {
    sed -e 's/\x1b\[[0-9;]*m//g' -e 's/[[:space:]]*$//' -e '/^$/d' -e '/^Adding/d' -e 's/\.$//' \
        -e 's/ *"\( [0-9A-Za-z]\)/"\1/' -e 's/  */ /g' | tr 'a-z' 'A-Z'
}

# an empty record of this length, so many times
empty_records() {
    awk -v length_="$1" -v count="$2" 'BEGIN {
        for (r = 0; r < count; r++) { printf "ff"; for (i = 1; i < length_; i++) printf "00" } }' | xxd -r -p
}

for tills in 1 2 3 63 64; do
    image="disk$tills.d64"
    "$program" format "$image" --tills "$tills" >/dev/null
    cp "$image" before.d64
    "$program" list "$image" | plain >ours
    cc1541 "$image" | plain >theirs
    cmp "$image" before.d64 || { echo "cc1541 changed the image of $tills tills"; exit 1; }
    diff ours theirs || { echo "the listings of $tills tills differ"; exit 1; }

    rm -rf files && mkdir files
    (cd files && cbmconvert -v0 -N -d "../$image")
    records=$(( (tills + 1) / 2 * 2 ))
    empty_records 18 14 | cmp - files/stock.l12
    empty_records 127 "$records" | cmp - files/requests.l7F
    echo "$tills tills: the listings agree, both files are extracted as they are"
done
echo "5 passed, 0 failed"
