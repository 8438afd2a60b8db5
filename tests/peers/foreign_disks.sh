#!/bin/sh
# What `check` says of disks that other programs made (Debian's packages cc1541 and cbmconvert), and why.
# The disks: closed, locked and open entries, separators, a file listed twice, a relative entry without side sectors,
# an entry scratched by clearing its type alone, and relative files of one and of several hundred blocks.
#
#   tests/peers/foreign_disks.sh PROGRAM
. "$(dirname "$0")/common.sh"

# expect IMAGE WORD..: `check` prints one of these words
expect() {
    image=$1
    shift
    cp "$image" before.d64
    said=$("$program" check "$image" || true)
    cmp "$image" before.d64
    for word in "$@"; do
        [ "$said" = "$word" ] && { echo "$image: $said"; return 0; }
    done
    echo "$image: check says $said and not $*"
    exit 1
}

# made WORD.. IMAGE: cc1541 makes or changes the image
made() {
    cc1541 -q "$@" >/dev/null
}

# byte AT VALUE IMAGE: sets one byte of the first directory sector, 18/1
byte() {
    printf "\\$(printf %o "$2")" | dd of="$3" bs=1 seek=$((91648 + $1)) conv=notrunc 2>/dev/null
}

head -c 1000 /dev/zero | tr '\0' 'x' >data

# a program, a text and a locked program: all agrees
made -n shop -f program -w data -f text -T SEQ -w data -f locked -P -w data files.d64
expect files.d64 OK

# an entry that was never closed is told and not deleted
cp files.d64 open.d64
made -f open -O -w data open.d64
expect open.d64 "UNCLOSED 18/1"

# a separator without a first block owns nothing
cp files.d64 separator.d64
made -f -------- -T DEL -L separator.d64
expect separator.d64 OK

# a second entry for the blocks of the first file, which so has two owners in each of its blocks; as a program, and as a separator
cp files.d64 twice.d64
made -f again -l program twice.d64
expect twice.d64 "OWNEDTWICE 1/0" "OWNEDTWICE 1/9" "OWNEDTWICE 1/10" "OWNEDTWICE 1/20"
cp twice.d64 owning_separator.d64
byte 98 128 owning_separator.d64
expect owning_separator.d64 "OWNEDTWICE 1/0" "OWNEDTWICE 1/9" "OWNEDTWICE 1/10" "OWNEDTWICE 1/20"

# cc1541 writes relative entries without record length and side sectors
cp files.d64 relative.d64
made -f relative -T REL -w data relative.d64
expect relative.d64 "BADLENGTH 18/1" "BADSIDE 18/1"

# scratched by clearing the type byte alone: nobody owns the blocks, and the map still has them
cp files.d64 scratched.d64
byte 2 0 scratched.d64
expect scratched.d64 "MAPWRONG 1/0" "MAPWRONG 1/9" "MAPWRONG 1/10" "MAPWRONG 1/20"

# relative files of 1, 130 and 300 blocks, with 1, 2 and 3 side sectors
head -c 200 data >small.l0A
head -c 33016 /dev/zero | tr '\0' 'y' >middle.l10
head -c 76200 /dev/zero | tr '\0' 'z' >large.l7F
cbmconvert -v0 -n -D4o records.d64 small.l0A middle.l10 large.l7F
expect records.d64 OK
echo "10 passed, 0 failed"
