#!/bin/sh
# Plays the day of the README on a fresh disk, and compares with what the README says that it prints; then checks a shelf of
# disks, whose names have blanks, a quotation mark, a star and capitals, by the line of docs/KEEPERS.md, with its output in a file:
#   tests/documents/examples.sh PROGRAM
# PROGRAM is what `tools/program` prints. The status is 1 where something differs.
top=$(CDPATH='' cd -- "$(dirname -- "$0")/../.." && pwd) || exit 1
program=$(readlink -f -- "${1:?"which program?"}")
work=$(mktemp -d) || exit 1
trap 'rm -rf "$work"' EXIT
set -e
"$program" format "$work/shop.d64" --tills 4 >"$work/formatted"
"$program" play "$work/shop.d64" "$top/examples/day_with_power_cuts.txt" >"$work/replies"
diff "$top/examples/day_with_power_cuts.replies" "$work/replies"
"$program" show "$work/shop.d64" >"$work/shown"
# what stands in the README from its line `TOP ..` on
sed -n '/^TOP /,/^```/p' "$top/README.md" | sed '$d' | diff - "$work/shown"
[ "$("$program" check "$work/shop.d64")" = OK ]

# the line of the guide, as it stands, in a folder of disks, with the program under the name that it calls
line=$(sed -n 's/^| .*`\(ledger check .*\[dD\]64\)`.*/\1/p' "$top/docs/KEEPERS.md")
mkdir "$work/shelf" "$work/bin"
printf '#!/bin/sh\nexec "%s" "$@"\n' "$program" >"$work/bin/ledger"
chmod +x "$work/bin/ledger"
for name in "a shop" " begins with a blank" "two  blanks" "it's" "all*" plain; do cp "$work/shop.d64" "$work/shelf/$name.d64"; done
# 1/0, which no file has, is taken in the map of this one: byte 5 of 18/0
printf '\376' | dd of="$work/shelf/two  blanks.d64" bs=1 seek=91397 conv=notrunc 2>/dev/null
head -c 1000 "$work/shop.d64" >"$work/shelf/part of one.d64"
cp "$work/shop.d64" "$work/shelf/CAPITALS.D64"
(cd "$work/shelf" && PATH="$work/bin:$PATH" LC_ALL=C sh -c "$line") >"$work/judged" 2>"$work/beside" || true
[ ! -s "$work/beside" ] || { cat "$work/beside"; exit 1; }
LC_ALL=C sort <<'END' | diff - "$work/judged"
./ begins with a blank.d64: OK
./CAPITALS.D64: OK
./a shop.d64: OK
./all*.d64: OK
./it's.d64: OK
./part of one.d64: IMAGE SIZE
./plain.d64: OK
./two  blanks.d64: MAPWRONG 1/0
END
echo "2 passed, 0 failed"
