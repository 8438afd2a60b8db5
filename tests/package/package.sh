#!/bin/sh
# Tries what ./package makes:
#   tests/package/package.sh PROGRAM [DEBIAN]
# Two runs, in other folders and with another umask, time zone and language, make the same bytes; a folder with another SHA256SUMS is left
# alone. The program is to the byte the one that BUILT_FROM names. There are the pages for users and no other, and each link leads to a
# file and a heading that came with it. lintian finds no error and no warning.
# The completions complete in bash, zsh and fish (tests/package/completions.py). Then, where there is no kit, in a clean Debian that debootstrap
# makes in a folder of its own: the package is installed, and somebody who isn't root has the first session of the README: a shop is
# made, a day with power cuts is played, shown and checked, and what is printed is what the README says. The man page is shown by
# `man`, dpkg finds each file as it was packed, scripts can be run, and no file is called as one of Debian's package `ledger`. Then it
# is removed, and no file of it is left. The tarball is unpacked and run.
# PROGRAM is packed. DEBIAN is such a folder of an earlier run, which spares the download; `none` leaves this part out.
# It wants root, Debian's packages debootstrap, lintian, zsh, fish, and those that ./package wants.
set -eu
top=$(CDPATH='' cd -- "$(dirname -- "$0")/../.." && pwd)
PROGRAM="$(readlink -f -- "${1:?"which program?"}")"
export PROGRAM
work=$(mktemp -d)
trap 'rm -rf "$work"' EXIT
debian=${2:-${DEBIAN:-$work/debian}}

# fail WHAT: ends the script
fail() {
    echo "package: $1" >&2
    exit 1
}

mkdir "$work/one" "$work/two"
"$top/package" "$work/one" >&2
(umask 077 && cd / && TZ=Pacific/Auckland LANG=de_DE.UTF-8 "$top/package" "$work/two" >&2)
[ "$(ls "$work/one" | wc -l)" = 4 ] || fail "not four files: $(ls "$work/one")"
for file in "$work/one"/*; do cmp "$file" "$work/two/${file##*/}"; done
(cd "$work/one" && sha256sum --check --strict --quiet SHA256SUMS)
echo "$(printf x | sha256sum | cut -c 1-64)  $work/log" >"$work/two/SHA256SUMS"
printf x >"$work/log"
! "$top/package" "$work/two" 2>"$work/said" || fail "it replaced another SHA256SUMS"
grep -q "names other files" "$work/said" || { cat "$work/said" >&2; exit 1; }
lintian --allow-root --fail-on error,warning "$work"/one/*.deb >"$work/log" 2>&1 || { cat "$work/log" >&2; exit 1; }
mkdir "$work/tree"
dpkg-deb -x "$work"/one/*.deb "$work/tree"
share=$work/tree/usr/share
python3 "$top/tests/package/completions.py" ledger-1541 "$share/bash-completion/completions/ledger-1541" \
    "$share/zsh/vendor-completions/_ledger-1541" "$share/fish/vendor_completions.d/ledger-1541.fish" >&2
# what git has as a script is one in the package, and the program goes by the package's name in it
(cd "$top" && git ls-files -s examples shop ':(exclude,glob)shop/**/tests/**') | while read -r mode _ _ file; do
    has=$(stat -L -c %a "$share/doc/ledger-1541/$file")
    [ "${mode#100}" = "$has" ] || fail "$file has mode $has"
done
! grep -rnE '/usr/bin/ledger([^-]|$)|PROGRAM = "ledger"' "$share/doc/ledger-1541/examples" "$share/ledger-1541/shop" || fail "another program is called"
# the shop's commands run, also under the names of earlier versions
for script in "$work/tree/usr/bin/ledger-shop backup" "$work/tree/usr/lib/ledger/backup.py"; do
    PYTHONDONTWRITEBYTECODE=1 $script --help | grep -q '^usage: ledger-shop backup ' || fail "$script doesn't run"
done
grep -q '^License: Apache-2.0' "$share/doc/ledger-1541/copyright" || fail "no licence"
[ "$(sed -n 's/^program: //p' "$work/one/BUILT_FROM")" = "$(sha256sum <"$work/tree/usr/bin/ledger-1541" | cut -c 1-64)" ] || fail "another program"
mkdir "$work/tar"
tar -xf "$work"/one/*.tar -C "$work/tar" --strip-components=1
diff -r --exclude=lintian "$work/tree/usr/share" "$work/tar/share"
cmp "$work/tree/usr/bin/ledger-1541" "$work/tar/bin/ledger"
cmp "$work/tar/LICENSE" /usr/share/common-licenses/Apache-2.0
# the pages for users, and no other
(cd "$share/doc/ledger-1541" && find . -name '*.md' | sort) >"$work/pages"
diff - "$work/pages" <<END
./CHANGELOG.md
./README.md
./SECURITY.md
$(printf './docs/%s.md\n' CARDS DISK DRIVE FAQ GLOSSARY KEEPERS LOG MESSAGES OPERATIONS POWER_CUTS SHOP_OWNER SPEED TRIALS TRUST WHY)
./examples/README.md
./examples/disks/README.md
./shop/QUICK_START.md
./shop/README.md
./shop/SECURITY.md
END
# each of their links leads to a file and a heading
PYTHONPATH=$top/tests/documents:$top/tests/lib PYTHONDONTWRITEBYTECODE=1 python3 - "$share/doc/ledger-1541" <<'END' || fail "dead links"
import sys
from pathlib import Path
from language import broken_links
dead = [(page, *it) for page in Path(sys.argv[1]).rglob("*.md") for it in broken_links(page, page.read_text())]
sys.exit("\n".join(map(str, dead)) or 0)
END
[ "$debian" != none ] || {
    echo "package: the same bytes twice, pages, links, lintian, completions, modes: no difference; not installed"
    echo "1 passed, 0 failed"
    exit 0
}

[ -e "$debian/etc/debian_version" ] || debootstrap --variant=minbase --include=man-db bookworm "$debian" >"$work/log" 2>&1 || {
    tail -n 5 "$work/log" >&2
    exit 1
}

[ -e "$debian/usr/bin/man" ] || fail "there is no man in $debian: make it with debootstrap --include=man-db"

# inside COMMAND: as nobody, in a folder of its own
inside() {
    chroot --userspec=nobody:nogroup "$debian" /usr/bin/env -i PATH=/usr/bin:/bin HOME=/home/keeper LC_ALL=C sh -c "cd /home/keeper && $1"
}

# first_minute PROGRAM: its output is the README's
first_minute() {
    rm -rf "$debian/home/keeper"
    mkdir -p "$debian/home/keeper"
    cp "$top/examples/day_with_power_cuts.txt" "$debian/home/keeper/"
    chmod -R a+rwX "$debian/home/keeper"
    inside "$1 format shop.d64 --tills 4" | grep -qx FORMATTED
    inside "$1 play shop.d64 day_with_power_cuts.txt" | cmp - "$top/examples/day_with_power_cuts.replies"
    sed -n '/^TOP /,/^```/p' "$top/README.md" | sed '$d' >"$work/wanted"
    inside "$1 show shop.d64" | cmp - "$work/wanted"
    [ "$(inside "$1 check shop.d64")" = OK ]
}

# every file of the system, but what changes of itself
files() {
    (cd "$debian" && find . -path ./proc -prune -o -path ./home -prune -o -path ./var -prune -o -type f -print | LC_ALL=C sort)
}

files >"$work/before"
cp "$work"/one/*.deb "$debian/home/ledger.deb"
chroot "$debian" dpkg --install /home/ledger.deb >"$work/log"
chroot "$debian" dpkg --verify ledger-1541 >"$work/changed"
[ ! -s "$work/changed" ] || { cat "$work/changed"; exit 1; }
[ -z "$(chroot "$debian" dpkg-query -W -f '${Conflicts}${Replaces}' ledger-1541)" ] || fail "it puts another package out"
[ ! -e "$debian/usr/bin/ledger" ] || fail "it takes a name of Debian's package ledger"
first_minute ledger-1541
inside "man --warnings ledger-1541" >"$work/page" 2>"$work/warned" || { cat "$work/warned"; fail "man can't show the page"; }
grep -q '^NAME' "$work/page" && [ ! -s "$work/warned" ] || { cat "$work/warned"; exit 1; }
chroot "$debian" dpkg --purge ledger-1541 >"$work/log"
files >"$work/after"
diff "$work/before" "$work/after"

rm -rf "$debian/opt/ledger"
mkdir -p "$debian/opt/ledger"
tar -xf "$work"/one/*.tar -C "$debian/opt/ledger" --strip-components=1
first_minute /opt/ledger/bin/ledger
rm -rf "$debian/opt/ledger" "$debian/home/keeper" "$debian/home/ledger.deb"
echo "package: the same bytes twice, no error of lintian, completed, installed, used for a minute, removed without a file left;" \
    "the tarball unpacked and used: no difference"
echo "2 passed, 0 failed"
