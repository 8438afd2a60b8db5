#!/bin/sh
# Has the first session of the README on a machine with nothing but Debian's base: no kit, no python3, no network:
#   tests/package/fresh_machine.sh [DEBIAN]
# The last commit here is cloned into a folder that debootstrap made, and the README's commands run there, as nobody. What they print is
# compared with what the README shows. The last line has the seconds from the start of the clone to the end of the session. The status
# is 1 if something differs, if the release isn't of that commit's files, or if it took a minute or more.
# DEBIAN is such a folder of an earlier run, which spares the download. Wants root, git, and Debian's package debootstrap.
set -eu
top=$(CDPATH='' cd -- "$(dirname -- "$0")/../.." && pwd)
work=$(mktemp -d)
trap 'rm -rf "$work" "${home:-$work}"' EXIT
debian=${1:-${DEBIAN:-$work/debian}}

# fail WHAT: ends the script
fail() {
    echo "fresh machine: $1" >&2
    exit 1
}

[ -e "$debian/etc/debian_version" ] || debootstrap --variant=minbase bookworm "$debian" >"$work/log" 2>&1 || fail "$(tail -n 5 "$work/log")"
for name in rt python3 git; do
    [ ! -e "$debian/usr/bin/$name" ] || fail "there is a $name in $debian"
done
[ -e "$top/releases/BUILT_FROM" ] || fail "there is no release here"

home=$(mktemp -d "$debian/home/keeper.XXXXXX")
began=$(date +%s%N)
git clone --quiet --depth 1 "file://$top" "$home/ledger"
chown -R nobody:nogroup "$home"
commands=$(sed -n '/^## A first session/,/^```$/s/^\(\.\/ledger [^#]*\).*/\1/p' "$top/README.md")
[ "$(echo "$commands" | wc -l)" -ge 4 ] || fail "the README has no session"
unshare --net chroot --userspec=nobody:nogroup "$debian" /usr/bin/env -i PATH=/usr/bin:/bin \
    sh -euc "cd '${home#"$debian"}/ledger' && $commands" >"$work/printed" 2>"$work/said" || {
    cat "$work/said" >&2
    fail "a command failed"
}
ended=$(date +%s%N)

{
    echo FORMATTED
    cat "$top/examples/day_with_power_cuts.replies"
    sed -n '/^TOP /,/^```/p' "$top/README.md" | sed '$d'
    echo OK
} | diff - "$work/printed" || fail "what the session prints isn't what the README shows"
grep -q "^ledger: nothing is proved here" "$work/said" && [ "$(wc -l <"$work/said")" = 1 ] || fail "$(cat "$work/said")"
seconds=$(((ended - began) / 1000000000)).$(((ended - began) / 100000000 % 10))
[ "${seconds%.*}" -lt 60 ] || fail "the session took $seconds seconds"
echo "fresh machine: from git clone to the end of the README's session, by the released program: $seconds seconds"
echo "1 passed, 0 failed"
