#!/bin/sh
# An update of a shop by `dpkg --install` alone, under a systemd of its own:
#   tests/package/shop_update.sh OLD.deb NEW.deb DEBIAN
# OLD.deb is the package of 0.2.7 (`git show 3af897f62:releases/ledger-1541_0.2.7_amd64.deb`), whose shop lies in other folders than later
# ones, NEW.deb what `./package` makes. DEBIAN is a folder that
# debootstrap made, with systemd and the packages that shop/QUICK_START.md names. A copy of it is started as a container whose net is
# its own loopback. In it tests/package/shop_update_inside.sh sets up a shop of the earlier version, sells, leaves a sale without its answer,
# and installs the new package; then it looks whether everything is of the new version, and nothing is lost. It wants to be root, and
# Debian's package systemd-container. The last line is `N passed, M failed`; the status is 1 if one failed.
set -eu
top="$(CDPATH='' cd -- "$(dirname -- "$0")/../.." && pwd)"
old=${1:?"which earlier package?"}
new=${2:?"which new package?"}
debian=${3:?"which folder of debootstrap?"}
[ "$(id -u)" = 0 ] || { echo "shop_update: only root starts containers" >&2; exit 1; }
work=$(mktemp -d -p /var/tmp shop_update.XXXXXX)
trap 'rm -rf "$work"' EXIT
trap 'exit 1' INT TERM
root="$work/root"
cp -a "$debian" "$root"
mkdir "$root/shop"
cp "$old" "$root/shop/old.deb"
cp "$new" "$root/shop/new.deb"
cp "$top/tests/package/shop_update_inside.sh" "$root/shop/inside"
printf '127.0.0.1 localhost shop.example\n' >"$root/etc/hosts"
cat >"$root/etc/systemd/system/trial.service" <<END
[Unit]
Description=Trial of an update
After=multi-user.target

[Service]
Type=oneshot
Environment=HOME=/root
WorkingDirectory=/shop
ExecStart=/bin/sh /shop/inside
StandardOutput=file:/shop/out
StandardError=file:/shop/log
ExecStopPost=/bin/sh -c 'systemctl --no-pager --failed >>/shop/log; journalctl -n 60 --no-pager >>/shop/log; systemctl --no-block exit \$EXIT_STATUS'
END
mkdir -p "$root/etc/systemd/system/multi-user.target.wants"
ln -s ../trial.service "$root/etc/systemd/system/multi-user.target.wants/trial.service"
SYSTEMD_NSPAWN_UNIFIED_HIERARCHY=1 timeout 600 systemd-nspawn --quiet --register=no --keep-unit --private-network \
    --machine="update$$" --directory="$root" --boot systemd.firstboot=off >"$work/boot" 2>&1 </dev/null && status=0 || status=$?
cat "$root/shop/out"
if [ "$status" != 0 ]; then [ -s "$root/shop/log" ] && tail -n 120 "$root/shop/log" >&2 || tail -n 40 "$work/boot" >&2; fi
exit "$status"
