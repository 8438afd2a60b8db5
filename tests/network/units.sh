#!/bin/sh
# The units of shop/deploy under a systemd of their own:
#   tests/network/units.sh PROGRAM
# PROGRAM is what `tools/program` prints. A container is started with this machine's
# /usr, to which the program and the shop's package come as set_up.sh installs them, and nothing else: its net is its
# own loopback, and it falls at the end. In it units.py starts, stops and kills the units by `systemctl`, over
# mosquitto and over a RabbitMQ node, and tells what it sees. It wants to be root, and Debian's packages
# systemd-container, rabbitmq-server, mosquitto, python3-pika, python3-paho-mqtt and python3-sdnotify, and installs nothing. The status
# is 1 at the first difference.
set -eu
top="$(CDPATH='' cd -- "$(dirname -- "$0")/../.." && pwd)"
program="${1:?"which program?"}"
[ "$(id -u)" = 0 ] || { echo "units: only root starts containers" >&2; exit 1; }
for file in /usr/bin/systemd-nspawn /usr/lib/rabbitmq/bin/rabbitmq-server /usr/sbin/mosquitto; do
    [ -e "$file" ] || { echo "units: there is no $file (systemd-container, rabbitmq-server, mosquitto)" >&2; exit 1; }
done
/usr/bin/python3 -c "import pika, paho.mqtt.client, sdnotify" 2>/dev/null ||
    { echo "units: Debian's python3-pika, python3-paho-mqtt and python3-sdnotify aren't there" >&2; exit 1; }

work=$(mktemp -d -t units.XXXXXX)
trap 'rm -rf "$work"' EXIT
trap 'exit 1' INT TERM
root="$work/root"
mkdir -p "$root/usr" "$root/etc/systemd/system/multi-user.target.wants" "$root/etc/ledger" "$root/var/lib" \
    "$work/usr/bin" "$work/usr/lib/ledger/shop" "$work/told"
for name in bin sbin lib lib64; do
    ln -s "usr/$name" "$root/$name"
done
cp /usr/lib/os-release "$root/etc/os-release"
printf 'root:x:0:0:root:/root:/bin/sh\nledger:x:990:990::/var/lib/ledger:/usr/sbin/nologin\n' >"$root/etc/passwd"
printf 'root:x:0:\nledger:x:990:\n' >"$root/etc/group"
echo "127.0.0.1 localhost" >"$root/etc/hosts"
install -d -o 990 -g 990 "$root/var/lib/ledger"
install -m 755 "$program" "$work/usr/bin/ledger"
cp -a "$top/shop/ledger-shop" "$top/shop/src" "$work/usr/lib/ledger/shop/"
cp "$top/shop/deploy/alarm.sh" "$work/usr/lib/ledger/"
ln -s ../lib/ledger/shop/ledger-shop "$work/usr/bin/ledger-shop"
cp "$top"/shop/deploy/*.service "$root/etc/systemd/system/"
for name in systemd-firstboot systemd-logind systemd-networkd systemd-resolved console-getty rabbitmq-server mosquitto; do
    ln -s /dev/null "$root/etc/systemd/system/$name.service"
done
cat >"$root/etc/systemd/system/trial.service" <<END
[Unit]
Description=Trial of the units
After=multi-user.target

[Service]
ExecStart=/usr/bin/python3 /trial/network/units.py
StandardOutput=file:/told/out
StandardError=file:/told/out
ExecStopPost=/usr/bin/systemctl --no-block exit \$EXIT_STATUS
END
ln -s ../trial.service "$root/etc/systemd/system/multi-user.target.wants/trial.service"

SYSTEMD_NSPAWN_UNIFIED_HIERARCHY=1 systemd-nspawn --quiet --register=no --keep-unit --private-network --machine="units$$" --directory="$root" \
    --overlay="/usr:$work/usr:/usr" --bind-ro="$top/tests:/trial" --bind-ro="$top/shop:/shop" --bind="$work/told:/told" \
    --boot systemd.firstboot=off >"$work/boot" 2>&1 </dev/null && status=0 || status=$?
cat "$work/told/out" 2>/dev/null || cat "$work/boot"
exit "$status"
