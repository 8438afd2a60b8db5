#!/bin/sh
# The commands of shop/QUICK_START.md, as they stand, on a clean Debian:
#   tests/package/quick_start.sh PROGRAM [DEBIAN]
# PROGRAM is what `tools/program` prints. DEBIAN is a folder that debootstrap has made, with systemd; without it this makes
# one, in some two minutes. A copy of it is started as a container whose net is its own: it reaches nothing but a proxy that
# gets packages from Debian's servers. At most ten commands may stand there, and all may take ten minutes. After them
# tests/package/quick_start_after.sh looks at the pages, runs set_up.sh again, also for addresses, and restores a damaged shop. It wants
# to be root, and Debian's packages debootstrap, systemd-container, iproute2 and python3. The status is 1 at the first difference.
set -eu
top="$(CDPATH='' cd -- "$(dirname -- "$0")/../.." && pwd)"
program="${1:?"which program?"}"
[ "$(id -u)" = 0 ] || { echo "quick_start: only root starts containers" >&2; exit 1; }
for file in /usr/sbin/debootstrap /usr/bin/systemd-nspawn /usr/sbin/ip; do
    [ -e "$file" ] || { echo "quick_start: there is no $file (debootstrap, systemd-container, iproute2)" >&2; exit 1; }
done
work=$(mktemp -d -t quick_start.XXXXXX)
net="quick$$"
proxy=
end() {
    [ -z "$proxy" ] || kill "$proxy" 2>/dev/null || true
    ip netns del "$net" 2>/dev/null || true
    rm -rf "$work"
}
trap end EXIT
trap 'exit 1' INT TERM
root="$work/root"
debian=${2:-${DEBIAN_SYSTEMD:-}}
if [ -n "$debian" ]; then
    cp -a "$debian" "$root"
else
    debootstrap --variant=minbase --include=systemd,systemd-sysv,dbus,ca-certificates bookworm "$root" http://deb.debian.org/debian \
        >"$work/log" 2>&1 || { tail "$work/log" >&2; exit 1; }
fi

# the repository's top, with the program where `./ledger` puts it; it is there already, so that one only runs it
install -D -m 755 "$program" "$root/shop/releases/out/ledger"
printf '#!/bin/sh\nexec "${0%%/*}/releases/out/ledger" "$@"\n' >"$root/shop/ledger"
chmod 755 "$root/shop/ledger"
cp -a "$top/examples" "$top/shop" "$root/shop/"
cp "$top/tests/package/quick_start_after.sh" "$root/shop/after"
sed -n '/^```sh$/,/^```$/{/^```/!p}' "$top/shop/QUICK_START.md" >"$root/shop/commands"
count=$(grep -c . "$root/shop/commands")
[ "$count" -le 10 ] || { echo "quick_start: $count commands" >&2; exit 1; }

# a net of its own, with a way to Debian's servers
ip netns add "$net"
ip link add "$net" type veth peer name host0 netns "$net"
ip addr add 10.213.0.1/30 dev "$net"
ip link set "$net" up
ip -n "$net" addr add 10.213.0.2/30 dev host0
ip -n "$net" link set host0 up
ip -n "$net" link set lo up
python3 "$top/tests/package/debian_proxy.py" 10.213.0.1 3142 >"$work/proxy" 2>&1 &
proxy=$!
for _ in 1 2 3 4 5 6 7 8 9 10; do
    python3 -c 'import socket; socket.create_connection(("10.213.0.1", 3142), 1)' 2>/dev/null && break
    sleep 0.5
done
echo 'Acquire::http::Proxy "http://10.213.0.1:3142";' >"$root/etc/apt/apt.conf.d/01proxy"
sed -i 's/https:/http:/g' "$root/etc/apt/sources.list"
printf '127.0.0.1 localhost shop.example\n' >"$root/etc/hosts"

cat >"$root/etc/systemd/system/trial.service" <<END
[Unit]
Description=Trial of the quick start
After=multi-user.target

[Service]
Type=oneshot
Environment=DEBIAN_FRONTEND=noninteractive HOME=/root
WorkingDirectory=/shop
ExecStart=/bin/sh -eux /shop/commands
ExecStart=/bin/sh -c 'cut -d . -f 1 /proc/uptime >/shop/uptime'
ExecStart=/bin/sh -eux /shop/after
StandardOutput=file:/shop/out
StandardError=file:/shop/log
ExecStopPost=/bin/sh -c 'systemctl --no-pager --failed >>/shop/log; journalctl -n 40 --no-pager >>/shop/log; systemctl --no-block exit \$EXIT_STATUS'
END
ln -s ../trial.service "$root/etc/systemd/system/multi-user.target.wants/trial.service"
began=$(cut -d . -f 1 /proc/uptime)
SYSTEMD_NSPAWN_UNIFIED_HIERARCHY=1 timeout 900 systemd-nspawn --quiet --register=no --keep-unit \
    --network-namespace-path="/run/netns/$net" --machine="$net" --directory="$root" --boot systemd.firstboot=off \
    >"$work/boot" 2>&1 </dev/null && status=0 || status=$?
[ "$status" = 0 ] || { tail -n 60 "$root/shop/log" "$work/boot" >&2; echo "quick_start: status $status" >&2; exit 1; }

# what the page's commands print
for line in '1 S,101,40 DONE,40' '2 I,101,3 DONE,37' '1 I,101,1 DONE,36' 'serving' 'CARD 101,36 Postcard: the tower, piece'; do
    grep -qxF "$line" "$root/shop/out" || { cat "$root/shop/out" >&2; echo "quick_start: no line '$line'" >&2; exit 1; }
done
took=$(($(cat "$root/shop/uptime") - began))
[ "$took" -lt 600 ] || { echo "quick_start: it took $took s" >&2; exit 1; }
! grep "^set_up: .* was changed and stays" "$root/shop/log" >&2 || exit 1
grep -qxF 'after: all holds' "$root/shop/out" || { echo "quick_start: something doesn't hold after it" >&2; exit 1; }
echo "quick_start: $count commands in $took s on a clean Debian, 2 tills sold 2 times,"
echo "  1 backup; set up 5 times more, for a name and 2 addresses; 1 damaged shop restored"
echo "$count passed, 0 failed"
