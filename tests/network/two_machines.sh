#!/bin/sh
# Two machines that see one image, and are cut off, stopped and killed in turns:
#   tests/network/two_machines.sh PROGRAM [--over rabbit|mqtt] [--disk local|glusterfs] [--amount CHANGES] [--seed N]
# Each machine is a network namespace with a bridge of the folder shop in it; a third one has the broker and the tills, and a switch with
# a cable to each machine. CHANGES times the machine that serves loses its cable, or its power, or all its processes, or stops for a
# while, and the other has to go on. With a GlusterFS disk, which is in the third namespace, a machine without its cable loses that too.
# two_machines.py says what is compared. It wants to be root, and Debian's packages iproute2, rabbitmq-server, mosquitto, python3-pika,
# python3-paho-mqtt, and for GlusterFS glusterfs-server and glusterfs-client; it installs nothing, and its namespaces fall at the end.
set -eu
here="$(CDPATH='' cd -- "$(dirname -- "$0")" && pwd)"
program="$(realpath "${1:?"which program?"}")"
shift
[ "$(id -u)" = 0 ] || { echo "two_machines: only root makes network namespaces" >&2; exit 1; }
for file in /usr/lib/rabbitmq/bin/rabbitmq-server /usr/sbin/mosquitto "$(command -v ip || echo /usr/sbin/ip)"; do
    [ -e "$file" ] || { echo "two_machines: there is no $file (rabbitmq-server, mosquitto, iproute2)" >&2; exit 1; }
done
/usr/bin/python3 -c "import pika, paho.mqtt.client" 2>/dev/null ||
    { echo "two_machines: Debian's python3-pika and python3-paho-mqtt aren't there" >&2; exit 1; }

name="ledger$$"
child=
remove() {
    [ -z "$child" ] || { kill "$child" && wait "$child"; } 2>/dev/null || true
    for place in "$name" "${name}A" "${name}B"; do
        ip netns pids "$place" 2>/dev/null | xargs -r kill -KILL 2>/dev/null || true
        ip netns del "$place" 2>/dev/null || true
    done
}
trap remove EXIT
trap 'exit 1' INT TERM
ip netns add "$name"
ip -n "$name" link set lo up
ip -n "$name" link add switch type bridge
ip -n "$name" addr add 192.0.2.1/24 dev switch
ip -n "$name" link set switch up
for machine in A B; do
    ip netns add "$name$machine"
    ip -n "$name" link add "to$machine" type veth peer name net netns "$name$machine"
    ip -n "$name" link set "to$machine" master switch up
    ip -n "$name$machine" link set lo up
    ip -n "$name$machine" link set net up
done
ip -n "${name}A" addr add 192.0.2.2/24 dev net
ip -n "${name}B" addr add 192.0.2.3/24 dev net
ip netns exec "$name" "$here/two_machines.py" "$program" --net "$name" "$@" &
child=$!
wait "$child" && status=0 || status=$?
child=
exit "$status"
