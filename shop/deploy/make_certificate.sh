#!/bin/sh
# Makes the certificate of a broker and its pages, and an authority that signs it:
#   make_certificate.sh FOLDER HOST
# HOST is the name, or the IPv4 or IPv6 address, by which tablets reach this machine. FOLDER gets ca.crt, which devices trust,
# ca.key, which nobody else may have, broker.crt and broker.key. What is there stays, but for a certificate that doesn't name
# HOST, or that ends within 60 days: the same authority signs another one, which devices trust without a further step.
set -eu
umask 077
folder=${1:?"which folder?"}
host=${2:?"which name or address has this machine?"}
fail() {
    echo "make_certificate: $host is no $1" >&2
    exit 1
}
is_address() { /usr/bin/python3 -c 'import ipaddress, sys; ipaddress.ip_address(sys.argv[1])' "$host" 2>/dev/null; }
case $host in
    *:*) kind=IP ;;
    *[!0-9.]*) kind=DNS ;;
    *) kind=IP ;;
esac
if [ $kind = IP ]; then
    is_address || fail "address"
    check=-checkip
else
    case $host in *[!A-Za-z0-9.-]* | -* | "") fail "host's name" ;; esac
    check=-checkhost
fi
mkdir -p "$folder"
cd "$folder"
key='-newkey ec -pkeyopt ec_paramgen_curve:prime256v1 -nodes'
printf '[req]\ndistinguished_name=name\n[name]\n[ca]\nbasicConstraints=critical,CA:TRUE\nkeyUsage=critical,keyCertSign\n' >ca.conf
if [ ! -e ca.crt ]; then
    # shellcheck disable=SC2086
    openssl req -config ca.conf -x509 -extensions ca $key -keyout ca.key -out ca.crt -days 3650 -subj "/CN=shop at $host" 2>/dev/null
    rm -f broker.crt
fi
if [ -e broker.crt ]; then
    openssl x509 -in broker.crt -noout -checkend 5184000 >/dev/null && openssl x509 -in broker.crt -noout $check "$host" | grep -q 'does match' && exit 0
    echo "make_certificate: the certificate of $(openssl x509 -in broker.crt -noout -ext subjectAltName | tail -n 1 | sed 's/^ *//') gives way to one of $host" >&2
fi
# shellcheck disable=SC2086
openssl req -config ca.conf $key -keyout broker.key -out broker.csr -subj /CN=broker 2>/dev/null
printf 'subjectAltName=%s:%s,DNS:localhost,IP:127.0.0.1\nextendedKeyUsage=serverAuth\n' $kind "$host" >names
openssl x509 -req -in broker.csr -out broker.crt -CA ca.crt -CAkey ca.key -CAcreateserial -days 800 -extfile names 2>/dev/null
