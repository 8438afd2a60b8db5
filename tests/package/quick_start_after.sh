#!/bin/sh
# What has to hold after the quick start, in the container of tests/package/quick_start.sh: pages and broker are reached over TLS, a
# second run of set_up.sh keeps what is there, an alarm is raised for a damaged image, and a restore puts the shop back.
set -eux
own=/etc/ledger
get() { curl -sf --cacert "$own/ca.crt" "$@"; }
serving() {
    for _ in $(seq 60); do
        [ "$(curl -s http://127.0.0.1:9641/health)" != serving ] || return 0
        sleep 0.5
    done
    return 1
}
sell() {
    printf '%s\n' "$3" | ledger-shop till-mqtt "$1" --book "$2" --broker mqtts://localhost --ca "$own/ca.crt" \
        --account "$own/accounts/till-1-$1.account"
}

# pages and broker, over TLS alone
get https://localhost/till_page/ | grep -q '<title>Till</title>'
get https://localhost/stock_page/ | grep -q '<title>Stock</title>'
get https://localhost/till_page/goods.csv | grep -q '^101,Postcard: the tower,piece,20'
get -o /dev/null -D /shop/heads https://localhost/till_page/till.js
grep -qi '^content-type: text/javascript; charset=utf-8' /shop/heads
grep -qi '^x-frame-options: deny' /shop/heads
[ "$(get https://localhost/till_page/mqtt.js | wc -c)" -gt 100000 ]
! get https://localhost/accounts/till-1-1.account
for place in https://localhost/mqtt https://localhost:8884/; do
    get -i --http1.1 --max-time 3 -H 'Connection: Upgrade' -H 'Upgrade: websocket' -H 'Sec-WebSocket-Version: 13' \
        -H 'Sec-WebSocket-Key: dGhlIHNhbXBsZSBub25jZQ==' -H 'Sec-WebSocket-Protocol: mqtt' "$place" >/shop/upgrade || true
    head -n 1 /shop/upgrade | grep -q ' 101 '
done
get https://localhost/till/rules.js | cmp - /var/www/ledger/till_page/rules.js

# port 80 has the authority, and nothing else
curl -sf http://localhost/ca.crt | cmp - "$own/ca.crt"
for path in / /till_page/ /sign_in /nginx; do
    [ "$(curl -s -o /dev/null -w '%{http_code} %{redirect_url}' "http://localhost$path")" = "301 https://localhost$path" ]
done
! curl -s http://localhost/ | grep -i 'welcome to nginx'

# a code signs in once
sign_in() { curl -s --cacert "$own/ca.crt" -w " %{http_code}" --data-binary "$1" https://localhost/sign_in; }
ledger-shop accounts "$own/accounts" --qr till-1-3 --page https://localhost/till_page/ | tail -n 1 >/shop/code
code=$(grep -o '[0-9A-Z]\{4\}-[0-9A-Z]\{4\}-[0-9A-Z]\{4\}' /shop/code)
! grep -q "$(cut -d : -f 2 "$own/accounts/till-1-3.account")" /shop/code
sign_in "$code" | grep -qF "\"password\": \"$(cut -d : -f 2 "$own/accounts/till-1-3.account")\"} 200"
sign_in "$code" | grep -q ' 404$'
[ "$(systemctl is-active ledger-sign-in)" = active ]
[ "$(stat -c %a "$own/accounts/till-1-1.account" "$own/ca/ca.key" "$own/pages.key" | sort -u)" = 600 ]

# a second run, for one till more, and one with a file that somebody changed
sums() {
    sha256sum "$own/accounts/till-1-1.account" "$own/ca.crt" "$own/goods.csv"
    ledger show /var/lib/ledger/shop1.d64
}
before=$(sums)
shop/deploy/set_up.sh shop.example 4
[ "$before" = "$(sums)" ]
[ "$(sell 4 till4.book R,101,0)" = '1 R,101,0 DONE,36' ]
echo '# mine' >>/etc/nginx/conf.d/ledger_pages.conf
shop/deploy/set_up.sh shop.example 4 2>/shop/second || { cat /shop/second; exit 1; }
grep -q 'ledger_pages.conf was changed and stays' /shop/second
grep -q '^# mine' /etc/nginx/conf.d/ledger_pages.conf

# an address in the place of the name: pages and broker have a certificate of it, by the same authority
authority=$(sha256sum "$own/ca.crt")
for host in 10.213.0.2 ::1 shop.example; do
    case $host in *:*) place="[$host]" ;; *) place=$host ;; esac
    shop/deploy/set_up.sh "$host" 4 2>/shop/address || { cat /shop/address; exit 1; }
    grep -q "gives way to one of $host" /shop/address
    get "https://$place/till_page/" | grep -q '<title>Till</title>'
    for port in 443 8883 8884; do
        case $host in shop.example) named="-verify_hostname" ;; *) named="-verify_ip" ;; esac
        openssl s_client -connect "$place:$port" -CAfile "$own/ca.crt" -verify_return_error $named "$host" </dev/null >/dev/null
    done
done
[ "$authority" = "$(sha256sum "$own/ca.crt")" ]

# a damaged image isn't served, and calls for somebody; a restore puts the shop back
printf '#!/bin/sh\necho "$1" >>/var/lib/ledger/alarms\n' >"$own/alarm"
chmod 755 "$own/alarm"
systemctl stop ledger-bridge-mqtt@1
head -c 174848 /dev/zero >/shop/zeros
cp /shop/zeros /var/lib/ledger/shop1.d64
systemctl start ledger-bridge-mqtt@1
for _ in $(seq 60); do
    [ ! -e /var/lib/ledger/alarms ] || break
    sleep 0.5
done
grep -q '^ledger-bridge-mqtt@1.service' /var/lib/ledger/alarms
ledger-shop restore /var/lib/ledger/shop1.d64 /var/backups/ledger --journal /var/lib/ledger/shop1.lines --unit ledger-bridge-mqtt@1
serving
cmp /shop/zeros /var/lib/ledger/shop1.d64.aside1
[ "$(stat -c %U /var/lib/ledger/shop1.d64)" = ledger ]
[ "$(sell 2 till2.book I,101,1)" = '2 I,101,1 DONE,35' ]
ledger-shop history /var/lib/ledger/shop1.lines 101 --goods "$own/goods.csv" | grep -c ' left$'
ledger-shop day-report /var/lib/ledger/shop1.lines --goods "$own/goods.csv"
systemctl start ledger-backup@1
ls /var/backups/ledger/shop1-000002.d64
[ "$(systemctl is-active ledger-bridge-mqtt@1)" = active ]
serving
echo 'after: all holds'
