#!/bin/sh
# What tests/package/shop_update.sh does in its container.
set -u
own=/etc/ledger
passed=0
failed=0
# check WHAT COMMAND..: counts whether it holds
check() {
    what=$1
    shift
    if "$@" >>/shop/log 2>&1; then
        passed=$((passed + 1))
    else
        failed=$((failed + 1))
        echo "wrong: $what"
    fi
}
serving() {
    for _ in $(seq 120); do
        [ "$(curl -s http://127.0.0.1:9641/health)" != serving ] || return 0
        sleep 0.5
    done
    return 1
}
# sell COMMAND TILL WISH: by the command of the one version or the other
sell() {
    printf '%s\n' "$3" | timeout 60 $1 "$2" --book "/root/till$2.book" --broker mqtts://localhost --ca "$own/ca.crt" \
        --account "$own/accounts/till-1-$2.account" 2>>/shop/log
}
got() { [ "$1" = "$2" ] || { echo "got '$1', not '$2'" >>/shop/log; return 1; }; }
runs() { cat /proc/[0-9]*/cmdline 2>/dev/null | tr '\0' ' ' | grep -q "$1"; }
stopped() { ! runs "$1"; }
shown() { ledger-1541 show /var/lib/ledger/shop1.d64; }

# a shop of the earlier version
dpkg --install /shop/old.deb >>/shop/log || exit 1
set_up=$(find /usr/share/doc/ledger-1541 -name set_up.sh | head -n 1)
sh "$set_up" shop.example 4 >>/shop/log 2>&1 || exit 1
serving || exit 1
check "a sale before" got "$(sell /usr/lib/ledger/till_mqtt.py 1 S,101,40)" '1 S,101,40 DONE,40'
check "a second one" got "$(sell /usr/lib/ledger/till_mqtt.py 2 I,101,3)" '1 I,101,3 DONE,37'
systemctl start ledger-backup@1
check "a backup before" test -e /var/backups/ledger/shop1-000001.d64
echo '# mine' >>/etc/mosquitto/conf.d/ledger.conf
cp "$own/accounts/till-1-1.account" /root/kept.account
before=$(sha256sum "$own/ca.crt" "$own/goods.csv" "$own/accounts/till-1-2.account")
page=$(sha256sum </var/www/ledger/till_page/index.html)
# a sale whose answer is still to come: the bridge takes it and dies before it has told
systemctl stop ledger-bridge-mqtt@1
printf 'I,101,1\n' | timeout 5 /usr/lib/ledger/till_mqtt.py 3 --book /root/till3.book --broker mqtts://localhost --ca "$own/ca.crt" \
    --account "$own/accounts/till-1-3.account" >>/shop/log 2>&1
systemctl start ledger-bridge-mqtt@1
serving || exit 1
sleep 2
check "the bridge before" runs "[u]sr/lib/ledger/bridge_mqtt.py"
old=$(shown)
lines=$(cat /var/lib/ledger/shop1.lines)

# the update
check "dpkg" dpkg --install /shop/new.deb
check "it serves" serving
check "the bridge is the new one" runs "[l]edger-shop bridge-mqtt"
check "no bridge of before runs" stopped "[u]sr/lib/ledger/bridge_mqtt.py"
check "the shop is the same" got "$(shown)" "$old"
check "passwords, certificate and goods are the same" got "$(sha256sum "$own/ca.crt" "$own/goods.csv" "$own/accounts/till-1-2.account")" "$before"
check "a changed file stays" grep -q '^# mine' /etc/mosquitto/conf.d/ledger.conf
check "the old journal is kept as it was" got "$(cat /var/lib/ledger/shop1.lines.2*)" "$lines"
check "the new one goes on" sh -c "head -n 1 /var/lib/ledger/shop1.lines | grep -q ' begins 1:1 2:1 3:1 =[0-9]*,[0-9a-f]*$'"
check "the open sale is answered, and counted once" got "$(sell /usr/lib/ledger/till_mqtt.py 3 R,101,0)" "1 I,101,1 DONE,36
2 R,101,0 DONE,36"
check "an old book goes on under the old name" got "$(sell /usr/lib/ledger/till_mqtt.py 1 I,101,1)" '2 I,101,1 DONE,35'
check "and under the new one" got "$(sell 'ledger-shop till-mqtt' 2 I,101,1)" '2 I,101,1 DONE,34'
check "the pages are new" sh -c "[ '$page' != \"\$(sha256sum </var/www/ledger/till_page/index.html)\" ]"
check "the web server gives them" sh -c "curl -sf --cacert $own/ca.crt https://shop.example/till_page/ | grep -q '<title>Till</title>'"
check "history reads both journals" sh -c "ledger-shop history /var/lib/ledger/shop1.lines 101 | grep -q '^/var/lib/ledger/shop1.lines: 6 requests'"
systemctl start ledger-backup@1
check "a backup after" test -e /var/backups/ledger/shop1-000002.d64
check "a task of before still runs" /usr/lib/ledger/backup.py /var/lib/ledger/shop1.d64 /var/backups/ledger --program /usr/bin/ledger-1541
shop=$(shown)
check "a restore of the copy before the update, through both journals" ledger-shop restore /var/lib/ledger/shop1.d64 /var/backups/ledger \
    --journal /var/lib/ledger/shop1.lines --unit ledger-bridge-mqtt@1 --copy 1
check "it serves after that" serving
check "the restored shop is the same" got "$(shown)" "$shop"
check "no unit has failed" sh -c '[ -z "$(systemctl --failed --no-legend)" ]'
check "a second update changes nothing" dpkg --install /shop/new.deb
check "it serves then" serving
check "the shop then" got "$(shown)" "$shop"
echo "$passed passed, $failed failed"
[ "$failed" = 0 ]
