#!/bin/sh
# Sets up a shop on a Debian 12 machine, as root:
#   set_up.sh HOST TILLS
#   set_up.sh --update
# HOST is the name or the address by which tablets reach this machine, such as shop.example, 192.0.2.7 or 2001:db8::7. TILLS,
# 1 to 64, is how many tills get an account.
# /usr/bin/ledger has to be there, and the packages that QUICK_START.md names. It makes the user `ledger`, an authority and a
# certificate, the accounts, and the shop's image; it configures mosquitto and nginx, and starts the bridge and the nightly
# backup. Run it again for more tills or after an update: passwords, goods and the image stay as they are, and so does a
# certificate that names HOST and doesn't end within 60 days. With --update it brings programs, units, pages and configuration
# of a shop that is set up to this version, and restarts its bridges: the Debian package does that when it is installed.
# A configuration file that somebody changed is left alone, and named.
set -eu
umask 022
# fail WHAT: ends the script
fail() {
    echo "set_up: $1" >&2
    exit 1
}

host=${1:?"which name has this machine?"}
if [ "$host" != --update ]; then
    tills=${2:?"how many tills?"}
    case $host in *[!A-Za-z0-9.:-]* | -* | "") fail "$host is no host's name or address" ;; esac
    case $tills in [1-9] | [1-5][0-9] | 6[0-4]) ;; *) fail "$tills is no number from 1 to 64" ;; esac
fi
[ "$(id -u)" = 0 ] || fail "only root can do this"
own=/etc/ledger
if [ "$host" = --update ] && [ ! -e "$own/installed" ]; then
    # a shop over RabbitMQ, which the README sets up: its units have the programs by name
    systemctl try-restart 'ledger-bridge@*'
    exit
fi
here=$(CDPATH= cd -- "$(dirname -- "$0")" && pwd -P)
shop=${here%/deploy}
pages=$shop/pages
# where the package has all this already
packed=/usr/share/ledger-1541/shop
for file in /usr/bin/ledger /usr/bin/curl /usr/sbin/mosquitto /usr/sbin/nginx /usr/bin/openssl /usr/bin/esbuild; do
    [ -x "$file" ] || fail "there is no $file: QUICK_START.md names the packages"
done
/usr/bin/python3 -c "import paho.mqtt.client, prometheus_client, sdnotify" ||
    fail "python3-paho-mqtt, python3-prometheus-client and python3-sdnotify have to be there"

# put OWNER:GROUP MODE FILE PLACE: a configuration file, unless another one is there
put() {
    if [ -e "$4" ] && ! cmp -s "$3" "$4" && ! grep -qs "$(sha256sum <"$4" | cut -c 1-64)" "$own/installed"; then
        echo "set_up: $4 was changed and stays as it is; compare it with $3" >&2
        return
    fi
    install -D -o "${1%:*}" -g "${1#*:}" -m "$2" "$3" "$4"
    sha256sum <"$4" | cut -c 1-64 >>"$own/installed"
}

# the programs and their units. What the package has isn't copied; from a clone the commands go to /usr/lib/ledger/shop, and
# under the names of earlier versions, which units may have, to /usr/lib/ledger.
put_programs() {
    if [ "$shop" != "$packed" ]; then
        install -D -m 755 -t /usr/lib/ledger/shop "$shop/ledger-shop"
        install -D -m 644 -t /usr/lib/ledger/shop/src/ledger_shop "$shop"/src/ledger_shop/*.py
        install -m 755 "$here/alarm.sh" /usr/lib/ledger/alarm.sh
        ln -sfn ../lib/ledger/shop/ledger-shop /usr/bin/ledger-shop
        for name in $(/usr/bin/ledger-shop --scripts); do
            ln -sfn ../../bin/ledger-shop "/usr/lib/ledger/$name"
        done
    fi
    for unit in "$here"/*.service "$here"/*.timer; do
        put root:root 644 "$unit" "/etc/systemd/system/${unit##*/}"
    done
}

# put_accounts WORDS: adds accounts, and gives the broker what each of all may do in this version
put_accounts() {
    /usr/bin/ledger-shop accounts "$own/accounts" "$@"
    install -m 640 -g mosquitto "$own/accounts/ledger.passwords" "$own/accounts/ledger.acl" /etc/mosquitto/
}

# Port 80 gives the authority's certificate, unless another program has it. Debian's page "Welcome to nginx!" gives way there,
# unless somebody changed it.
put_trust() {
    if grep -qsE ':0050 0+:0000 0A ' /proc/net/tcp /proc/net/tcp6 && ! nginx -T 2>/dev/null | grep -qE '^[[:space:]]*listen ([^;]*:)?80[ ;]'; then
        echo "set_up: port 80 is another program's; let that give /var/www/ledger/ca.crt as /ca.crt" >&2
        return
    fi
    put root:root 644 "$here/nginx_trust.conf" /etc/nginx/conf.d/ledger_trust.conf
    site=/etc/nginx/sites-enabled/default
    [ -e "$site" ] || return 0
    known=$(dpkg-query -W -f '${Conffiles}\n' nginx-common 2>/dev/null | sed -n 's|^ /etc/nginx/sites-available/default ||p' | cut -c 1-32)
    if [ "$(readlink -f "$site")" = /etc/nginx/sites-available/default ] && [ "$(md5sum <"$site" | cut -c 1-32)" = "$known" ]; then
        rm "$site"
        echo "set_up: $site, Debian's page at port 80, gives way to one that has ca.crt; it stays in /etc/nginx/sites-available" >&2
    else
        echo "set_up: $site was changed and stays; let your site at port 80 give /var/www/ledger/ca.crt as /ca.crt" >&2
    fi
}

# the brokers' and the web server's configuration, and the pages with the goods
put_pages() {
    put root:root 644 "$here/mosquitto.conf" /etc/mosquitto/conf.d/ledger.conf
    put root:root 644 "$here/mosquitto_pages.conf" /etc/mosquitto/conf.d/ledger_pages.conf
    printf 'BROKERS="--broker mqtts://localhost --ca %s/ca.crt"\nWATCH="--screen --metrics 9641 --backups /var/backups/ledger"\n' "$own" >"$own/new.env"
    put root:root 644 "$own/new.env" "$own/bridge-mqtt.env"
    rm -f "$own/new.env"
    install -D -m 644 -t /var/www/ledger/till_page "$pages"/till/*.html "$pages"/till/*.css "$pages"/till/*.js
    install -D -m 644 -t /var/www/ledger/stock_page "$pages"/stock/*.html "$pages"/stock/*.css "$pages"/stock/*.js
    # the stock page's name for the till's, from which it takes modules
    ln -sfn till_page /var/www/ledger/till
    sh "$pages/make_mqtt.sh" /var/www/ledger/till_page >/dev/null
    install -m 644 "$own/ca.crt" /var/www/ledger/ca.crt
    [ -e "$own/goods.csv" ] || install -m 644 "$here/goods.csv" "$own/goods.csv"
    /usr/bin/ledger-shop goods "$own/goods.csv"
    install -m 644 "$own/goods.csv" /var/www/ledger/till_page/goods.csv
    put root:root 644 "$here/nginx.conf" /etc/nginx/conf.d/ledger_pages.conf
    put_trust

    # a further shop has copies of them, as OPERATIONS.md makes them
    for other in /var/www/ledger/*/; do
        [ -e "$other/till_page/config.json" ] || continue
        for page in till_page stock_page; do
            install -m 644 -t "$other$page" /var/www/ledger/"$page"/*.html /var/www/ledger/"$page"/*.css /var/www/ledger/"$page"/*.js
        done
        ln -sfn till_page "${other}till"
    done
}

# starts again what was updated; a bridge that doesn't run stays as it is
restart() {
    systemctl daemon-reload
    systemctl enable mosquitto nginx
    systemctl restart mosquitto nginx
    [ "$host" = --update ] || systemctl enable --now ledger-bridge-mqtt@1 ledger-backup@1.timer
    systemctl enable ledger-sign-in
    systemctl restart ledger-sign-in
    systemctl try-restart 'ledger-bridge-mqtt@*' 'ledger-bridge@*'
}

if [ "$host" = --update ]; then
    put_programs
    [ ! -d "$own/accounts" ] || put_accounts
    put_pages
    restart
    echo "set_up: programs, units and pages are of this version, and the bridges are started again"
    exit
fi

# the user and the folders
id ledger >/dev/null 2>&1 || useradd --system --create-home --home-dir /var/lib/ledger --shell /usr/sbin/nologin ledger
install -d -m 755 "$own"
install -d -o ledger -g ledger -m 700 /var/lib/ledger
install -d -o root -g ledger -m 750 /var/backups/ledger
put_programs

# the authority, and the certificate for this host
sh "$here/make_certificate.sh" "$own/ca" "$host"
cd "$own/ca"
install -m 644 ca.crt "$own/ca.crt"
install -D -m 640 -g mosquitto -t /etc/mosquitto/certs broker.crt broker.key
install -m 644 broker.crt "$own/pages.crt"
install -m 600 broker.key "$own/pages.key"

# the accounts, and the broker's files of them
put_accounts --shop 1 --tills "$tills"
install -m 600 "$own/accounts/bridge-1.account" "$own/bridge-1.account"
put_pages

# the shop
[ -e /var/lib/ledger/shop1.d64 ] || runuser -u ledger -- /usr/bin/ledger format --new /var/lib/ledger/shop1.d64 --tills 64
restart
# it serves once it has the image and the broker
curl -s --retry 30 --retry-all-errors --retry-delay 1 -o /dev/null http://127.0.0.1:9641/health || true
for _ in 1 2 3 4 5 6 7 8 9 10; do
    [ "$(curl -s http://127.0.0.1:9641/health)" != serving ] || break
    sleep 1
done
case $host in *:*) host="[$host]" ;; esac
echo "set_up: a shop with $tills tills at https://$host/till_page/ and https://$host/stock_page/, passwords in $own/accounts, 1 bridge started"
echo "set_up: a tablet trusts it with http://$host/ca.crt (https://$host/till_page/trust.html says how), SHA-256 $(openssl x509 -noout -fingerprint -sha256 -in "$own/ca.crt" | cut -d = -f 2)"
