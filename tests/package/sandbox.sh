#!/bin/sh
# How exposed the units of shop/deploy are, after `systemd-analyze security`: tests/package/sandbox.sh
# Each unit has to be at most at 3.0 (of 10; less is safer). It wants Debian's package systemd, starts nothing, and prints a line for
# each unit that is above.
set -eu
top="$(CDPATH='' cd -- "$(dirname -- "$0")/../.." && pwd)"
passed=0 failed=0
for unit in "$top"/shop/deploy/ledger-*.service; do
    line=$(systemd-analyze security --offline=true --no-pager "$unit" | tail -n 1)
    level=$(echo "$line" | sed -n 's/.*: \([0-9]*\)\.\([0-9]\) .*/\1\2/p')
    [ -n "$level" ] || { echo "sandbox: $unit: no level in: $line" >&2; exit 1; }
    if [ "$level" -le 30 ]; then
        passed=$((passed + 1))
    else
        failed=$((failed + 1))
        echo "sandbox: $(basename "$unit") is exposed by ${level%?}.${level#"${level%?}"}, more than 3.0"
    fi
done
[ "$((passed + failed))" = 6 ] || { echo "sandbox: $((passed + failed)) units, not 6" >&2; exit 1; }
echo "$passed passed, $failed failed"
[ "$failed" = 0 ]
