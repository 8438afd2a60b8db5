#!/bin/sh
# Says that a unit of the ledger has stopped and isn't started again: alarm.sh UNIT. systemd runs it (ledger-alarm@.service).
set -eu
unit="$1"
# <1> is the priority "alert" in systemd's journal
echo "<1>$unit stopped with status ${MONITOR_EXIT_STATUS:-unknown} and isn't started again: look at 'systemctl status $unit'"
[ ! -x /etc/ledger/alarm ] || exec /etc/ledger/alarm "$unit"
