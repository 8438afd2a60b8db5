#!/bin/bash
# Tells how fast this machine is: bench/machine.sh prints the processor seconds of one fixed plain program (some four),
# alone and beside others, one on each processor. The runs of the gate in docs/GATE.md note them, so that they compare.
source "$(dirname "$0")/common.sh"
make_plain
wanted="490945 7621856 2001694189505250600"
[ "$("$plain")" = "$wanted" ] || stop "the plain program prints something else than it should"

alone="$(seconds_of "$plain")"
for each in $(seq "$(nproc)"); do
    seconds_of "$plain" >"$work/$each.seconds" &
done
wait
cat "$work"/*.seconds | awk -v alone="$alone" '
    { sum += $1 }
    END { printf "%.1f s alone, %.1f s each of %d side by side\n", alone, sum / NR, NR }'
