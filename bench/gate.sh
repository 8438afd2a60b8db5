#!/bin/bash
# What each crate costs in the gate, in minutes of processor time: bench/gate.sh [CRATE ..], without a word all of them
# For each crate, on a copy of the repository: proved from nothing with its tests, and its mutants in must-fail/ tried.
# A crate below that isn't named is taken as it was built (out/rlib), or else proved first, in the time of who needs it.
# docs/GATE.md has what a whole run took; what the machine does meanwhile is in these rows, so run nothing beside it.
source "$(dirname "$0")/common.sh"
[ $# -gt 0 ] || set -- $(sed -n 's/^\([a-z]\w*\).*:.*/\1/p' "$top/crates.txt")
tar -C "$top" -cf - --exclude='crates/*/out/incremental' crates crates.txt HANDLES | tar -C "$work" -xf -
for crate in "$@"; do
    rm -rf "${work:?}/crates/$crate/out"
done

# the processor minutes of what is run, which has to end well
minutes_of() {
    local TIMEFORMAT="%U %S"
    { time "$@" >"$work/log" 2>&1 || { tail -n 20 "$work/log" >&2; stop "$*: refused"; }; } 2>"$work/seconds" || exit 1
    awk '{ printf "%.1f", ($1 + $2) / 60 }' "$work/seconds"
}

proved() {
    cd "$work/crates/$1" && rt check --jobs 1 && rt check --test --jobs 1 && { [ -e src/main.rt ] || rt lib; }
}

tried() {
    cd "$work" && rt must-fail "$1"
}

echo "| Crate | Proved from nothing with its tests | Mutants |"
for crate in "$@"; do
    bodies="$(ls "$work/crates/$crate/must-fail" 2>/dev/null | wc -l)"
    proofs="$(minutes_of proved "$crate")"
    edits="$(minutes_of tried "$crate")"
    echo "| \`$crate\` | $proofs min | $bodies in $edits min |"
done
"$top/bench/machine.sh"
