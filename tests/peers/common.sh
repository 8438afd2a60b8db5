# Sourced by the scripts beside it, which compare with programs that others wrote: Debian's packages cc1541 and cbmconvert.
# Where one isn't installed, nothing is compared. A script takes the program, and runs in a folder of its own.
set -eu
top="$(cd "$(dirname "$0")/../.." && pwd)"
program=$(readlink -f -- "${1:?"which program?"}")
shift
for tool in cc1541 cbmconvert; do
    command -v "$tool" >/dev/null 2>&1 || { echo "$(basename "$0" .sh): $tool is not installed"; echo "0 passed, 0 failed, 1 left out"; exit 0; }
done
work=$(mktemp -d)
trap 'rm -rf "$work"' EXIT
cd "$work"
