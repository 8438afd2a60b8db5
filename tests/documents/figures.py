#!/usr/bin/env python3
"""Compares the figures of README with where they come from:

    tests/documents/figures.py

Lines of the product are counted as for the table of docs/PROOF.md, and rounded to thousands. The times stand in docs/SPEED.md. How many
rows of tests there are says their last run in tests/RECORD: README names a hundred that isn't above it, and not far below it. The minutes of the
gate stand in docs/GATE.md, and the memory of a proof in tools/program."""

import re
import sys
from pathlib import Path

sys.dont_write_bytecode = True
sys.path.insert(0, str(Path(__file__).resolve().parents[1] / "lib"))
from outline import TOP, groups  # noqa: E402
from proof_figures import code_and_contract, lines_of  # noqa: E402


def product_lines():
    """How many lines of the product are code, contracts, definitions and proofs."""
    crates = [TOP / "crates" / it for it in groups()["Product"]]
    pairs = [code_and_contract(it.read_text()) for crate in crates for it in crate.glob("src/**/*.rt")]
    return [sum(it) for it in zip(*pairs)] + [sum(lines_of(it, folder) for it in crates) for folder in ("specs", "proofs")]


def main():
    readme, speed = (TOP / "README.md").read_text(), (TOP / "docs/SPEED.md").read_text()
    row = re.search(r"\| `serve` \| ([\d.]+) \| [\d.]+ \| ([\d.]+) \|", speed)
    code, contracts, definitions, proofs = (round(it, -3) for it in product_lines())
    wanted = (
        f"| {row[1]} ms, and {row[2]} ms if 64 are waiting",
        f"| {code:,} of code, {contracts:,} of contracts, {definitions:,} of definitions, and {proofs:,} of proofs |",
    )
    first = re.search(r"\| the first answer after it[^|]*\| ([\d.]+) s \|", speed)
    wanted += (f"| first answer after a clone | {first[1]} s ",) if first else ()
    minutes = re.search(r"(\d+) minutes by the clock", (TOP / "docs/GATE.md").read_text())[1]
    memory = int(re.search(r"(?m)^MOST_MEMORY = ([\d_]+)$", (TOP / "tools/program").read_text())[1])
    wanted += (f"took {minutes} minutes on four processors", f"{memory / 1e9:.1f} GB of memory for each processor")
    missing = [it for it in wanted if it not in readme]
    rows = int(re.search(r"(?m)^rows/tables .*: (\d+) passed", (TOP / "tests/RECORD").read_text())[1])
    said = int(re.search(r"\| rows of tests on the built program \| ([\d,]+) and more \|", readme)[1].replace(",", ""))
    if not said <= rows < 1.1 * said:
        missing.append(f"how many rows there are: {rows:,} passed last time")
    for it in missing:
        print(f"README.md doesn't say {it}")
    print(f"figures: {len(wanted) + 1} figures of README, {len(missing)} stale")
    return 1 if missing else 0


if __name__ == "__main__":
    sys.exit(main())
