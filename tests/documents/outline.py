#!/usr/bin/env python3
"""Compares the crates' folders, crates.txt, their READMEs and the figure of docs/MAP.md.  tests/documents/outline.py

The status is 1 where
  - a folder of crates/ isn't in crates.txt, or doesn't stand under the heading that its name fits;
  - a crate has no README, or the README of a crate of the product doesn't say first what the crate is for, and in the paragraph
    after that where its tests stand (`Tests: ..`), or names tests that aren't there or don't stand on it;
  - the figure of docs/MAP.md lacks a crate, or has one of the product above one that stands on it."""

import re
import sys
from pathlib import Path

sys.dont_write_bytecode = True
sys.path.insert(0, str(Path(__file__).resolve().parents[1] / "lib"))
from spec_files import TOP  # noqa: E402

# how the crates under a heading of crates.txt are called
NAMES = {
    "Product": r"(?!tests?_|example_)",
    "System": r"\w+_host$|replaced_images$|kept_logs$|served_lines$",
    "Tests": r"tests_",
    "Tools": r"test_|benchmarks$",
    "Example": r"example_",
    "Simulator": r"simulat(ed_|or$)",
}


def groups():
    """The headings of crates.txt, each with its crates and on which each stands."""
    found = {}
    for line in (TOP / "crates.txt").read_text().split("\n"):
        heading = re.match(rf"# ({'|'.join(NAMES)})\b", line)
        crate = re.match(r"(\w+)(?: staticlib)?:(.*)", line)
        if heading:
            found[heading[1]] = {}
        elif crate:
            list(found.values())[-1][crate[1]] = crate[2].split()
    return found


def paragraphs(crate):
    """The paragraphs of a crate's README below its title."""
    text = (TOP / "crates" / crate / "README.md").read_text()
    return [it.replace("\n", " ").strip() for it in text.split("\n\n")[1:]]


def all_below(crate, stands_on):
    """All on which a crate stands, the kit's crates too."""
    found, left = set(), [crate]
    while left:
        new = set(stands_on.get(left.pop(), ())) - found
        found |= new
        left += new
    return found


def tests_of(crate, stands_on):
    """What is wrong with where the tests of a crate stand, by its README."""
    purpose, said = (*paragraphs(crate), "", "")[:2]
    if not re.match(r"[A-Z`]", purpose) or purpose.startswith("Tests:"):
        return [f"crates/{crate}/README.md: doesn't begin with what the crate is for"]
    places = re.findall(r"`([\w./]+)`", said) if said.startswith("Tests:") else []
    if not places:
        return [f"crates/{crate}/README.md: has no `Tests:` after its first paragraph"]
    wrong = [it for it in places if crate not in all_below(it, stands_on) and not (TOP / it).is_file()]
    return [f"crates/{crate}/README.md: no such tests: {it}" for it in wrong]


def figure_faults(product, every):
    """Crates that the figure of the map lacks, or has above one that stands on it."""
    lines = re.search(r"(?ms)^```\n(.*?)^```", (TOP / "docs/MAP.md").read_text())[1].split("\n")
    at = {word: number for number, line in enumerate(lines) for word in re.findall(r"\w+", line) if word in every}
    faults = [f"docs/MAP.md: the figure lacks {it}" for it in every if it not in at]
    for crate, below in product.items():
        faults += [f"docs/MAP.md: {it} isn't below {crate}" for it in below if it in at and at[it] <= at.get(crate, -1)]
    return faults


def main():
    found, faults = groups(), []
    stands_on = {crate: below for crates in found.values() for crate, below in crates.items()}
    folders = sorted(it.parent.name for it in TOP.glob("crates/*/src"))
    faults += [f"crates.txt: no {it}" for it in folders if it not in stands_on]
    faults += [f"crates/{it}: no README" for it in stands_on if not (TOP / "crates" / it / "README.md").exists()]
    for group, crates in found.items():
        faults += [f"crates.txt: {it} under {group}" for it in crates if not re.match(NAMES[group], it)]
    for crate in found["Product"]:
        faults += tests_of(crate, stands_on)
    faults += figure_faults(found["Product"], list(stands_on))
    print(*faults or ["crates.txt, the crates' READMEs and the map's figure agree"], sep="\n")
    return 1 if faults else 0


if __name__ == "__main__":
    sys.exit(main())
