#!/usr/bin/env python3
"""Prints the file `copyright` of a package: our licence, and the notices of what the program contains of the kit's crates.

    packaging/copyright.py KIT

KIT is the kit's folder. `crates.txt` names the kit's crates that the program stands on; those name further ones by `use`. Of each that
has a licence the notice is printed as it stands there, one that may be had under either of two licences under MIT."""

import re
import sys
from pathlib import Path

TOP = Path(__file__).resolve().parent.parent
PROGRAM = "ledger_cli"
# what the kit has of its own, without a notice: the standard library, and the reader of JSON below serde_json
OF_THE_KIT = ("core", "json", "std")
# the file of a crate that has its notice: the first of these that is there
NOTICES = ("LICENSE-MIT", "LICENSE")
OURS = """Format: https://www.debian.org/doc/packaging-manuals/copyright-format/1.0/
Upstream-Name: ledger-1541
Upstream-Contact: Wejumbo maintainers <maintainers@users.noreply.wejumbo.example>
Comment: The program also contains parts of these crates of the kit that it is
 built with: {names}. Their notices stand below.

Files: *
Copyright: 2026 Wejumbo maintainers
License: Apache-2.0

License: Apache-2.0
 Licensed under the Apache License, Version 2.0. On Debian its text is in the
 file /usr/share/common-licenses/Apache-2.0; it is also at
 https://www.apache.org/licenses/LICENSE-2.0."""


def named():
    """The crates of the kit that the program's crates name."""
    below = {}
    for line in (TOP / "crates.txt").read_text().splitlines():
        name, colon, others = line.partition("#")[0].partition(":")
        if colon:
            below[name.strip()] = others.split()
    found, waiting = set(), [PROGRAM]
    while waiting:
        for name in below[waiting.pop()]:
            if name in below:
                waiting.append(name)
            else:
                found.add(name)
    return found


def stood_on(kit, names):
    """These crates of the kit, and those that they use."""
    found, waiting = set(), sorted(names)
    while waiting:
        name = waiting.pop()
        if name in found:
            continue
        found.add(name)
        if name in OF_THE_KIT:
            continue
        for file in (kit / name / "src").rglob("*.rt"):
            used = re.findall(r"^\s*(?:pub )?use (\w+)::", file.read_text(encoding="utf-8"), re.M)
            waiting += [it for it in used if (kit / it / "src").is_dir()]
    return sorted(found - {*OF_THE_KIT})


def notice(kit, name):
    """The notice of a crate, and whether it has one."""
    file = next((kit / name / it for it in NOTICES if (kit / name / it).exists()), None)
    if not file:
        sys.exit(f"copyright: {name} of the kit has no licence under {kit / name}")
    return file.read_text(encoding="utf-8").strip()


def paragraph(name, text):
    """A licence's paragraph: each line behind a blank, an empty one as a full stop."""
    lines = [f" {line.rstrip()}" if line.strip() else " ." for line in text.splitlines()]
    return "\n".join([f"License: Expat-{name}", *lines])


def holder(text):
    """Who holds the copyright, as the notice says."""
    lines = [line.strip() for line in text.splitlines() if line.lower().startswith("copyright")]
    return re.sub(r"^Copyright\s*(\(c\)|©)?\s*", "", lines[0], flags=re.I) if lines else "its authors"


def main():
    if len(sys.argv) != 2:
        sys.exit(__doc__)
    kit = Path(sys.argv[1]) / "rattle"
    notices = {name: notice(kit, name) for name in stood_on(kit, named())}
    print(OURS.format(names=", ".join(notices)))
    for name, text in notices.items():
        print(f"\nFiles: rattle/{name}/*\nCopyright: {holder(text)}\nLicense: Expat-{name}")
        print(f"\n{paragraph(name, text)}")


main()
