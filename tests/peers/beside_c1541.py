#!/usr/bin/env python3
"""Tries c1541 (Debian's package vice, of contrib) and the program on the same damaged disks, and compares what they do with the second
table of KEEPERS, *Coming from c1541*:

    tests/peers/beside_c1541.py PROGRAM

The disks are those of examples/disks, and one with a wrong side sector."""

import shutil
import subprocess
import sys
import tempfile
from pathlib import Path

sys.dont_write_bytecode = True
sys.path.insert(0, str(Path(__file__).resolve().parents[1] / "lib"))
import disks
from trial import conduct, need

SAMPLES = disks.TOP / "examples/disks"
FILES = {"menu", "enter orders", "print labels", "letter"}


class Beside:
    """Two programs on the same disks, in a folder of their own, and what was true of them."""

    def __init__(self, program, folder):
        self.program, self.folder, self.failed, self.passed = program, folder, [], 0

    def says(self, what, holds):
        self.passed += holds
        if not holds:
            self.failed.append(what)

    def disk(self, name, image=None):
        """A copy of a sample disk, or of this image."""
        target = self.folder / f"{name}.d64"
        return image.save(target) if image else Path(shutil.copy(SAMPLES / f"{name}.d64", target))

    def c1541(self, disk, *words):
        """What c1541 prints at these words, and which files it leaves."""
        place = Path(tempfile.mkdtemp(dir=self.folder))
        done = subprocess.run(["c1541", "-attach", disk, *words], cwd=place, capture_output=True, text=True, timeout=60)
        return done.stdout + done.stderr, {it.name: it.stat().st_size for it in place.iterdir()}

    def ledger(self, *words):
        """What the program prints, line by line."""
        done = subprocess.run([self.program, *map(str, words)], cwd=self.folder, capture_output=True, text=True, timeout=60)
        return (done.stdout + done.stderr).splitlines()

    def extracts(self):
        clean = self.disk("customers")
        self.says("c1541 extracts the four files that aren't relative", set(self.c1541(clean, "-extract")[1]) == FILES)
        self.ledger("extract", clean, "all")
        self.says("ledger extracts six files, records as lines, and an index", len(list((self.folder / "all").iterdir())) == 9)

        looped = self.disk("looped")
        left = self.c1541(looped, "-extract")[1]
        self.says("c1541 stops at the loop, and two files aren't taken out", set(left) == {"menu", "enter orders"})
        self.says("c1541 leaves 171,948 bytes of the loop", left.get("enter orders") == 171_948)
        self.says("ledger names the loop", self.ledger("extract", looped, "looped") == ["LAYOUT LOOP 1/3"])
        files = {it.name: it.stat().st_size for it in (self.folder / "looped").iterdir()}
        self.says("ledger extracts all six, and 5,334 bytes before the loop", len(files) == 9 and files["04-ENTER ORDERS.prg"] == 5334)

    def repairs(self):
        hurt = self.disk("hurt")
        before = hurt.read_bytes()
        self.c1541(hurt, "-validate")
        after = hurt.read_bytes()
        self.says("c1541 changes 11 bytes", sum(one != two for one, two in zip(before, after)) == 11)
        self.says("c1541 frees the three sectors that no file has", self.ledger("check", hurt) == ["OK"])
        self.says("ledger keeps them", self.ledger("repair", self.disk("hurt")) == ["MENDED 18/0", "KEPT 3"])

        clean = self.disk("customers")
        side = self.disk("side", disks.with_bad_side(clean))
        before = side.read_bytes()
        self.c1541(side, "-validate")
        self.says("c1541 doesn't notice a wrong side sector", side.read_bytes() == before)
        self.says("ledger does", self.ledger("check", side)[0].startswith("BADSIDE"))
        self.ledger("repair", "--sides", side)
        self.says("ledger makes the clean disk of it, byte for byte", side.read_bytes() == clean.read_bytes())


def main(given):
    need("c1541")
    with tempfile.TemporaryDirectory() as folder:
        beside = Beside(given.program, Path(folder))
        beside.extracts()
        beside.repairs()
    for it in beside.failed:
        print(f"isn't so: {it}")
    return beside.passed, len(beside.failed)


if __name__ == "__main__":
    conduct(main)
