#!/usr/bin/env python3
"""Compares what changes entries of a directory with another program (Debian's package cc1541):

    tests/peers/entries.py PROGRAM [--amount DISKS] [--seed N]

PROGRAM is what `tools/program` prints. A disk gets up to 40 programs. Some are deleted, and `cc1541 -R 1` and `undelete` of each bring
them back: both disks have the very bytes of the one before. `title` makes the disk that `cc1541 -n -i` makes. After `sort` cc1541 lists
the names in order, and `check` prints OK; after `lock` it shows the lock, after `unlock` the disk is as it was. Last some are locked, and
`copy-file` copies all to an empty disk: to the bytes that `put` and `lock` of what `bytes` prints make, and cc1541 lists them with their
locks. A relative file's copy has the bytes that `make` and `store` of its records make, and cc1541 lists both disks alike. The
first difference ends the script with status 1."""

import random
import re
import shutil
import subprocess
import sys
import tempfile
from pathlib import Path

sys.dont_write_bytecode = True
sys.path.insert(0, str(Path(__file__).resolve().parents[1] / "lib"))
from served import sure, want
from trial import at, conduct, need

LETTERS = "ABCDEFGHIJKLMNOPQRSTUVWXYZ0123456789 "
LISTED = re.compile(r'^\d+ +"(.*?)" +\S*prg(.)', re.MULTILINE)


def cc1541(*words):
    done = subprocess.run(["cc1541", *map(str, words)], capture_output=True, text=True, timeout=60)
    want(done.returncode == 0, f"cc1541 {words}: {done.stderr}")
    return done.stdout


def name_of(draw):
    return "".join(draw.choice(LETTERS) for _ in range(draw.randint(1, 16))).strip() or "A"


class Disk:
    """A disk with programs, and its copy for cc1541."""

    def __init__(self, program, folder, draw):
        self.program, self.draw = program, draw
        self.folder = folder
        self.image, self.other, source = folder / "disk.d64", folder / "other.d64", folder / "source"
        sure(program, "new", self.image, "--name", "ENTRIES", "--id", "26")
        self.names = sorted({name_of(draw) for _ in range(draw.randint(1, 40))}, key=lambda _: draw.random())
        for name in self.names:
            source.write_bytes(draw.randbytes(draw.randint(1, 4000)) + b"\1")
            sure(program, "put", self.image, name, source, "--type", "prg")

    def change(self, word, *rest):
        sure(self.program, word, self.image, *rest)

    def see_undeleted(self):
        before = self.image.read_bytes()
        gone = self.draw.sample(self.names, self.draw.randint(1, len(self.names)))
        for name in gone:
            self.change("delete", name)
        shutil.copy(self.image, self.other)
        cc1541("-R", 1, self.other)
        for name in self.draw.sample(gone, len(gone)):
            self.change("undelete", name, "--type", "prg")
        want(self.image.read_bytes() == before, f"undelete of {gone}: not the disk of before")
        want(self.other.read_bytes() == before, f"cc1541 -R 1 of {gone}: not the disk of before")
        return len(gone)

    def see_title(self):
        name, number = name_of(self.draw), f"{self.draw.randint(10, 99)}"
        shutil.copy(self.image, self.other)
        self.change("title", "--name", name, "--id", number)
        cc1541("-n", name.lower(), "-i", f"{number}#a02a", self.other)
        want(self.image.read_bytes() == self.other.read_bytes(), f"title {name} {number}: not the disk of cc1541")

    def listed(self, image=None):
        return [(name.upper(), lock == "<") for name, lock in LISTED.findall(cc1541(image or self.image))]

    def see_sorted(self):
        self.change("sort")
        want(sure(self.program, "check", self.image) == ["OK"], "sort: check isn't OK")
        want(self.listed() == [(name, False) for name in sorted(self.names)], f"sort of {self.names}: {self.listed()}")

    def see_locked(self):
        before, name = self.image.read_bytes(), self.draw.choice(self.names)
        self.change("lock", name)
        want(self.listed() == [(it, it == name) for it in sorted(self.names)], f"lock {name}: {self.listed()}")
        self.change("unlock", name)
        want(self.image.read_bytes() == before, f"unlock {name}: not the disk of before")

    def see_copied(self):
        copy, put, taken = self.folder / "copy.d64", self.folder / "put.d64", self.folder / "taken"
        for image in (copy, put):
            sure(self.program, "new", image, "--name", "COPIES", "--id", "26")
        locked = set(self.draw.sample(self.names, self.draw.randint(0, len(self.names))))
        for name in locked:
            self.change("lock", name)
        order = self.draw.sample(self.names, len(self.names))
        for name in order:
            sure(self.program, "copy-file", self.image, name, copy)
            taken.write_bytes(subprocess.run([self.program, "bytes", self.image, name], check=True, stdout=subprocess.PIPE).stdout)
            sure(self.program, "put", put, name, taken, "--type", "prg")
            if name in locked:
                sure(self.program, "lock", put, name)
        want(copy.read_bytes() == put.read_bytes(), f"copies of {order}: not the disk of put and lock")
        want(self.listed(copy) == [(name, name in locked) for name in order], f"copies of {order}: {self.listed(copy)}")
        return len(order)

    def see_records_copied(self):
        old, copy, stored, lines = (self.folder / it for it in ("records.d64", "rel.d64", "stored.d64", "lines"))
        length, count = self.draw.randint(1, 254), self.draw.randint(1, 300)
        texts = ["".join(self.draw.choice(LETTERS) for _ in range(self.draw.randint(1, min(length, 40)))) for _ in range(count)]
        lines.write_text("".join(f'{number},"{text}"\n' for number, text in enumerate(texts, 1)))
        for image in (old, copy, stored):
            sure(self.program, "new", image, "--name", "RECORDS", "--id", "26")
        for image in (old, stored):
            sure(self.program, "make", image, "CARDS", "--length", length)
            sure(self.program, "store", image, "CARDS", lines)
        sure(self.program, "copy-file", old, "CARDS", copy)
        want(copy.read_bytes() == stored.read_bytes(), f"a copy of {count} records of {length} bytes: not the disk of make and store")
        want(sure(self.program, "check", copy) == ["OK"], "a copy of records: check isn't OK")
        taken = []
        for image in (old, copy):
            taken.append(cc1541("-a", image).split("\n", 1)[1])  # its first line names the image
        want(taken[0] == taken[1], f"a copy of {count} records of {length} bytes: cc1541 lists another file")


def main(given):
    need("cc1541")
    program, disks = given.program, given.amount
    draw, undeleted, copied = random.Random(given.seed), 0, 0
    for number in range(disks):
        at(number + 1)
        with tempfile.TemporaryDirectory() as folder:
            disk = Disk(program, Path(folder), draw)
            undeleted += disk.see_undeleted()
            disk.see_title()
            disk.see_sorted()
            disk.see_locked()
            copied += disk.see_copied()
            disk.see_records_copied()
    print(f"entries: {disks} disks, {undeleted} files undeleted, {copied} copied, {disks} titles, orders and locks, as cc1541 has them: no difference")
    return 4 * disks + undeleted + copied


if __name__ == "__main__":
    conduct(main)
