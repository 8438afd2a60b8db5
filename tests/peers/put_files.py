#!/usr/bin/env python3
"""Puts files of the host on disks, and reads them back by another program (Debian's package cbmconvert):

    tests/peers/put_files.py PROGRAM [--amount DISKS] [--seed N]

PROGRAM is what `tools/program` prints. A disk gets files of 0 to 20,000 bytes and of each type until one is refused as `DISK FULL`.
Some of them are renamed or deleted on the way. After each word `check` prints OK, and the number of free blocks is the one that the
files leave. At the end `cbmconvert` takes the files out, and `bytes` prints each: both have the bytes that were put.

On every second disk the map calls up to 60 blocks taken that no file owns, as direct access leaves them. After each word these have
the bytes that they had, the map calls them taken, and `check` prints `MAPWRONG` at the first of them. At the end `repair` prints
how many they are.

The first difference ends the script with status 1."""

import random
import subprocess
import sys
import tempfile
from pathlib import Path

sys.dont_write_bytecode = True
sys.path.insert(0, str(Path(__file__).resolve().parents[1] / "lib"))
from trial import at, conduct, need

TYPES = ("prg", "seq", "usr")
SIZES = (0, 1, 253, 254, 255, 508, 509, 20_000)


def want(holds, what):
    if not holds:
        print(f"put_files: {what}")
        sys.exit(1)


def sectors_on(track):
    return 21 if track < 18 else 19 if track < 25 else 18 if track < 31 else 17


def index_of(track, sector):
    """How many sectors of an image are before this one."""
    return sum(map(sectors_on, range(1, track))) + sector


def bit_of(track, sector):
    """Where the map has the bit of a sector: the byte of the image, and the bit in it."""
    return 256 * index_of(18, 0) + 4 * track + 1 + sector // 8, 1 << sector % 8


def blocks_of(data):
    """How many blocks a file has: 254 bytes lie in each, and an empty file has one byte."""
    return max(1, -(-len(data) // 254))


class Disk:
    """A disk, and the files that it has to have."""

    def __init__(self, program, folder, draw):
        self.program, self.folder, self.draw = program, folder, draw
        self.image, self.files, self.kept, self.words = folder / "disk.d64", {}, {}, 0
        want(self.run("new", "--name", "PUT", "--id", "26") == (0, b"FORMATTED\n", b""), "new")

    def run(self, word, *rest):
        self.words += 1
        done = subprocess.run([self.program, word, self.image, *rest], capture_output=True, timeout=60)
        return done.returncode, done.stdout, done.stderr

    def keep(self, count):
        """Fills so many blocks of no file, and takes them in the map."""
        places = [(track, sector) for track in range(1, 36) if track != 18 for sector in range(sectors_on(track))]
        image = bytearray(self.image.read_bytes())
        for place in self.draw.sample(places, count):
            self.kept[place] = self.draw.randbytes(256)
            at = 256 * index_of(*place)
            image[at : at + 256] = self.kept[place]
            at, bit = bit_of(*place)
            image[at] &= ~bit
            image[256 * index_of(18, 0) + 4 * place[0]] -= 1
        self.image.write_bytes(image)

    def free(self):
        return 664 - len(self.kept) - sum(blocks_of(data) for _, data in self.files.values())

    def see(self, what):
        """Checks the disk, how many blocks are free, and the blocks of no file."""
        verdict = (1, b"MAPWRONG %d/%d\n" % min(self.kept), b"") if self.kept else (0, b"OK\n", b"")
        want(self.run("check") == verdict, f"{what}: check doesn't print {verdict[1]}")
        image = self.image.read_bytes()
        for place, data in self.kept.items():
            at, bit = bit_of(*place)
            want(image[256 * index_of(*place) :][:256] == data, f"{what}: block {place} has other bytes")
            want(not image[at] & bit, f"{what}: block {place} is free")
        free = self.free()
        want(self.run("list")[1].endswith(f"{free} BLOCKS FREE\n".encode()), f"{what}: {free} blocks aren't free")

    def put(self, name):
        """Puts a file; false if the disk has no room for it."""
        kind = self.draw.choice(TYPES)
        data = self.draw.randbytes(self.draw.choice([*SIZES, self.draw.randint(0, 20_000)]))
        source = self.folder / "source"
        source.write_bytes(data)
        got = self.run("put", name, source, "--type", kind)
        free = self.free()
        if blocks_of(data) > free:
            want(got == (1, b"", b"DISK FULL\n"), f"{name} of {len(data)} bytes on {free} blocks: {got}")
            return False
        want(got == (0, b"PUT\n", b""), f"{name} of {len(data)} bytes: {got}")
        self.files[name] = (kind, data or b"\r")
        self.see(f"put {name}")
        return True

    def change(self):
        """Renames or deletes one of the files."""
        name = self.draw.choice(sorted(self.files))
        other = name.removeprefix("NEW ") if name.startswith("NEW ") else f"NEW {name}"
        if self.draw.random() < 0.5:
            want(self.run("rename", name, other) == (0, b"RENAMED\n", b""), f"rename {name}")
            self.files[other] = self.files.pop(name)
        else:
            want(self.run("delete", name) == (0, b"DELETED\n", b""), f"delete {name}")
            del self.files[name]
        self.see(f"a change of {name}")

    def read_back(self):
        """Compares what `bytes` prints and what cbmconvert takes out."""
        out = self.folder / "out"
        out.mkdir()
        subprocess.run(["cbmconvert", "-N", "-d", self.image], cwd=out, check=True, capture_output=True, timeout=60)
        taken = {path.name.lower(): path.read_bytes() for path in out.iterdir()}
        for name, (kind, data) in self.files.items():
            want(self.run("bytes", name) == (0, data, b""), f"bytes prints another {name}")
            want(taken.get(f"{name}.{kind}".lower()) == data, f"cbmconvert reads another {name}.{kind}: {sorted(taken)[:4]}")
        kept = (1, b"KEPT %d\n" % len(self.kept), b"") if self.kept else (0, b"OK\n", b"")
        want(self.run("repair") == kept, f"repair doesn't print {kept[1]}")


def main(given):
    need("cc1541", "cbmconvert")
    draw, disks, files, words, kept = random.Random(given.seed), given.amount, 0, 0, 0
    for turn in range(disks):
        at(turn + 1)
        with tempfile.TemporaryDirectory() as folder:
            disk, number = Disk(given.program, Path(folder), draw), 1
            if turn % 2:
                disk.keep(draw.randint(1, 60))
            while disk.put(f"FILE {number}"):
                number += 1
                if draw.random() < 0.2:
                    disk.change()
            disk.read_back()
            files, words, kept = files + number - 1, words + disk.words, kept + len(disk.kept)
    print(
        f"put_files: {disks} disks filled with {files} files by {words} words, read back by cbmconvert;"
        f" {kept} blocks of no file stayed: no difference"
    )
    return files


if __name__ == "__main__":
    conduct(main)
