#!/usr/bin/env python3
"""Files of GEOS that `extract` takes out as CVT, beside c1541 and cbmconvert.

    tests/peers/geos.py PROGRAM [--amount IMAGES] [--seed N]

PROGRAM is what `tools/program` prints. This script draws the disks: with up to twelve files, most of them of GEOS, with one chain or with
records, some of which are empty or missing. Of each disk:

- `geosread` of c1541 (of VICE) writes the same bytes for a USR file without an empty record before the last one. It stops at such a
  record, and leaves out those after it. Of a file of one chain of one block it writes all 254 bytes of that;
- cbmconvert writes the same bytes for each file, except that it puts zeros for the places in the entry, for the bytes after a
  record's end, and `PRG` in the signature;
- `put --type cvt` puts each CVT on a new disk under another name, and `extract` takes the same CVT out again, but for the name and the places
  in its first bytes; so does `geosread` of c1541, where it reads the file (above);
- `geoswrite` of c1541 puts each CVT on a new disk, and `extract` takes the same CVT out again, but for the name and the places;
- after up to three changes of a third of the disks, in the entries, the record blocks and the links, the files and the index are those of a
  reader in Python (tests/hostile/extract.py);
- of another disk of 40 or 42 tracks, with files of GEOS, relative files and others on all tracks, some of them deleted, the files and
  the index are those of this reader, and so are the bytes and the records of each name.

Not part of the gate."""

import csv
import io
import random
import shutil
import subprocess
import sys
import tempfile
from importlib.machinery import SourceFileLoader
from pathlib import Path

sys.dont_write_bytecode = True
TESTS = Path(__file__).resolve().parents[1]
sys.path.insert(0, str(TESTS / "lib"))
import geos
from drawn import DIRECTORY, MAP, PLACES, SIZE, name_text
from missing import missing_lines
from trial import at, check, conduct, need

taken_out = SourceFileLoader("taken_out", str(TESTS / "hostile" / "extract.py")).load_module()


def start(place):
    """Where a sector of any track begins."""
    return 256 * geos.ALL[place]


class Drawn:
    """A disk that is being drawn, of 35 tracks or more."""

    def __init__(self, draw, size=SIZE):
        self.draw, self.image, self.slots = draw, bytearray(size), []
        self.free = [place for place in PLACES if place[0] != 18]
        draw.shuffle(self.free)
        past = [place for place in geos.ALL if SIZE <= start(place) < size]
        draw.shuffle(past)
        self.free += draw.sample([*self.free[-len(past):], *past], 2 * len(past)) if past else []
        self.free = list(dict.fromkeys(reversed(self.free)))[::-1]

    def put(self, place, data):
        self.image[start(place):start(place) + len(data)] = data

    def chain(self, most):
        """The places of a new chain."""
        places = [self.free.pop() for _ in range(self.draw.randint(1, most))]
        for place, then in zip(places, places[1:]):
            self.put(place, bytes(then) + self.draw.randbytes(254))
        self.put(places[-1], bytes((0, self.draw.randint(2, 255))) + self.draw.randbytes(254))
        return places

    def file(self, number):
        """A file, of GEOS or another."""
        kind, geos_type = self.draw.choice((0x83, 0x83, 0x83, 0xC3, 0x82, 0x81)), self.draw.choice(geos.TYPES)
        is_geos, structure = self.draw.random() < 0.8, self.draw.randint(0, 1)
        if len(self.image) > SIZE and self.draw.random() < 0.3:
            kind, is_geos = 0x84, False
        info, blocks, first = (0, 0), 0, None
        if is_geos:
            info = self.free.pop()
            icon = bytes((0, 255, 3, 21, 191)) + self.draw.randbytes(63)
            self.put(info, icon + bytes((kind, geos_type, structure)) + self.draw.randbytes(185))
            blocks = 1
        if is_geos and structure:
            first, index = self.free.pop(), bytearray(256)
            index[1], blocks = 255, blocks + 1
            for at_pair in range(2, 2 + 2 * self.draw.randint(1, 12), 2):
                index[at_pair:at_pair + 2] = b"\0\xff"
                if at_pair == 2 or self.draw.random() < 0.8:
                    places = self.chain(4)
                    index[at_pair:at_pair + 2] = bytes(places[0])
                    blocks += len(places)
            self.put(first, index)
        else:
            places = self.chain(9)
            first, blocks = places[0], blocks + len(places)
        extra = (*info, structure, geos_type, 88, 5, 6, 7, 8) if is_geos else bytes(9)
        if kind == 0x84:
            extra = (*self.free.pop(), self.draw.choice((1, 20, 254, 255)), *bytes(6))
        slot = bytes((kind, *first)) + f"FILE {number}".encode().ljust(16, b"\xa0") + bytes(extra) + blocks.to_bytes(2, "little")
        self.put(DIRECTORY if number < 8 else (18, 4), b"")
        self.slots.append(slot)

    def done(self):
        """The image. All sectors are taken in its map."""
        self.put(MAP, b"\x12\1A\0" + bytes(140) + b"SHELF".ljust(16, b"\xa0") + b"\xa0\xa0GS\xa02A" + bytes((160,)) * 4)
        for at_slot in range(0, len(self.slots), 8):
            place = DIRECTORY if at_slot == 0 else (18, 4)
            more = at_slot + 8 < len(self.slots)
            data = b"".join(bytes(2) + slot for slot in self.slots[at_slot:at_slot + 8])
            self.put(place, (b"\x12\4" if more else b"\0\xff") + data[2:])
        return bytes(self.image)


def slots_of(image):
    sectors, _ = taken_out.directory(image)
    every = [taken_out.sector(image, place)[it:it + 32] for place in sectors for it in range(0, 256, 32)]
    return [slot for slot in every if slot[2]]


def has_gap(image, slot):
    """Whether a record is empty that another follows."""
    index = geos.sector(image, tuple(slot[3:5]))
    tracks = [index[it] for it in range(2, 256, 2)]
    return slot[23] == 1 and 0 in tracks[:max((number for number, track in enumerate(tracks) if track), default=0)]


def without_places(image, slot):
    """The CVT as cbmconvert writes it."""
    data = bytearray(geos.cvt(image, slot))
    data[1:3], data[19:21], data[30:33] = bytes(2), bytes(2), b"PRG"
    if slot[23] == 1:
        end = 762
        for it in range(508, 762, 2):
            blocks, last = data[it:it + 2]
            end += 254 * blocks
            if blocks and end <= len(data):
                data[end - 255 + last:end] = bytes(255 - last)
    return bytes(data)


def same_but_places(one, other):
    """Whether two CVTs are the same but for the name and the places in the entry."""
    return one[:1] + one[21:] == other[:1] + other[21:]


def put_back(program, folder, data, slot, what):
    """Puts a CVT on a new disk, and takes it out again."""
    (folder / "one.cvt").write_bytes(data)
    for words in (("new", "new.d64", "--name", "DISK", "--id", "AB"), ("put", "new.d64", "BACK", "one.cvt", "--type", "cvt"), ("extract", "new.d64", "back")):
        ran = subprocess.run([program, *words], cwd=folder, capture_output=True)
        check(ran.returncode == 0, f"{what}: {words[0]}: {ran.stderr[:80]}")
    made = folder / "back/01-BACK.cvt"
    again = made.read_bytes() if made.exists() else b""
    check(same_but_places(again, data), f"{what}: the CVT that comes out of the new disk")
    image = (folder / "new.d64").read_bytes()
    (new,) = slots_of(image)
    check(geos.cvt(image, new) == again, f"{what}: the reader's of the new disk")
    if shutil.which("c1541") and slot[2] & 0xBF == 0x83 and not has_gap(image, new):
        subprocess.run(["c1541", "-attach", "new.d64", "-geosread", "BACK", "read.cvt"], cwd=folder, capture_output=True)
        read = (folder / "read.cvt").read_bytes()
        check(again == read[:len(again)], f"{what}: c1541's of the new disk")
        (folder / "read.cvt").unlink()
    for it in (*(folder / "back").iterdir(), folder / "new.d64", folder / "one.cvt"):
        it.unlink()
    (folder / "back").rmdir()


def put_by_c1541(program, folder, data, what):
    """Puts a CVT on a new disk by `geoswrite` of c1541: the same CVT comes out of that. If the file has no records, c1541 at times leaves a
    disk without the file's data, of which `check` finds the map wrong; such a disk isn't compared."""
    (folder / "one.cvt").write_bytes(data)
    subprocess.run([program, "new", "new.d64", "--name", "DISK", "--id", "AB"], cwd=folder, capture_output=True)
    subprocess.run(["c1541", "-attach", "new.d64", "-geoswrite", "one.cvt"], cwd=folder, capture_output=True)
    checked = subprocess.run([program, "check", "new.d64"], cwd=folder, capture_output=True)
    subprocess.run([program, "extract", "new.d64", "back"], cwd=folder, capture_output=True)
    made = next((folder / "back").glob("*.cvt"))
    if checked.returncode == 0 or data[21] == 1:
        check(same_but_places(made.read_bytes(), data), f"{what}: the CVT that comes out of c1541's disk")
    for it in (*(folder / "back").iterdir(), folder / "new.d64", folder / "one.cvt"):
        it.unlink()
    (folder / "back").rmdir()


def compare(program, folder, image, number):
    """Compares the files of a disk with those of c1541 and cbmconvert."""
    path, out, theirs = folder / "geos.d64", folder / "out", folder / "theirs"
    path.write_bytes(image)
    subprocess.run([program, "extract", path.name, "out"], cwd=folder, capture_output=True)
    theirs.mkdir()
    subprocess.run(["cbmconvert", "-v0", "-N", "-d", "../geos.d64"], cwd=theirs, capture_output=True)
    converted = {entry.read_bytes() for entry in theirs.iterdir()}
    for at_slot, slot in enumerate(slots_of(image), 1):
        if not geos.is_geos(slot):
            continue
        name = slot[5:21].rstrip(b"\xa0").decode()
        made = out / f"{at_slot:02}-{name}.cvt"
        data = made.read_bytes() if made.exists() else b""
        what = f"image {number}: {made.name}"
        check(data == geos.cvt(image, slot), f"{what}: the reader's")
        put_back(program, folder, data, slot, what)
        put_by_c1541(program, folder, data, what)
        check(without_places(image, slot) in converted, f"{what}: cbmconvert's")
        if slot[2] & 0xBF == 0x83 and not has_gap(image, slot):
            subprocess.run(["c1541", "-attach", path.name, "-geosread", name, "read.cvt"], cwd=folder, capture_output=True)
            read = (folder / "read.cvt").read_bytes()
            alone = slot[23] == 0 and len(geos.reach(image, slot)[0]) == 2
            check(data == (read[:len(data)] if alone else read), f"{what}: c1541's")
            (folder / "read.cvt").unlink()
    for entry in (*out.iterdir(), *theirs.iterdir()):
        entry.unlink()
    out.rmdir()
    theirs.rmdir()


def hurt(draw, image):
    """The image with some bytes changed in entries, record blocks or links."""
    image, slots = bytearray(image), slots_of(image)
    for _ in range(draw.randint(1, 3)):
        number = draw.randrange(len(slots))
        slot = slots[number]
        place = draw.choice((tuple(slot[3:5]), tuple(slot[21:23]) if slot[21] else tuple(slot[3:5])))
        spot = draw.choice((start(place) + draw.choice((0, 1)), start(place) + 2 * draw.randrange(1, 12) + draw.choice((0, 1)),
                            start(DIRECTORY if number < 8 else (18, 4)) + 32 * (number % 8) + draw.choice((2, 3, 4, 21, 22, 23, 24))))
        chosen = draw.choice((0, 1, 17, 35, draw.randrange(256)))
        other = draw.choice(slots)
        image[spot:spot + 2] = draw.choice((bytes((chosen, draw.randrange(256))), other[3:5], other[21:23], bytes(place)))
    return bytes(image)


def same_words(program, path, image, made):
    """Compares what `bytes` and `records` print of each name of an image with these files."""
    ran = subprocess.run([program, "check", "--as-is", path], capture_output=True)
    found = ran.stdout.decode().splitlines()[0]
    for name in made.names(taken_out.is_closed, 144):
        data, slot, own = made.first(name, taken_out.is_closed)
        asked = [("bytes", data, own, [])]
        relative = made.first(name, lambda slot: taken_out.is_closed(slot) and taken_out.has_records(slot))
        if relative:
            data, slot, own = relative
            whole = not own and taken_out.Wanted.plain(image[:SIZE], DIRECTORY, slot)[2]
            asked.append(("records", made.lines(data, slot[23]), own, [] if whole else [f"LAYOUT {found}\n"]))
        for word, wanted, own, others in asked:
            ran = subprocess.run([program, word, path, "--", name_text(name)], capture_output=True)
            taken_out.want(f"{word} of {name}", ran.stdout, wanted)
            taken_out.ends_with(f"the end of {word} {name}", ran, own, others)


def longer(program, folder, image, *flags):
    """Takes a disk of 40 or 42 tracks out, and compares what comes of it with a reader in Python."""
    path, out, made = folder / "longer.d64", folder / "out", taken_out.Wanted(image, "--deleted" in flags)
    path.write_bytes(image)
    ran = subprocess.run([program, "extract", path, out, *flags], capture_output=True)
    said, told = ran.stdout.decode(), ran.stderr.decode()
    lines = [line for line in missing_lines(image[:SIZE], b"", image).splitlines() if not line.startswith("BEYOND ")]
    if made.faults:
        taken_out.want("the end", (ran.returncode, said, told), (1, "", f"LAYOUT {made.faults[0]}\n"))
    elif not told.startswith("SHORT "):
        printed = [line for line in said.splitlines() if not line.startswith("FEWER ")]
        taken_out.want("the end", (ran.returncode, printed, told), (1 if lines else 0, ["EXTRACTED", *lines], ""))
    got = {entry.name: entry.read_bytes() for entry in out.iterdir()}
    index = list(csv.reader(io.StringIO(got.pop("index.csv").decode(), newline="")))
    taken_out.want("the index", index, [taken_out.HEADING, *made.rows])
    taken_out.want("the files", sorted(got), sorted(made.files))
    for name, data in made.files.items():
        taken_out.want(name, got[name], data)
    shutil.rmtree(out)
    if not flags:
        same_words(program, path, image, made)


def look_longer(program, folder, draw, number):
    """Draws a disk of 40 or 42 tracks, and looks at it."""
    disk = Drawn(draw, draw.choice((196_608, 205_312)))
    for file in range(draw.randint(1, 12)):
        disk.file(file)
    image = disk.done()
    image = hurt(draw, image) if draw.random() < 0.5 else image
    for slot in draw.sample(range(8), draw.randrange(3)):  # a scratch leaves the rest of the entry
        image = image[:start(DIRECTORY) + 32 * slot + 2] + b"\0" + image[start(DIRECTORY) + 32 * slot + 3:]
    try:
        longer(program, folder, image)
        longer(program, folder, image, "--deleted")
        check(True, "")
    except taken_out.Differs as error:
        check(False, f"image {number}, longer: {error}")


def main(given):
    need("c1541", "cbmconvert")
    draw = random.Random(given.seed)
    with (
        tempfile.TemporaryDirectory() as name,
        tempfile.TemporaryDirectory() as work,
        tempfile.TemporaryDirectory() as apart,
    ):
        for number in range(given.amount):
            at(number + 1)
            disk = Drawn(draw)
            for file in range(draw.randint(1, 12)):
                disk.file(file)
            image = disk.done()
            compare(given.program, Path(name), image, number)
            if draw.random() < 0.34:
                image = hurt(draw, image)
                try:
                    taken_out.extracted(given.program, Path(work), image)
                    check(True, "")
                except taken_out.Differs as error:
                    check(False, f"image {number}, hurt: {error}")
            look_longer(given.program, Path(apart), draw, number)


if __name__ == "__main__":
    conduct(main)
