#!/usr/bin/env python3
"""What keepers do, with disks and files that two other programs made and read (Debian's packages cc1541 and cbmconvert):

    tests/peers/keepers.py PROGRAM [--seed N]

- relative files of cbmconvert, of each record length from 1 to 254 and of a whole disk, are taken out by `records`, put
  by `make` and `store` on a blank disk of cc1541, and taken out again by `records` and by cbmconvert;
- files of all types that both made are taken out by `bytes` and by cbmconvert;
- disks of both with wrong maps, block counts and side sectors are mended by `repair --free`, and read again by both;
- names with any bytes are read from disks of cbmconvert, and written for it.
What is wanted is made from the bytes that went in. Images lie in memory, if /dev/shm is there, since each change waits for the disk."""

import os
import random
import subprocess
import sys
import tempfile
from pathlib import Path

sys.dont_write_bytecode = True
sys.path.insert(0, str(Path(__file__).resolve().parents[1] / "lib"))
from record_disks import DATA, POINTERS, RELATIVE, Disk, empty, line_of, lines_of, sectors_of, split, text_of
from trial import conduct, need

TYPES = ["del", "seq", "prg", "usr", "rel"]
# the blocks of a whole disk, its side sectors aside
WHOLE = 658
# the last record that a file can grow to; foreign files have more where records have one byte or two
LAST_MADE = 65535
MENDED_DISKS = 150
ODD_DISKS = 24


def want(holds, what):
    if not holds:
        print(f"keepers: {what}", file=sys.stderr)
        sys.exit(1)


def run(*words):
    done = subprocess.run([str(word) for word in words], capture_output=True)
    return done.returncode, done.stdout, done.stderr.decode("latin-1").strip()


def sure(*words):
    status, out, err = run(*words)
    want(status == 0, f"{words}: status {status}, {err}")
    return out


def every_place():
    return [(track, sector) for track in range(1, 36) for sector in range(sectors_of(track))]


def marks_free(disk, place):
    """Whether the disk's map calls the sector free."""
    track, sector = place
    return disk.sector((18, 0))[4 * track + 1 + sector // 8] >> sector % 8 & 1 == 1


class Folder:
    """A fresh folder."""

    count = 0

    def __init__(self):
        Folder.count += 1
        self.path = Path(f"folder{Folder.count}")
        self.path.mkdir()

    def file(self, name, data):
        path = self.path / name
        path.write_bytes(data)
        return path

    def remove(self):
        for path in self.path.iterdir():
            path.unlink()
        self.path.rmdir()


def blank(folder, name="blank.d64"):
    image = folder.path / name
    sure("cc1541", "-q", "-n", "blank", image)
    return image


def extracted(image, how="-N"):
    """The files that cbmconvert takes out, by their names, in their order."""
    folder = Folder()
    done = subprocess.run(["cbmconvert", "-v0", how, "-d", image.resolve()], cwd=folder.path, capture_output=True)
    want(done.returncode == 0, f"cbmconvert: {done.stderr}")
    files = {path.name: path.read_bytes() for path in folder.path.iterdir()}
    folder.remove()
    return files


def listed(image):
    """The directory as cc1541 prints it, which leaves the image as it is."""
    before = image.read_bytes()
    out = sure("cc1541", image)
    want(image.read_bytes() == before, "cc1541 changed an image by listing it")
    return out


class Keepers:
    def __init__(self, program, draw):
        self.program, self.draw = program, draw
        self.records = self.lines = self.bytes = self.mended = self.sectors = self.refused = self.names = 0

    def ledger(self, *words):
        return sure(self.program, *words)

    def drawn_record(self, length):
        """A record as they are, or any bytes, with zeros at the end now and then."""
        kind = self.draw.randrange(6)
        if kind == 0:
            return empty(length)
        if kind == 1:
            return bytes(length)
        if kind == 2:
            return b"MILK\r12\r".ljust(length, b"\0")[:length]
        return self.draw.randbytes(self.draw.randint(0, length)).ljust(length, b"\0")

    # relative files, out and in and out again

    def relative(self, sizes):
        """Files of so many records of these lengths: on a disk of cbmconvert, on a disk of the program, and back."""
        folder = Folder()
        made = {f"f{at}.l{length:02X}": (length, [self.drawn_record(length) for _ in range(count)])
                for at, (length, count) in enumerate(sizes)}
        paths = [folder.file(name, b"".join(records)) for name, (_, records) in made.items()]
        theirs, ours, again = folder.path / "theirs.d64", blank(folder, "ours.d64"), blank(folder, "again.d64")
        sure("cbmconvert", "-v0", "-n", "-D4o", theirs, *paths)
        for name, (length, records) in made.items():
            self.one_relative(folder, name.split(".")[0].upper(), length, records, [theirs, ours, again])
        for image in (theirs, ours, again):
            want(self.ledger("check", image) == b"OK\n", f"{image}: check isn't OK")
        self.read_back(ours, made)
        folder.remove()

    def one_relative(self, folder, name, length, records, images):
        theirs, ours, again = images
        text = lines_of(records).encode()
        want(self.ledger("records", theirs, name) == text, f"records of {length} bytes are taken out otherwise")
        lines = folder.file("lines.csv", text)
        want(self.ledger("make", ours, name, "--length", length) == b"MADE\n", "make")
        changed = [line_of(number, record) for number, record in enumerate(records, 1) if record != empty(length)]
        told = self.ledger("store", ours, name, lines)
        want(told == "".join(changed).encode(), f"store of {length} bytes tells other lines than those that changed")
        whole = self.ledger("records", ours, name)
        want(whole.startswith(text), f"records of {length} bytes come back otherwise")
        rest = whole[len(text) :].decode().splitlines(True)
        grown = [line_of(number, empty(length)) for number in range(len(records) + 1, len(records) + 1 + len(rest))]
        want(rest == grown and len(rest) * length < 2 * DATA, f"behind {len(records)} records of {length} bytes: {rest[:3]}")
        lines.write_bytes(whole)
        self.ledger("make", again, name, "--length", length)
        self.ledger("store", again, name, lines)
        want(self.ledger("records", again, name) == whole, "the second copy has another text")
        want(self.ledger("store", again, name, lines) == b"", "what is so already was stored")
        self.records += 1
        self.lines += len(records)

    def read_back(self, image, made):
        """cbmconvert takes the same records out, and behind them empty ones."""
        files = extracted(image)
        want(sorted(files) == sorted(made), f"cbmconvert finds {sorted(files)}, not {sorted(made)}")
        for name, (length, records) in made.items():
            found = split(files[name], length)
            want(found[: len(records)] == records, f"cbmconvert reads other records of {length} bytes")
            want(all(record == empty(length) for record in found[len(records) :]), "what is behind isn't empty")

    def relatives(self):
        lengths = list(range(1, 255))
        self.draw.shuffle(lengths)
        while lengths:
            some, lengths = lengths[:16], lengths[16:]
            self.relative([(length, self.draw.randint(1, 20 * DATA // length)) for length in some])
        for length in [3, 18, 127, 253, 254]:
            self.relative([(length, WHOLE * DATA // length)])
        for length in [1, 2]:
            self.long(length)

    def long(self, length):
        """A whole disk of records of which no drive could make as many: they are stored where they are there."""
        folder = Folder()
        records = [self.drawn_record(length) for _ in range(WHOLE * DATA // length)]
        old = folder.file(f"f.l{length:02X}", b"".join(map(bytes, [b"A" * length] * len(records))))
        image, ours, text = folder.path / "long.d64", blank(folder), lines_of(records).encode()
        sure("cbmconvert", "-v0", "-n", "-D4o", image, old)
        self.ledger("make", ours, "F", "--length", length)
        before, lines = ours.read_bytes(), folder.file("lines.csv", text)
        status, out, err = run(self.program, "store", ours, "F", lines)
        want((status, out, err) == (1, b"", f"RECORDS LINE {LAST_MADE + 1}"), f"{len(records)} new records: {err}")
        want(ours.read_bytes() == before, "a refused store changed the disk")
        changed = "".join(line_of(number, record) for number, record in enumerate(records, 1) if record != b"A" * length)
        want(self.ledger("store", image, "F", lines) == changed.encode(), f"store of {len(records)} records")
        want(self.ledger("records", image, "F") == text, f"{len(records)} records come back otherwise")
        want(extracted(image)[old.name] == b"".join(records), f"cbmconvert reads {len(records)} records otherwise")
        self.records += 1
        self.lines += len(records)
        folder.remove()

    # files of any type

    def any_bytes(self):
        """Files of both programs, taken out."""
        sizes = [1, 2, 253, 254, 255, 507, 508, 509, 5000, 15240, 15241]
        folder = Folder()
        image = blank(folder, "both.d64")
        made = {}
        for at, size in enumerate(sizes):
            for kind in ("seq", "prg", "usr"):
                made[f"{kind[0]}{at}.{kind}"] = self.draw.randbytes(size)
        data = {name: folder.file(name, content) for name, content in made.items()}
        half = [name for at, name in enumerate(made) if at % 2]
        for name in made:
            if name not in half:
                stem, kind = name.split(".")
                sure("cc1541", "-q", "-f", stem, "-T", kind.upper(), "-w", data[name], image)
        sure("cbmconvert", "-v0", "-n", "-D4", image, *[data[name] for name in half])
        want(self.ledger("check", image) == b"OK\n", "the disk of both isn't clean")
        theirs = extracted(image)
        want(theirs == made, "cbmconvert takes out other bytes")
        for name, content in made.items():
            stem = name.split(".")[0].upper()
            want(self.ledger("bytes", image, stem) == content, f"{name}: bytes prints others than went in")
            status, out, err = run(self.program, "records", image, stem)
            want((status, out, err) == (1, b"", "NO FILE"), f"{name} has records: {err}")
            self.bytes += 1
        self.hurt_elsewhere(image, made)
        folder.remove()

    def hurt_elsewhere(self, image, made):
        """The longest file's chain has a loop: its first six blocks are printed, and all others are taken out as before."""
        disk = Disk(image.read_bytes())
        longest = max(disk.entries(), key=lambda entry: entry.count)
        walked, _ = disk.chain(longest.first)
        disk.put(walked[5], 0, bytes(walked[2]))
        image.write_bytes(disk.image)
        for name, content in made.items():
            stem = name.split(".")[0].upper()
            status, out, err = run(self.program, "bytes", image, stem)
            if stem.encode() == longest.name:
                at = f"{walked[2][0]}/{walked[2][1]}"
                want((status, out, err) == (1, content[: 6 * DATA], f"LAYOUT LOOP {at}"), f"a loop at {at} is told {err}")
            else:
                want((status, out) == (0, content), f"{name}: not taken from a disk that is hurt elsewhere: {err}")
        want(image.read_bytes() == bytes(disk.image), "bytes changed the image")

    # disks that are mended

    def foreign(self, folder):
        """A disk of both with relative files of up to three side sectors, and its files."""
        paths = []
        for at in range(self.draw.randint(1, 4)):
            length = self.draw.randint(1, 254)
            blocks = self.draw.choice([block for block in range(1, 150) if block != POINTERS])
            size = self.draw.randint(DATA * (blocks - 1) + 1, DATA * blocks)
            paths.append(folder.file(f"r{at}.l{length:02X}", self.draw.randbytes(size)))
        paths.append(folder.file("s.seq", self.draw.randbytes(self.draw.randint(1, 3000))))
        image = folder.path / "hurt.d64"
        sure("cbmconvert", "-v0", "-n", "-D4o", image, *paths)
        sure("cc1541", "-q", "-f", "p", "-w", folder.file("p.prg", self.draw.randbytes(1000)), image)
        return image

    def hurt_map(self, disk):
        """A sector's bit, or a track's count."""
        track = self.draw.randint(1, 35)
        if self.draw.random() < 0.3:
            disk.put((18, 0), 4 * track, bytes([self.draw.randrange(256)]))
        else:
            sector = self.draw.randrange(sectors_of(track))
            at = 4 * track + 1 + sector // 8
            disk.put((18, 0), at, bytes([disk.sector((18, 0))[at] ^ 1 << sector % 8]))

    def hurt_count(self, disk, entry):
        disk.put(entry.place, entry.at + 30, self.draw.randbytes(2))

    def hurt_side(self, disk, entry):
        """A byte of a side sector that a drive doesn't need: behind its list, behind its pointers, the last one's link."""
        sides = disk.sides(entry)
        number = self.draw.randrange(len(sides))
        used = min(POINTERS, len(disk.chain(entry.first)[0]) - POINTERS * number)
        free = [*range(4 + 2 * len(sides), 16), *range(16 + 2 * used, 256), *([1] if number == len(sides) - 1 else [])]
        if free:
            disk.put(sides[number], self.draw.choice(free), self.draw.randbytes(1))

    def mend(self):
        folder = Folder()
        image = self.foreign(folder)
        said = run(self.program, "check", image)
        want(said == (0, b"OK\n", ""), f"a disk of both isn't clean: {said}")
        right, hurt = Disk(image.read_bytes()), Disk(image.read_bytes())
        shown, files = listed(image), extracted(image)
        relative = [entry for entry in right.entries() if entry.kind == RELATIVE]
        hurts = [lambda: self.hurt_map(hurt), lambda: self.hurt_count(hurt, self.draw.choice(relative)),
                 lambda: self.hurt_side(hurt, self.draw.choice(relative))]
        for _ in range(self.draw.choice([1, 3, 30])):
            self.draw.choice(hurts)()
        image.write_bytes(hurt.image)
        moved = right.moved(hurt)
        status, out, _ = run(self.program, "check", image)
        want((status == 0, out == b"OK\n") == (not moved, not moved), f"check of a hurt disk says {out}")
        freed = [place for place in every_place() if marks_free(right, place) and not marks_free(hurt, place)]
        lines = sorted([(place, "MENDED") for place in moved] + [(place, "FREED") for place in freed])
        told = "".join(f"{word} {track}/{sector}\n" for (track, sector), word in lines) + "OK\n"
        dry = self.ledger("repair", "--free", "--accept-loss", "--dry-run", image)
        want(dry == told.encode(), f"a dry repair prints other sectors than {moved} and {freed}")
        want(image.read_bytes() == bytes(hurt.image), "a dry repair wrote to the image")
        want(self.ledger("repair", "--free", "--accept-loss", image) == told.encode(), f"repair prints other sectors than {moved}")
        want(image.read_bytes() == bytes(right.image), "the mended disk isn't that of before")
        want(listed(image) == shown and extracted(image) == files, "a peer reads the mended disk otherwise")
        self.mended += 1
        self.sectors += len(moved)
        self.refuse(image, right, relative)
        folder.remove()

    def full_side(self, blocks):
        """cbmconvert gives a last side sector that is full the last index of an empty one: told, and mended."""
        folder = Folder()
        image = folder.path / "full.d64"
        sure("cbmconvert", "-v0", "-n", "-D4o", image, folder.file("r.l7F", self.draw.randbytes(DATA * blocks)))
        disk, files = Disk(image.read_bytes()), extracted(image)
        side = disk.sides(disk.find(b"R"))[-1]
        at = f"{side[0]}/{side[1]}"
        want(bytes(disk.sector(side)[:2]) == b"\0\x0f", f"cbmconvert's last index of {blocks} blocks is another")
        status, out, _ = run(self.program, "check", image)
        want((status, out) == (1, f"BADSIDE {at}\n".encode()), f"check of {blocks} blocks says {out}")
        want(self.ledger("repair", image) == f"MENDED {at}\nOK\n".encode(), f"repair of {blocks} blocks")
        disk.put(side, 1, b"\xff")
        want(image.read_bytes() == bytes(disk.image) and extracted(image) == files, f"{blocks} blocks mended otherwise")
        self.mended += 1
        self.sectors += 1
        folder.remove()

    def refuse(self, image, right, relative):
        """A side sector that points elsewhere: refused, and not touched."""
        entry = self.draw.choice(relative)
        side = self.draw.choice(right.sides(entry))
        hurt = Disk(right.image)
        at = self.draw.choice([2, 3, 16, 17])
        hurt.put(side, at, bytes([hurt.sector(side)[at] ^ 0xFF]))
        image.write_bytes(hurt.image)
        status, out, err = run(self.program, "repair", image)
        want((status, out, err) == (1, b"", f"LAYOUT BADSIDE {side[0]}/{side[1]}"), f"repair of {side}: {status}, {err}")
        want(image.read_bytes() == bytes(hurt.image), "a disk that was refused was changed")
        self.refused += 1

    # odd names

    def odd_name(self):
        while True:
            name = self.draw.randbytes(self.draw.randint(1, 16))
            if self.draw.random() < 0.3:
                name = name[:7] + b"\xa0" + name[7:15]
            if name[-1:] != b"\xa0":
                return name

    def odd(self, names):
        """Files of these names by PC64's files, which have a name as it is: read from their disk, and put on ours."""
        folder = Folder()
        made, paths = {}, []
        for at, name in enumerate(dict.fromkeys(names)):
            length = self.draw.choice([0, self.draw.randint(1, 254)])
            data = self.draw.randbytes(length * self.draw.randint(1, 3) if length else self.draw.randint(1, 600))
            header = b"C64File\0" + name.ljust(16, b"\xa0") + bytes([0, length])
            paths.append(folder.file(f"n{at}.{'r' if length else 's'}00", header + data))
            made[name] = (length, data)
        theirs, ours = folder.path / "theirs.d64", blank(folder, "ours.d64")
        sure("cbmconvert", "-v0", "-p", "-D4o", theirs, *paths)
        for name, (length, data) in made.items():
            want(self.ledger("bytes", "--", theirs, text_of(name)) == data, f"{name}: bytes")
            if length:
                records = self.ledger("records", "--", theirs, text_of(name))
                want(records == lines_of(split(data, length)).encode(), f"{name}: records")
                self.ledger("make", "--length", length, "--", ours, text_of(name))
                self.ledger("store", "--", ours, text_of(name), folder.file("lines", records))
            self.names += 1
        listed(theirs)
        listed(ours)
        self.named(ours, {name: (length, data) for name, (length, data) in made.items() if length})
        folder.remove()

    def named(self, image, made):
        """cbmconvert finds these names and records on the disk."""
        found = {}
        for data in extracted(image, "-P").values():
            found[data[8:24].rstrip(b"\xa0")] = (data[25], data[26:])
        want(found.keys() == made.keys(), f"cbmconvert finds {set(found) ^ set(made)} otherwise")
        for name, (length, data) in made.items():
            want(found[name][0] == length and found[name][1].startswith(data), f"{name}: cbmconvert reads others")

    def odd_names(self):
        told = [b"<SCRIPT>", b'"QUOTED"', b'"', b"GAME", b"GAME\xa0,8,1", b"\xa0X", b"\xff", b"\xff" * 16, b" ", b"..",
                b"A\0B", b"\0", b"\\a0", b"--HELP", b"-", b"A/B", b"ADD\xc1"]
        self.odd(told)
        every = [bytes([byte]) + b"X" for byte in range(256)]
        for at in range(0, 256, 64):
            self.odd(every[at : at + 64])
        for _ in range(ODD_DISKS):
            self.odd([self.odd_name() for _ in range(self.draw.randint(1, 30))])


def main(given):
    need("cc1541", "cbmconvert")
    with tempfile.TemporaryDirectory(dir="/dev/shm" if Path("/dev/shm").is_dir() else None) as folder:
        os.chdir(folder)
        return tried(given)


def tried(given):
    keepers = Keepers(given.program, random.Random(given.seed))
    keepers.relatives()
    keepers.any_bytes()
    for _ in range(MENDED_DISKS):
        keepers.mend()
    for blocks in (POINTERS, 2 * POINTERS, 5 * POINTERS):
        keepers.full_side(blocks)
    keepers.odd_names()
    print(f"keepers: {keepers.records} relative files with {keepers.lines} records out, in and out again; {keepers.bytes} "
          f"files by bytes; {keepers.mended} disks mended in {keepers.sectors} sectors, {keepers.refused} refused; "
          f"{keepers.names} names: no difference")
    return keepers.records + keepers.bytes + keepers.mended + keepers.refused + keepers.names


if __name__ == "__main__":
    conduct(main)
