#!/usr/bin/env python3
"""Takes all files out of images by the built program's `extract`, and compares each file and index.csv with a reader of this
script:

    tests/hostile/extract.py PROGRAM [--amount RANDOM] [--seed N]

PROGRAM is what `tools/program` prints. The images are those of disks.py, made by cc1541 and cbmconvert (Debian's packages of
these names), sound and with each fault; disks with a broken and with a looping directory, with names of every byte, with two
files of one name, with a separator at 18/0, and with directory art; RANDOM (10,000) images of random bytes, and RANDOM / 10 each of random bytes
whose directory is 18/1 alone, and of random links. Each is taken out in a folder of its own, beside a file that has to stay.
The script compares
- the names of the folder's files, which begin with a digit or are index.csv, and that nothing else was made or changed;
- each file's bytes, the lines of its records, and the index, which Python's csv reads;
- the status, standard output and standard error;
- what `bytes` and `records` print of each closed entry (of random images the first two), and how they end;
- the same with `--unclosed`, of each entry.
Each image is taken out again with `--deleted`, and with `--scan --deleted`.
It ends at the first difference with status 1, and keeps the image."""

import csv
import hashlib
import io
import random
import subprocess
import sys
import tempfile
from itertools import chain as chain_of
from pathlib import Path

sys.dont_write_bytecode = True
sys.path.insert(0, str(Path(__file__).resolve().parents[1] / "lib"))
import disks
import geos
from disks import FAULTS, Image
from drawn import DIRECTORY, INDEX, MAP, PLACES, SIZE, name_text, sign, start
from trial import conduct, need

KINDS = ("DEL", "SEQ", "PRG", "USR", "REL")
HEADING = "number,file,name,text,type,closed,locked,blocks,found,length,bytes,fault,shared,errors,sha256".split(",")


class Differs(Exception):
    """A folder isn't as it has to be."""


def want(what, got, wanted):
    if got != wanted:
        raise Differs(f"{what}: {got!r:.300} in place of {wanted!r:.300}")


# how many sectors an image of 35, 40 or 42 tracks has
SECTORS = {SIZE: 683, 196_608: 768, 205_312: 802}


def number_of(place):
    """How many sectors come before one of the tracks 1 to 42; nothing if there is no such sector."""
    track, number = place
    return INDEX.get(place, 683 + 17 * (track - 36) + number if 36 <= track <= 42 and number < 17 else None)


def sector(image, place):
    return image[256 * number_of(place):256 * number_of(place) + 256]


def chain(image, place):
    """The sectors that the links come to from a place, each once; the last index; and what ends them before their end."""
    places = []
    while True:
        places.append(place)
        link = tuple(sector(image, place)[:2])
        if link[0] == 0:
            return places, link[1], ""
        if link not in INDEX:
            return places, 255, f"BADLINK {place[0]}/{place[1]}"
        if link in places:
            return places, 255, f"LOOP {link[0]}/{link[1]}"
        place = link


def long_chain(image, place):
    """The sectors of a chain over all tracks of an image, and the last index; nothing if it doesn't come to its end there."""
    places = []
    while place not in places and number_of(place) is not None and number_of(place) < SECTORS[len(image)]:
        places.append(place)
        place = tuple(sector(image, place)[:2])
        if place[0] == 0:
            return places, place[1]
    return None


def directory(image):
    """The directory's sectors as far as they go, and what ends them."""
    places, place = [], DIRECTORY
    while True:
        places.append(place)
        link = tuple(sector(image, place)[:2])
        if link[0] == 0:
            return places, ""
        if link not in INDEX or link[0] != 18 or link == MAP:
            return places, f"BADLINK {place[0]}/{place[1]}"
        if link in places:
            return places, f"LOOP {link[0]}/{link[1]}"
        place = link


def looks_like_a_directory(data):
    """Whether a sector has a link and eight slots as a directory's have, one of them used."""
    if tuple(data[:2]) != (0, 255) and not (data[0] == 18 and 1 <= data[1] <= 18):
        return False
    slots = [data[at:at + 32] for at in range(0, 256, 32)]
    return all(map(is_slot, slots)) and any(slot[2] for slot in slots)


def is_slot(slot):
    """Whether a drive may have written it."""
    if slot[2] == 0:
        return True
    if slot[2] % 32 > 4:
        return False
    return tuple(slot[3:5]) in INDEX if slot[3] else slot[2] not in (0x84, 0xC4)


def is_art(slot):
    """Whether it is a line of directory art: a DEL without blocks, at 18/0 or nowhere."""
    return slot[2] in (0x80, 0xC0) and slot[30:32] == b"\0\0" and (slot[3] == 0 or slot[3:5] == b"\x12\0")


def file_name(number, name, ending):
    kept = "".join(chr(byte) if 32 <= byte <= 122 and byte not in b'"*/:<>?\\' else "_" for byte in name)
    return f"{number:02}-{kept}{ending}"


def error_text(error):
    """What the index says of an error byte."""
    return str(error + 18) if 2 <= error <= 11 else "74" if error == 15 else f"BYTE{error}"


def shown(byte):
    """A byte of a name as a C64 shows it; a carriage return as it is typed."""
    return '"' if byte == 34 else sign(byte)


class Wanted:
    """The files that an image has to give, the faults in the order in which they are reported, and the chains. It may have 40 or 42
    tracks, and error bytes that come apart."""

    def __init__(self, image, deleted=False, scan=False, errors=b""):
        sectors, fault = directory(image)
        if scan:
            others = [(18, number) for number in range(1, 19) if (18, number) not in sectors]
            sectors = [*sectors, *(place for place in others if looks_like_a_directory(sector(image, place)))]
        every = [(place, sector(image, place)[at:at + 32]) for place in sectors for at in range(0, 256, 32)]
        slots = [(place, slot) for place, slot in every if slot[2]]
        chains = [self.reach(image, place, slot) for place, slot in slots]
        if deleted:
            for place, slot, blocks in self.deleted(image, every, {MAP, *sectors, *(block for reach in chains for block in reach[0])}):
                slots.append((place, slot))
                chains.append(blocks)
        owned = self.owners(sectors, chains)
        self.files, self.faults, rows, self.named = {}, [fault] if fault else [], [], []
        for number, ((place, slot), (blocks, last, ended)) in enumerate(zip(slots, chains), 1):
            shared = next((block for block in blocks if block in INDEX and owned[block] > 1), None)
            past = next((block for block in blocks if block not in INDEX and owned[block] > 1), None)
            cvt, art = geos.is_cvt(image, slot), is_art(slot)
            data = geos.cvt(image, slot) if cvt else self.data(image, blocks, last)
            rows.append(self.row(number, slot, cvt, 0, 0, "", None, "", "") if art else
                        self.row(number, slot, cvt, len(blocks), len(data), ended, shared or past, self.misread(blocks, errors),
                                 hashlib.sha256(data).hexdigest()))
            if art:
                rows[-1][1] = ""
            else:
                self.files[rows[-1][1]] = data
            if slot[2] % 16 == 4 and 1 <= slot[23] <= 254:
                self.files[file_name(number, slot[5:21].rstrip(b"\xa0"), ".csv")] = self.lines(data, slot[23])
            told = ended or (f"OWNEDTWICE {shared[0]}/{shared[1]}" if shared else "")
            told = told or ("" if slot[2] >= 128 or slot[2] == 0 else f"UNCLOSED {place[0]}/{place[1]}")
            self.faults += [told] if told and not art else []
        self.rows = rows
        self.name(image, sectors, slots, fault)

    def name(self, image, sectors, slots, fault):
        """What `bytes` prints of each entry: its own chain, of a file of GEOS too. Others have those blocks of it that can be reached on
        tracks 1 to 35."""
        chains = [self.plain(image, place, slot) for place, slot in slots]
        owned = self.owners(sectors, chains)
        for (place, slot), (front, _, _) in zip(slots, chains):
            blocks, last, ended = self.whole(image, place, slot)
            shared = next((block for block in front if owned[block] > 1), None)
            told = ended or (f"OWNEDTWICE {shared[0]}/{shared[1]}" if shared else "")
            told = told or ("" if slot[2] >= 128 or slot[2] == 0 else f"UNCLOSED {place[0]}/{place[1]}")
            self.named.append((slot[5:21].rstrip(b"\xa0"), slot, self.data(image, blocks, last), fault or told))

    @staticmethod
    def owners(sectors, chains):
        """How many have each sector."""
        owned = {}
        for place in [MAP, *sectors, *(block for blocks, _, _ in chains for block in blocks)]:
            owned[place] = owned.get(place, 0) + 1
        return owned

    def names(self, is_asked, most):
        """The first names of entries that are asked for."""
        return [name for name in dict.fromkeys(its for its, slot, _, _ in self.named if is_asked(slot)) if name][:most]

    def first(self, name, is_asked):
        """The bytes of the first entry of this name that is asked for, its slot, and its fault."""
        return next(((data, slot, own) for its, slot, data, own in self.named if its == name and is_asked(slot)), None)

    @classmethod
    def deleted(cls, image, every, owned):
        """The deleted slots, and what can be reached of them, of which no block is among these."""
        for place, slot in every:  # none is one of GEOS, since its type is 0
            if slot[2] == 0 and slot[5:21].rstrip(b"\xa0") and tuple(slot[3:5]) in INDEX:
                reach = cls.reach(image, place, slot)
                if not owned & set(reach[0]):
                    yield place, slot, reach

    @classmethod
    def reach(cls, image, place, slot):
        """The blocks of an entry's file, the last index, and what ends them; of one of GEOS all its blocks."""
        if not geos.is_cvt(image, slot):
            return cls.whole(image, place, slot)
        blocks, _, last, ended = geos.reach(image, slot)
        return blocks, last, ended

    @staticmethod
    def plain(image, place, slot):
        if slot[3] == 0 and slot[2] not in (0x84, 0xC4):
            return [], 0, ""
        first = tuple(slot[3:5])
        return chain(image, first) if first in INDEX else ([], 0, f"BADLINK {place[0]}/{place[1]}")

    @classmethod
    def whole(cls, image, place, slot):
        """The same over all tracks of an image that has more than 35, if tracks 1 to 35 haven't the whole chain."""
        reach = cls.plain(image, place, slot)
        found = long_chain(image, tuple(slot[3:5])) if reach[2] and len(image) > SIZE else None
        return (*found, "") if found else reach

    @staticmethod
    def data(image, blocks, last):
        if not blocks:
            return b""
        whole = b"".join(sector(image, block)[2:] for block in blocks[:-1])
        return whole + sector(image, blocks[-1])[2:max(last, 1) + 1]

    @staticmethod
    def lines(data, length):
        records = (data[at:at + length] for at in range(0, len(data) - length + 1, length))
        return "".join(f'{number},"{name_text(record.rstrip(bytes(1)))}"\n' for number, record in enumerate(records, 1)).encode()

    @staticmethod
    def misread(blocks, errors):
        """Those blocks that weren't read, and how."""
        # those of tracks 1 to 35 stand before those past them
        found = [(block, errors[number_of(block)]) for block in sorted(blocks, key=lambda it: it[0] > 35) if errors]
        return " ".join(f"{place[0]}/{place[1]}:{error_text(error)}" for place, error in found if error != 1)

    @staticmethod
    def row(number, slot, cvt, blocks, count, ended, shared, misread, digest):
        name, kind = slot[5:21].rstrip(b"\xa0"), slot[2]
        low = kind % 16
        ending = ".cvt" if cvt else "." + KINDS[low].lower() if low < 5 else ".bin"
        return [str(number), file_name(number, name, ending), name_text(name), "".join(map(shown, name)),
                KINDS[low] if low < 5 else "???", "yes" if kind >= 128 else "no", "yes" if kind >> 6 & 1 else "no",
                str(slot[30] + 256 * slot[31]), str(blocks), str(slot[23]) if low == 4 else "", str(count), ended,
                f"{shared[0]}/{shared[1]}" if shared else "", misread, digest]


def extracted(program, folder, image, *flags):
    """Takes an image out, and compares all that came of it. Returns how many files there are, and the status."""
    path, out, beside = folder / "disk.d64", folder / "out", folder / "beside"
    path.write_bytes(image)
    beside.write_text("stays")
    ran = subprocess.run([program, "extract", path, out, *flags], capture_output=True)
    wanted = Wanted(image, "--deleted" in flags, "--scan" in flags)
    want("what stands beside the folder", sorted(entry.name for entry in folder.iterdir()), ["beside", "disk.d64", "out"])
    want("the file beside", (beside.read_text(), path.read_bytes() == image), ("stays", True))
    got = {entry.name: entry.read_bytes() for entry in out.iterdir()}
    index = got.pop("index.csv")
    want("the files", sorted(got), sorted(wanted.files))
    for name, data in wanted.files.items():
        if not name[0].isdigit() or "/" in name:
            raise Differs(f"the name {name}")
        want(name, got[name], data)
    want("the index", list(csv.reader(io.StringIO(index.decode(), newline=""))), [HEADING, *wanted.rows])
    return len(got), finish(ran, wanted, out)


def finish(ran, wanted, out):
    """Compares how the run ended, and takes the folder away."""
    said, told = ran.stdout.decode(), ran.stderr.decode()
    if wanted.faults:
        want("the end", (ran.returncode, said, told), (1, "", f"LAYOUT {wanted.faults[0]}\n"))
    elif told.startswith("SHORT "):
        want("the end", (ran.returncode, said), (1, ""))
    else:
        want("the end", (ran.returncode, said.splitlines()[:1], told), (0, ["EXTRACTED"], ""))
        want("what else is printed", [it.split()[0] for it in said.splitlines()[1:]] in ([], ["FEWER"]), True)
    for entry in out.iterdir():
        entry.unlink()
    out.rmdir()
    return ran.returncode


def has_records(slot):
    return slot[2] % 16 == 4 and 1 <= slot[23] <= 254


def taken(program, folder, image, most):
    """Compares what `bytes` and `records` print of the first names of an image's entries, of closed ones and of all."""
    path, wanted = folder / "disk.d64", Wanted(image)
    path.write_bytes(image)
    names = wanted.names(is_closed, most)
    found = subprocess.run([program, "check", path], capture_output=True).stdout.decode().strip() if names else ""
    for name in names:
        taken_of(program, path, wanted, name, is_closed, [f"LAYOUT {found}\n"])
    for name in wanted.names(lambda slot: True, most):
        taken_of(program, path, wanted, name, lambda slot: True, [], "--unclosed")
    return len(names)


def taken_of(program, path, wanted, name, is_asked, others, *words):
    """Compares what is printed of one name with these words."""
    data, _, own = wanted.first(name, is_asked)
    ran = subprocess.run([program, "bytes", path, *words, "--", name_text(name)], capture_output=True)
    want(f"the bytes of {name} {words}", ran.stdout, data)
    ends_with(f"the end of bytes {name} {words}", ran, own, [])
    first = wanted.first(name, lambda slot: is_asked(slot) and has_records(slot))
    if first:
        data, slot, own = first
        ran = subprocess.run([program, "records", path, *words, "--", name_text(name)], capture_output=True)
        want(f"the records of {name} {words}", ran.stdout, Wanted.lines(data, slot[23]))
        ends_with(f"the end of records {name} {words}", ran, own, others)


def is_closed(slot):
    return slot[2] >= 128


def ends_with(what, ran, own, others):
    """The file's own fault is reported, or nothing, or one of the others."""
    told = ran.stderr.decode()
    if own:
        want(what, (ran.returncode, told), (1, f"LAYOUT {own}\n"))
    elif told in others or told.startswith("SHORT "):
        want(what, ran.returncode, 1)
    else:
        want(what, (ran.returncode, told), (0, ""))


def tools_disks(folder):
    """The disks of the tools, sound and with each fault."""
    sound = disks.customers(folder, folder / "customers.d64")
    yield sound.read_bytes()
    yield disks.of_cc1541(folder, folder / "tools.d64").read_bytes()
    yield disks.of_cbmconvert(folder, folder / "relative.d64").read_bytes()
    for fault in FAULTS.values():
        yield bytes(fault(sound).bytes)
    yield from named_disks(folder, sound)
    crowd = disks.crowded(folder, folder / "crowd.d64", b"../../A/B")
    yield crowd.read_bytes()
    sectors = Image(crowd).disk.directory
    for link in (sectors[2], (19, 0), (18, 0), (77, 1)):
        yield bytes(Image(crowd).put(sectors[9], 0, link).bytes)


def named_disks(folder, sound):
    """Names of every byte and of markup, one name twice, a separator at 18/0, and side sectors of zeros."""
    yield disks.named(sound, folder / "named.d64").read_bytes()
    crowd = disks.crowded(folder, folder / "every.d64", b"EVERY")
    yield disks.with_every_byte(crowd, folder / "every.d64").read_bytes()
    yield bytes(Image(sound).put_entry(2, 5, b"LETTER".ljust(16, b"\xa0")).bytes)
    yield bytes(Image(sound).put_entry(2, 2, [0x80, 18, 0]).bytes)
    yield bytes(Image(sound).put_entry(2, 2, [0x80, 18, 0]).put_entry(2, 30, [0, 0]).put_entry(1, 2, [0xC0, 0, 0]).put_entry(1, 30, [0, 0]).bytes)
    image = Image(sound)
    for side in image.disk.entries[0].sides:
        image.put(side, 0, bytes(256))
    yield bytes(image.bytes)


def random_disks(seed, count):
    """Random bytes; with a directory of one sector; and with links to places of the disk."""
    draw = random.Random(seed)
    for number in range(count + 2 * (count // 10)):
        image = bytearray(draw.randbytes(SIZE))
        if number >= count:
            image[start(DIRECTORY):start(DIRECTORY) + 2] = b"\0\xff"
            for it in range(start(DIRECTORY), start(DIRECTORY) + 256, 32):  # as files of GEOS, whose entry, blocks and records are random
                image[it + 2:it + 5] = bytes((draw.choice((0x81, 0x82, 0x83, 0xC3)), *draw.choice(PLACES)))
                image[it + 21:it + 25] = bytes((*draw.choice(PLACES), draw.randint(0, 1), draw.randint(1, 15)))
        if number >= count + count // 10:
            for place in PLACES:
                image[start(place):start(place) + 2] = bytes(draw.choice(PLACES)) if draw.random() < .99 else b"\0\x80"
        yield bytes(image)


def refused(program, folder):
    """An image of another size and a folder that is there make nothing and change nothing."""
    path, out = folder / "disk.d64", folder / "out"
    path.write_bytes(bytes(100))
    ran = subprocess.run([program, "extract", path, out], capture_output=True)
    want("another size", (ran.returncode, ran.stderr, out.exists()), (1, b"IMAGE SIZE\n", False))
    path.write_bytes(bytes(SIZE))
    out.mkdir()
    (out / "kept").write_text("kept")
    ran = subprocess.run([program, "extract", path, out], capture_output=True)
    want("a folder that is there", (ran.returncode, ran.stderr, [entry.name for entry in out.iterdir()]),
         (1, b"FILE EXISTS\n", ["kept"]))


def main(given):
    program, count, seed = given.program, given.amount, given.seed
    need(*disks.TOOLS)
    images = files = whole = names = 0
    with tempfile.TemporaryDirectory() as made, tempfile.TemporaryDirectory() as work:
        tried = chain_of(((image, 144) for image in tools_disks(Path(made))), ((image, 2) for image in random_disks(seed, count)))
        for image, most in tried:
            try:
                extracted(program, Path(work), image, "--deleted")
                extracted(program, Path(work), image, "--scan", "--deleted")
                had, status = extracted(program, Path(work), image)
                names += taken(program, Path(work), image, most)
            except Differs as error:
                Path("extract-differs.d64").write_bytes(image)
                print(f"extract: image {images + 1} (kept as extract-differs.d64): {error}")
                sys.exit(1)
            images, files, whole = images + 1, files + had, whole + (status == 0)
        for entry in Path(work).iterdir():
            entry.unlink()
        refused(program, Path(work))
    print(f"extract: {images} images taken out, {whole} of them whole; {files} files and {images} indexes are those of the reader, "
          f"and so are the bytes and records of {names} names")
    return images + names


if __name__ == "__main__":
    conduct(main)
