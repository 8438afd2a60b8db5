#!/usr/bin/env python3
"""Damages images at random, and compares what `check --json` prints of each with a reader of its own:

    tests/hostile/objects.py PROGRAM [--amount IMAGES] [--seed N]

PROGRAM is what `tools/program` prints. IMAGES (1,200) images of shops after a day get one to four changes each: links,
first blocks, side sectors, types, record lengths, block counts, bits of the map and names of random bytes. Names of
files and folders have all that JSON escapes. Of each line Python's `json` makes one object with just these keys. Its
verdict is what `check` prints of the image, and the status is the greatest; the files are those that this
reader finds by the D64 layout; free, disk and id are those of 18/0. Files of other sizes and missing ones give an
object too. With `--csv` there is a row of the same for each, as Python's `csv` reads it. With `--as-is` the object is the
same, and of an image with error bytes and more tracks it has the errors and the larger size, too. The status is 1 at the first difference, whose image is kept. The last line says how many images of each
verdict were compared, and how long the program took for all of them."""

import csv
import hashlib
import io
import json
import random
import subprocess
import sys
import tempfile
import time
from collections import Counter
from pathlib import Path

sys.dont_write_bytecode = True
sys.path.insert(0, str(Path(__file__).resolve().parents[1] / "lib"))
from disks import shop_after_a_day
from drawn import MAP, PLACES, SIZE, name_text, start
from missing import PAST as FURTHER, whole_chain
from trial import conduct

COLUMNS = ["name", "size", "verdict", "track", "sector", "free", "disk", "id", "short", "fewer", "sha1", "sha256"]
KEYS = {*COLUMNS, "files", "errors", "beyond"}
PAST = range(36, 43)
ON_DISK = set(PLACES)
RELATIVE = (0x84, 0xC4)
SOUND = {"OK", "MAPWRONG", "COUNTWRONG"}
CLOSED = {*range(0x80, 0x85), *range(0xC0, 0xC5)}


def table(program, paths):
    """The rows that `check --csv` prints of images, below the heading."""
    printed = subprocess.run([program, "check", "--csv", *paths], stdout=subprocess.PIPE).stdout.decode()
    heading, *rows = csv.reader(io.StringIO(printed, newline=""), strict=True)
    assert heading == COLUMNS, heading
    return rows


def as_row(told):
    """What a row says of an image that an object tells of. A control character stands there by its number."""
    texts = ("" if told[key] is None else str(told[key]) for key in COLUMNS)
    return ["".join(f"\\u{ord(it):04x}" if ord(it) < 32 or ord(it) == 127 else it for it in text) for text in texts]


class Reader:
    """An image, read by the D64 layout and no rule of another script."""

    def __init__(self, image):
        self.image = image

    def sector(self, place):
        return self.image[start(place):start(place) + 256]

    def follow(self, place):
        """The sectors of a chain, and the fault that ends it."""
        seen = []
        while True:
            seen.append(place)
            link = tuple(self.sector(place)[:2])
            if link[0] == 0:
                return seen, None
            if link not in ON_DISK:
                return seen, ("BADLINK", place)
            if link in seen:
                return seen, ("LOOP", link)
            place = link

    def slots(self):
        """The used slots with their sectors; None if the directory's chain is broken."""
        sectors, end = self.follow((18, 1))
        if end or any(track != 18 or sector == 0 for track, sector in sectors):
            return None
        cut = [(place, self.sector(place)[at:at + 32]) for place in sectors for at in range(0, 256, 32)]
        return [(place, slot) for place, slot in cut if slot[2]]

    def blocks(self, place, slot):
        """The blocks of an entry, and the fault that ends their chain."""
        if slot[2] < 0x80 or slot[2] not in RELATIVE and slot[3] == 0:
            return [], None
        if tuple(slot[3:5]) not in ON_DISK:
            return [], ("BADLINK", place)
        return self.follow(tuple(slot[3:5]))

    def fewer(self):
        """Where the first PRG, SEQ or USR ends whose entry counts more blocks than its chain, and the info block of a file of GEOS;
        its documents of several records are left out."""
        for place, slot in self.slots():
            blocks, _ = self.blocks(place, slot)
            info = tuple(slot[21:23]) in ON_DISK
            if slot[2] & 0xBF in (0x81, 0x82, 0x83) and not (info and slot[23] == 1) and slot[30] + 256 * slot[31] > len(blocks) + info:
                return "%d/%d" % (blocks or [place])[-1]
        return None

    def sides(self, slot, blocks, end):
        """The side sectors of a relative entry with a whole chain, as far as each links to the next that it lists, and the wrong ones."""
        if slot[2] not in RELATIVE or end or tuple(slot[21:23]) not in ON_DISK:
            return [], set()
        needed, sides = -(-len(blocks) // 120), [tuple(slot[21:23])]
        while len(sides) < needed and (link := self.named(sides[-1], 0)) in ON_DISK and link == self.named(sides[-1], 4 + 2 * len(sides)):
            sides.append(link)
        wrong = set()
        for number, place in enumerate(sides):
            listed = sides + [self.named(place, 4 + 2 * it) for it in range(len(sides), needed)]
            if not ON_DISK.issuperset(listed) or self.sector(place) != side(number, blocks, listed, slot[23]):
                wrong.add(place)
        return sides, wrong

    def ends(self, place, slot):
        """Where the chains of an entry leave its sectors: the last sector of each with the track of its link, or the entry's."""
        blocks = self.drawn(slot, 3) if slot[2] >= 0x80 else []
        yield (blocks[-1], self.sector(blocks[-1])[0]) if blocks else (place, slot[3])
        if slot[2] in RELATIVE:
            sides = self.drawn(slot, 21)[:-(-len(blocks) // 120)]
            yield (sides[-1], self.sector(sides[-1])[0]) if sides else (place, slot[21])

    def drawn(self, slot, at):
        """The sectors of the chain whose first one an entry names in these two bytes."""
        first = tuple(slot[at:at + 2])
        return self.follow(first)[0] if first in ON_DISK else []

    def beyond(self):
        """Where files go on past track 35."""
        return [{"name": name_text(slot[5:21].rstrip(b"\xa0")), "sector": end[1], "track": end[0]}
                for place, slot in self.slots() or [] for end, track in self.ends(place, slot) if track in PAST]

    def owner(self, at):
        """The typed name of the first entry that has a sector."""
        for place, slot in self.slots() or []:
            blocks = self.drawn(slot, 3) if slot[2] >= 0x80 else []
            sides = self.drawn(slot, 21)[:-(-len(blocks) // 120)] if slot[2] in RELATIVE else []
            if at in blocks or at in sides:
                return name_text(slot[5:21].rstrip(b"\xa0"))
        return None

    def named(self, place, at):
        """The place that two bytes of a sector name."""
        return tuple(self.sector(place)[at:at + 2])

    def concerned(self, fault, at):
        """The typed names of the entries that a fault concerns."""
        return [name_text(slot[5:21].rstrip(b"\xa0")) for place, slot in self.slots() or [] if self.shows(place, slot, fault, at)]

    def shows(self, place, slot, fault, at):
        blocks, end = self.blocks(place, slot)
        sides, wrong = self.sides(slot, blocks, end)
        relative, here = slot[2] in RELATIVE, place == at
        return {
            "BADLINK": end == ("BADLINK", at),
            "LOOP": end == ("LOOP", at),
            "OWNEDTWICE": at in blocks or at in sides,
            "MAPWRONG": at in blocks or at in sides,
            "BADTYPE": here and slot[2] >= 0x80 and slot[2] not in CLOSED,
            "UNCLOSED": here and slot[2] < 0x80,
            "BADLENGTH": here and relative and slot[23] in (0, 255),
            "BADSIDE": at in wrong or here and relative and tuple(slot[21:23]) not in ON_DISK,
            "COUNTWRONG": here and relative and not end
            and slot[30] + 256 * slot[31] != len(blocks) - (-len(blocks) // 120),
        }[fault]


def side(number, blocks, sides, length):
    """The bytes of a side sector (1541 User's Guide, relative files)."""
    mine = blocks[120 * number:120 * number + 120]
    link = sides[number + 1] if number + 1 < len(sides) else (0, 15 + 2 * len(mine))
    lists = bytes(byte for place in sides for byte in place).ljust(12, b"\0")
    return bytes([*link, number, length]) + lists + bytes(byte for place in mine for byte in place).ljust(240, b"\0")


def damage(draw, image):
    """Changes an image in one to four ways."""
    image = bytearray(image)
    for _ in range(draw.randint(1, 4)):
        place, entry = draw.choice(PLACES), start((18, 1)) + 32 * draw.randrange(2)
        other = draw.choice([*draw.choices(PLACES, k=3), (36, 0), (0, 7), (17, 0), (17, 1), (17, 2)])
        at, new = draw.choice([
            (start(draw.choice([(17, s) for s in range(21)])), bytes(other)),
            (entry + 3, bytes(other)),
            (entry + 21, bytes(other)),
            (entry + 2, bytes([draw.choice([0x84, 0xC4, 0x82, 0x04, 0x8F, 0x81, draw.randrange(256)])])),
            (entry + 23, bytes([draw.choice([0, 255, draw.randrange(256)])])),
            (entry + 30, bytes([draw.randrange(256)])),
            (entry + 5, draw.randbytes(16)),
            (start((17, draw.choice([1, 3]))) + draw.randrange(256), draw.randbytes(1)),
            (start(MAP) + draw.randrange(4, 144), draw.randbytes(1)),
            (start(MAP) + 0x90, draw.randbytes(20)),
            (start((18, 1)), bytes(draw.choice([(18, 4), (18, 1), (17, 3), (99, 0)]))),
            (start(place), draw.randbytes(2)),
        ])
        image[at:at + len(new)] = new
    return bytes(image)


def with_errors(draw, image):
    """An image of 40 tracks with error bytes, some of which aren't 1; and what is told of those."""
    wrong = {draw.randrange(768): draw.choice([2, 5, 11, 15, 200]) for _ in range(draw.randint(0, 4))}
    codes = bytes(wrong.get(number, 1) for number in range(768))
    reader, told = Reader(image), []
    sectors, _ = reader.follow((18, 1))
    system = {MAP, *sectors} if reader.slots() is not None else set()
    tracks = image + bytes(256 * 85)
    for number in sorted(wrong):
        place, code = (PLACES + FURTHER)[number], wrong[number]
        error = str(code + 18) if 2 <= code <= 11 else "74" if code == 15 else f"BYTE {code}"
        if number < len(PLACES):
            name = None if place in system else reader.owner(place)
        else:
            slots = [slot for _, slot in reader.slots() or [] if slot[2] >= 0x80]
            names = [slot[5:21].rstrip(b"\xa0") for slot in slots if number in whole_chain(tracks, tuple(slot[3:5]))]
            name = name_text(names[0]) if names else None
        told.append({"error": error, "name": name, "sector": place[1], "track": place[0]})
    return tracks + codes, told


def judge_longer(program, draw, path, image, line):
    """What is wrong with what is told of the same image with error bytes and 40 tracks, or None."""
    longer, errors = with_errors(draw, image)
    Path(path).write_bytes(longer)
    one = subprocess.run([program, "check", "--json", "--as-is", path], stdout=subprocess.PIPE)
    want = json.loads(line) | {
        "size": len(longer), "errors": errors,
        "sha1": hashlib.sha1(longer).hexdigest(), "sha256": hashlib.sha256(longer).hexdigest(),
    }
    told = json.loads(one.stdout)
    whole = want["verdict"] == "OK" and not errors and not want["beyond"]
    Path(path).write_bytes(image)
    if told != want or one.returncode != (0 if whole else 1):
        return f"as it is: {told}, status {one.returncode}\n{want}"
    return None


def judge(path, image, line, verdict, short):
    """What is wrong with the line of an image, or None. `short` is where `repair` refuses a file that is cut short."""
    told = json.loads(line)
    head = image[start(MAP):start(MAP) + 256]
    fault, _, place = verdict.partition(" ")
    at = tuple(map(int, place.split("/"))) if place else None
    want = {
        "name": str(path), "size": SIZE, "verdict": verdict, "track": at and at[0], "sector": at and at[1],
        "files": Reader(image).concerned(fault, at) if at else [],
        "free": sum(head[4 * track] for track in range(1, 36) if track != 18),
        "disk": name_text(head[0x90:0xA0].rstrip(b"\xa0")), "id": name_text(head[0xA2:0xA4]), "short": short,
        "fewer": Reader(image).fewer() if short is None and fault in SOUND else None,
        "sha1": hashlib.sha1(image).hexdigest(), "sha256": hashlib.sha256(image).hexdigest(),
        "errors": [], "beyond": Reader(image).beyond(),
    }
    if set(told) != KEYS or told != want:
        return f"{told}\n{want}"
    return None


def main(given):
    program, count, draw = given.program, given.amount, random.Random(given.seed)
    with tempfile.TemporaryDirectory(prefix="objects\t\"\\\x7fä") as folder:
        folder = Path(folder)
        base = shop_after_a_day(program, folder / "shop.d64").read_bytes()
        images = [base] + [damage(draw, base) for _ in range(count - 1)]
        paths = [folder / f"disk {number}.d64" for number in range(count)]
        for path, image in zip(paths, images):
            path.write_bytes(image)
        began = time.monotonic()
        printed = subprocess.run([program, "check", "--json", *paths], stdout=subprocess.PIPE)
        took = time.monotonic() - began
        plain = [subprocess.run([program, "check", path], stdout=subprocess.PIPE) for path in paths]
        lines = printed.stdout.decode().splitlines()
        assert len(lines) == count, f"{len(lines)} lines"
        assert printed.returncode == max(one.returncode for one in plain), "the status"
        rows = table(program, paths)
        assert rows == [as_row(json.loads(line)) for line in lines], "the table"
        met = Counter()
        for path, image, line, one in zip(paths, images, lines, plain):
            verdict = one.stdout.decode().rstrip("\n")
            met[verdict.split()[0]] += 1
            repaired = subprocess.run([program, "repair", "--dry-run", path], stdout=subprocess.DEVNULL, stderr=subprocess.PIPE)
            word, _, place = repaired.stderr.decode().rstrip("\n").partition(" ")
            if wrong := judge(path, image, line, verdict, place if word == "SHORT" else None):
                Path("differs.d64").write_bytes(image)
                print(f"objects: differs.d64: {wrong}")
                return count - 1, 1
            if wrong := judge_longer(program, draw, path, image, line):
                Path("differs.d64").write_bytes(image)
                print(f"objects: differs.d64: {wrong}")
                return count - 1, 1
        (folder / "short").write_bytes(base[:-1])
        (folder / "long").write_bytes(base + bytes(683))
        for name, size, verdict in (("short", SIZE - 1, "IMAGE SIZE"), ("long", SIZE + 683, "IMAGE SIZE"), ("none", None, "FILE")):
            one = subprocess.run([program, "check", "--json", folder / name], stdout=subprocess.PIPE)
            told = json.loads(one.stdout)
            assert set(told) == KEYS and [told["size"], told["verdict"], told["files"]] == [size, verdict, []], told
            assert one.returncode == (3 if verdict == "FILE" else 1), name
            assert table(program, [folder / name]) == [as_row(told)], name
    kinds = ", ".join(f"{kind} {times}" for kind, times in sorted(met.items()))
    print(f"objects: {count} images and 3 refused ones were compared ({kinds}); {took:.1f} s for all images")
    return count + 3


if __name__ == "__main__":
    conduct(main)
