#!/usr/bin/env python3
"""Compares `free`, `sector` and `trim` with a plain reader of images, byte by byte:

    tests/hostile/views.py PROGRAM [--seed N]

PROGRAM is what `tools/program` prints. The disks are those of cc1541 and cbmconvert (Debian's packages of these names), shops, and
all of them with bytes changed at random. Of each disk `free` and 60 sectors are compared. For `trim` each disk is given error bytes,
five tracks more, or both, some sectors that weren't read, and some links past track 35. `list`, `check` and `show` have to refuse such
an image. The status is 1 if something differs."""

import random
import subprocess
import sys
import tempfile
from pathlib import Path

sys.dont_write_bytecode = True
sys.path.insert(0, str(Path(__file__).resolve().parents[1] / "lib"))
from disks import blank, of_cbmconvert, of_cc1541, customers, shop_after_a_day, TOOLS
from drawn import BLOCKS, LETTERS, MAP, PLACES, SHIFTED, Disk, start
from missing import missing_lines
from trial import conduct, need


def run(program, *words):
    done = subprocess.run([program, *map(str, words)], capture_output=True, check=False, stdin=subprocess.DEVNULL)
    return done.returncode, done.stdout, done.stderr


def free_text(disk):
    """What `free` prints."""
    counts = [disk.sector(MAP)[4 * track] for track in range(1, 36)]
    lines = [f"TRACK {track} FREE {count}\n" for track, count in enumerate(counts, 1)]
    return "".join(lines) + f"{sum(counts) - counts[17]} BLOCKS FREE\n"


def shown(byte):
    """A byte as `sector` shows it beside its digits."""
    if byte % 128 < 32:
        return "."
    if byte < 64:
        return chr(byte)
    return {2: LETTERS, 3: SHIFTED, 5: BLOCKS, 6: SHIFTED, 7: SHIFTED if byte == 255 else BLOCKS}[byte // 32][
        30 if byte == 255 else byte % 32]


def owner_text(disk, fault, place):
    """Whose `sector` says that a sector is."""
    if not disk.has_directory:
        return f"UNKNOWN, {fault}"
    owner = disk.owner.get(place)
    if owner is None:
        return "NONE, FREE" if disk.is_free(place) else "NONE, TAKEN"
    if owner[0] in ("map", "directory"):
        return owner[0].upper()
    number, kind, _ = owner
    entry = disk.entries[number]
    records = f" LENGTH {entry.length} RECORDS {entry.records()}" if entry.has_records() else ""
    mark = disk.mark_of_entry(number)
    return f'{kind.upper()} {mark} {entry.count} "{entry.name}" {entry.type_text("<")}{records}'


def link_text(track, sector):
    if track == 0:
        return f"END {sector}"
    return f"{track}/{sector}" if (track, sector) in PLACES else f"OFF THE DISK {track}/{sector}"


def sector_text(disk, fault, place):
    """What `sector` prints."""
    data = disk.sector(place)
    lines = []
    for at in range(0, 256, 16):
        part = data[at:at + 16]
        lines.append(f"{at:02x}  " + " ".join(f"{byte:02x}" for byte in part) + "  " + "".join(map(shown, part)))
    lines += ["OWNER " + owner_text(disk, fault, place), "LINK " + link_text(data[0], data[1])]
    return "".join(line + "\n" for line in lines)


def trim_text(image, errors, fault):
    """What `trim` reports of the tracks of an image with these error bytes."""
    told = missing_lines(image, errors)
    return told if Disk(image).has_directory else told + fault + "\n"


def changed(image, chance, count):
    """The image with bytes changed, mostly where links and entries are."""
    image = bytearray(image)
    for _ in range(count):
        at = chance.choice((start((18, 0)), start((18, 1)), start((17, 0)), 0)) + chance.randrange(2048)
        image[at] = chance.choice((chance.randrange(256), 17, 18, 36, 40, 0))
    return bytes(image)


class Comparison:
    """What was compared, and how often it differed."""

    def __init__(self, program, folder, chance):
        self.program, self.folder, self.chance = program, folder, chance
        self.done, self.wrong = {"free": 0, "sector": 0, "trim": 0, "refused": 0}, 0

    def see(self, what, got, wanted, name):
        self.done[what] += 1
        if got != wanted:
            self.wrong += 1
            print(f"{what} of {name}:\n got {got}\n not {wanted}", file=sys.stderr)

    def views(self, name, image):
        """`free` and some sectors of an image of 35 tracks."""
        path = self.folder / "one.d64"
        path.write_bytes(image)
        disk = Disk(image)
        fault = run(self.program, "list", path)[2].decode().strip()
        self.see("free", run(self.program, "free", path), (0, free_text(disk).encode(), b""), name)
        for place in [(18, 0), (18, 1), (17, 0), (35, 16), *self.chance.sample(PLACES, 56)]:
            got = run(self.program, "sector", path, "%d/%d" % place)
            self.see("sector", got, (0, sector_text(disk, fault, place).encode(), b""), f"{name} {place}")

    def trims(self, name, image):
        """`trim` of the image with error bytes, five tracks more and both."""
        path = self.folder / "other.d64"
        more = bytes(self.chance.randrange(256) for _ in range(256 * 85))
        for tail, count in ((b"", 0), (b"", 683), (more, 0), (more, 768)):
            errors = bytearray(b"\1" * count)
            for _ in range(self.chance.choice((0, 0, 3)) if count else 0):
                errors[self.chance.randrange(count)] = self.chance.randrange(17)
            path.write_bytes(image + tail + errors)
            alone = self.folder / "one.d64"
            alone.write_bytes(image)
            fault = run(self.program, "list", alone)[2].decode().strip()
            told = trim_text(image, errors, fault).encode()
            self.see("trim", run(self.program, "trim", path), (1 if told else 0, image, told), f"{name} {len(tail)} {count}")
            if tail or count:
                for command in ("check", "list", "show"):
                    got = run(self.program, command, path)
                    self.see("refused", got, (1, b"", b"IMAGE SIZE\n"), f"{name} {command}")
                explained = run(self.program, "check", "--explain", path)[2]
                self.see("refused", b"`ledger trim OLD > NEW`" in explained, True, f"{name} {explained}")


def main(given):
    need(*TOOLS)
    program, chance = given.program, random.Random(given.seed)
    with tempfile.TemporaryDirectory() as name:
        folder = Path(name)
        sound = [of_cc1541(folder, folder / "tools.d64"), of_cbmconvert(folder, folder / "rel.d64"),
                 customers(folder, folder / "customers.d64"), blank(program, folder / "blank.d64"),
                 shop_after_a_day(program, folder / "shop.d64")]
        images = [(path.name, path.read_bytes()) for path in sound]
        images += [(f"{name} changed {k}", changed(image, chance, k)) for name, image in images for k in (1, 4, 30)]
        comparison = Comparison(program, folder, chance)
        for name, image in images:
            comparison.views(name, image)
            comparison.trims(name, image)
        for words in ("36/0", "18/19", "0/1", "18", "18/01", "+1/0", "18/0/0", ""):
            status, _, told = run(program, "sector", sound[0], words)
            comparison.see("refused", (status, told.split(b"\n")[0]), (2, b"SECTOR"), words)
    done = ", ".join(f"{count} {what}" for what, count in comparison.done.items())
    print(f"views: {len(images)} disks: {done}; {comparison.wrong} differences")
    return len(images) - min(comparison.wrong, len(images)), comparison.wrong


if __name__ == "__main__":
    conduct(main)
