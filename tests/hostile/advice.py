#!/usr/bin/env python3
"""Follows what `check` advises, over odd disks that a seed makes:  tests/hostile/advice.py PROGRAM [--amount DISKS] [--seed N]

A disk is one that the program makes, with files of all types, and then hurt: sectors of zeros, links that lead elsewhere or back, wrong
maps and counts, side sectors that disagree, unclosed entries, the signature of GEOS, a document of GEOS, another format byte. Of each
disk, `check --explain` is asked, and each command that its sentence names is run on a copy:

  - `repair` and its flags end with status 0, or with status 1 and KEPT where the sentence says that sectors are kept;
  - where the sentence says `corrects it` and no more, `check` says OK afterwards;
  - after `--accept-loss` no change refuses the disk for a file that is cut short: a file is put there, renamed and deleted;
  - `extract` makes its folder.

The next command that `plan` names for the disk is run in the same way, as a shell runs it.

Whatever `check` says, there is a way: a series of such commands leads to a disk that takes a file, or `extract` is named. A failure prints the seed, the number of the disk, and what was said."""

import json
import random
import re
import shlex
import shutil
import subprocess
import sys
import tempfile
from pathlib import Path

sys.dont_write_bytecode = True
sys.path.insert(0, str(Path(__file__).resolve().parents[1] / "lib"))
from trial import at, conduct

SECTORS = [21] * 17 + [19] * 7 + [18] * 6 + [17] * 5
BLANK = bytes(256)


def offset(track, sector):
    return 256 * (sum(SECTORS[: track - 1]) + sector)


class Disk:
    """An image in memory, with what is needed to hurt it."""

    def __init__(self, data):
        self.data = bytearray(data)

    def sector(self, track, sector):
        at = offset(track, sector)
        return self.data[at : at + 256]

    def put(self, track, sector, where, some):
        at = offset(track, sector) + where
        self.data[at : at + len(some)] = some

    def chain(self, track, sector):
        places = []
        while track and (track, sector) not in places and 1 <= track <= 35 and sector < SECTORS[track - 1]:
            places.append((track, sector))
            track, sector = self.sector(track, sector)[:2]
        return places

    def entries(self):
        """Each used entry: its sector, its offset there, its type and its chain."""
        for track, sector in self.chain(18, 1):
            data = self.sector(track, sector)
            for at in range(0, 256, 32):
                if data[at + 2]:
                    yield (track, sector), at, data[at + 2], self.chain(data[at + 3], data[at + 4])


def ran(program, *words, text=None):
    done = subprocess.run([program, *map(str, words)], input=text, capture_output=True, timeout=60)
    return done.returncode, done.stdout.decode("latin1"), done.stderr.decode("latin1")


def made(program, folder, rng):
    """A sound disk with some files."""
    image = folder / "new.d64"
    image.unlink(missing_ok=True)
    ran(program, "new", image, "--name", "ODD", "--id", "01")
    for number in range(rng.randint(2, 7)):
        content = folder / "content"
        content.write_bytes(bytes(rng.randrange(1, 256) for _ in range(rng.choice((1, 200, 254, 255, 900, 3000)))))
        ran(program, "put", image, f"FILE {number}", content, "--type", rng.choice(("prg", "seq", "usr")))
    if rng.random() < 0.6:
        ran(program, "make", image, "CARDS", "--length", rng.choice((20, 96, 254)))
        lines = "".join(f'{number},"CARD {number}"\n' for number in range(1, rng.choice((3, 40, 200))))
        (folder / "lines").write_text(lines)
        ran(program, "store", image, "CARDS", folder / "lines")
    return Disk(image.read_bytes())


def hurt_zeros(disk, rng):
    _, _, _, chain = rng.choice(list(disk.entries()))
    if chain:
        disk.put(*rng.choice(chain), 0, BLANK)


def hurt_link(disk, rng):
    _, _, _, chain = rng.choice(list(disk.entries()))
    if chain:
        disk.put(*rng.choice(chain), 0, rng.choice((bytes((40, 3)), bytes((rng.randint(1, 35), 0)), bytes(chain[0]))))


def hurt_map(disk, rng):
    for _ in range(rng.randint(1, 6)):
        disk.put(18, 0, 4 + rng.randrange(140), bytes((rng.randrange(256),)))


def hurt_count(disk, rng):
    place, at, _, _ = rng.choice(list(disk.entries()))
    disk.put(*place, at + 30, bytes((rng.choice((0, 1, 9, 200)), 0)))


def hurt_side(disk, rng):
    for place, at, kind, _ in disk.entries():
        data = disk.sector(*place)
        if kind & 15 == 4 and data[at + 21]:
            disk.put(data[at + 21], data[at + 22], rng.randrange(256), bytes((rng.randrange(256),)))


def hurt_unclosed(disk, rng):
    place, at, kind, _ = rng.choice(list(disk.entries()))
    disk.put(*place, at + 2, bytes((rng.choice((kind & 15, kind | 0x40, 0x8F)),)))


def hurt_geos(disk, rng):
    disk.put(18, 0, 173, b"GEOS format V1.0")


def hurt_document(disk, rng):
    place, at, kind, chain = rng.choice(list(disk.entries()))
    if kind & 15 != 4:
        disk.put(*place, at + 2, b"\x83")
        disk.put(*place, at + 21, bytes((rng.randint(1, 17), 0, rng.randint(0, 1), rng.randint(1, 12))))


def hurt_format(disk, rng):
    disk.put(18, 0, 2, b"C")


def hurt_strays(disk, rng):
    disk.put(18, 0, 4 * rng.choice((1, 2, 5, 30)), b"\x00\x00\x00\x00")


def hurt_art(disk, rng):
    for place, at, _, _ in list(disk.entries())[-1:]:
        disk.put(*place, at + 2, b"\x80\x12\x00")


HURTS = (hurt_zeros, hurt_zeros, hurt_link, hurt_map, hurt_map, hurt_count, hurt_side, hurt_unclosed, hurt_geos, hurt_document)
HURTS += (hurt_format, hurt_strays, hurt_strays, hurt_art)


def odd_disks(program, folder, amount, seed):
    for number in range(amount):
        rng = random.Random(f"{seed} {number}")
        disk = made(program, folder, rng)
        names = []
        for hurt in rng.sample(HURTS, rng.choice((0, 1, 1, 1, 2, 2, 3))):
            hurt(disk, rng)
            names.append(hurt.__name__.removeprefix("hurt_"))
        yield number, names, bytes(disk.data)


def takes_a_file(program, image, folder):
    """Why the disk of an image takes no file; nothing if it does, or if it is merely full."""
    content = folder / "content"
    content.write_bytes(b"some text\n")
    status, printed, told = ran(program, "put", image, "ANOTHER", content, "--type", "seq")
    if (status, printed) != (0, "PUT\n"):
        return "" if told.startswith("DISK FULL") else f"put: {status} {printed}{told}"
    for words in (("rename", image, "ANOTHER", "RENAMED"), ("delete", image, "RENAMED")):
        status, printed, told = ran(program, *words)
        if status:
            return f"{words[0]}: {status} {printed}{told}"
    return ""


def planned(program, folder, image, said):
    """What isn't so of the next command that `plan` names for an image of which `check` says this; it is run as a shell runs it."""
    row = json.loads(ran(program, "plan", "--json", image)[1])
    line = ran(program, "plan", image)[1]
    words = row["next"]
    if (words is None) == line.rstrip().endswith(str(words)) or bool(row["lost"]) != ("may be lost" in line):
        return f"the line and the object of `plan` differ: {line}{row}"
    if words is None:
        return "" if row["verdict"] == "OK" or "does no harm" in said else f"`plan` names nothing: {line}"
    if not words.startswith(("ledger repair ", "ledger extract ")):
        return f"`plan` names another command: {line}"
    copy = folder / "planned.d64"
    shutil.copy(image, copy)
    words = words.replace(str(image), str(copy))
    shutil.rmtree(f"{copy}-files", ignore_errors=True)
    done = subprocess.run(words.replace("ledger", shlex.quote(program), 1), shell=True, capture_output=True, timeout=60)
    if words.startswith("ledger extract "):
        return "" if Path(f"{copy}-files").is_dir() else f"the next command makes nothing: {line}"
    printed = done.stdout.decode("latin1")
    if done.returncode and not re.search(r"KEPT \d+\n\Z", printed):
        return f"the next command ends with {done.returncode} {printed}{done.stderr.decode('latin1')}: {line}"
    fault = takes_a_file(program, copy, folder)
    return f"after it the disk takes no file ({fault}): {line}" if fault else ""


def followed(program, folder, data):
    """What isn't so of what is advised for a disk."""
    image = folder / "odd.d64"
    image.write_bytes(data)
    status, verdict, told = ran(program, "check", "--explain", image)
    said = " ".join(told.split())
    commands = re.findall(r"`((?:repair|extract)[a-z -]*)`", said)
    fault = planned(program, folder, image, said)
    if image.read_bytes() != data:
        return "check or plan changed the image"
    if fault:
        return f"{fault}: {verdict}{said}"
    if status == 0 and "SHORT" not in said:
        # nothing was advised but what FEWER says
        return "" if verdict.startswith("OK") else f"{verdict}{said}"
    if not commands and "does no harm" not in said:
        return f"no way is named: {verdict}{said}"
    for command in commands:
        copy = folder / "copy.d64"
        copy.write_bytes(data)
        if command.startswith("extract"):
            out = folder / "out"
            shutil.rmtree(out, ignore_errors=True)
            ran(program, "extract", copy, out)
            if not out.is_dir():
                return f"`extract` made nothing: {verdict}{said}"
            continue
        ended, printed, why = ran(program, *command.split(), copy)
        if ended and not printed.endswith(tuple(f"KEPT {number}\n" for number in range(1, 684))):
            return f"`{command}` ends with {ended} {printed}{why}: {verdict}{said}"
        if command == "repair" and said.endswith("`repair` corrects it"):
            after = ran(program, "check", copy)
            if after[:2] != (0, "OK\n"):
                return f"after `repair` check says {after[1]}: {verdict}{said}"
        fault = takes_a_file(program, copy, folder)
        if fault:
            return f"after `{command}` the disk takes no file ({fault}): {verdict}{said}"
    if "does no harm" in said:
        return takes_a_file(program, image, folder)
    return ""


def main(given):
    program, seed, counts = given.program, given.seed, [0, 0]
    with tempfile.TemporaryDirectory() as name:
        folder = Path(name)
        for number, hurts, data in odd_disks(program, folder, given.amount, str(seed)):
            fault = followed(program, folder, data)
            counts[bool(fault)] += 1
            if fault:
                at(number + 1)
                print(f"disk {number} of seed {seed} ({', '.join(hurts)}): {fault.strip()}")
    return tuple(counts)


if __name__ == "__main__":
    conduct(main)
