#!/usr/bin/env python3
"""Tries that a lost sector shortens no file silently, over disks that are made here, byte by byte:

    tests/hostile/lost_sectors.py PROGRAM

PROGRAM is what `tools/program` prints. An imaging tool fills a sector that it can't read with zeros. Here
- each block of a PRG of 36 blocks, and of a relative file of 343 records, is filled so in turn: `bytes` and `records`
  print what is left, with `SHORT t/s` and status 1; `repair`, `make` and `store` refuse the disk, unchanged, and go on
  with `--accept-loss`; `check` adds the line with `--explain`; the whole disk is told nothing;
- of a shop of 430 cards in 214 blocks, and 13 tills, each used unit of 256, 512 and 4,096 bytes is filled so in turn: `serve` refuses
  it, or nothing of the shop is lost;
- side sectors that list one block more than the chain has, as a growth leaves them that lost power, are taken, but not
  those of REQUESTS; two more are refused.
The status is 1 at the first difference. The last line tells what was tried, and how often."""

import random
import subprocess
import sys
import tempfile
from pathlib import Path

sys.dont_write_bytecode = True
sys.path.insert(0, str(Path(__file__).resolve().parents[1] / "lib"))
from trial import conduct

SIZE = 174_848
DATA = 254
POINTERS = 120


def sectors_of(track):
    return 21 if track <= 17 else 19 if track <= 24 else 18 if track <= 30 else 17


def start(place):
    track, sector = place
    return 256 * (sum(map(sectors_of, range(1, track))) + sector)


def want(holds, what):
    if not holds:
        print(f"lost_sectors: {what}")
        sys.exit(1)


class Made:
    """A disk that is made by the formats' rules."""

    def __init__(self):
        self.image = bytearray(SIZE)
        self.free = [(track, sector) for track in [*range(17, 0, -1), *range(19, 36)] for sector in range(sectors_of(track))]
        self.taken = {(18, 0), (18, 1)}
        self.entries = []
        self.put((18, 1), 0, [0, 255])

    def put(self, place, at, values):
        self.image[start(place) + at : start(place) + at + len(values)] = bytes(values)

    def take(self):
        place = self.free.pop(0)
        self.taken.add(place)
        return place

    def chain(self, data):
        blocks = [self.take() for _ in range(max(1, -(-len(data) // DATA)))]
        for number, place in enumerate(blocks):
            part = data[DATA * number : DATA * (number + 1)]
            last = number + 1 == len(blocks)
            self.put(place, 0, [0, len(part) + 1] if last else blocks[number + 1])
            self.put(place, 2, part)
        return blocks

    def enter(self, kind, name, first, count, side=(0, 0), length=0):
        number = len(self.entries)
        slot = bytes([kind, *first]) + name.encode().ljust(16, b"\xa0") + bytes([*side, length]) + bytes(6)
        self.put((18, 1), 32 * number + 2, slot + count.to_bytes(2, "little"))
        self.entries.append(name)

    def program(self, name, data):
        blocks = self.chain(data)
        self.enter(0x82, name, blocks[0], len(blocks))
        return blocks

    def relative(self, name, length, records):
        blocks = self.chain(b"".join(records))
        sides = [self.take() for _ in range(-(-len(blocks) // POINTERS))]
        self.list_blocks(blocks, sides, length)
        self.enter(0x84, name, blocks[0], len(blocks) + len(sides), sides[0], length)
        return blocks, sides

    def list_blocks(self, blocks, sides, length):
        """The side sectors of a file with these blocks."""
        for number, side in enumerate(sides):
            here = blocks[POINTERS * number : POINTERS * (number + 1)]
            link = sides[number + 1] if number + 1 < len(sides) else (0, 15 + 2 * len(here))
            self.put(side, 0, bytes(256))
            self.put(side, 0, [*link, number, length])
            self.put(side, 4, [byte for place in sides for byte in place])
            self.put(side, 16, [byte for place in here for byte in place])

    def whole(self):
        """The image, with its map."""
        self.put((18, 0), 0, [18, 1, 0x41, 0])
        for track in range(1, 36):
            bits = sum(1 << sector for sector in range(sectors_of(track)) if (track, sector) not in self.taken)
            self.put((18, 0), 4 * track, [bits.bit_count(), *bits.to_bytes(3, "little")])
        self.put((18, 0), 0x90, b"LOST".ljust(16, b"\xa0") + b"\xa0\xa0LS\xa02A\xa0\xa0\xa0\xa0")
        return bytes(self.image)


class Tried:
    def __init__(self, program, folder):
        self.program, self.folder = program, folder
        self.path = folder / "disk.d64"
        self.times = 0

    def run(self, *words, given=b""):
        self.times += 1
        done = subprocess.run([self.program, *map(str, words)], input=given, capture_output=True, timeout=120)
        return done.returncode, done.stdout, done.stderr.decode()

    def put(self, image):
        self.path.write_bytes(image)

    def refused(self, image, place, *words, given=b""):
        """The command says where a file is cut short, and leaves image and output as they were."""
        self.put(image)
        ended = self.run(*words, given=given)
        want(ended == (1, b"", f"SHORT {place[0]}/{place[1]}\n"), f"{words}: {ended}, and not SHORT at {place}")
        want(self.path.read_bytes() == image, f"{words}: the image has changed")

    def goes_on(self, image, *words, given=b""):
        """With --accept-loss it isn't told."""
        self.put(image)
        status, _, told = self.run(*words, "--accept-loss", given=given)
        want("SHORT" not in told, f"{words}: {told}")
        return status

    def all_refuse(self, image, place):
        lines = self.folder / "lines.csv"
        lines.write_text('1,"A"\n')
        self.refused(image, place, "repair", self.path)
        self.refused(image, place, "make", self.path, "NEW", "--length", 20)
        self.refused(image, place, "store", self.path, "ADDRESS", lines)
        self.refused(image, place, "serve", self.path, given=b"1,1,S,15,7\n")
        self.put(image)
        status, out, told = self.run("--explain", "check", self.path)
        is_said = f"SHORT {place[0]}/{place[1]}\n" in told and "`repair --accept-loss`" in told
        want(is_said, f"check: {status} {out} {told}")
        for words in (["repair"], ["make"], ["store"]):
            more = {"make": ["NEW", "--length", 20], "store": ["ADDRESS", lines]}.get(words[0], [])
            self.goes_on(image, *words, self.path, *more)


def zeroed(image, at, size=256):
    return image[:at] + bytes(size) + image[at + size :]


def files(tried):
    """A PRG of 36 blocks and a relative file of 343 records: each block of both is lost once."""
    draw = random.Random(5)
    made = Made()
    letter = draw.randbytes(9000)
    blocks = made.program("LETTER", letter)
    records = [(f"{number},CUSTOMER {number}\r".encode()).ljust(96, b"\0") for number in range(1, 344)]
    record_blocks, _ = made.relative("ADDRESS", 96, records)
    image = made.whole()
    tried.put(image)
    want(tried.run("--explain", "check", tried.path) == (0, b"OK\n", ""), "the whole disk isn't OK")
    want(tried.run("bytes", tried.path, "LETTER") == (0, letter, ""), "LETTER isn't whole")
    text = "".join(f'{number},"{number},CUSTOMER {number}\\0d"\n' for number in range(1, 344)).encode()
    want(tried.run("records", tried.path, "ADDRESS") == (0, text, ""), "ADDRESS isn't whole")
    for number, place in enumerate(blocks):
        cut = zeroed(image, start(place))
        told = f"SHORT {place[0]}/{place[1]}\n"
        tried.put(cut)
        want(tried.run("bytes", tried.path, "LETTER") == (1, letter[: DATA * number], told), f"LETTER without block {number}")
        want(tried.run("records", tried.path, "ADDRESS") == (0, text, ""), f"ADDRESS beside block {number}")
        if number in (0, 5, 34, 35):
            tried.all_refuse(cut, place)
    lines = text.splitlines(True)
    for number, place in enumerate(record_blocks):
        cut = zeroed(image, start(place))
        told = f"SHORT {place[0]}/{place[1]}\n"
        left = b"".join(lines[: DATA * number // 96])
        tried.put(cut)
        ended = tried.run("records", tried.path, "ADDRESS")
        want(ended == (1, left, told), f"ADDRESS without block {number}: {ended[0]} {len(ended[1])} {ended[2]}")
        want(tried.run("bytes", tried.path, "LETTER") == (0, letter, ""), f"LETTER beside block {number}")
        if number in (0, 19, 118, 119, 120, len(record_blocks) - 2, len(record_blocks) - 1):
            tried.all_refuse(cut, place)
    return len(blocks) + len(record_blocks)


def shop(tried):
    """Each used unit of a shop is lost once: it is refused, or nothing of the shop is lost."""
    tried.path.unlink(missing_ok=True)
    want(tried.run("format", tried.path, "--tills", 13)[0] == 0, "no shop")
    asks = "".join(f"{1 + n % 13},{1 + n // 13},S,{7 * n + 7},{n + 5}\n" for n in range(430)).encode()
    want(tried.run("serve", tried.path, given=asks)[0] == 0, "no cards")
    image = tried.path.read_bytes()
    _, whole, _ = tried.run("show", tried.path)
    counts = []
    for size in (256, 512, 4096):
        refused = kept = 0
        for at in range(0, SIZE, size):
            cut = zeroed(image, at, min(size, SIZE - at))
            if cut == image:
                continue
            tried.put(cut)
            status, _, told = tried.run("serve", tried.path)
            if status == 1:
                want(tried.path.read_bytes() == cut, f"{size} bytes at {at}: refused, and changed")
                refused += 1
                if told.startswith("SHORT"):
                    want(tried.run("play", tried.path, "/dev/null")[0] == 0, f"{size} bytes at {at}: not played")
                continue
            want(status == 0 and tried.run("show", tried.path)[1] == whole, f"{size} bytes at {at}: lost silently")
            kept += 1
        counts.append(f"{size}: {refused} refused, {kept} lost nothing")
    return "; ".join(counts)


def growths(tried):
    """What a growth leaves that lost power is taken; what none leaves isn't."""
    count = 0
    for blocks in (5, 119, 120, 121, 239, 240):
        for more in (1, 2):
            made = Made()
            data = [bytes([65 + n % 26]) * DATA for n in range(blocks)]
            chain, sides = made.relative("ADDRESS", 254, data)
            listed = chain + [made.take() for _ in range(more)]
            if len(listed) > POINTERS * len(sides):
                sides = sides + [made.take()]
            made.list_blocks(listed, sides, 254)
            tried.put(made.whole())
            status, _, told = tried.run("records", tried.path, "ADDRESS")
            place = chain[-1]
            say = "" if more == 1 else f"SHORT {place[0]}/{place[1]}\n"
            want((status, told) == (more - 1, say), f"{blocks} blocks and {more} listed more: {status} {told}")
            count += 1
    # REQUESTS of a shop never grows
    made = Made()
    empty = (b"\xff" + bytes(17)) * 14
    made.relative("STOCK", 18, [empty])
    chain, sides = made.relative("REQUESTS", 127, [b"\xff" + bytes(126)] * 8)
    made.list_blocks(chain + [made.take()], sides, 127)
    image = made.whole()
    tried.refused(image, chain[-1], "serve", tried.path, given=b"")
    want(tried.goes_on(image, "serve", tried.path) == 0, "a loss that is accepted")
    tried.put(image)
    want(tried.run("play", tried.path, "/dev/null")[0] == 0, "not played")
    return count + 1


def main(given):
    with tempfile.TemporaryDirectory() as folder:
        tried = Tried(given.program, Path(folder))
        lost = files(tried)
        units = shop(tried)
        grown = growths(tried)
        print(
            f"lost_sectors: {lost} blocks of two files lost, each told; units of a shop of {units}; "
            f"{grown} lists of side sectors; {tried.times} runs"
        )
    return tried.times


if __name__ == "__main__":
    conduct(main)
