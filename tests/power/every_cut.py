#!/usr/bin/env python3
"""Opens each image that a disk held while the built program played days of messages (Debian's package strace):

    tests/power/every_cut.py PROGRAM [--amount DAYS] [--seed N]       so many days of each of five kinds, and single bits turned
    tests/power/every_cut.py PROGRAM --image IMAGE [--messages N] [--items N]      one day on an image without a card

PROGRAM is what `tools/program` prints. strace records each sector that `play` writes, so each image on the way can be made again:
power may have gone there. Each is opened, with each image of that opening, two openings deep. Each time
- `show` prints the shop before the message or the one after it; the one after it once a write was made, except in a first set;
- after the opening `check` says OK; the last two requests of each till get their kept answers, without a write; so does the message,
  or it is done now; `show` then prints the shop after it;
- no sector of another file was written.
The first days begin with cards of version 1, and with an intent of version 1 whose card is torn. Then each bit of a blank disk's six
sectors is turned: the image is opened, and clean then, or refused, and unchanged. The status is 1 at the first difference."""

import random
import re
import sys
import tempfile
from pathlib import Path

sys.dont_write_bytecode = True
sys.path.insert(0, str(Path(__file__).resolve().parents[1] / "lib"))
from days import day
from record_disks import Disk, start_of
from served import run, script, sure, want
from shop_rule import Shop, request_of
from trial import conduct

WRITE = re.compile(r'pwrite64\(\d+, "((?:\\x[0-9a-f]{2}){256})", 256, (\d+)\) += 256')
KINDS = [(300, 60), (200, 400), (60, 3500), (12, 9300)]
DEEP = 2
PLAYED = ["1,1,S,3,40", "1,2,R,3,2", "2,1,S,20,7", "2,2,I,20,9", "3,1,R,8,1", "4,1,S,9229,5", "6,1,I,20,3", "5,1,S,15,999999999"]
CODES = {"DONE": 0, "SHORT": 1, "OVER": 2, "NO CARD": 3, "72": 4}


class Trial:
    def __init__(self, program, room):
        self.program, self.image, self.log = program, room / "shop.d64", room / "log"
        self.room, self.seen = room, set()
        self.images = self.repeats = 0

    def play(self, held, lines):
        """What is printed of these lines on an image, and the sectors that are written: (place, bytes)."""
        self.image.write_bytes(held)
        words = ["-o", self.log, "-xx", "-s", "400", "-e", "trace=pwrite64", self.program]
        told = sure("strace", *words, "play", self.image, script(self.room, lines))
        found = [(int(at), bytes.fromhex(text.replace("\\x", ""))) for text, at in WRITE.findall(self.log.read_text())]
        want(self.log.read_text().count("pwrite64") == len(found), "a write of anything but one sector")
        return told, found

    def shown(self, held):
        self.image.write_bytes(held)
        return sure(self.program, "show", self.image)[1:]

    def apart(self, writes, others):
        want(not {at for at, _ in writes} & others, "a sector of another file is written")

    def settled(self, held, shop, line, others):
        """A disk after its opening: it answers what is sent again."""
        self.image.write_bytes(held)
        want(sure(self.program, "check", self.image) == ["OK"], "a disk isn't clean after its opening")
        after = copy_of(shop)
        again = [text_of(till, one) for till, kept in sorted(shop.kept.items()) for one in kept]
        told, writes = self.play(held, [it for it, _ in again])
        want(told == [it for _, it in again], "a kept answer is another one")
        want(not writes, "a repeat is written")
        self.repeats += len(again) + 1
        told, writes = self.play(held, [line])
        want(told == [after.reply(line)], f"{line} has another reply")
        want(not writes or after.kept != shop.kept, "a repeat is written")
        self.apart(writes, others)
        want(self.shown(after_writes(held, writes)) == after.shown(), "the shop is another one after the repeat")

    def opened(self, held, shop, line, others, deep=DEEP):
        """Opens an image that stands for a shop, and each image of that opening."""
        key = (bytes(held), line, str(shop.shown()))
        if key in self.seen:
            return
        self.seen.add(key)
        self.images += 1
        _, writes = self.play(held, [])
        self.apart(writes, others)
        last = after_writes(held, writes)
        want(self.shown(held) == shop.shown() == self.shown(last), "an opening has changed the shop")
        self.settled(last, shop, line, others)
        for count in range(1, len(writes)) if deep else ():
            self.opened(after_writes(held, writes[:count]), shop, line, others, deep - 1)

    def message(self, held, shop, line, others):
        """Plays a message on a shop at rest, which then stands after it, and opens each image on the way, the last one first."""
        before, request = copy_of(shop), request_of(line)
        reply = shop.reply(line)
        told, writes = self.play(held, [line])
        want(told == [reply], f"{line}: {told}, not {reply}")
        self.apart(writes, others)
        is_first = request and request[2][0] == "S" and request[2][1] not in before.stock and request[2][1] <= before.top
        stands = shop
        for count in range(len(writes), 0, -1):
            image = after_writes(held, writes[:count])
            if is_first and count < len(writes) and self.shown(image) != shop.shown():
                stands = before
            self.opened(image, stands, line, others)
        self.seen.clear()
        return after_writes(held, writes)

    def day(self, held, shop, lines):
        others, first = sectors_of_others(held), held
        for line in lines:
            held = self.message(held, shop, line, others)
        return first, held

    def whole(self, first, last, lines):
        """The same day in one run leaves the same disk."""
        want(after_writes(first, self.play(first, lines)[1]) == last, "a run of all lines leaves another disk")

    def blank(self, tills):
        self.image.unlink(missing_ok=True)
        sure(self.program, "format", "--new", self.image, "--tills", tills)
        return self.image.read_bytes(), Shop(tills, int(sure(self.program, "show", self.image)[0].removeprefix("TOP ")))


def drawn(shop, seed, messages, items):
    """So many messages of a shop's tills, a few of them no requests."""
    lines = day(random.Random(seed), messages * 64 // shop.tills, (items,))
    return [it for it in lines if not request_of(it) or request_of(it)[0] <= shop.tills][:messages]


def copy_of(shop):
    other = Shop(shop.tills, shop.top)
    other.stock, other.kept = dict(shop.stock), dict(shop.kept)
    return other


def text_of(till, kept):
    """A kept request as a message, and its reply."""
    number, (kind, item, quantity, to), answer = kept
    return f"{till},{number},{kind},{item},{quantity}{f',{to}' if kind == 'M' else ''}", f"{till},{number},{answer}"


def after_writes(held, writes):
    image = bytearray(held)
    for at, sector in writes:
        image[at : at + 256] = sector
    return bytes(image)


def sectors_of_others(held):
    """Where the sectors of all files but STOCK and REQUESTS begin."""
    disk = Disk(held)
    chains = [it for entry in disk.entries() if entry.name not in (b"STOCK", b"REQUESTS") for it in (entry.first, entry.side)]
    return {start_of(place) for first in chains if first[0] for place in disk.chain(first)[0]}


def put_record(disk, name, number, data):
    """Writes a record through its file's chain."""
    entry = disk.find(name)
    chain = disk.chain(entry.first)[0]
    for at, byte in enumerate(data, entry.length * (number - 1)):
        disk.put(chain[at // 254], 2 + at % 254, bytes([byte]))


def old_shop(trial):
    """A disk with cards of version 1, on which the last message's intent is open and its card torn."""
    held, shop = trial.blank(6)
    held = after_writes(held, trial.play(held, PLAYED)[1])
    for line in PLAYED:
        shop.reply(line)
    disk = Disk(held)
    for till, kept in shop.kept.items():
        number, (kind, item, quantity, _), answer = kept[0]
        shop.kept[till] = kept[:1]
        word, _, on = answer.partition(",")
        state = "I" if till == 5 else "A"
        card = f"{state},{number:09},{kind},{item:05},{quantity:09},{CODES[word]},{int(on) if on.isdigit() else 0:09}\r"
        put_record(disk, b"REQUESTS", till, card.encode().ljust(127, b"\0"))
    put_record(disk, b"STOCK", 15, b"\xa5" * 18)
    return bytes(disk.image), shop


def turned(trial):
    """Turns each bit of the map, the directory, and of both files' block and side sector; how many were opened."""
    held, _ = trial.blank(2)
    empty, tried, opened = script(trial.room, []), 0, 0
    for place in [(18, 0), (18, 1), (17, 0), (17, 1), (17, 2), (17, 3)]:
        for bit in range(2048):
            image = bytearray(held)
            image[start_of(place) + bit // 8] ^= 1 << bit % 8
            trial.image.write_bytes(image)
            status, _, _ = run(trial.program, "play", trial.image, empty)
            tried, opened = tried + 1, opened + (status == 0)
            if status == 0:
                want(sure(trial.program, "check", trial.image) == ["OK"], "a disk isn't clean after its opening")
            else:
                want(trial.image.read_bytes() == image, "an image that isn't opened is changed")
    print(f"{tried} images with one bit turned, {opened} of them opened", flush=True)


def own_days(trial, given):
    """One day on an image without a card, which is given."""
    held = given.image.read_bytes()
    trial.image.write_bytes(held)
    tills = Disk(held).find(b"REQUESTS")
    shop = Shop(len(Disk(held).records(tills)), int(sure(trial.program, "show", trial.image)[0].removeprefix("TOP ")))
    return [(held, shop, drawn(shop, given.seed, given.messages, given.items))]


def days_of_kinds(trial, given):
    """So many days of each of five kinds."""
    held, shop = old_shop(trial)
    trial.opened(held, shop, PLAYED[-1], set())
    old = after_writes(held, trial.play(held, [])[1])
    shops = [(old, shop, 100, 150), *((*trial.blank(6), *kind) for kind in KINDS)]
    seeds = range(given.seed, given.seed + given.amount)
    return [(held, copy_of(shop), drawn(shop, seed, *kind)) for held, shop, *kind in shops for seed in seeds]


def main(given):
    with tempfile.TemporaryDirectory() as room:
        trial = Trial(given.program, Path(room))
        days = own_days(trial, given) if given.image else days_of_kinds(trial, given)
        for held, shop, lines in days:
            trial.whole(*trial.day(held, shop, lines), lines)
            print(f"{trial.images} images, {trial.repeats} messages sent again", flush=True)
        if not given.image:
            turned(trial)
        print(f"{len(days)} days, no difference")
    return trial.images + trial.repeats


def more(parser):
    parser.add_argument("--image", type=Path, help="one day on this image, which has no card")
    parser.add_argument("--messages", type=int, default=200, help="of that day")
    parser.add_argument("--items", type=int, default=100, help="the greatest item of that day")


if __name__ == "__main__":
    conduct(main, more)
