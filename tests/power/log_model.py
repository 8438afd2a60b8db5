#!/usr/bin/env python3
"""A reader and writer of the log's format (docs/LOG.md), written from that page, and its crash states.

Needs Python 3 alone. `log_model.py [SEED [COMMITS]]` makes a log of random commits, cuts the power during each of them
at random, and checks that what is left stands for the image before the commit or after it. With `--rows` it prints the
values that the rows of `crates/tests_worked` compare with. It writes no file.
"""
import hashlib
import random
import sys
from pathlib import Path

sys.dont_write_bytecode = True
sys.path.insert(0, str(Path(__file__).resolve().parents[1] / "lib"))
from trial import conduct

BLOCK, BLOCKS, SECTORS, PER = 4096, 1024, 683, 15
SIZE = BLOCK * (BLOCKS + 1)
MARK = BLOCK * BLOCKS
BLANK = [bytes(256)] * SECTORS


def pair(number):
    return bytes((number % 256, number // 256))


def block(place, last, sectors):
    """One block: its place, whether it ends a commit, and (index, bytes) of its sectors."""
    body = bytearray(BLOCK)
    body[10] = 2 if last else 1
    body[11] = len(sectors)
    body[12:14] = pair(place)
    for k, (index, data) in enumerate(sectors):
        body[16 + 2 * k:18 + 2 * k] = pair(index)
        body[64 + 256 * k:320 + 256 * k] = data
    body[2:10] = hashlib.sha256(bytes(body[10:])).digest()[:8]
    body[0:2] = pair(bytes(body[2:]).count(0))
    return bytes(body)


def commit(place, sectors):
    """The blocks of a commit of these (index, bytes), in ascending order of the indices."""
    sectors = sorted(sectors)
    parts = [sectors[at:at + PER] for at in range(0, len(sectors), PER)]
    return b"".join(block(place + k, k == len(parts) - 1, part) for k, part in enumerate(parts))


def is_whole(data, place):
    return (len(data) == BLOCK and data[0] + 256 * data[1] == data[2:].count(0)
            and data[12] + 256 * data[13] == place and data[2:10] == hashlib.sha256(data[10:]).digest()[:8])


def read(log):
    """How many blocks are committed, the base, the image, and whether the log is marked."""
    whole = 0
    while whole < BLOCKS and is_whole(log[BLOCK * whole:BLOCK * whole + BLOCK], whole):
        whole += 1
    end = max((q + 1 for q in range(whole) if log[BLOCK * q + 10] == 2), default=0)
    image, base = list(BLANK), None
    for q in range(end):
        data = log[BLOCK * q:BLOCK * q + BLOCK]
        for k in range(min(PER, data[11])):
            index = data[16 + 2 * k] + 256 * data[17 + 2 * k]
            if index < SECTORS:
                image[index] = data[64 + 256 * k:320 + 256 * k]
        if base is None and data[10] == 2:
            base = list(image)
    return end, base, image, log[MARK] != 0


def begin(image):
    blocks = commit(0, list(enumerate(image)))
    return bytearray(blocks + bytes(SIZE - len(blocks)))


def torn(r, old, at, new):
    """The bytes at a place after a write that the power cut: each one old or new, in one of several manners."""
    out, manner = bytearray(old), r.choice(("any", "front", "back", "sectors", "one lost", "one came"))
    if manner == "any":
        share = r.random()
        kept = [r.random() < share for _ in new]
    elif manner == "front":
        cut = r.randrange(len(new) + 1)
        kept = [i < cut for i in range(len(new))]
    elif manner == "back":
        cut = r.randrange(len(new) + 1)
        kept = [i >= cut for i in range(len(new))]
    elif manner == "sectors":
        units = [r.random() < .5 for _ in range(len(new) // 512 + 1)]
        kept = [units[i // 512] for i in range(len(new))]
    else:
        one = r.randrange(len(new))
        kept = [(i == one) == (manner == "one came") for i in range(len(new))]
    for i, byte in enumerate(new):
        if kept[i]:
            out[at + i] = byte
    return out


def same(got, want, what):
    if got != want:
        sys.exit("log_model: " + what)


def expect(log, wants, base, what):
    end, found, image, marked = read(bytes(log))
    if image not in wants or found != base or marked:
        sys.exit("log_model: " + what)
    return wants.index(image)


def sector(r):
    return bytes(r.choice((0, 0, 0, r.randrange(256))) for _ in range(256))


def run(seed, commits):
    r = random.Random(seed)
    image = [sector(r) for _ in range(SECTORS)]
    log, base = begin(image), list(image)
    end = expect(log, [image], base, "the base") or read(bytes(log))[0]
    cuts = before = after = damaged = 0
    for _ in range(commits):
        touched = r.sample(range(SECTORS), r.choice((1, 2, 5, 15, 16, 40)))
        now = list(image)
        for index in touched:
            now[index] = sector(r)
        new = commit(end, [(index, now[index]) for index in touched])
        at = BLOCK * end
        for _ in range(20):
            which = expect(torn(r, log, at, new), [image, now], base, "a torn commit")
            cuts, before, after = cuts + 1, before + (which == 0), after + (which == 1)
        log[at:at + len(new)] = new
        end += len(new) // BLOCK
        same(expect(log, [now], base, "a commit"), 0, "a commit")
        # one byte of the last commit is another one, or its block stands in another place
        hurt = bytearray(log)
        where = at + r.randrange(len(new))
        hurt[where] ^= 1 << r.randrange(8)
        expect(hurt, [image], base, "a damaged block counts")
        moved = bytearray(log)
        moved[BLOCK * end:BLOCK * end + BLOCK] = log[at:at + BLOCK]
        expect(moved, [now], base, "a block in another place counts")
        damaged += 2
        image = now
    log[MARK] = 1
    same(read(bytes(log)), (end, base, image, True), "the mark")
    print("log_model: %d commits in %d blocks, %d cuts (%d left the image before, %d the one after), %d damaged or moved "
          "blocks, none wrong" % (commits, end, cuts, before, after, damaged))
    return commits + cuts + damaged


def rows():
    """The values of the rows, each printed as the row has it."""
    image = [bytes((index % 251,)) * 256 for index in range(SECTORS)]
    log = begin(image)
    print("base: first block", list(log[:18]), "last block", list(log[BLOCK * 45:BLOCK * 45 + 18]))
    print("sha256 of the base's blocks", hashlib.sha256(bytes(log[:BLOCK * 46])).hexdigest())
    one = commit(46, [(357, b"\x05" + bytes(255)), (682, bytes(range(256)))])
    print("commit of 357 and 682", list(one[:20]), len(one))
    print("sha256 of it", hashlib.sha256(one).hexdigest())


def main(given):
    if given.rows:
        rows()
        return 1
    return run(given.seed, given.amount)


if __name__ == "__main__":
    conduct(main, lambda parser: parser.add_argument("--rows", action="store_true", help="print the values of the rows"), wants_program=False)
