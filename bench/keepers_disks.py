#!/usr/bin/env python3
"""Disks and lines for keepers.sh:

    keepers_disks.py disk IMAGE LENGTH COUNT SEED   a clean disk with one relative file, RECORDS, of so many records
    keepers_disks.py lines LENGTH COUNT SEED        the lines of so many records

Records have any bytes, and the last one isn't 0."""

import random
import sys
from pathlib import Path

sys.path.insert(0, str(Path(__file__).resolve().parent.parent / "tests" / "lib"))
from record_disks import DATA, POINTERS, SIZE, Disk, line_of, places, sectors_of


def records_of(length, count, seed):
    draw = random.Random(seed)
    return [draw.randbytes(length - 1) + bytes([draw.randint(1, 255)]) for _ in range(count)]


def write_chain(disk, chain, blocks):
    for at, (place, block) in enumerate(zip(chain, blocks)):
        link = chain[at + 1] if at + 1 < len(chain) else (0, len(block) + 1)
        disk.put(place, 0, bytes(link) + block)


def write_map(disk, owned):
    disk.put((18, 0), 0, bytes([18, 1, 65, 0]))
    for track in range(1, 36):
        free = sum(1 << sector for sector in range(sectors_of(track)) if (track, sector) not in owned)
        disk.put((18, 0), 4 * track, bytes([free.bit_count()]) + free.to_bytes(3, "little"))
    disk.put((18, 0), 144, b"RECORDS".ljust(18, b"\xa0") + b"01\xa02A".ljust(9, b"\xa0"))


def disk_with(length, records):
    """A relative file from track 1 on, its blocks before its side sectors."""
    data = b"".join(records)
    blocks = [data[at : at + DATA] for at in range(0, len(data), DATA)]
    count = -(-len(blocks) // POINTERS)
    free = [place for place in places() if place[0] != 18]
    chain, sides = free[: len(blocks)], free[len(blocks) : len(blocks) + count]
    disk = Disk(bytes(SIZE))
    write_chain(disk, chain, blocks)
    listed = bytes(number for side in sides for number in side).ljust(12, b"\0")
    pointers = [bytes(number for place in chain[at : at + POINTERS] for number in place) for at in range(0, len(chain), POINTERS)]
    write_chain(disk, sides, [bytes([number, length]) + listed + some for number, some in enumerate(pointers)])
    slot = bytes([0x84, *chain[0]]) + b"RECORDS".ljust(16, b"\xa0") + bytes([*sides[0], length])
    total = len(chain) + len(sides)
    disk.put((18, 1), 0, b"\0\xff" + slot.ljust(28, b"\0") + bytes([total % 256, total // 256]))
    write_map(disk, {(18, 0), (18, 1), *chain, *sides})
    return disk.image


def main():
    match sys.argv[1:]:
        case ["disk", image, length, count, seed]:
            records = records_of(int(length), int(count), seed)
            Path(image).write_bytes(disk_with(int(length), records))
        case ["lines", length, count, seed]:
            records = records_of(int(length), int(count), seed)
            sys.stdout.writelines(line_of(number, record) for number, record in enumerate(records, 1))
        case _:
            sys.exit(__doc__)


main()
