"""Disks that scripts look at: shops of the built program, disks of cc1541 and cbmconvert (Debian's packages of these
names), and the same with a fault. Each is made anew, to the same bytes."""

import random
import subprocess
from pathlib import Path

from drawn import MAP, PLACES, SIZE, Disk, start
import keepers_files as keepers

TOP = Path(__file__).resolve().parents[2]
TOOLS = ("cc1541", "cbmconvert")


def call(*words, **more):
    subprocess.run([*map(str, words)], check=True, stdout=subprocess.DEVNULL, **more)


def some_bytes(seed, count):
    """Bytes that are the same each time."""
    return random.Random(seed).randbytes(count)


def records(seed, length, count, fields):
    """So many records of this length, each with one of these words in each field; a CR ends a field, zeros the record."""
    draw = random.Random(seed)
    return b"".join("".join(draw.choice(words) + "\r" for words in fields).encode().ljust(length, b"\0") for _ in range(count))


class Image:
    """An image in a file that is changed byte by byte."""

    def __init__(self, path):
        self.path = Path(path)
        self.bytes = bytearray(self.path.read_bytes())
        self.disk = Disk(bytes(self.bytes))

    def put(self, place, at, values):
        """Puts bytes into a sector."""
        self.bytes[start(place) + at:start(place) + at + len(values)] = bytes(values)
        return self

    def slot(self, number):
        """Where the slot of entry `number` stands, when no slot before it is free: its sector and byte."""
        return self.disk.directory[number // 8], 32 * (number % 8)

    def put_entry(self, number, at, values):
        """Puts bytes into the slot of an entry."""
        place, begin = self.slot(number)
        return self.put(place, begin + at, values)

    def mark(self, place, free):
        """Marks a sector as free or taken in the map, and counts it."""
        track, sector = place
        at, bit = 4 * track + 1 + sector // 8, 1 << sector % 8
        byte, count = self.bytes[start(MAP) + at], self.bytes[start(MAP) + 4 * track]
        if bool(byte & bit) != free:
            self.put(MAP, at, [byte ^ bit]).put(MAP, 4 * track, [count + (1 if free else -1)])
        return self

    def save(self, path):
        assert len(self.bytes) == SIZE
        Path(path).write_bytes(self.bytes)
        return Path(path)


def blank(program, path, tills=2):
    call(program, "format", path, "--tills", tills)
    return path


def shop_after_a_day(program, path):
    """The README's day."""
    blank(program, path, 4)
    call(program, "play", path, TOP / "examples/day_with_power_cuts.txt")
    return path


def full_shop(program, path):
    """A shop with as many cards as the disk holds."""
    blank(program, path, 64)
    day = path.with_suffix(".txt")
    lines = (f"{1 + item % 64},{1 + item // 64},S,{item},{item}\n" for item in range(1, 8820))
    day.write_text("".join(lines))
    call(program, "play", path, day)
    return path


def write_files(folder, path, files):
    """Writes files on an image by cc1541; each is a name, a type, its bytes or how many of them, and more words of
    cc1541's."""
    words = []
    for number, (name, kind, count, *more) in enumerate(files):
        data = folder / f"data{number}"
        data.write_bytes(count if isinstance(count, bytes) else some_bytes(name, count))
        words += ["-f", name, "-T", kind, *more, "-w", data]
    call("cc1541", "-q", "-m", *words, path)


def of_cc1541(folder, path):
    """Files of four types, one locked, one never closed, a separator, and an entry scratched by its type alone."""
    path.unlink(missing_ok=True)
    call("cc1541", "-q", "-n", "tools", "-i", "64 2a", path)
    write_files(folder, path, [
        ("loader", "PRG", 700), ("game", "PRG", 30000, "-P"), ("notes", "SEQ", 4000), ("font", "USR", 2048),
        ("scores", "SEQ", 600, "-O"), ("old game", "PRG", 9000)])
    call("cc1541", "-q", "-f", "----------------", "-T", "DEL", "-L", path)
    image = Image(path)
    return image.put_entry(5, 2, [0]).save(path)


def of_cbmconvert(folder, path):
    """Relative files with one, two and three side sectors."""
    native = []
    for name, length, count in (("names", 10, 200), ("stock", 16, 33016), ("address", 127, 76200)):
        file = folder / f"{name}.l{length:02X}"
        file.write_bytes(bytes(32 + byte % 64 for byte in some_bytes(name, count)))
        native.append(file.name)
    path.unlink(missing_ok=True)
    call("cbmconvert", "-v0", "-n", "-D4o", path.name, *native, cwd=folder)
    return path


def customers(folder, path):
    """A keeper's disk, sound: relative files of cbmconvert's, and programs and texts of cc1541's."""
    native = []
    for name, length, count, fields in (("address", 96, 343, keepers.ADDRESSES), ("orders", 48, 197, keepers.GOODS)):
        file = folder / f"{name}.l{length:02X}"
        file.write_bytes(records(name, length, count, fields))
        native.append(file.name)
    path.unlink(missing_ok=True)
    call("cbmconvert", "-v0", "-n", "-D4o", path.name, *native, cwd=folder)
    call("cc1541", "-q", "-n", "customers 1987", "-i", "cu 2a", path)
    write_files(folder, path, [
        ("menu", "PRG", keepers.padded(keepers.MENU, 2900)), ("enter orders", "PRG", keepers.padded(keepers.ENTER_ORDERS, 9100)),
        ("print labels", "PRG", keepers.padded(keepers.PRINT_LABELS, 5600)), ("letter", "SEQ", keepers.letters(7300))])
    return path


# the entries of `customers` by their numbers
ADDRESS, ORDERS, MENU, ENTER, LABELS, LETTER = range(6)


def with_map_wrong(path):
    """Ten sectors in use that the map calls free, and three taken that nobody owns."""
    image = Image(path)
    for place in image.disk.entries[ADDRESS].blocks[30:40]:
        image.mark(place, True)
    for place in ((35, 4), (35, 5), (34, 9)):
        image.mark(place, False)
    return image


def with_all_free(path):
    """A map that calls each sector free."""
    image = Image(path)
    for place in PLACES:
        image.mark(place, True)
    return image


def of_longest_page(path, target):
    """A disk made to have the longest page: eighteen sectors of directory, 144 entries named by fifteen `&` and $C2, and a map
    that calls each sector free. All other sectors are one chain. The first 163 are the first entry's blocks; each entry has as
    many side sectors next to the blocks that it begins with as these need, and the next entry begins with the last of them."""
    image = with_all_free(path)
    image.put(MAP, 0x90, b"&" * 15 + b"\xc2").put(MAP, 0xA2, b"&&").put(MAP, 0xA5, b"&&")
    directory = [(18, sector) for sector in range(1, 19)]
    others = [place for place in PLACES if place[0] != 18]
    for chain in (directory, others[::-1]):
        for place, link in zip(chain, [*chain[1:], (0, 255)]):
            image.put(place, 0, link)
    blocks = 163
    for number in range(144):
        more = min(blocks + (blocks + 119) // 120, len(others))
        slot = bytes([0xC4, *others[blocks - 1]]) + b"&" * 15 + b"\xc2" + bytes([*others[more - 1], 1])
        image.put(directory[number // 8], 32 * (number % 8) + 2, slot.ljust(28, b"\0") + b"\xff\xff")
        blocks = more
    return image.save(target)


def with_count_wrong(path):
    """A block count one too great."""
    image = Image(path)
    place, at = image.slot(ADDRESS)
    return image.put_entry(ADDRESS, 30, [image.disk.sector(place)[at + 30] + 1])


def with_bad_side(path):
    """A side sector that names another block of the file in one place."""
    image = Image(path)
    entry = image.disk.entries[ADDRESS]
    return image.put(entry.sides[0], 16 + 2 * 50, entry.blocks[7])


def with_bad_link(path):
    """A block whose link names track 77."""
    image = Image(path)
    return image.put(image.disk.entries[ENTER].blocks[12], 0, [77, 3])


def with_loop(path):
    """A chain that comes back to an earlier block of its own."""
    image = Image(path)
    blocks = image.disk.entries[ENTER].blocks
    return image.put(blocks[20], 0, blocks[3])


def with_two_owners(path):
    """A chain that leads into another file's."""
    image = Image(path)
    return image.put(image.disk.entries[LABELS].blocks[9], 0, image.disk.entries[LETTER].blocks[5])


def unclosed(path):
    """An entry that no drive closed."""
    return Image(path).put_entry(LETTER, 2, [0x01])


def with_bad_type(path):
    """A closed entry of a type that there isn't."""
    return Image(path).put_entry(LETTER, 2, [0x85])


def with_bad_length(path):
    """A relative entry with record length 0."""
    return Image(path).put_entry(ORDERS, 23, [0])


# each verdict's word, and the disk that is told it
FAULTS = {
    "MAPWRONG": with_map_wrong, "COUNTWRONG": with_count_wrong, "BADSIDE": with_bad_side, "BADLINK": with_bad_link,
    "LOOP": with_loop, "OWNEDTWICE": with_two_owners, "UNCLOSED": unclosed, "BADTYPE": with_bad_type,
    "BADLENGTH": with_bad_length}


def named(path, target):
    """The disk with names of markup, and bytes that no terminal shows, for its own and its entries'."""
    image = Image(path)
    image.put(MAP, 0x90, b"</title><script>").put(MAP, 0xA2, b"<b").put(MAP, 0xA5, b"&>")
    names = (b"<SCRIPT>", b"&amp;", b"\"onload=\"alert(1", b"<script>alert(1)", b"</g></svg>\\", b"\x00\x0d\xc1\xff'-->]]>\x7f")
    for number, name in enumerate(names):
        image.put_entry(number, 5, name.ljust(16, b"\xa0"))
    return image.save(target)


def with_every_byte(path, target):
    """A disk of sixteen entries and more, whose first sixteen names have the 256 bytes."""
    image = Image(path)
    for number in range(16):
        image.put_entry(number, 5, bytes(range(16 * number, 16 * number + 16)))
    return image.save(target)


def crowded(folder, path, name):
    """144 entries, each of which has this name, and as many blocks as there are."""
    path.unlink(missing_ok=True)
    files = [(f"file {number:03}", "PRG", 1000) for number in range(144)]
    call("cc1541", "-q", "-n", "crowded", path)
    write_files(folder, path, files)
    image = Image(path)
    for number in range(144):
        image.put_entry(number, 5, name.ljust(16, b"\xa0"))
    return image.save(path)


def cut_short(path):
    """A text that lost a block: a program that read the disk put zeros in its place."""
    image = Image(path)
    return image.put(image.disk.entries[LETTER].blocks[12], 0, bytes(256))


def of_geos(path):
    """A disk of GEOS with a document: its entry leads to an index of records, a VLIR, and to a block of information."""
    image = Image(path)
    places = [place for place in PLACES if place[0] in (10, 11)]
    index, info, *pages = places[:12]
    image.put(MAP, 171, (19, 8)).put(MAP, 173, b"GEOS format V1.0")
    pairs = b""
    for first, second in zip(pages[::2], pages[1::2]):
        pairs += bytes(first)
        image.put(first, 0, bytes(second)).put(first, 2, some_bytes(str(first), 254))
        image.put(second, 0, (0, 180)).put(second, 2, some_bytes(str(second), 179))
    image.put(index, 0, ((b"\0\xff" + pairs).ljust(254, b"\0") + b"\0\xff")[:256])
    image.put(info, 0, (b"\0\xff\x03\x15\xbf" + bytes(63) + b"\x83\x07\x01").ljust(256, b"\0"))
    image.put(info, 77, b"Write Image V2.0\0")
    entry = b"\x83" + bytes(index) + b"MINUTES".ljust(16, b"\xa0") + bytes(info) + b"\x01\x07" + bytes((87, 5, 8, 10, 30)) + b"\x0c\0"
    image.put_entry(LETTER + 1, 2, entry)
    for place in (index, info, *pages, (19, 8)):
        image.mark(place, False)
    return image


def example_disks(folder):
    """The disks of examples/disks, which docs/KEEPERS.md works on; gives their names."""
    sound = customers(folder, folder / "customers.d64")
    hurt = {"hurt": with_map_wrong, "looped": with_loop, "cut_short": cut_short, "geos": of_geos}
    for name, damage in hurt.items():
        damage(sound).save(folder / f"{name}.d64")
    return ["customers", *hurt]
