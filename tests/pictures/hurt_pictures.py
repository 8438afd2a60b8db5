#!/usr/bin/env python3
"""Draws hurt images with the built program, and compares what it prints with the rules as drawn.py has them:

    tests/pictures/hurt_pictures.py PROGRAM [--amount RANDOM] [--seed N] [--jobs PROCESSES]

PROGRAM is what `tools/program` prints. The images, each of 174,848 bytes:
- RANDOM (10,000) of random bytes, nearly all without a directory;
- RANDOM / 10 of random bytes whose directory is the one sector 18/1;
- RANDOM / 10 in which each sector's link is some place of the disk and each entry is closed, with 1 to 18 sectors of
  directory;
- a shop after the README's day with one bit changed, each of the 12,288 of six sectors: the map, the directory, and the
  first side sectors and the first blocks of its two files.
Of each are run `map`, `picture`, `picture --svg`, `check`, and `picture` of the image without names. Either the directory's sectors are no
chain on track 18: then all are refused with the fault that `check` tells, and nothing is printed. Or:
- the map's marks are the rules', and `!` stands at the fault that `check` tells;
- the page, read by a strict XML parser, has each of the 683 sectors once, with the title and the classes of its owner,
  in order; a white line over each in use that the map calls free; the fault; and the names;
- it is to the byte what pages.py makes of the image by the rules;
- its tags are, in order and to the byte, those of the page without names, and outside of them stands no `<` and no `>`.
The status is 1 at the first difference, whose image is kept. The whole run is of 24,288 images, of which 14,314 are drawn
and 9,974 refused. It takes some eight minutes of processor time, mostly to read the pages."""

import multiprocessing
import random
import re
import subprocess
import sys
import tempfile
from collections import Counter
from pathlib import Path
from xml.parsers import expat

sys.dont_write_bytecode = True
sys.path.insert(0, str(Path(__file__).resolve().parents[1] / "lib"))
from disks import shop_after_a_day
from drawn import DIRECTORY, MAP, PLACES, SIZE, Disk, sectors_on, start
from pages import Page as Wanted, fault_of, verdict_of
from trial import conduct

JOBS = 2
# tags that HTML lets stand open, as XML has them
VIEWPORT = b'<meta name="viewport" content="width=device-width,initial-scale=1"'
OPEN_TAGS = ((b'<meta charset="utf-8">', b'<meta charset="utf-8"/>', 1), (VIEWPORT + b">", VIEWPORT + b"/>", 1))
TAG = re.compile(rb"<[^<>]*>")
STYLE = re.compile(rb"<style>.*?</style>", re.S)
FAULT = re.compile(r"([A-Z]+) (\d+)/(\d+)")


class Differs(Exception):
    """What an image shows isn't as it has to be."""


def want(holds, what):
    if not holds:
        raise Differs(what)


def without_names(image, disk):
    """The image whose disk and entries have no name, id and version."""
    blank = bytearray(image)
    for begin, end in ((0x90, 0xA0), (0xA2, 0xA4), (0xA5, 0xA7)):
        blank[start(MAP) + begin:start(MAP) + end] = b"\xa0" * (end - begin)
    for place in disk.directory:
        for slot in range(start(place), start(place) + 256, 32):
            blank[slot + 5:slot + 21] = b"\xa0" * 16
    return bytes(blank)


def file_class(number, side):
    """The classes of an entry's group: one of twelve colours and one of four widths; a side sector has `s` too."""
    return f"c{number % 12} w{number // 12 % 4}" + (" s" if side else "")


def ring(place, radius=None):
    """What says where a sector's circle is: its radius, and the dash that is the sector."""
    track, sector = place
    radius = radius or 35400 - 800 * track
    arc = 710 * radius // (113 * sectors_on(track))
    return str(radius), f"{arc - 200} 300000", f"-{sector * arc}"


RINGS = {place: ring(place) for place in PLACES}
DASHES = [ring((track, 0))[:2] for track in range(1, 36)]
DASH_OF = dict(DASHES)
# and half of it, in the middle, for entries of the fourth shape
HALVES = [(radius, f"0 {int(dash.split()[0]) // 4} {int(dash.split()[0]) // 2} 300000") for radius, dash in DASHES]
DASH_RULE = re.compile(r'(?<!\.w3 )\[r="(\d+)"\]\{stroke-dasharray:([\d ]+)\}')
HALF_RULE = re.compile(r'\.w3 \[r="(\d+)"\]\{stroke-dasharray:([\d ]+)\}')


def tags_of(page):
    """A page's tags as they are written; outside of them is no < and no >, but for the one style's."""
    rest = STYLE.sub(b"<style></style>", page, count=1)
    want(not re.search(rb"[<>]", TAG.sub(b"", rest)), "a < or > outside of tags")
    return TAG.findall(rest)


class Page:
    """A page as a strict parser of XML reads it: its circles, names, words, and its tags as they are written."""

    def __init__(self, page):
        style = STYLE.search(page)[0].decode()
        want(DASH_RULE.findall(style) == DASHES and HALF_RULE.findall(style) == HALVES and style.count("[r=") == 70,
             "the dashes of the rings")
        self.tags = tags_of(page)
        for tag, closed, times in OPEN_TAGS:
            want(page.count(tag) == times, f"{tag} stands {page.count(tag)} times")
            page = page.replace(tag, closed)
        self.circles, self.names, self.heads = [], [], []
        self._path, self._group, self._text = [], [], ""
        parser = expat.ParserCreate()
        parser.buffer_text = True
        parser.StartElementHandler, parser.EndElementHandler = self._start, self._end
        parser.CharacterDataHandler = self._add
        try:
            parser.Parse(page + b"</html>", True)
        except expat.ExpatError as error:
            raise Differs(f"the page is no XML: {error}") from error

    def _start(self, tag, attributes):
        self._path.append(tag)
        # (the signs after a name stand in <bdi>)
        self._text = self._text if tag == "bdi" else ""
        if tag == "g":
            name = attributes.pop("id", None)
            self._group.append((name, *attributes.items()))
        elif tag == "circle":
            radius, dash = attributes.pop("r"), attributes.pop("stroke-dasharray", None)
            if "style" in attributes:
                self.circles.append(["open", radius, attributes, None])
                return
            place = radius, dash or DASH_OF.get(radius), attributes.pop("stroke-dashoffset")
            name, *looks = self._group[-1]
            if attributes == {"class": "s"}:
                attributes = {"class": dict(looks)["class"] + " s"}
            (look,) = attributes.items() or looks[-1:]
            self.circles.append([name, place, look, None])

    def _end(self, tag):
        self._path.pop()
        if tag == "title" and self._path[-1:] == ["circle"]:
            self.circles[-1][3] = self._text
        elif tag == "a" and self._path[-1:] == ["td"]:
            self.names.append(self._text)
        elif tag in ("h1", "title", "b") or tag == "text" and not self._group:
            self.heads.append(self._text)
        elif tag == "g":
            self._group.pop()

    def _add(self, text):
        if self._path[-1] != "bdi":
            self._text += text


def wanted_circle(disk, place):
    """A sector's circle: its group, ring, class or colour, and title."""
    named = disk.class_of(place)
    if named:
        return ["m" if named in ("map", "dir") else "r", RINGS[place], ("class", named), disk.title(place)]
    number, kind, _ = disk.owner[place]
    return [f"f{number}", RINGS[place], ("class", file_class(number, kind == "side")), disk.title(place)]


def wanted_circles(disk, verdict):
    """The circles in their order: the map, the directory, the entries' blocks and side sectors, all other sectors, then
    the white lines and the fault."""
    system = [MAP, *disk.directory]
    files = [place for number, entry in enumerate(disk.entries)
             for kind, places in (("block", entry.blocks), ("side", entry.sides))
             for index, place in enumerate(places) if disk.owner[place] == (number, kind, index)]
    others = [place for place in PLACES if place not in disk.owner]
    places = system + files + others
    want(len(places) == 683 and len(set(places)) == 683, "drawn.py hasn't each sector once")
    lines = [white_line(disk, track) for track in range(1, 36)
             if any(is_open(disk, place) for place in PLACES if place[0] == track)]
    fault = []
    if fault_of(verdict):
        place, told = fault_place(verdict), verdict.splitlines()[0]
        fault = [["f", RINGS[place], ("class", "edge"), told], ["f", RINGS[place], ("class", "fault"), told],
                 ["f", ring(place, 35700), ("class", "fault"), None]]
    return [wanted_circle(disk, place) for place in places] + lines + fault


def is_open(disk, place):
    """Whether a sector is in use and free in the map."""
    return place in disk.owner and disk.is_free(place)


def white_line(disk, track):
    """A track's circle of white dashes: over each sector in use that the map calls free one as long as the sector's own."""
    arc = 710 * (35400 - 800 * track) // (113 * sectors_on(track))
    dashes = "".join(f"{arc - 200} 200 " if is_open(disk, place) else f"0 {arc} " for place in PLACES if place[0] == track)
    return ["open", str(35400 - 800 * track), {"style": f"stroke-dasharray:{dashes}"}, None]


def fault_place(verdict):
    found = FAULT.fullmatch(verdict.splitlines()[0])
    want(found, f"the verdict {verdict!r}")
    return int(found[2]), int(found[3])


class Bench:
    """A file for images, and the program."""

    def __init__(self, program, folder):
        self.program, self.file = program, Path(folder) / f"image{multiprocessing.current_process().pid}.d64"
        self.last_pages = {}

    def run(self, *words):
        done = subprocess.run([self.program, *words, str(self.file)], capture_output=True, timeout=60, close_fds=False)
        return done.returncode, done.stdout, done.stderr.decode("latin-1")

    def page(self, printed):
        """A page as it is read; of the last few each is read once."""
        if printed not in self.last_pages:
            if len(self.last_pages) == 8:
                del self.last_pages[next(iter(self.last_pages))]
            self.last_pages[printed] = Page(printed)
        return self.last_pages[printed]

    def see(self, image):
        """Compares all that is printed of one image; gives its verdict, or its refusal, and how many bytes its page has."""
        self.file.write_bytes(image)
        disk = Disk(image)
        checked, lines, _ = self.run("check", str(self.file))
        verdict = verdict_of(lines.decode().splitlines())
        want(checked == (1 if fault_of(verdict) else 0), f"check ends with {checked}")
        drawn = self.run("map"), self.run("picture"), self.run("picture", "--svg")
        if not disk.has_directory:
            for status, out, error in drawn:
                want((status, out, error) == (1, b"", f"LAYOUT {verdict}\n"), f"no directory, and {status}, {error}, {out[:80]}")
            fault_place(verdict)
            return "LAYOUT " + verdict.split()[0], 0
        want(all((status, error) == (checked, "") for status, _, error in drawn), "statuses, or words on standard error")
        printed, page, poster = (out for _, out, _ in drawn)
        want(poster.decode() == Wanted(image, verdict).poster(), "the poster differs from that of pages.py")
        self.see_map(printed.decode("latin-1").splitlines(), disk, verdict)
        self.see_page(page, image, disk, verdict)
        return verdict.split()[0], len(page)

    def see_map(self, lines, disk, verdict):
        fault = fault_of(verdict)
        tracks = disk.map_lines(fault)
        for line, wanted in zip(lines, tracks):
            want(line == wanted, f"{line} in the map in place of {wanted}")
        want(lines[len(tracks) + len(disk.entries):] == verdict.splitlines(), f"the map ends in {lines[-1]}")
        for number, (line, entry) in enumerate(zip(lines[len(tracks):], disk.entries)):
            want(re.match(f'{disk.mark_of_entry(number)} \\d+ "{re.escape(entry.name)}" ', line), f"{entry.name}'s line is {line}")

    def see_page(self, printed, image, disk, verdict):
        page = self.page(printed)
        wanted = wanted_circles(disk, verdict)
        want(len(page.circles) == len(wanted), f"{len(page.circles)} circles in place of {len(wanted)}")
        for circle, one in zip(page.circles, wanted):
            want(circle == one, f"{circle} in place of {one}")
        want(page.names == [entry.shown for entry in disk.entries], f"names {page.names}")
        name = disk.disk_name()
        want(page.heads == [name, name, verdict, name], f"heads {page.heads}")
        want(printed.decode() == Wanted(image, verdict).text(), "the page differs from that of pages.py")
        self.file.write_bytes(without_names(image, disk))
        want(page.tags == tags_of(self.run("picture")[1]), "tags differ without names")


def random_image(draw):
    return draw.randbytes(SIZE)


def with_directory(draw):
    """Random bytes, and a directory of the one sector 18/1."""
    image = bytearray(draw.randbytes(SIZE))
    image[start(DIRECTORY)] = 0
    return bytes(image)


def linked_image(draw):
    """Each sector's link is some place; the directory is a chain of 1 to 18 sectors, and its used entries are closed."""
    image = bytearray(draw.randbytes(SIZE))
    for place in PLACES:
        link = draw.choice(PLACES) if draw.random() < 0.98 else (0, draw.randrange(256))
        image[start(place):start(place) + 2] = bytes(link)
    directory = [DIRECTORY, *draw.sample([(18, sector) for sector in range(2, 19)], draw.randrange(18))]
    for place, link in zip(directory, [*directory[1:], (0, 255)]):
        image[start(place):start(place) + 2] = bytes(link)
        for slot in range(start(place), start(place) + 256, 32):
            image[slot + 2] = draw.choice((0, 0x80, 0x81, 0x82, 0xC2, 0x84, 0x84, 0xC4, 0x87, draw.randrange(256)))
            image[slot + 3:slot + 5], image[slot + 21:slot + 23] = bytes(draw.choice(PLACES)), bytes(draw.choice(PLACES))
    return bytes(image)


KINDS = {"random": random_image, "random with a directory": with_directory, "linked at random": linked_image}


def changed_sectors(shop):
    """Six sectors of a shop: the map, the directory, and of each file the first side sector and the first block."""
    disk = Disk(shop)
    return [MAP, DIRECTORY, *(place for entry in disk.entries for place in (entry.sides[0], entry.blocks[0]))]


def image_of(work, shop):
    """The image that a piece of work names."""
    kind, which = work
    if kind in KINDS:
        return KINDS[kind](random.Random(f"{kind} {which}"))
    place, bit = which
    image = bytearray(shop)
    image[start(place) + bit // 8] ^= 1 << bit % 8
    return bytes(image)


def begin(program, folder, shop):
    global bench, sound_shop
    bench, sound_shop = Bench(program, folder), shop


def see_one(work):
    image = image_of(work, sound_shop)
    try:
        return work, *bench.see(image), None
    except Differs as difference:
        return work, str(difference), 0, image


def main(given):
    program, count, seed = given.program, given.amount, given.seed
    memory = "/dev/shm" if Path("/dev/shm").is_dir() else None
    with tempfile.TemporaryDirectory(dir=memory) as folder:
        shop = shop_after_a_day(program, Path(folder) / "shop.d64").read_bytes()
        sectors = changed_sectors(shop)
        print("one bit changed of: " + " ".join("%d/%d" % place for place in sectors), flush=True)
        work = [("one bit", (place, bit)) for place in sectors for bit in range(2048)]
        for kind, share in zip(KINDS, (count, count // 10, count // 10)):
            work += [(kind, f"{seed} {number}") for number in range(share)]
        told, longest = Counter(), 0
        with multiprocessing.Pool(given.jobs, begin, (program, folder, shop)) as pool:
            for (kind, which), said, size, image in pool.imap_unordered(see_one, work, chunksize=20):
                if image:
                    kept = Path(tempfile.gettempdir()) / "hurt_picture.d64"
                    kept.write_bytes(image)
                    print(f"hurt_pictures.py: {kind}, {which}: {said}; the image is {kept}", file=sys.stderr)
                    sys.exit(1)
                told[kind, said] += 1
                longest = max(longest, size)
    for kind in ("one bit", *KINDS):
        counts = ", ".join(f"{word} {number}" for (of, word), number in sorted(told.items()) if of == kind)
        print(f"{kind}: {counts}")
    refused = sum(number for (_, word), number in told.items() if word.startswith("LAYOUT"))
    print(f"hurt_pictures: {len(work)} images, {len(work) - refused} pages and maps of 683 sectors, of at most {longest} bytes, "
          f"{refused} refused by their fault: no difference")
    return len(work)


if __name__ == "__main__":
    conduct(main, lambda parser: parser.add_argument("--jobs", type=int, default=JOBS, help="processes at a time"))
