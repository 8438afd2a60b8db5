#!/usr/bin/env python3
"""What `picture` prints of an image, by the rules and to the byte, in plain Python over drawn.py:

    tests/pictures/pages.py IMAGE VERDICT [--svg|--tile]
    tests/pictures/pages.py --compare IMAGE VERDICT IMAGE VERDICT

VERDICT is what `verdict_of` makes of what `check` prints. It isn't judged here. The parts that are the same on each page and
poster (style, dashes, legend, end) are taken from specs/Pictures.antt, specs/Posters.antt, specs/Legends.antt, specs/Sheets.antt
and specs/ComparedPages.antt, where the contracts have them."""

import re
import sys
from html import escape
from pathlib import Path

sys.dont_write_bytecode = True
sys.path.insert(0, str(Path(__file__).resolve().parents[1] / "lib"))
from drawn import MAP, PLACES, Disk, html_name, sectors_on

SPECS = Path(__file__).resolve().parents[2] / "crates" / "disk_pictures" / "specs"
WORDS = {
    "BADLINK": ("A link in sector ", " leads nowhere; "), "LOOP": ("A chain of sectors comes back to sector ", "; "),
    "OWNEDTWICE": ("Sector ", " has more than one owner; "), "BADTYPE": ("An entry in sector ", " has an unknown type; "),
    "UNCLOSED": ("A file with its entry in sector ", " was never closed; "),
    "BADSIDE": ("A relative file's side sectors are wrong at sector ", "; "),
    "BADLENGTH": ("An entry in sector ", " has a record length of 0 or 255; "),
    "COUNTWRONG": ("An entry in sector ", " has a wrong block count; "),
    "MAPWRONG": ("The map of free sectors is wrong at sector ", "; ")}
CUT = ("A file is cut short at sector ", "; ")


def fixed(name):
    """A text that the definition of this name gives."""
    text = "".join((SPECS / f"{it}.antt").read_text(encoding="utf-8") for it in
                   ("Pictures", "Posters", "Legends", "Sheets", "ComparedPages"))
    found = re.search(rf'^{name} = codes\s+"((?:[^"\\]|\\.)*)"', text, re.M)
    return re.sub(r"\\(.)", lambda one: {"n": "\n"}.get(one[1], one[1]), found[1])


def fault_of(verdict):
    """Where the fault is that is told, if one is."""
    return tuple(map(int, verdict.split()[1].split("/"))) if verdict.split()[0] in WORDS else None


def verdict_of(lines):
    """What a picture tells, by these lines of a check of the image and the image again: the fault and SHORT, a line each, or OK."""
    told = [line.rsplit(": ", 1)[1] for line in lines[:len(lines) // 2]]
    return "\n".join(told[1:] if told[0] == "OK" and told[1:] else told)


def html(text):
    return escape(text, quote=False)


def arc(radius, sectors):
    return 710 * radius // (113 * sectors)


def ring(place, radius=None):
    """The beginning of a sector's circle."""
    track, sector = place
    radius = radius or 35400 - 800 * track
    return f'<circle r="{radius}" stroke-dashoffset="-{sector * arc(radius, sectors_on(track))}"'


def look(number):
    return f"c{number % 12} w{number // 12 % 4}"


class Page:
    """The parts of a page."""

    def __init__(self, image, verdict):
        self.disk, self.verdict, self.map = Disk(image), verdict, Disk(image).sector(MAP)
        self.sound, self.fault = verdict == "OK", fault_of(verdict)

    def plain(self, place, group):
        return f'{ring(place)} class="{group}"><title>{html(self.disk.title(place))}</title></circle>\n'

    def file(self, number):
        entry = self.disk.entries[number]
        parts = [f'<g id="f{number}" class="{look(number)}">\n']
        for kind, places in (("block", entry.blocks), ("side", entry.sides)):
            for index, place in enumerate(places):
                if self.disk.owner[place] == (number, kind, index):
                    side = ' class="s"' if kind == "side" else ""
                    parts.append(f"{ring(place)}{side}><title>{html(self.disk.title(place))}</title></circle>\n")
        return "".join(parts) + "</g>\n"

    def is_open(self, place):
        return place in self.disk.owner and self.disk.is_free(place)

    def white_line(self, track):
        places = [place for place in PLACES if place[0] == track]
        if not any(map(self.is_open, places)):
            return ""
        whole = arc(35400 - 800 * track, sectors_on(track))
        dashes = "".join(f"{whole - 200} 200 " if self.is_open(place) else f"0 {whole} " for place in places)
        return f'<circle r="{35400 - 800 * track}" style="stroke-dasharray:{dashes}"/>\n'

    def fault_group(self):
        if not self.fault:
            return ""
        rim = arc(35700, sectors_on(self.fault[0])) - 200
        told = self.verdict.splitlines()[0]
        marks = "".join(f'{ring(self.fault)} class="{name}"><title>{told}</title></circle>\n' for name in ("edge", "fault"))
        return f'<g id="f">\n{marks}{ring(self.fault, 35700)} stroke-dasharray="{rim} 300000" class="fault"/>\n</g>\n'

    def drawing(self):
        disk = self.disk
        system = "".join(self.plain(place, "map" if place == MAP else "dir") for place in [MAP, *disk.directory])
        others = "".join(self.plain(place, disk.class_of(place)) for place in PLACES if place not in disk.owner)
        return (f'<g id="m">\n{system}</g>\n' + "".join(self.file(number) for number in range(len(disk.entries)))
                + f'<g id="r">\n{others}</g>\n<g class="open">\n' + "".join(self.white_line(track) for track in range(1, 36))
                + "</g>\n" + self.fault_group())

    def owner_named(self, owner):
        if owner[0] in ("map", "directory"):
            return f"the {owner[0]}"
        return ("the side sectors of " if owner[1] == "side" else "") + html(self.disk.entries[owner[0]].shown)

    def owners(self, place):
        """All owners of a sector, in the order of whose it is drawn as."""
        disk = self.disk
        found = [("map",)] * (place == MAP) + [("directory",)] * (place in disk.directory)
        for number, entry in enumerate(disk.entries):
            found += [(number, kind) for kind, places in (("block", entry.blocks), ("side", entry.sides)) if place in places]
        return found

    def summary(self):
        free = sum(self.map[4 * track] for track in range(1, 36) if track != 18)
        ends = f"{len(self.disk.entries)} files, {free} of 664 blocks free"
        if self.sound:
            return f"Sound: {ends}"
        (word, place), *more = map(str.split, self.verdict.splitlines())
        ends = "".join(f"a file is cut short at sector {where}; " for _, where in more) + ends
        owners = self.owners(self.fault)
        if word == "OWNEDTWICE" and len(owners) > 1:
            first, second = (self.owner_named(owner) for owner in owners[:2])
            return f"Sector {place} belongs to {first} and to {second}; {ends}"
        before, after = WORDS.get(word, CUT)
        return f"{before}{place}{after}{ends}"

    def row(self, number):
        entry = self.disk.entries[number]
        cells = f"{entry.length}</td><td>{entry.records()}" if entry.has_records() else "</td><td>"
        return (f'<tr><td><i class="{look(number)}"></i></td><td>{entry.count}</td><td><a href="#f{number}">{html(entry.shown)}</a>'
                f"<bdi>{html(entry.signs)}</bdi></td>"
                f"<td>{entry.type_text('&lt;')}</td><td>{cells}</td></tr>\n")

    def head(self):
        """The page up to the first group of sectors."""
        name = html(self.disk.disk_name())
        title = (f'<!DOCTYPE html>\n<html lang="en">\n<meta charset="utf-8">\n<meta name="viewport" content="width=device-width,'
                 f'initial-scale=1">\n<title>{name}</title>\n<style>{fixed("style")}{fixed("dashes")}</style>\n<h1>{name}'
                 f"<bdi>{html(self.disk.disk_signs())}</bdi></h1>\n"
                 "<p>1541 disk, id ")
        told = (f'{html(html_name(self.map[162:164]))} {html(html_name(self.map[165:167]))}</p>\n<p class="{"good" if self.sound else "bad"}">'
                f"<b>{self.verdict}</b> {self.summary()}</p>\n<main>\n"
                '<svg viewBox="-36600 -36600 73200 73200" role="img" aria-label="The disk as 35 rings of sectors, each in the '
                'colour of its file; the table lists the files">\n<svg x="-6900" y="-1200" width="13800" height="2400" '
                f'viewBox="-6900 -1200 13800 2400"><text y="400">{name}</text></svg>\n'
                '<g transform="rotate(-90)" aria-hidden="true">\n')
        return title + told

    def text(self):
        rows = "".join(self.row(number) for number in range(len(self.disk.entries)))
        return self.head() + self.drawing() + fixed("legend_text") + rows + fixed("end_text")

    def line(self, number):
        """The line of an entry on the poster."""
        entry = self.disk.entries[number]
        count = len(self.disk.entries)
        times = 3 if count <= 12 else 2 if count <= 36 else 1
        column, line = divmod(number, 36 // times)
        return (f'<svg x="{20 + 65 * times * column}" y="{306 + 3 * times * line}" width="{63 * times}" height="{3 * times}" '
                f'viewBox="0 0 63 3"><path class="{look(number)}" d="M0 1.5h3"/>'
                f'<text class="e" x="10" y="2.3">{entry.count}</text><text x="11.5" y="2.3">{entry.type_text("&lt;")}</text>'
                f'<g transform="translate(19)" clip-path="url(#n)"><text y="2.3">{html(entry.shown)}</text></g>'
                f'<text x="41.5" y="2.3">{html(entry.signs)}</text></svg>\n')

    def legend(self):
        """The rows of the poster's legend beside those that each disk has: of the kinds of sectors that it has, side by side."""
        nobodys = [place for place in PLACES if place not in self.disk.owner]
        rows = [("free", 20, any(map(self.disk.is_free, nobodys))), ("lost", 34, not all(map(self.disk.is_free, nobodys))),
                ("side", 40, any(owner[1:2] == ("side",) for owner in self.disk.owner.values())),
                ("used", 46, any(map(self.is_open, PLACES))), ("fault", 0, self.fault)]
        parts, left = [], 84
        for name, width, needed in rows:
            if needed:
                parts.append(f'<svg x="{left}" y="298" width="50" height="4">{fixed(f"{name}_told")}</text></svg>\n')
                left += width
        return "".join(parts)

    def poster(self):
        name = html(self.disk.disk_name())
        head = ('<svg xmlns="http://www.w3.org/2000/svg" width="297mm" height="420mm" viewBox="0 0 297 420">\n'
                f'<title>{name}</title>\n<style>{fixed("poster_style")}{fixed("dashes")}</style>\n'
                f'<clipPath id="n"><rect width="22" height="3"/></clipPath>\n<rect class="paper" width="297" height="420"/>\n<text class="name" x="148.5" y="24">{name}</text>\n'
                f'<text class="told" x="148.5" y="33"><tspan>{html(self.disk.disk_signs())}</tspan> 1541 disk, id {html(html_name(self.map[162:164]))} '
                f'{html(html_name(self.map[165:167]))}</text>\n<text class="told" x="148.5" y="40">{self.summary()}</text>\n'
                '<svg x="23.5" y="44" width="250" height="250" viewBox="-36600 -36600 73200 73200">\n<svg x="-6900" y="-1200" '
                f'width="13800" height="2400" viewBox="-6900 -1200 13800 2400"><text class="hub" y="400">{name}</text></svg>\n'
                '<g transform="rotate(-90)">\n')
        lines = "".join(self.line(number) for number in range(len(self.disk.entries)))
        return head + self.drawing() + fixed("legend_start") + self.legend() + lines + "</svg>\n"

    def shade(self, place):
        """Which of the 29 shades of a contact sheet a sector has."""
        if place == self.fault:
            return 0
        owner = self.disk.owner.get(place)
        if owner is None:
            return 3 if self.disk.is_free(place) else 4
        if owner[0] in ("map", "directory"):
            return 1 if owner[0] == "map" else 2
        return (5 if owner[1] == "block" else 17) + owner[0] % 12

    def tile(self, path):
        """The tile of a contact sheet, of the image at this path."""
        strokes = [""] * 29
        for place in PLACES:
            strokes[self.shade(place)] += f"M{place[0]} {place[1]}h.8"
        free = sum(self.map[4 * track] for track in range(1, 36) if track != 18)
        return (f'<figure class="{"good" if self.sound else "bad"}"><svg viewBox="0 -1 37 23" aria-hidden="true">'
                + "".join(f'<path class="p{number}" d="{drawn}"/>' for number, drawn in enumerate(strokes))
                + f'</svg><figcaption><code>{path_text(path)}</code> <span>{html(self.disk.disk_name())}'
                f"<bdi>{html(self.disk.disk_signs())}</bdi></span> <b>{self.verdict}</b> <span>{free} blocks free</span>"
                "</figcaption></figure>\n")


def path_text(path):
    return html(html_name(str(path).encode()))


def refused_tile(path, told):
    """The tile of an image that isn't drawn, of which this is told."""
    return f'<figure class="bad"><figcaption><code>{path_text(path)}</code> <b>{html(told)}</b></figcaption></figure>\n'


def sheet(tiles):
    """The contact sheet of these tiles."""
    return ('<!DOCTYPE html>\n<html lang="en">\n<meta charset="utf-8">\n<meta name="viewport" content="width=device-width,'
            f'initial-scale=1">\n<title>Disks: {len(tiles)}</title>\n<style>{fixed("sheet_style")}</style>\n'
            f'<h1>Disks: {len(tiles)}</h1>\n<main>\n' + "".join(tiles) + fixed("sheet_end"))


def runs(numbers):
    """Ascending numbers, of a run of neighbours the first and the last."""
    parts = []
    for number in numbers:
        if parts and parts[-1][1] == number - 1:
            parts[-1][1] = number
        else:
            parts.append([number, number])
    return "".join(f" {first}" if first == last else f" {first}-{last}" for first, last in parts)


class Comparison:
    """The pages of two disks, before and after, as one; `paths` are those of their images."""

    def __init__(self, before, after, paths):
        self.before, self.after, self.paths = before, after, paths

    def differs(self, place):
        return self.before.disk.sector(place) != self.after.disk.sector(place)

    def differences(self):
        return [place for place in PLACES if self.differs(place)]

    @staticmethod
    def counterparts(entries, others):
        """For each entry the one with its name among others that has as many of that name before it, or None."""
        left, found = {}, []
        for other in others:
            left.setdefault(other.name, []).append(other)
        for entry in entries:
            same = left.get(entry.name)
            found.append(same.pop(0) if same else None)
        return found

    @staticmethod
    def contents(disk, entry):
        bytes_of = b"".join(disk.sector(place)[2:] for place in entry.blocks)
        return bytes_of[:254 * max(len(entry.blocks) - 1, 0) + max(entry.last, 1) - 1]

    def records(self, former, entry):
        """The numbers of the records that differ, if both files have records of one length."""
        if not (former.has_records() and entry.has_records() and former.length == entry.length):
            return []
        old, new = self.contents(self.before.disk, former), self.contents(self.after.disk, entry)
        size = entry.length
        return [1 + at for at in range(max(former.records(), entry.records()))
                if old[at * size:(at + 1) * size] != new[at * size:(at + 1) * size]]

    def row(self, number, former):
        entry = self.after.disk.entries[number]
        if former is None:
            state, parts, records = "new", "", []
        else:
            changed = former.raw[2:] != entry.raw[2:]
            sectors = any(map(self.differs, entry.blocks + entry.sides))
            if not changed and not sectors:
                return ""
            same = self.contents(self.before.disk, former) == self.contents(self.after.disk, entry)
            state, records = "changed", self.records(former, entry)
            parts = "entry " * changed + "sectors " * sectors + "bytes" * (not same)
        return (f'<tr><td><i class="{look(number)}"></i></td><td>{state}</td><td><a href="#f{number}">{html(entry.shown)}</a>'
                f"<bdi>{html(entry.signs)}</bdi></td><td>{parts}</td><td>{runs(records)}</td></tr>\n")

    def rows(self):
        old, new = self.before.disk.entries, self.after.disk.entries
        rows = [self.row(number, former) for number, former in enumerate(self.counterparts(new, old))]
        gone = [f"<tr><td></td><td>gone</td><td>{html(entry.shown)}<bdi>{html(entry.signs)}</bdi></td><td></td><td></td></tr>\n"
                for entry, later in zip(old, self.counterparts(old, new)) if later is None]
        return "".join(rows + gone)

    def text(self):
        places = self.differences()
        marks = "".join(f"{ring(place)}/>\n" for place in places)
        return (self.after.head() + self.after.drawing() + fixed("marks_head") + marks + "</g>\n" + fixed("compared_head")
                + f"{path_text(self.paths[1])}</b> compared with <b>{path_text(self.paths[0])}</b>, "
                + f"{html(self.before.disk.disk_name())} ({self.before.verdict}). Sectors that differ: {len(places)}"
                + fixed("compared_legend") + self.rows() + fixed("end_text"))


def compare(before, verdict, after, later):
    """The comparison of the images at two paths, of which `check` prints this."""
    return Comparison(Page(Path(before).read_bytes(), verdict), Page(Path(after).read_bytes(), later), (before, after)).text()


def main(image, verdict, how=None, *more):
    if image == "--compare":
        sys.stdout.write(compare(verdict, how, *more))
        return
    page = Page(Path(image).read_bytes(), verdict)
    sys.stdout.write(page.poster() if how == "--svg" else page.tile(image) if how == "--tile" else page.text())


if __name__ == "__main__":
    main(*sys.argv[1:])
