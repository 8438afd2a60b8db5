"""A D64 image of 35 tracks, and what `map` and `picture` draw of it, by the rules of docs/DISK.md and
crates/disk_pictures/README.md. For scripts that look at the built program from outside."""

import re
from html import escape

SIZE = 174_848
MAP = (18, 0)
DIRECTORY = (18, 1)


def sectors_on(track):
    return 21 if track <= 17 else 19 if track <= 24 else 18 if track <= 30 else 17


PLACES = [(track, sector) for track in range(1, 36) for sector in range(sectors_on(track))]
INDEX = {place: index for index, place in enumerate(PLACES)}


def start(place):
    """Where a sector's bytes begin."""
    return 256 * INDEX[place]


def name_text(name):
    """Bytes as `list`'s kin show them: $20 to $7E but " and \\ as they are, each other as \\ and two digits."""
    return "".join(chr(byte) if 32 <= byte <= 126 and byte not in b'"\\' else f"\\{byte:02x}" for byte in name)


def html_name(name):
    """Bytes as a page shows them: where their HTML would take more than 48 bytes, &, < and > are \\ and two digits too."""
    if len(escape(name_text(name), quote=False)) <= 48:
        return name_text(name)
    return re.sub("[&<>]", lambda found: f"\\{ord(found[0]):02x}", name_text(name))


# what a C64 shows from $40, $60 and $A0 on after it was switched on (Programmer's Reference Guide, appendix C), in Unicode 13
LETTERS = "@ABCDEFGHIJKLMNOPQRSTUVWXYZ[£]↑←"
SHIFTED = "─♠🭲🭸🭷🭶🭺🭱🭴╮╰╯🭼╲╱🭽🭾●🭻♥🭰╭╳○♣🭵♦┼🮌│π◥"
BLOCKS = "\u00a0▌▄▔▁▏🮕▕🮏◤🮇├▗└┐▂┌┴┬┤▎▍🮈🮂🮃▃🭿▖▝┘▘▚"


def sign(byte):
    """A byte as a C64 shows it; one of the control codes, and the quotation mark, as it is typed."""
    if byte < 64 or 0x80 <= byte < 0xA0:
        return name_text(bytes([byte]))
    return {2: LETTERS, 3: SHIFTED, 5: BLOCKS, 6: SHIFTED, 7: SHIFTED if byte == 0xFF else BLOCKS}[byte // 32][
        30 if byte == 0xFF else byte % 32]


def signs(name):
    """A name as a C64 shows it, and nothing where each of its bytes has the character that it has in ASCII."""
    return "" if all(byte < 92 or byte == 93 for byte in name) else "".join(map(sign, name))


class Entry:
    """A used entry of the directory, and the sectors that its links come to."""

    def __init__(self, raw):
        self.raw, self.kind = raw, raw[2]
        self.name = name_text(raw[5:21].rstrip(b"\xa0"))
        self.shown = html_name(raw[5:21].rstrip(b"\xa0"))
        self.signs = signs(raw[5:21].rstrip(b"\xa0"))
        self.first, self.side, self.length = tuple(raw[3:5]), tuple(raw[21:23]), raw[23]
        self.count = raw[30] + 256 * raw[31]
        self.blocks, self.sides, self.last = [], [], 0

    def is_closed(self):
        return self.kind >= 128

    def is_relative(self):
        return self.kind in (0x84, 0xC4)

    def has_records(self):
        """Whether its record length and its number of records are shown."""
        return self.is_relative() and bool(self.blocks) and self.length != 0

    def records(self):
        """How many whole records its blocks have: 254 bytes each, the last one up to its last index."""
        return (254 * (len(self.blocks) - 1) + max(self.last, 1) - 1) // self.length

    def type_text(self, locked):
        """Its type: after a star if no drive closed it, before this mark if it is locked."""
        name = dict(enumerate(("DEL", "SEQ", "PRG", "USR", "REL"))).get(self.kind % 64, "???")
        return ("" if self.is_closed() else "*") + name + (locked if self.kind >> 6 & 1 else "")


class Disk:
    """An image; `has_directory` says whether the directory's sectors are a chain on track 18, and then `directory` and
    `entries` are what is drawn, and `owner` of each place that somebody has `"map"`, `"directory"`, or an entry's number
    with `"block"` or `"side"` and the number there."""

    def __init__(self, image):
        assert len(image) == SIZE
        self.image = image
        self.directory = self._directory()
        self.has_directory = self.directory is not None
        self.entries, self.owner = [], {}
        if self.has_directory:
            self._draw()

    def sector(self, place):
        return self.image[start(place):start(place) + 256]

    def is_free(self, place):
        """Whether the map calls the sector free."""
        track, sector = place
        return self.image[start(MAP) + 4 * track + 1 + sector // 8] >> sector % 8 & 1 == 1

    def disk_name(self):
        return html_name(self.sector(MAP)[0x90:0xA0].rstrip(b"\xa0"))

    def disk_signs(self):
        return signs(self.sector(MAP)[0x90:0xA0].rstrip(b"\xa0"))

    def _directory(self):
        places, place = [], DIRECTORY
        while True:
            places.append(place)
            link = tuple(self.sector(place)[:2])
            if link[0] == 0:
                return places
            if link[0] != 18 or link not in INDEX or link == MAP or link in places:
                return None
            place = link

    def _walk(self, place):
        places, seen = [], set()
        while place in INDEX and place not in seen:
            places.append(place)
            seen.add(place)
            place = tuple(self.sector(place)[:2])
        return places

    def _draw(self):
        slots = [self.sector(place)[at:at + 32] for place in self.directory for at in range(0, 256, 32)]
        self.entries = [Entry(slot) for slot in slots if slot[2] != 0]
        self.owner = {place: ("directory",) for place in self.directory}
        self.owner[MAP] = ("map",)
        for number, entry in enumerate(self.entries):
            if not entry.is_closed():
                continue
            entry.blocks = self._walk(entry.first)
            if entry.blocks:
                track, last = self.sector(entry.blocks[-1])[:2]
                entry.last = last if track == 0 else 0
            if entry.is_relative():
                entry.sides = self._walk(entry.side)[:(len(entry.blocks) + 119) // 120]
            for kind, places in (("block", entry.blocks), ("side", entry.sides)):
                for index, place in enumerate(places):
                    self.owner.setdefault(place, (number, kind, index))

    def is_wide(self):
        """Whether the map has two characters for each sector: letters alone don't tell more than 26 entries apart."""
        return len(self.entries) > 26

    def doubled(self, mark):
        """A mark that is no entry's, as the map prints it."""
        return 2 * mark if self.is_wide() else mark

    def mark(self, place):
        """The mark of a sector in the map, but for `!`: a character, or two if there are more than 26 entries."""
        owner = self.owner.get(place)
        if owner is None:
            return self.doubled("." if self.is_free(place) else "?")
        if owner[0] in ("map", "directory"):
            return self.doubled("*" if owner[0] == "map" else "=")
        letter = chr((97 if owner[1] == "block" else 65) + owner[0] % 26)
        return letter + str(owner[0] // 26) if self.is_wide() else letter

    def mark_of_entry(self, number):
        """What the line of an entry begins with."""
        return chr(97 + number % 26) + (str(number // 26) if self.is_wide() else "")

    def class_of(self, place):
        """The class of a sector that is no entry's; None of an entry's."""
        owner = self.owner.get(place)
        if owner is None:
            return "free" if self.is_free(place) else "lost"
        return {"map": "map", "directory": "dir"}.get(owner[0])

    def map_lines(self, fault):
        """The numbers above the tracks and their lines, with `!` at the fault if there is one."""
        wide = self.is_wide()
        lines = ["   " + " ".join(f"{sector:02}" for sector in range(21))] if wide else [
            "   0         1         2", "   012345678901234567890"]
        for track in range(1, 36):
            marks = [self.doubled("!") if (track, sector) == fault else self.mark((track, sector))
                     for sector in range(sectors_on(track))]
            lines.append(f"{track:2} " + (" " if wide else "").join(marks))
        return lines

    def title(self, place):
        """What is said of a sector on pointing at it, but for a fault."""
        owner, begins = self.owner.get(place), "%d/%d " % place
        if owner is None:
            return begins + ("free" if self.is_free(place) else "taken, of no file")
        if owner[0] in ("map", "directory"):
            return begins + owner[0]
        number, kind, index = owner
        entry = self.entries[number]
        told = f"block {index + 1} of {len(entry.blocks)}" if kind == "block" else f"side sector {index}"
        return f"{begins}{entry.shown}, {told}"
