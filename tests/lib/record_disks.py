"""1541 disk images and the text of bytes and records, read by the formats' rules and by nothing of the product."""

SIZE = 174_848
DATA = 254
POINTERS = 120
RELATIVE = 4


def sectors_of(track):
    return 21 if track <= 17 else 19 if track <= 24 else 18 if track <= 30 else 17


def start_of(place):
    """Where a sector begins in an image."""
    track, sector = place
    return 256 * (sum(map(sectors_of, range(1, track))) + sector)


def places():
    return [(track, sector) for track in range(1, 36) for sector in range(sectors_of(track))]


def text_of(data):
    """Bytes as text: those of $20 to $7E but `"` and `\\` as they are, the others as `\\` and two digits."""
    return "".join(chr(byte) if 0x20 <= byte <= 0x7E and byte not in b'"\\' else f"\\{byte:02x}" for byte in data)


def line_of(number, record):
    """The line that `records` prints."""
    return f'{number},"{text_of(bytes(record).rstrip(bytes(1)))}"\n'


def lines_of(records):
    return "".join(line_of(number, record) for number, record in enumerate(records, 1))


def empty(length):
    """A record that was never written."""
    return b"\xff" + bytes(length - 1)


def split(data, length):
    """The whole records of so many bytes."""
    return [data[at : at + length] for at in range(0, len(data) - length + 1, length)]


class Entry:
    """A used slot of the directory."""

    def __init__(self, place, at, slot):
        self.place, self.at = place, at
        self.kind, self.closed = slot[2] & 0x3F, slot[2] >= 0x80
        self.first, self.side = (slot[3], slot[4]), (slot[21], slot[22])
        self.name, self.length = slot[5:21].rstrip(b"\xa0"), slot[23]
        self.count = slot[30] + 256 * slot[31]


class Disk:
    def __init__(self, image):
        self.image = bytearray(image)

    def sector(self, place):
        start = start_of(place)
        return self.image[start : start + 256]

    def put(self, place, at, data):
        start = start_of(place) + at
        self.image[start : start + len(data)] = data

    def chain(self, place):
        """The sectors of a chain, and the last index of its last one."""
        walked = []
        while place[0]:
            assert place not in walked, "a loop"
            walked.append(place)
            place = tuple(self.sector(place)[:2])
        return walked, place[1]

    def entries(self):
        for place in self.chain((18, 1))[0]:
            for at in range(0, 256, 32):
                slot = bytes(self.sector(place)[at : at + 32])
                if slot[2]:
                    yield Entry(place, at, slot)

    def find(self, name):
        return next(entry for entry in self.entries() if entry.name == name)

    def bytes(self, entry):
        if not entry.first[0]:
            return b""
        walked, last = self.chain(entry.first)
        joined = b"".join(bytes(self.sector(place)[2:]) for place in walked)
        return joined[: DATA * (len(walked) - 1) + max(last, 1) - 1]

    def sides(self, entry):
        return self.chain(entry.side)[0]

    def records(self, entry):
        return split(self.bytes(entry), entry.length)

    def files(self):
        """Name, kind, record length and bytes of each entry, in order."""
        return [(entry.name, entry.kind, entry.length, self.bytes(entry)) for entry in self.entries()]

    def moved(self, other):
        """The sectors that differ, by track and sector."""
        return [place for place in places() if self.sector(place) != other.sector(place)]
