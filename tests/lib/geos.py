"""Files of GEOS on disks: a reader of images, and a maker of such files."""

from drawn import INDEX, SIZE

TYPES = range(1, 16)
# the sectors of tracks 1 to 42, each with how many come before it
ALL = INDEX | {(track, number): 683 + 17 * (track - 36) + number for track in range(36, 43) for number in range(17)}


def sector(image, place):
    return image[256 * ALL[place]:256 * ALL[place] + 256]


def is_like_geos(slot):
    """Whether the entry is a closed SEQ, PRG or USR with the structure and the type of a file of GEOS, and another info block than its
    first block."""
    return slot[2] & 0xBF in (129, 130, 131) and slot[23] <= 1 and slot[24] in TYPES and slot[21:23] != slot[3:5]


def is_geos(slot):
    """Whether the entry is that of a file of GEOS on tracks 1 to 35."""
    return is_like_geos(slot) and tuple(slot[21:23]) in INDEX and tuple(slot[3:5]) in INDEX


def whole_chain(image, place):
    """The sectors from this one on to the end; nothing if there is none in an image of these tracks."""
    places = []
    while place in ALL and 256 * ALL[place] < len(image) and place not in places:
        places.append(place)
        place = tuple(sector(image, place)[:2])
        if place[0] == 0:
            return places
    return None


def long_parts(image, slot):
    """The sectors of a file of GEOS with one past track 35, and the pairs of its records, of an image that has all of it; nothing of any
    other file."""
    info, first = tuple(slot[21:23]), tuple(slot[3:5])
    if len(image) == SIZE or not is_like_geos(slot) or any(it not in ALL or 256 * ALL[it] >= len(image) for it in (info, first)):
        return None
    places, pairs = [info], b""
    if slot[23] == 0:
        chains = [whole_chain(image, first)]
    else:
        places.append(first)
        index = sector(image, first)
        chains = [whole_chain(image, tuple(index[at:at + 2])) if index[at] else [] for at in range(2, 256, 2)]
        ends = [None if it is None else (len(it), sector(image, it[-1])[1] if it else index[2 * number + 3]) for number, it in enumerate(chains)]
        if any(it is None or it[0] > 255 for it in ends):
            return None
        pairs = b"".join(map(bytes, ends))
    if None in chains:
        return None
    places += [place for it in chains for place in it]
    return (places, pairs) if len(places) <= 800 and any(place not in INDEX for place in places) else None


def is_cvt(image, slot):
    """Whether the file is written as CVT."""
    return is_geos(slot) or long_parts(image, slot) is not None


def new_blocks(image, had, came_from, first, most):
    """The sectors that the links come to from `first`, up to one that the file has, and at most so many; the last index; what ends
    them before their end."""
    places, at = [], first
    while True:
        if at in places:
            return places, 255, f"LOOP {at[0]}/{at[1]}"
        if at in had or len(places) == most:
            before = places[-1] if places else came_from
            return places, 255, f"BADLINK {before[0]}/{before[1]}"
        places.append(at)
        link = tuple(sector(image, at)[:2])
        if link[0] == 0:
            return places, link[1], ""
        if link not in INDEX:
            return places, 255, f"BADLINK {at[0]}/{at[1]}"
        at = link


def reach(image, slot):
    """The blocks of a file of GEOS, the pairs of its records, the last index, and the first fault."""
    whole = long_parts(image, slot)
    if whole:
        return *whole, sector(image, whole[0][-1])[1], ""
    info, first = tuple(slot[21:23]), tuple(slot[3:5])
    if slot[23] == 0:
        own, last, fault = new_blocks(image, {info}, info, first, 683)
        return [info, *own], b"", last, fault
    blocks, pairs, last, fault = [info, first], bytearray(), 255, ""
    index = sector(image, first)
    for at in range(2, 256, 2):
        place = tuple(index[at:at + 2])
        own, end, ended = [], 255, ""
        if place[0] == 0:
            end = place[1]
        elif place not in INDEX:
            ended = f"BADLINK {first[0]}/{first[1]}"
        else:
            own, end, ended = new_blocks(image, set(blocks), first, place, 255)
        blocks += own
        pairs += bytes((len(own), end))
        last, fault = end if own else last, fault or ended
    return blocks, bytes(pairs), last, fault


def cvt(image, slot):
    """The file as one file of bytes."""
    blocks, pairs, last, _ = reach(image, slot)
    data = blocks[2 if slot[23] else 1:]
    named = b"PRG" if slot[23] else b"SEQ"
    head = (slot[2:32] + named + b" formatted GEOS file V1.0").ljust(254, b"\0")
    body = b"".join(sector(image, place)[2:] for place in data[:-1])
    end = sector(image, data[-1])[2:max(last, 1) + 1] if data else b""
    return head + sector(image, blocks[0])[2:] + pairs + body + end
