"""What an image says of itself besides its disk of 35 tracks, in the lines of `trim`, `check --as-is`, `map` and `picture`: by the D64
layout and docs/KEEPERS.md."""

from drawn import PLACES, SIZE, Disk
from geos import ALL, long_parts

# what the drive reports for an error byte (the D64 layout)
ERRORS = {2: "20", 3: "21", 4: "22", 5: "23", 6: "24", 7: "25", 8: "26", 9: "27", 10: "28", 11: "29", 15: "74"}


# the sectors of tracks 36 to 42
PAST = [(track, sector) for track in range(36, 43) for sector in range(17)]


def beyond(disk, entry, place, raw, at, places):
    """The line of a chain that goes on past track 35."""
    track = disk.sector(places[-1])[0] if places else raw[at]
    if not 36 <= track <= 42:
        return ""
    place = places[-1] if places else place
    return f'BEYOND {place[0]}/{place[1]} "{entry.name}"\n'


def owner_name(disk, place):
    """The name of the entry that has the sector, in quotation marks after a space; nothing if it is no entry's."""
    owner = disk.owner.get(place) if disk.has_directory else None
    if owner is None or owner[0] in ("map", "directory"):
        return ""
    return f' "{disk.entries[owner[0]].name}"'


def whole_chain(tracks, link):
    """The sectors of a chain over all tracks of an image, by how many come before each; none if it doesn't come to its end."""
    numbers, chain = {place: number for number, place in enumerate(PLACES + PAST)}, []
    while link[0]:
        number = numbers.get(link, len(tracks))
        if 256 * number >= len(tracks) or number in chain:
            return []
        chain.append(number)
        link = tuple(tracks[256 * number:256 * number + 2])
    return chain


def all_sectors(tracks, slot):
    """The sectors of a closed file, by how many come before each: its chain, if that comes to its end, and all those of a file of GEOS with
    one past track 35, if the image has all of it."""
    parts = long_parts(tracks, slot)
    chain = whole_chain(tracks, (slot[3], slot[4])) if slot[2] >= 128 else []
    return {*chain, *(ALL[place] for place in (parts[0] if parts else []))}


def past_lines(tracks, errors, disk):
    """The lines of the sectors past track 35 that weren't read, and of those that several files have."""
    slots = [disk.sector(place)[at:at + 32] for place in disk.directory for at in range(0, 256, 32)] if disk.has_directory else []
    chains = [all_sectors(tracks, slot) for slot in slots if slot[2]]
    unread, shared = "", ""
    for number, (track, sector) in enumerate(PAST, SIZE // 256):
        names = [f' "{entry.name}"' for entry, chain in zip(disk.entries, chains) if number in chain] if chains else []
        error = errors[number] if number < len(errors) else 1
        if error != 1:
            unread += f"ERROR {ERRORS.get(error, f'BYTE {error}')} {track}/{sector}{''.join(names[:1])}\n"
        if len(names) > 1:
            shared += f"OWNEDTWICE {track}/{sector}{''.join(names[:2])}\n"
    return unread + shared


def missing_lines(image, errors, tracks=None):
    """The lines of an image whose first 35 tracks are these, and which has these error bytes; if all its tracks are given, with the lines
    of sectors past track 35."""
    disk = Disk(image)
    lines = []
    for place, error in zip(PLACES, errors):
        if error != 1:
            lines.append(f"ERROR {ERRORS.get(error, f'BYTE {error}')} {place[0]}/{place[1]}{owner_name(disk, place)}\n")
    if tracks:
        lines.append(past_lines(tracks, errors, disk))
    if not disk.has_directory:
        return "".join(lines)
    slots = [(place, disk.sector(place)[at:at + 32]) for place in disk.directory for at in range(0, 256, 32)]
    for entry, (place, raw) in zip(disk.entries, [it for it in slots if it[1][2]]):
        lines.append(beyond(disk, entry, place, raw, 3, entry.blocks))
        if entry.is_relative():
            lines.append(beyond(disk, entry, place, raw, 21, entry.sides))
    return "".join(lines)
