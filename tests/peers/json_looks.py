#!/usr/bin/env python3
"""What `list`, `free`, `show` and `map` print with --json, as Python's `json` reads it, beside what they print without it.

    tests/peers/json_looks.py PROGRAM [--amount IMAGES] [--seed N]

PROGRAM is what `tools/program` prints. The disks are those of tests/lib/disks.py: shops, disks of cc1541 and cbmconvert, files of GEOS,
and the same with faults. More images are made of them by random bytes in the map, the directory and the relative files' first sectors;
some are cut, or get more tracks. Of each image:

- a line is one object with just its keys, and reads as the same text as the command prints without --json: each byte of it can be
  made of the object; of a map all but the numbers of records, the structures and types of GEOS, the lines of sectors past track 35, and
  the names of systems that keep a map of tracks 36 to 40;
- for a file of GEOS there are the structure and the type that a reader in Python finds in the entry (tests/lib/geos.py); other entries
  have none;
- a refused image has its name and the word, and the exit statuses are the same;
- with --as-is, `list` and `show` tell of an image with more tracks what they tell of its first 35 tracks.

Several images in one command give the same lines. Not part of the gate."""

import json
import random
import re
import subprocess
import sys
import tempfile
from pathlib import Path

sys.dont_write_bytecode = True
sys.path.insert(0, str(Path(__file__).resolve().parents[1] / "lib"))
import disks
import geos
from drawn import SIZE, start
from trial import at, check, conduct, need

ENTRY = {"blocks", "closed", "geos", "locked", "name", "record_length", "sector", "track", "type"}
KEYS = {
    "list": {"disk", "dos_type", "entries", "free", "id", "name", "refused"},
    "free": {"free", "name", "refused", "tracks"},
    "map": {"beyond", "files", "name", "refused", "sector", "sectors", "short", "track", "verdict"},
    "show": {"cards", "name", "refused", "tills", "top"},
}
SIZES = {SIZE, 175_531, 196_608, 197_376, 205_312, 206_114}


def run(program, *words, folder):
    done = subprocess.run([program, *map(str, words)], capture_output=True, cwd=folder, stdin=subprocess.DEVNULL)
    return done.returncode, done.stdout, done.stderr


def bytes_of(typed):
    """The bytes for which this can be typed."""
    parts = typed.encode("ascii").split(b"\\")
    return parts[0] + b"".join(bytes([int(it[:2], 16)]) + it[2:] for it in parts[1:])


def shown(data):
    return "".join(chr(it) if 32 <= it <= 126 else "?" for it in data)


def in_quotes(typed):
    """A name as a listing has it, up to the first shifted space."""
    return '"' + shown(bytes_of(typed).split(b"\xa0")[0]) + '"'


def list_text(told):
    """What `list` prints of a disk, made of its object."""
    lines = [f"0 {in_quotes(told['disk'])} {shown(bytes_of(told['id']))} {shown(bytes_of(told['dos_type']))}"]
    for entry in told["entries"]:
        kind = ("" if entry["closed"] else "*") + entry["type"] + ("<" if entry["locked"] else "")
        lines.append(f"{entry['blocks']} {in_quotes(entry['name'])} {kind}")
    return "".join(f"{it}\n" for it in [*lines, f"{told['free']} BLOCKS FREE"])


def free_text(told):
    return "".join(f"TRACK {it['track']} FREE {it['free']}\n" for it in told["tracks"]) + f"{told['free']} BLOCKS FREE\n"


def told_text(word, told):
    return f"{word} {told['message']},{told['reply'].split(',', 2)[2]}\n" if told else ""


def show_text(told):
    cards = "".join(f"CARD {it['item']},{it['quantity']}\n" for it in told["cards"])
    tills = "".join(told_text("TILL", it["last"]) + told_text("PRIOR", it["prior"]) for it in told["tills"])
    return f"TOP {told['top']}\n{cards}{tills}"


HEAD = "   0         1         2\n   012345678901234567890\n"
WIDE_HEAD = "   " + " ".join(f"{it:02}" for it in range(21)) + "\n"
MARKS = {"map": "*", "directory": "=", "free": ".", "taken": "?", "block": "a", "side": "A"}


def mark(sector, wide, at_fault):
    """The mark of a sector; with more than 26 files of two characters."""
    if at_fault:
        return "!!" if wide else "!"
    first = MARKS[sector["kind"]]
    if sector["file"] is None:
        return first * 2 if wide else first
    letter, digit = chr(ord(first) + sector["file"] % 26), str(sector["file"] // 26 % 10)
    return letter + digit if wide else letter


def kind_text(entry):
    return ("" if entry["closed"] else "*") + entry["type"] + ("<" if entry["locked"] else "")


def quoted(name):
    return f' "{name}"' if name is not None else ""


def map_text(told, is_longer):
    """What `map` prints of a disk, made of its object."""
    wide = len(told["files"]) > 26
    lines, fault = [], (told["track"], told["sector"])
    for track in range(1, 36):
        marks = [mark(it, wide, (track, it["sector"]) == fault) for it in told["sectors"] if it["track"] == track]
        lines.append(f"{track:2} " + (" " if wide else "").join(marks))
    for number, entry in enumerate(told["files"]):
        sign = chr(97 + number % 26) + (str(number // 26 % 10) if wide else "")
        lines.append(f'{sign} {entry["blocks"]} "{entry["name"]}" {kind_text(entry)}')
    if told["verdict"] != "OK" or told["short"] is None:
        lines.append(told["verdict"])
    lines += [f"SHORT {told['short']}"] if told["short"] else []
    if is_longer:
        for it in told["sectors"]:
            name = None if it["file"] is None else told["files"][it["file"]]["name"]
            lines += [f"ERROR {it['error']} {it['track']}/{it['sector']}{quoted(name)}"] if it["error"] else []
        lines += [f"BEYOND {it['track']}/{it['sector']}{quoted(it['name'])}" for it in told["beyond"]]
    return (WIDE_HEAD if wide else HEAD) + "".join(f"{it}\n" for it in lines)


def bare_map(text):
    """The text of a map without what its object doesn't tell."""
    text = re.sub(r" LENGTH \d+ RECORDS \d+$", "", text, flags=re.M)
    text = re.sub(r" GEOS (VLIR|sequential) [A-Z][A-Za-z ]+\w$", "", text, flags=re.M)
    text = re.sub(r"^(ERROR (BYTE )?\d+|OWNEDTWICE) (3[6-9]|4[0-2])/.*\n", "", text, flags=re.M)
    return re.sub(r"^(SPEEDDOS|DOLPHINDOS|PROLOGICDOS) 36-40\n", "", text, flags=re.M)


TEXT = {"list": list_text, "free": free_text, "show": show_text}


def slots_of(image):
    """The used slots, in the order of the directory."""
    slots, place = [], (18, 1)
    while place[0]:
        sector = geos.sector(image, place)
        slots += [it for it in (sector[at:at + 32] for at in range(0, 256, 32)) if it[2]]
        place = tuple(sector[:2])
    return slots


def geos_of(slot):
    if not geos.is_geos(slot):
        return None
    return {"structure": "VLIR" if slot[23] else "sequential", "type": slot[24]}


def same_object(line, word, name, text, error, image, is_longer, what):
    """The object of a line tells what the text does."""
    told = json.loads(line)
    check(told["name"] == name, f"{what}: name {told['name']}")
    if error:
        check(told == {"name": name, "refused": error.decode().strip()}, f"{what}: {told}, not {error}")
        return
    check(told["refused"] is None and told.keys() == KEYS[word], f"{what}: keys {sorted(told)}")
    if word == "map":
        made, text = map_text(told, is_longer), bare_map(text.decode())
        check(made == text, f"{what}: {made!r}, not {text!r}")
        return
    check(TEXT[word](told) == text.decode(), f"{what}: {TEXT[word](told)!r}, not {text!r}")
    if word == "list":
        slots = slots_of(image)
        check(len(slots) == len(told["entries"]), f"{what}: {len(slots)} slots")
        for slot, entry in zip(slots, told["entries"]):
            found = entry["geos"] and {key: entry["geos"][key] for key in ("structure", "type")}
            check(entry.keys() == ENTRY and found == geos_of(slot), f"{what}: {entry}")
            length = slot[23] if slot[2] % 64 == 4 else None
            check((entry["track"], entry["sector"], entry["record_length"]) == (slot[3], slot[4], length), f"{what}: {entry}")


def look_at(program, folder, name, what):
    """Looks at one image."""
    image = (folder / name).read_bytes()
    for word in KEYS:
        flags = ("--as-is",) if word in ("list", "show") and len(image) in SIZES and len(image) != SIZE else ()
        status, text, error = run(program, word, name, *flags, folder=folder)
        done, out, err = run(program, word, name, "--json", *flags, folder=folder)
        check((done, err) == (status, b"") and out.endswith(b"\n") and out.count(b"\n") == 1, f"{what}: {word}: {done} {out!r} {err!r}")
        same_object(out, word, name, text, error, image[:SIZE], len(image) != SIZE, f"{what}: {word}")


def odd(draw, image):
    """The image with some bytes that are others; perhaps longer, or cut."""
    image = bytearray(image)
    for _ in range(draw.choice((1, 3, 20))):
        place = draw.choice([(18, 0), (18, 1), (18, 1), (18, 4), (17, 0), (17, 1), (19, 0)])
        image[start(place) + draw.randrange(256)] = draw.choice((0, 1, 4, 0x22, 0x5c, 0x7f, 0x80, 0x84, 0xa0, 0xc4, draw.randrange(256)))
    more = draw.choice((SIZE,) * 6 + (175_531, 196_608, 205_312, 1000, 0))
    return bytes(image[:more]) + draw.randbytes(max(more - SIZE, 0))


def sound_and_hurt(program, folder):
    """Shops, disks of other programs, and these with faults."""
    names = disks.example_disks(folder)
    sound = folder / "customers.d64"
    paths = [folder / f"{name}.d64" for name in names]
    paths += [disks.blank(program, folder / "blank.d64"), disks.shop_after_a_day(program, folder / "day.d64")]
    paths += [disks.full_shop(program, folder / "full.d64"), disks.of_cc1541(folder, folder / "tools.d64")]
    paths += [disks.of_cbmconvert(folder, folder / "relative.d64"), disks.named(sound, folder / "named.d64")]
    crowd = disks.crowded(folder, folder / "crowd.d64", b"name\xa0\xffmore")
    paths += [crowd, disks.with_every_byte(crowd, folder / "every.d64")]
    paths += [damage(sound).save(folder / f"{word}.d64") for word, damage in disks.FAULTS.items()]
    return [path.read_bytes() for path in paths]


def several(program, folder, names):
    """Several images together have the lines of each, and the greatest status."""
    for word in KEYS:
        alone = [run(program, word, "--json", name, folder=folder) for name in names]
        status, out, err = run(program, word, "--json", *names, folder=folder)
        check(out == b"".join(it[1] for it in alone) and not err, f"{word} of {names}: {out!r}")
        check(status == max(it[0] for it in alone), f"{word} of {names}: {status}")


def main(given):
    need(*disks.TOOLS)
    draw = random.Random(given.seed)
    with tempfile.TemporaryDirectory() as at_name:
        folder = Path(at_name)
        made = sound_and_hurt(given.program, folder)
        for number in range(given.amount):
            at(number + 1)
            name = f"odd{number}.d64"
            if number < len(made):
                (folder / name).write_bytes(made[number])
            else:
                (folder / name).write_bytes(odd(draw, draw.choice(made)))
            look_at(given.program, folder, name, f"image {number}")
            if number and number % 10 == 0:
                several(given.program, folder, [f"odd{it}.d64" for it in range(number - 3, number + 1)])


if __name__ == "__main__":
    conduct(main)
