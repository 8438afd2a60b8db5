#!/usr/bin/env python3
"""Images as archives hand them out: of 35, 40 and 42 tracks, with error bytes and without, beside cc1541 and c1541.

    tests/peers/as_is.py PROGRAM [--amount IMAGES] [--seed N]

PROGRAM is what `tools/program` prints. cc1541 (Debian's package) makes each disk, of 35 tracks or of 40 with the map of SpeedDOS or
DolphinDOS, with files of random bytes, some of which lie beyond track 35. Then it gets tracks more, error bytes of any value, or a
changed link, also one that leads on or back past track 35, or an entry of another type, or it is cut. Of each image:

- `list --as-is` has the names, types and block counts that c1541 (of VICE) has in its directory;
- `check --as-is`, with --all and among several images, prints what `check` prints of the first 35 tracks alone, and then the lines that a
  reader of images in Python finds (tests/lib/missing.py), and which systems have a map of tracks 36 to 40 in 18/0; so do `map` and,
  without the last, `picture` and `picture --sheet`, and `picture --svg` says whether there are any;
- `extract` makes the files and the index of the reader of tests/hostile/extract.py, with each file's blocks that weren't read. A file
  that goes on past track 35 is whole if the image has all of its chain, and one of GEOS if it has all of its chains. It ends with the first fault of a file, or as of the first 35
  tracks alone, with the lines of sectors that weren't read after what it prints;
- `bytes` and `records` print of each name what this reader reads, and `bytes` of a disk that nothing changed what c1541 reads, also past
  track 35;
- without the flag it is `IMAGE SIZE`, and so it is with the flag if the image is cut;
- each run takes less than 24 MB, and leaves the image as it was. (A program of `rt try` isn't limited, since it takes more to start.)

Not part of the gate."""

import csv
import functools
import io
import random
import re
import resource
import shutil
import subprocess
import sys
import tempfile
from html import unescape
from pathlib import Path

sys.dont_write_bytecode = True
sys.path[:0] = [str(Path(__file__).resolve().parents[1] / it) for it in ("lib", "hostile")]
from drawn import PLACES, SIZE, name_text, start
from extract import HEADING, Wanted, has_records, is_closed, number_of
from missing import missing_lines
from trial import at, check, conduct, need

# how many bytes an image of so many tracks has
BYTES = {35: SIZE, 40: 196_608, 42: 205_312}
MOST_MEMORY = 24 << 20


def limit():
    resource.setrlimit(resource.RLIMIT_AS, (MOST_MEMORY, MOST_MEMORY))


@functools.cache
def runs_in_little(program):
    """Whether the program starts in so little memory."""
    return subprocess.run([program, "--version"], capture_output=True, preexec_fn=limit).returncode == 0


def run(program, *words, folder):
    done = subprocess.run([program, *map(str, words)], capture_output=True, cwd=folder, stdin=subprocess.DEVNULL,
                          preexec_fn=limit if runs_in_little(program) else None)
    return done.returncode, done.stdout.decode("utf-8", "replace"), done.stderr.decode("utf-8", "replace")


def made(folder, draw):
    """A disk of cc1541: how many tracks it has, and its bytes."""
    image, words = folder / "made.d64", []
    image.unlink(missing_ok=True)
    kind = draw.choice(([], [], ["-4"], ["-5"]))
    for number in range(draw.randint(1, 12)):
        file = folder / f"file{number}"
        file.write_bytes(draw.randbytes(draw.choice((1, 254, 255, 3000, 20_000))))
        words += ["-T", draw.choice(("PRG", "SEQ", "USR")), "-f", f"file {number}", "-w", file.name]
    far = ["-r", "33"] if kind and draw.random() < 0.7 else []
    for where in (far, []):  # the last tracks may have too little room
        if not image.exists():
            subprocess.run(["cc1541", "-n", "shelf", "-i", "sh", *kind, *where, *words, image.name], cwd=folder, capture_output=True)
    found = image.read_bytes()
    return (40 if len(found) == BYTES[40] else 35), found


def lead_past(draw, image, tracks):
    """Has a block lead past track 35, where a chain goes on: to its end, back to another track, or round and round."""
    past = [(track, number) for track in range(36, tracks + 1) for number in range(17)]
    chain = draw.sample(past, draw.choice((1, 2, 20, len(past))))
    end = draw.choice([(0, 255), (0, 7), (0, 0), draw.choice(PLACES), draw.choice(past), chain[0], (43, 0), (tracks + 1, 0), (36, 17)])
    for place, link in zip([draw.choice(PLACES), *chain], [*chain, end]):
        at = 256 * number_of(place)
        image[at:at + 2] = bytes(link)


def retyped(draw, image, tracks):
    """Makes an entry one of a relative file, or of a file of GEOS whose info block and first block are on any track."""
    slot = start((18, 1)) + 32 * draw.randrange(8)
    if image[slot + 2] == 0:
        return
    if draw.random() < 0.5:
        image[slot + 2], image[slot + 23] = 0x84, draw.choice((1, 20, 254, 255))
        return
    every = PLACES + [(track, number) for track in range(36, tracks + 1) for number in range(17)]
    image[slot + 21:slot + 25] = bytes((*draw.choice(every), draw.randint(0, 1), draw.randint(1, 15)))
    if draw.random() < 0.5:
        image[slot + 3:slot + 5] = bytes(draw.choice(every[683:] or every))


def odd(draw, tracks, image):
    """The image with more tracks, a changed byte or error bytes, and these; and whether it is whole."""
    image = bytearray(image)
    if draw.random() < 0.3:
        place = draw.choice([(18, 0), (18, 1), (17, 0), (17, 1), (1, 0), (19, 0)])
        image[start(place) + draw.choice((0, 1, 2, 3, 4, 35))] = draw.choice((0, 18, 36, 41, 42, 43, draw.randrange(256)))
    more = draw.choice([it for it in BYTES if it >= tracks])
    image += draw.randbytes(BYTES[more] - len(image))
    for _ in range(draw.choice((0, 0, 1, 3)) if more > 35 else 0):
        lead_past(draw, image, more)
    if draw.random() < 0.5:
        retyped(draw, image, more)
    errors = bytearray(b"\1" * (BYTES[more] // 256) if draw.random() < 0.7 else b"")
    for _ in range(draw.choice((0, 1, 5, 100)) if errors else 0):
        errors[draw.randrange(len(errors))] = draw.choice((0, 2, 5, 11, 15, 16, 255, draw.randrange(256)))
    whole = bytes(image + errors)
    if draw.random() < 0.1:
        return whole[:draw.randrange(len(whole))], errors, False
    return whole, errors, True


def maps_of(whole):
    """A line for each system that keeps a map of tracks 36 to 40 in 18/0, of an image that has these tracks."""
    lines = ""
    for name, at in (("DOLPHINDOS", 0xAC), ("SPEEDDOS", 0xC0), ("PROLOGICDOS", 0x90)):
        entries = [whole[it:it + 4] for it in range(start((18, 0)) + at, start((18, 0)) + at + 20, 4)]
        if len(whole) >= BYTES[40] and any(it[0] for it in entries) and all(
                it[3] <= 1 and it[0] == sum(byte.bit_count() for byte in it[1:]) for it in entries):
            lines += f"{name} 36-40\n"
    return lines


def end_of_extract(alone, made, lines):
    """How `extract` ends, which ended so of the first 35 tracks alone: these have to be made, and these lines say what wasn't read."""
    status, out, err = alone
    if made.faults:
        return 1, "", f"LAYOUT {made.faults[0]}\n"
    if err.startswith("LAYOUT "):  # tracks 1 to 35 break a file off, and the image has the rest
        return 1 if lines else 0, "EXTRACTED\n" + lines, ""
    return alone if err else (1 if lines else status, out + lines, "")


def take_out(program, folder, path, alone, whole, errors, lines, what):
    """Takes the files out of an image of these tracks, and compares what came of it with a reader in Python."""
    made = Wanted(whole, errors=errors)
    wanted = end_of_extract(run(program, "extract", alone, folder / "alone", folder=folder), made, lines)
    got = run(program, "extract", path, folder / "out", folder=folder)
    check(got == wanted, f"{what}: extract: {got}, not {wanted}")
    got = {it.name: it.read_bytes() for it in (folder / "out").iterdir()}
    rows = list(csv.reader(io.StringIO(got.pop("index.csv").decode(), newline="")))
    check(rows == [HEADING, *made.rows], f"{what}: the index is {rows}, not {made.rows}")
    check(got == made.files, f"{what}: the files")
    for made in ("alone", "out"):
        shutil.rmtree(folder / made)


def read_each(program, folder, path, whole, what):
    """Reads each file by its name, and returns what came of those of which there is no fault."""
    made, read = Wanted(whole), {}
    for name in made.names(is_closed, 144):
        data, slot, fault = made.first(name, is_closed)
        done = subprocess.run([program, "bytes", path, "--", name_text(name)], capture_output=True, cwd=folder)
        check(done.stdout == data, f"{what}: bytes {name}: {len(done.stdout)} bytes, not {len(data)}")
        relative = made.first(name, lambda it: is_closed(it) and has_records(it))
        if relative:
            lines = subprocess.run([program, "records", path, "--", name_text(name)], capture_output=True, cwd=folder).stdout
            check(lines == made.lines(relative[0], relative[1][23]), f"{what}: records {name}")
        told = done.stderr.decode()
        check(told == f"LAYOUT {fault}\n" if fault else told == "" or told.startswith("SHORT "), f"{what}: bytes {name}: {told}")
        if not told:
            read[name] = "?spu"[slot[2] % 16 % 4], data
    return read


def read_by_c1541(folder, read, what):
    """Compares these files of the disk of cc1541 with what c1541 reads."""
    for name, (kind, data) in read.items():
        out = folder / "read"
        out.unlink(missing_ok=True)
        words = ["c1541", "-attach", "made.d64", "-read", f"{name.decode('latin-1').lower()},{kind}", out.name]
        subprocess.run(words, cwd=folder, capture_output=True)
        check(out.exists() and out.read_bytes() == data, f"{what}: c1541 reads {name} as another file")


def names_of_c1541(folder, image):
    """The entries that c1541 has in its directory: block count, name and type."""
    said = subprocess.run(["c1541", "-attach", image, "-dir"], cwd=folder, capture_output=True).stdout.decode("latin-1")
    return [(int(it[1]), it[2].upper(), it[3].upper()) for it in
            (re.match(r"^(\d+) +\"(.*?)\" +\*?(\w{3})", line) for line in said.splitlines()[1:]) if it]


def names_of_list(text):
    """The same of `list`."""
    return [(int(it[1]), it[2].upper(), it[3].upper()) for it in
            (re.match(r"^(\d+) \"(.*?)\" \*?(\w{3})", line) for line in text.splitlines()[1:]) if it]


def look_at(program, folder, draw, number):
    """Looks at one image."""
    tracks, image = made(folder, draw)
    plain = names_of_c1541(folder, "made.d64")
    whole, errors, complete = odd(draw, tracks, image)
    path, alone = folder / "odd.d64", folder / "alone.d64"
    path.write_bytes(whole)
    what = f"image {number}, {len(whole)} bytes"
    sizes = {*BYTES.values(), *(it + it // 256 for it in BYTES.values())}
    if not complete and len(whole) not in sizes:
        for words in (("check", "--as-is"), ("list", "--as-is"), ("show", "--as-is"), ("map",)):
            check(run(program, *words, path, folder=folder) == (1, "", "IMAGE SIZE\n"), f"{what}: {words}")
        return
    front = whole[:SIZE]
    alone.write_bytes(front)
    tracks = whole[:max(it for it in BYTES.values() if it <= len(whole))]
    lines, maps = "" if len(whole) == SIZE else missing_lines(front, errors, tracks), maps_of(whole)
    if len(whole) != SIZE:
        for word in ("check", "list", "show"):
            check(run(program, word, path, folder=folder) == (1, "", "IMAGE SIZE\n"), f"{what}: {word}")
    for words in (("check",), ("check", "--all")):
        status, out, err = run(program, *words, alone, folder=folder)
        wanted = (status or (1 if lines else 0), out + lines + maps, err)
        check(run(program, *words, "--as-is", path, folder=folder) == wanted, f"{what}: {words}: not {wanted}")
    status, out, err = run(program, "list", alone, folder=folder)
    check(run(program, "list", "--as-is", path, folder=folder) == (status, out, err), f"{what}: list")
    if front[start((18, 0)):start((18, 1)) + 256] == image[start((18, 0)):start((18, 1)) + 256]:
        check(names_of_list(out) == plain, f"{what}: list has {names_of_list(out)}, c1541 {plain}")
    among = run(program, "check", "--as-is", path.name, alone.name, folder=folder)[1]
    check("".join(f"odd.d64: {line}\n" for line in (lines + maps).splitlines()) in among, f"{what}: among several: {among}")
    status, out, err = run(program, "map", alone, folder=folder)
    if status < 2 and not err:
        wanted = (status or (1 if lines else 0), out + lines + maps, "")
        check(run(program, "map", path, folder=folder) == wanted, f"{what}: map")
        status, out, _ = run(program, "picture", path, folder=folder)
        block = re.search(r"<pre>(.*)</pre>\n\Z", out, re.DOTALL)
        check((unescape(block[1]) if block else "") == lines, f"{what}: picture")
        done, out, _ = run(program, "picture", "--sheet", path, folder=folder)
        block = re.search(r"<pre>(.*)</pre>", out, re.DOTALL)
        check(done == status and (unescape(block[1]) if block else "") == lines, f"{what}: a sheet")
        done, out, _ = run(program, "picture", "--svg", path, folder=folder)
        check(done == status and (">Not on the disk of 35 tracks" in out) == bool(lines), f"{what}: a poster")
    else:
        check(run(program, "map", path, folder=folder) == (status, out, err), f"{what}: map")
    misread = "".join(line for line in lines.splitlines(True) if not line.startswith("BEYOND "))
    take_out(program, folder, path, alone, tracks, errors if len(whole) != SIZE else b"", misread, what)
    read_each(program, folder, path, tracks, what)
    read_by_c1541(folder, read_each(program, folder, folder / "made.d64", image, f"{what}, as it was made"), what)
    check(path.read_bytes() == whole, f"{what}: the image was changed")


def main(given):
    need("cc1541", "c1541")
    draw = random.Random(given.seed)
    with tempfile.TemporaryDirectory() as name:
        for number in range(given.amount):
            at(number + 1)
            look_at(given.program, Path(name), draw, number)


if __name__ == "__main__":
    conduct(main)
