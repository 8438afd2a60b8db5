#!/usr/bin/env python3
"""Reads what `list`, `records` and `bytes` print as text and in columns, and compares it with tables and readers of its own.

    tests/peers/text.py PROGRAM [--amount ROUNDS] [--seed N]

The characters are those that cc1541 (Debian, 4.0) prints, but for the bytes that crates/line_text/README.md lists, as
`characters.py` beside it compares them; lines are read by Python's `csv`. The disks are made here, by the D64 layout: in each
round a directory with names of any bytes, a relative file and a sequential one, both of any bytes. The columns that
`records --fields` prints are also saved anew by `csv`, as a spreadsheet saves them, and stored on a blank disk that `cc1541`
made: they give the same records. So are those of `records --at` at positions of any kind. Not part of the gate."""

import csv
import io
import random
import sys
import tempfile
from pathlib import Path

sys.dont_write_bytecode = True
sys.path.insert(0, str(Path(__file__).resolve().parents[1] / "lib"))
from record_disks import DATA, SIZE, start_of
from served import want
from trial import at, conduct, need

import subprocess

LETTERS = {"text": "ABCDEFGHIJKLMNOPQRSTUVWXYZ", "mixed": "abcdefghijklmnopqrstuvwxyz"}
SHIFTED = {
    "text": "─♠\U0001fb72\U0001fb78\U0001fb77\U0001fb76\U0001fb7a\U0001fb71\U0001fb74╮╰╯\U0001fb7c╲╱\U0001fb7d\U0001fb7e●"
    "\U0001fb7b♥\U0001fb70╭╳○♣\U0001fb75♦┼\U0001fb8c│π◥",
    "mixed": "─ABCDEFGHIJKLMNOPQRSTUVWXYZ┼\U0001fb8c│\U0001fb96\U0001fb98",
}
BLOCKS = {
    "text": "\xa0▌▄▔▁▏\U0001fb95▕\U0001fb8f◤\U0001fb87├▗└┐▂┌┴┬┤▎▍\U0001fb88\U0001fb82\U0001fb83▃\U0001fb7f▖▝┘▘▚",
    "mixed": "\xa0▌▄▔▁▏\U0001fb95▕\U0001fb8f\U0001fb99\U0001fb87├▗└┐▂┌┴┬┤▎▍\U0001fb88\U0001fb82\U0001fb83▃✓▖▝┘▘▚",
}


def character(kind, byte):
    """The character of a byte, or None for a control code."""
    if byte == 0xFF:
        byte = 0xDE
    part, number = byte // 32, byte % 32
    if part in (0, 4):
        return None
    if part == 1:
        return chr(byte)
    if part == 2:
        return ("@" + LETTERS[kind] + "[£]↑←")[number]
    return (SHIFTED if part in (3, 6) else BLOCKS)[kind][number]


def text_of(kind, data, end="\\0d"):
    return "".join(end if byte == 13 else character(kind, byte) or f"\\{byte:02x}" for byte in data)


def byte_text(data):
    """Bytes as `records` prints them."""
    return "".join(chr(b) if 0x20 <= b <= 0x7E and b not in b'"\\' else f"\\{b:02x}" for b in data)


def chain(image, places, data):
    """Writes a file's bytes into these sectors."""
    for number, place in enumerate(places):
        part = data[DATA * number : DATA * (number + 1)]
        link = bytes(places[number + 1]) if number + 1 < len(places) else bytes([0, len(part) + 1])
        image[start_of(place) : start_of(place) + 2 + len(part)] = link + part


def a_disk(rng):
    """An image, its names, the records of RECS and the bytes of TEXT. Block 17/0 begins RECS, with the side sector 17/20."""
    image = bytearray(SIZE)
    length = rng.randint(2, 254)
    any_bytes = rng.randbytes
    blocks = rng.randint(1, 6)
    count = blocks * DATA // length
    records = [any_bytes(rng.randint(1, length)).rstrip(b"\0").ljust(length, b"\0") for _ in range(count)]
    places = [(17, n) for n in range(blocks)]
    chain(image, places, b"".join(records).ljust(blocks * DATA, b"\0"))
    side = start_of((17, 20))
    used = bytes([0, 16 + 2 * blocks - 1, 0, length, 17, 20]) + bytes(10) + b"".join(map(bytes, places))
    image[side : side + len(used)] = used
    body = any_bytes(rng.randint(1, 1000))
    text_places = [(16, n) for n in range((len(body) + DATA - 1) // DATA)]
    chain(image, text_places, body)
    names = [b"RECS", b"TEXT"] + [any_bytes(rng.randint(1, 16)) for _ in range(6)]
    # a name ends at its first shifted space
    shown = [name.ljust(16, b"\xa0").split(b"\xa0")[0] for name in names]
    head = start_of((18, 0))
    title = any_bytes(16)
    image[head : head + 3] = bytes([18, 1, 65])
    image[head + 144 : head + 160], image[head + 162 : head + 164] = title, b"ID"
    image[head + 165 : head + 167] = b"2A"
    at = start_of((18, 1))
    image[at : at + 2] = bytes([0, 255])
    for number, name in enumerate(names):
        slot = at + 32 * number
        kind, first, last = (0x84, (17, 0), (17, 20)) if number == 0 else (0x81, (16, 0), (0, 0))
        if number > 1:
            kind, first = 0x80, (0, 0)
        image[slot + 2 : slot + 5] = bytes([kind, *first])
        image[slot + 5 : slot + 21] = name.ljust(16, b"\xa0")
        image[slot + 21 : slot + 24] = bytes([*last, length if number == 0 else 0])
    image[at + 30] = blocks + 1
    image[at + 62] = len(text_places)
    return bytes(image), title.split(b"\xa0")[0], shown, [r.rstrip(b"\0") for r in records], body


def printed(program, *words):
    done = subprocess.run([program, *map(str, words)], capture_output=True, timeout=60)
    return done.returncode, done.stdout, done.stderr.decode()


def compare(program, path, kind, disk):
    image, title, names, records, body = disk
    path.write_bytes(image)
    flag = f"--{kind}"
    status, out, err = printed(program, "bytes", flag, path, "TEXT")
    want(status in (0, 1) and (status == 0 or err.startswith("SHORT")), f"bytes: {status}, {err}")
    want(out.decode() == text_of(kind, body, "\n"), "bytes")
    status, out, err = printed(program, "records", flag, path, "RECS")
    want(status in (0, 1) and (status == 0 or err.startswith("SHORT")), f"records: {status}, {err}")
    want(out.count(b"\n") == len(records), "a record is one line")
    rows = list(csv.reader(io.StringIO(out.decode(), newline="")))
    want(rows == [[str(n), text_of(kind, r)] for n, r in enumerate(records, 1)], "records")
    status, out, err = printed(program, "list", flag, path)
    want(status == 0, f"list: {status}, {err}")
    lines = out.decode().split("\n")
    want(lines[0].startswith('0 "' + text_of(kind, title).replace('"', '""') + '" '), "the disk's name")
    for line, name in zip(lines[1:], names):
        want('"' + text_of(kind, name).replace('"', '""') + '"' in line, "a name")
    want(len(lines) == len(names) + 3, "a line for each entry")


def fields_of(record):
    """The fields as `csv` reads them, and the mark that says whether CR ends the last one."""
    parts = [byte_text(part) for part in record.split(b"\r")]
    return [*parts[:-1], "\\."] if record.endswith(b"\r") else [*parts, "\\-"]


def with_returns(rng, records, length):
    """The same records with some carriage returns in them, as BASIC writes them."""
    made = []
    for record in records:
        data = bytearray(record or b"A")
        for _ in range(rng.randint(0, 3)):
            data[rng.randrange(len(data))] = 13
        made.append(bytes(data).rstrip(b"\0")[:length])
    return made


def saved_again(rows):
    """The lines that `csv` writes, with marks only where they are needed."""
    text = io.StringIO()
    csv.writer(text, lineterminator="\r\n").writerows(rows)
    return text.getvalue()


def come_back(program, folder, rng):
    """Records in columns, saved by `csv` and stored on a blank disk."""
    length, image = rng.randint(5, 254), folder / "b.d64"
    subprocess.run(["cc1541", "-q", "-n", "t", image], check=True, stdout=subprocess.DEVNULL)
    want(printed(program, "make", image, "RECS", "--length", length)[0] == 0, "make")
    records = with_returns(rng, [rng.randbytes(rng.randint(0, length)) for _ in range(rng.randint(1, 20))], length)
    plain = folder / "plain.csv"
    plain.write_text("".join(f'{n},"{byte_text(r)}"\n' for n, r in enumerate(records, 1)))
    want(printed(program, "store", image, "RECS", plain)[0] == 0, "store")
    status, out, err = printed(program, "records", "--fields", image, "RECS")
    want(status == 0, f"records --fields: {status}, {err}")
    rows = list(csv.reader(io.StringIO(out.decode(), newline="")))
    want(rows[: len(records)] == [[str(n), *fields_of(r)] for n, r in enumerate(records, 1)], "the fields")
    are_stored(program, folder, image, length, ["--fields"], out, rows)
    most = max(map(len, rows)) + rng.randint(0, 3)
    are_stored(program, folder, image, length, ["--fields"], out, [row + [""] * (most - len(row)) for row in rows])
    pieces_come_back(program, folder, rng, image, length, records)
    image.unlink()


def are_stored(program, folder, image, length, flags, out, rows):
    """The lines change nothing in this image, and give the same records on a blank disk."""
    for text in (out.decode(), saved_again(rows)):
        lines = folder / "columns.csv"
        lines.write_text(text, newline="")
        want(printed(program, "store", *flags, image, "RECS", lines) == (0, b"", ""), "nothing changes")
        other = folder / "c.d64"
        other.unlink(missing_ok=True)
        subprocess.run(["cc1541", "-q", "-n", "t", other], check=True, stdout=subprocess.DEVNULL)
        printed(program, "make", other, "RECS", "--length", length)
        want(printed(program, "store", *flags, other, "RECS", lines)[0] == 0, f"store {flags}")
        again = printed(program, "records", *flags, other, "RECS")
        want(again[1][: len(out)] == out, "the same records")


def pieces_come_back(program, folder, rng, image, length, records):
    """Records in columns at positions, also beyond their length. A line with a column more is refused."""
    starts = [1, *sorted(rng.sample(range(2, 255), rng.randint(0, 31)))]
    flags = ["--at", ",".join(map(str, starts))]
    status, out, err = printed(program, "records", *flags, image, "RECS")
    want(status == 0, f"records --at: {status}, {err}")
    rows = list(csv.reader(io.StringIO(out.decode(), newline="")))
    ends = [*(it - 1 for it in starts[1:]), 254]
    pieces = [[byte_text(r[a - 1 : b].rstrip(b"\0")) for a, b in zip(starts, ends)] for r in records]
    want(rows[: len(records)] == [[str(n), *it] for n, it in enumerate(pieces, 1)], "the pieces")
    are_stored(program, folder, image, length, flags, out, rows)
    lines = folder / "more.csv"
    lines.write_text(out.decode().replace("\n", ',"A"\n', 1), newline="")
    want(printed(program, "store", *flags, image, "RECS", lines) == (1, b"", "RECORDS LINE 1\n"), "a column too many")


def main(given):
    need("cc1541")
    program, rounds, rng = given.program, given.amount, random.Random(given.seed)
    with tempfile.TemporaryDirectory() as folder:
        for turn in range(rounds):
            at(turn + 1)
            disk = a_disk(rng)
            for kind in ("text", "mixed"):
                compare(program, Path(folder) / "a.d64", kind, disk)
            come_back(program, Path(folder), rng)
    print(f"text: {rounds} disks of any bytes were listed and read in both sets as the tables say, and {rounds} files came back in columns")
    return 2 * rounds


if __name__ == "__main__":
    conduct(main)
