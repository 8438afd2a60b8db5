#!/usr/bin/env python3
"""Plays rows on the built program: what it prints, what it reports, how it ends, and what it does to files. Nothing is proved.

    tests/rows/rows.py PROGRAM [TABLE ..]     without a table all of tests/rows/*.rows, whose form is in tests/rows/FORM

Each part of a table (`== WHAT IT SHOWS`) is played in a folder of its own, several at a time. A run that differs is printed with its
table and line, what was wanted and what came. The last line is `N passed, M failed`, the runs; the status is 0 if none failed."""

import ctypes
import fcntl
import os
import re
import shutil
import subprocess
import sys
import tempfile
import zlib
from concurrent.futures import ThreadPoolExecutor
from pathlib import Path

sys.dont_write_bytecode = True
sys.path.insert(0, str(Path(__file__).resolve().parents[1] / "lib"))
from run_left import fed, left_by

TABLES = Path(__file__).resolve().parent
# Whether the output and standard error are terminals.
RUNS = {b"$": (False, False), b"watched": (False, False), b"full": (False, False), b"person": (True, True), b"waiting": (False, True)}
NOTHING = {b"prints": b"", b"tells": b"", b"ends": b"0", b"makes": b"0", b"logged": b"no log", b"written": b"as it was", b"others": b""}
LEFT = {*NOTHING, b"found", b"size", b"leaves", b"has", b"sums", b"writes", b"syncs", b"folder-syncs", b"reads-behind", b"copied"} - {b"others"}
PATHS = {b"image": "a.d64", b"script": "s.txt", b"log": "a.d64-log", b"input": "../input"}
SHOWN = 300  # bytes of an output that differs
DROP_OF_BOUNDS, RIGHT_TO_ANY_FILE = 24, 1  # prctl(2), capabilities(7)


def text_of(line):
    line = re.sub(rb"\((\d+)\*([^()]*)\)", lambda it: int(it[1]) * it[2], line)
    times, part = re.fullmatch(rb"(?:(\d+)\*)?(.*)", line, re.DOTALL).groups()
    part = re.sub(rb"\\x([0-9a-f]{2})", lambda it: bytes([int(it[1], 16)]), part.replace(b"|", b"\n"))
    return int(times or 1) * part


def words_of(line):
    return [text_of(it.replace(b"'", b"")) for it in re.findall(rb"(?:'[^']*'|[^ '])+", line)]


def fits(came, wanted):
    if not wanted.endswith(b".."):
        return came == wanted
    return wanted[2:-2] in came if wanted.startswith(b"..") else came.startswith(wanted[:-2])


def place_of(word):
    """Where a byte stands in an image: a number, or TRACK/SECTOR+BYTE."""
    if word.isdigit():
        return int(word)
    track, sector, at = map(int, re.fullmatch(rb"(\d+)/(\d+)\+(\d+)", word).groups())
    return 256 * (sum(21 if it <= 17 else 19 if it <= 24 else 18 if it <= 30 else 17 for it in range(1, track)) + sector) + at


class Part:
    """The rows of a part, as they are played in a folder."""

    def __init__(self, program, hurts, shop):
        self.program, self.hurts, self.shop, self.aside = program, hurts, shop, b""
        self.wanted, self.passed, self.failed, self.lock, self.faults = None, 0, [], None, []

    def put(self, kind, what, text=b""):
        """Puts a text there, or another kind of file."""
        path = self.folder / PATHS[what]
        if path.is_dir():
            path.rmdir()
        path.unlink(missing_ok=True)
        if kind == b"folder":
            path.mkdir()
        elif kind == b"pipe":
            fed(path, text)
        elif kind != b"no":
            path.write_bytes(text)
            path.chmod(0o444 if kind == b"read-only" else 0o644)

    def begin(self):
        """Begins a row."""
        if self.lock:
            self.lock.close()
        self.lock = None
        for it in self.folder.iterdir():
            shutil.rmtree(it) if it.is_dir() else it.unlink()
        for what, text in ((b"image", self.shop), (b"script", b"1,1,S,1,5\n"), (b"input", b"")):
            self.put(b"", what, text)

    def finds(self, word, rest):
        """Puts there what the program finds."""
        path = self.folder / PATHS[b"script" if rest == b"script" else b"image"]
        held = path.read_bytes() if path.is_file() else b""
        if word in PATHS:
            self.put(b"", word, text_of(rest))
        elif word in (b"no", b"folder", b"read-only", b"pipe") and rest in (b"image", b"script"):
            self.put(word, rest, held)
        elif word == b"beside":
            (self.folder / (text_of(rest).decode() or "b.d64")).write_bytes(held)
        elif word == b"named":
            os.link(path, self.folder / rest.decode())
        elif word == b"feed":
            self.put(b"", b"input", held)
        elif word == b"shop":
            self.put(b"", b"image", self.shop)
        elif word == b"keep":
            self.shop = held
        elif word == b"aside":
            self.aside = held
        elif word in (b"hurt", b"put"):
            place, _, text = rest.partition(b" ")
            at, text = self.hurts[rest] if word == b"hurt" else (place_of(place), text_of(text))
            self.put(b"", b"image", held[:at] + text + held[at + len(text):])
        elif word == b"resize":
            os.truncate(path, int(rest))
        elif word == b"fails":
            self.faults.append(rest)
        elif word == b"others":
            self.lock = path.open()
            fcntl.flock(self.lock, {b"alone": fcntl.LOCK_EX, b"reading": fcntl.LOCK_SH}[rest])
        else:
            raise ValueError("no line of a row")

    def hears(self, word, rest):
        """Takes what a line says of the last run."""
        if word == b"has":
            place, _, rest = rest.partition(b" ")
            word = b"has " + place
            self.came[word] = (self.folder / PATHS[b"image"]).read_bytes()[place_of(place):][: len(text_of(rest))]
        if word == b"found":
            name, _, rest = rest.partition(b" ")
            word, path = b"found " + rest, self.folder / "out" / name.decode()
            self.came[word] = path.read_bytes() if path.exists() else b"no file"
        self.wanted[word] = text_of(rest)
        if word == b"sums":
            self.came[word] = b"%d %d" % (len(self.came[b"prints"]), zlib.adler32(self.came[b"prints"]))
            self.wanted[b"prints"] = self.came[b"prints"]
        if word in (b"size", b"leaves"):
            image = (self.folder / PATHS[b"image"]).read_bytes()
            is_so = (image == (self.aside if rest == b"the one aside" else self.shop)) == (rest != b"another")
            self.came[word] = b"%d" % len(image) if word == b"size" else rest if is_so else b"not so"
        if word == b"leaves":
            self.wanted[b"written"] = self.came[b"written"]
        if word == b"copied":
            copy, self.wanted[b"others"] = self.folder / "b.d64", b"b.d64"
            same = copy.exists() and copy.read_bytes() == (self.folder / PATHS[b"image"]).read_bytes()
            self.came[word] = b"" if same else b"not so"

    def judge(self):
        """Counts the last run, if there is one that isn't counted."""
        if self.wanted is not None:
            other = [it for it in self.wanted if not fits(self.came[it], self.wanted[it])]
            told = [f"  {it.decode()}\n    wanted {self.wanted[it][:SHOWN]!r}\n    came   {self.came[it][:SHOWN]!r}" for it in other]
            self.failed += ["\n".join([self.at, *told])] if told else []
            self.passed += not told
        self.wanted = None

    def plays(self, at, line):
        """Does what a line says, or hears it."""
        word, _, rest = line.partition(b" ")
        if self.wanted is not None and word in LEFT:
            return self.hears(word, rest)
        self.judge()
        if word not in RUNS:
            return self.finds(word, rest) if line else self.begin()
        self.at = f"{at}: {line.decode(errors='backslashreplace')}"
        words, prints, printed = rest.partition(b" => ")
        words, tells, told = words.partition(b" -> ")
        given, folder = self.folder / PATHS[b"input"], self.folder
        faults = self.faults if self.faults or word == b"watched" else None
        self.came = left_by(self.program, words_of(words), folder, given, RUNS[word], word == b"full", faults)
        self.wanted, self.faults = {**NOTHING}, []
        if prints:
            self.wanted[b"prints"] = text_of(printed if printed.endswith(b"..") else printed + b"|")
        if tells:
            self.wanted[b"ends"], _, told = told.partition(b" ")
            self.wanted[b"tells"] = text_of(told if told.endswith(b"..") else told + b"|")

    def played(self, lines):
        with tempfile.TemporaryDirectory(prefix="rows_") as room:
            self.folder = Path(room) / "at"
            self.folder.mkdir()
            for at, line in [("", b""), *lines, ("", b"")]:
                try:
                    self.plays(at, line)
                except (OSError, ValueError, KeyError) as error:
                    self.failed.append(f"{at}: {line.decode(errors='backslashreplace')}\n  {error!r}")
        return self


def parts_of(table):
    """The lines of each part, with where they stand."""
    parts = [[]]
    for number, line in enumerate(table.read_bytes().split(b"\n"), 1):
        if line.startswith(b"== "):
            parts.append([])
        elif not line.startswith(b"#"):
            parts[-1].append((f"{table}:{number}", line))
    return parts


def hurts_of(table):
    """Changes of an image: a name, the place of the bytes, and the bytes."""
    lines = re.findall(rb"^([^#\n]+) = (\d+) (.*)$", table.read_bytes(), re.MULTILINE)
    return {name: (int(at), text_of(text)) for name, at, text in lines}


def main(words):
    program, tables = Path(words[0]).resolve(), [Path(it) for it in words[1:]] or sorted(TABLES.glob("*.rows"))
    if os.getuid() == 0:  # what is read-only is so for the programs that root starts here, too
        ctypes.CDLL(None).prctl(DROP_OF_BOUNDS, RIGHT_TO_ANY_FILE)
    if not os.access(program, os.X_OK):
        print(f"rows: no program at {program}\n0 passed, 1 failed")
        return 1
    with tempfile.TemporaryDirectory(prefix="rows_") as room:
        shop = Path(room) / "a.d64"
        subprocess.run([program, "format", shop, "--tills", "2"], capture_output=True, check=False)
        begun = (program, hurts_of(TABLES / "HURTS"), shop.read_bytes())
    with ThreadPoolExecutor(os.cpu_count()) as several:
        done = list(several.map(lambda it: Part(*begun).played(it), [it for table in tables for it in parts_of(table)]))
    failed = [it for part in done for it in part.failed]
    print("\n".join([*failed, f"{sum(it.passed for it in done)} passed, {len(failed)} failed"]))
    return int(bool(failed))


if __name__ == "__main__":
    sys.exit(main(sys.argv[1:]))
