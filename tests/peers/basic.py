#!/usr/bin/env python3
"""Compares the listings that `basic` prints with those of petcat (VICE 3.7.1, Debian's contrib), over programs made here.

    tests/peers/basic.py PROGRAM [--amount ROUNDS] [--seed N]

In each round a disk gets a program of lines that can be typed: keywords, numbers, names, strings of any bytes, DATA and REM.
`petcat -w2` makes the very program of its listing. In every other one strings have characters of ASCII alone: there `petcat -2`
prints the same lines, but for the spaces before a number. Each keyword is in one program. A beginning of
each program is listed too, and reported as SHORT, or as NO PROGRAM if its first line is cut. Not part of the gate."""

import random
import subprocess
import sys
import tempfile
from pathlib import Path

sys.dont_write_bytecode = True
sys.path.insert(0, str(Path(__file__).resolve().parents[1] / "lib"))
from served import want
from trial import at, conduct, need

PLAIN = [*range(0x20, 0x22), *range(0x23, 0x5C), *range(0x5D, 0x60), *range(0xC1, 0xDB), 0xFF]
REM, DATA, FIRST, LAST = 0x8F, 0x83, 0x80, 0xCB


def string(rng, any_byte):
    """A string between quotation marks, of which the last may lack."""
    among = [byte for byte in range(1, 256) if byte != 0x22] if any_byte else PLAIN
    return b'"' + bytes(rng.choices(among, k=rng.randrange(24))) + b'"'


def part(rng, any_byte):
    """What stands between two spaces."""
    kind = rng.randrange(6)
    if kind < 2:
        return bytes([rng.choice([b for b in range(FIRST, LAST + 1) if b not in (REM, DATA)])])
    if kind == 2:
        return str(rng.randrange(100000)).encode()
    if kind == 3:
        return rng.choice([b"X", b"Y%", b"Z$(", b")", b",", b";", b":", b"?", b"\xff", b"@", b"#", b"."])
    return string(rng, any_byte)


def line(rng, any_byte):
    """The bytes of a line."""
    body = b" ".join(part(rng, any_byte) for _ in range(rng.randrange(1, 9)))
    end = rng.randrange(5)
    if end == 0:
        # petcat -2 takes shifted letters after REM for keywords
        body += b":" + bytes([REM, *rng.choices(PLAIN if any_byte else PLAIN[:-27], k=rng.randrange(20))])
    if end == 1:
        body += b":" + bytes([DATA]) + b" PRINT,1E3," + string(rng, any_byte)
    if end == 2:
        body += b' "' + string(rng, any_byte)[1:-1]
    return body


def program_of(lines, load):
    """The bytes of a program with these lines."""
    out, at = [load.to_bytes(2, "little")], load
    for number, body in lines:
        at += len(body) + 5
        out.append(at.to_bytes(2, "little") + number.to_bytes(2, "little") + body + b"\0")
    return b"".join(out) + b"\0\0"


class Tried:
    """A program with a disk, and petcat beside it."""

    def __init__(self, program, folder):
        self.program, self.image, self.file = program, folder / "disk.d64", folder / "program.prg"
        self.text, self.made = folder / "program.bas", folder / "made.prg"

    def listed(self, data):
        """How `basic` ends for a file of these bytes, and what it prints."""
        self.image.unlink(missing_ok=True)
        self.file.write_bytes(data)
        for words in (["new", self.image, "--name", "D", "--id", "ID"], ["put", self.image, "P", self.file, "--type", "prg"]):
            subprocess.run([self.program, *words], check=True, capture_output=True)
        ran = subprocess.run([self.program, "basic", self.image, "P"], capture_output=True)
        return ran.returncode, ran.stdout, ran.stderr.decode()

    def crunched(self, text, load):
        """The program that petcat makes of a listing."""
        self.text.write_bytes(text)
        words = ["petcat", "-w2", "-l", f"{load:x}", "-f", "-o", self.made, "--", self.text]
        subprocess.run(words, check=True, capture_output=True)
        return self.made.read_bytes()

    def theirs(self, data):
        """What petcat prints of a program."""
        self.file.write_bytes(data)
        return subprocess.run(["petcat", "-2", "-nh", "--", self.file], check=True, capture_output=True).stdout

    def compare(self, data, load, alike):
        status, text, told = self.listed(data)
        want((status, told) == (0, ""), f"status {status}, {told}")
        want(self.crunched(text, load) == data, f"petcat makes another program of\n{text.decode()}")
        if alike:
            theirs = [row.lstrip() for row in self.theirs(data).splitlines() if row]
            want(text.splitlines()[1:] == theirs, f"petcat lists otherwise\n{text.decode()}")


def main(given):
    need("petcat")
    program, rounds, rng = given.program, given.amount, random.Random(given.seed)
    with tempfile.TemporaryDirectory() as folder:
        tried = Tried(program, Path(folder))
        words = [(10 * at, bytes([token]) + b" 1") for at, token in enumerate(range(FIRST, LAST + 1))]
        tried.compare(program_of(words, 0x0801), 0x0801, True)
        lines = 0
        for turn in range(rounds):
            at(turn + 1)
            numbers = sorted(rng.sample(range(64000), rng.randrange(1, 30)))
            rows = [(number, line(rng, turn % 2)) for number in numbers]
            load = rng.choice([0x0801, 0x1C01, 0x0401, 0x1201])
            data = program_of(rows, load)
            tried.compare(data, load, turn % 2 == 0)
            beginning = data[: rng.randrange(len(data) - 1)]
            status, text, told = tried.listed(beginning)
            word = "SHORT" if 0 in beginning[6:] else "NO PROGRAM"
            want(status == 1 and told.startswith(word), f"a beginning ends with {status}, {told}, and not with {word}")
            lines += len(rows)
    print(f"{rounds} programs of {lines} lines, and one of {len(words)} keywords, are the same to petcat, both ways")
    return rounds + 1


if __name__ == "__main__":
    conduct(main)
