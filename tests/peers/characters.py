#!/usr/bin/env python3
"""Compares the tables of line_text/specs/petscii/Characters with the characters that cc1541 (Debian, 4.0) prints for each byte of a
file's name, in both sets. The differences in KNOWN and KNOWN_MIXED are known; any other is printed, and the status is 1. Without
cc1541 the status is 2."""

import re
import subprocess
import sys
import tempfile
from pathlib import Path

sys.dont_write_bytecode = True
sys.path.insert(0, str(Path(__file__).resolve().parents[1] / "lib"))
from trial import conduct, need

SPEC = Path(__file__).resolve().parents[2] / "crates/line_text/specs/petscii/Characters.antt"
# bytes whose character is another than in either of cc1541's two tables: here ' U+00A0 U+258F U+2595 U+1FB87 U+2582, there
# U+2019, a space, U+258E U+1FB75 U+1FB75 U+2581; of the mixed ones here U+1FB96, there U+1FB95
KNOWN = {0x27, 0xA0, 0xA5, 0xA7, 0xAA, 0xAF}
KNOWN_MIXED = {0x7E, 0xDE}
# what a byte stands for again, by the C64's table: cc1541 has another table there
AGAIN = {**{b: b + 0x60 for b in range(0x60, 0x80)}, **{b: b + 0x40 for b in range(0xA0, 0xBF)}, 0xFF: 0xDE}


def tables():
    text = SPEC.read_text(encoding="utf-8")
    found = dict(re.findall(r"^(\w+) =\n((?: +0x.*\n)+)", text, re.M))
    return {name: [int(n, 16) for n in re.findall(r"0x[0-9a-f]+", rows)] for name, rows in found.items()}


def ours(table, kind, byte):
    part, number = byte // 32, byte % 32
    if part == 1:
        return byte
    if part == 2:
        return table[f"{kind}_letters"][number]
    if part in (3, 6):
        return table[f"{kind}_shifted"][number]
    if byte == 255:
        return table[f"{kind}_shifted"][30]
    return table[f"{kind}_blocks"][number] if part in (5, 7) else None


def printed(mapping):
    """The characters that cc1541 prints for the bytes, sixteen a name."""
    with tempfile.TemporaryDirectory() as folder:
        file, image = Path(folder) / "f", Path(folder) / "all.d64"
        file.write_bytes(b"\1\10x")
        words = ["cc1541", "-q", "-n", "t"]
        for row in range(16):
            words += ["-f", "".join(f"#{16 * row + n:02x}" for n in range(16)), "-w", file]
        subprocess.run(words + [image], check=True, stdout=subprocess.DEVNULL)
        text = subprocess.run(["cc1541", "-U", str(mapping), image], check=True, stdout=subprocess.PIPE).stdout.decode()
    lines = [re.sub("\x1b\\[[0-9]*m", "", line) for line in text.split("\n")]
    names = [line.split('"', 1)[1] for line in lines if re.match(r'\d+ +".', line)][-16:]
    return [ord(name[n]) for name in names for n in range(16)]


def main(given):
    need("cc1541")
    table, wrong = tables(), 0
    for mapping, kind in ((1, "graphics"), (2, "mixed")):
        theirs = printed(mapping)
        for byte in range(256):
            one = ours(table, kind, byte)
            again = [b for b in (byte, AGAIN.get(byte)) if b is not None] + [b for b, c in AGAIN.items() if c == byte]
            known = KNOWN | KNOWN_MIXED if kind == "mixed" else KNOWN
            if one is None or any(theirs[b] == one for b in again) or known & set(again):
                continue
            wrong += 1
            print(f"{kind} {byte:02x}: U+{one:04X}, cc1541 U+{theirs[byte]:04X}")
    print(f"characters: {wrong} differ")
    return 2 * 256 - wrong, wrong


if __name__ == "__main__":
    conduct(main, wants_program=False)
