#!/usr/bin/env python3
"""Writes records of mutants whose texts have any characters, and reads them again:

    tests/documents/mutant_records.py [--amount FILES] [--seed N]

Texts are drawn from pieces that mean something in the form of mutants/CRATE.txt, or in that of an edit of the gate, and from other
characters. A record has to come back as it was; one whose texts are single lines also by way of an edit."""

import random
import sys
from dataclasses import replace
from pathlib import Path

sys.dont_write_bytecode = True
sys.path.insert(0, str(Path(__file__).resolve().parents[1] / "lib"))
from served import want
from trial import TOP, at, conduct

sys.path.insert(0, str(TOP / "mutants"))
from records import Record, Verdict, parse, parse_edit, printed

PIECES = ["\n", "-", "+", "- ", "+ ", "=", "== ", " ", "file: ", "false: ", "row: ", "tried: ", "old: ", "new:", ":", "a", "fn b() {", "}",
          "\r", "\t", "|", "#", "\\", '"', "ℕ", "◌≡◌", "é", "\0", "\x0b", "\u2028"]
VERDICTS = [None, Verdict("2026-11-30", "abcd1234", "not seen"), Verdict("2026-11-30", "abcd1234", "refused", "Session::open: ensures ok"),
            Verdict("2026-11-30", "abcd1234", "seen", "log.rows: a log: $ ledger show a.d64 -- -X")]


def text_of(draw: random.Random, least: int, pieces: list[str]) -> str:
    return "".join(draw.choice(pieces) for _ in range(draw.randint(least, 8)))


def record_of(draw: random.Random, number: int, pieces: list[str]) -> Record:
    files = ["src/a.rt", "../other/src/deep/b.rt", "specs/Lib.antt"]
    pairs = tuple((draw.choice(files), text_of(draw, 1, pieces), text_of(draw, 0, pieces)) for _ in range(draw.randint(1, 4)))
    values, row = draw.choice([(None, None), ("ensures ok: a: b", None), (None, "log.rows")])
    return Record("crate", f"name_{number}", values, row, draw.choice(VERDICTS), pairs)


def as_edit(record: Record) -> str:
    """The record in the form that the gate reads."""
    head = [f"false: {record.values}"] if record.values else [f"row: {record.row}"] if record.row else []
    return "\n".join([*head, *(f"file: {file}\nold: {old}\nnew: {new}" for file, old, new in record.pairs)]) + "\n"


def main(given):
    draw, tried = random.Random(given.seed), 0
    lines = [it for it in PIECES if it != "\n"]
    for turn in range(given.amount):
        at(turn + 1)
        records = [record_of(draw, number, PIECES) for number in range(draw.randint(1, 3))]
        want(parse("crate", printed(records)) == records, f"{records} come back as {parse('crate', printed(records))}")
        one = record_of(draw, 1, lines)
        want(parse_edit("crate", one.name, as_edit(one)) == replace(one, tried=None), f"{one} comes back by an edit as another one")
        tried += len(records) + 1
    return tried


if __name__ == "__main__":
    conduct(main, wants_program=False)
