"""The copies of a shop's image: `shop1-000017.d64` in a folder, numbered in the order in which they were made.

What a copy has, and which file of the journal is still needed, goes by the tills' numbers, never by the clock."""

from __future__ import annotations

import os
import re
import subprocess
import time
from pathlib import Path

from ledger_shop.journal import Numbers
from ledger_shop.account import StrPath
from ledger_shop import journal


class Stopped(Exception):
    """What keeps a backup or a restore from going on."""


# seconds for which a command is repeated that finds the image in use: a `serve` that begins lets nobody else in
PATIENCE = 10.0


def run(*words: object) -> str:
    """What a command prints. Raises Stopped if it ends with another status than 0."""
    end = time.monotonic() + PATIENCE
    while True:
        done = subprocess.run(list(map(str, words)), capture_output=True, text=True)
        if (done.returncode, done.stderr.strip()) != (3, "IN USE") or time.monotonic() > end:
            break
        time.sleep(0.2)
    if done.returncode != 0:
        raise Stopped(f"{' '.join(map(str, words))}: status {done.returncode} {done.stderr.strip()}")
    return done.stdout


def copies_in(folder: StrPath, name: str) -> list[Path]:
    """The copies of the shop of this name, oldest first."""
    form = re.compile(rf"{re.escape(name)}-\d{{6}}\.d64", re.ASCII)
    return sorted(path for path in Path(folder).iterdir() if form.fullmatch(path.name))


def number_of(copy: Path) -> int:
    return int(copy.stem[-6:])


def numbers_in(program: str, image: StrPath) -> Numbers:
    """Each till's last number in an image, which has to be sound."""
    verdict = run(program, "check", image).strip()
    if verdict != "OK":
        raise Stopped(f"{image} isn't sound: {verdict}")
    lines = (line.removeprefix("TILL ") for line in run(program, "show", image).splitlines() if line.startswith("TILL "))
    return {int(till): int(number) for till, number in (line.split(",")[:2] for line in lines)}


def has(numbers: Numbers, others: Numbers) -> bool:
    """Whether each till has asked at least as often as in the others."""
    return all(numbers.get(till, 0) >= number for till, number in others.items())


def not_needed(path: StrPath, numbers: Numbers) -> list[Path]:
    """The journal's older files of which each request is in a copy with these numbers: the oldest ones, up to the first
    that is needed."""
    gone = []
    for one in journal.files_of(path)[:-1]:
        entries = journal.Entries().read(Path(one).read_bytes(), one)
        if not has(numbers, entries.answered) or not has(numbers, dict(map(journal.key_of, entries.open))):
            break
        gone.append(Path(one))
    return gone


def sync(path: StrPath) -> None:
    """Brings a file, or the names in a folder, to the disk."""
    file = os.open(path, os.O_RDONLY)
    os.fsync(file)
    os.close(file)


class Unit:
    """A bridge's unit of systemd, or none."""

    def __init__(self, name: str | None) -> None:
        self.name = name

    def control(self, word: str) -> None:
        if self.name:
            run("systemctl", word, self.name)
