"""Copies a shop's image into a folder, checks the copy, and rotates copies and journal together.

    ledger-shop backup /var/lib/ledger/shop1.d64 /var/backups/ledger --journal /var/lib/ledger/shop1.lines --keep 14

The program's `copy` makes the copy, also while `serve` runs, with all that was answered before. A copy has to pass `check`
and `show`, and no till may have asked less often than in the copy before. Then all but the newest `--keep` copies go, and
with them the older files of the journal whose requests are all in the oldest copy that stays. Each name is printed before
it goes. Status 1: there is no new copy, and nothing went."""

from __future__ import annotations

import argparse
import os
import sys
from pathlib import Path

from ledger_shop import PROGRAM, copies
from ledger_shop.copies import Stopped


def kept(given: argparse.Namespace, new: Path, older: list[Path]) -> Path:
    """Gives the new copy its name, once it is as good as the one before."""
    numbers = copies.numbers_in(given.program, new)
    if older and not copies.has(numbers, copies.numbers_in(given.program, older[-1])):
        raise Stopped(f"{given.image} is older than {older[-1]}, or another shop's: nothing is kept")
    copies.sync(new)
    number = copies.number_of(older[-1]) + 1 if older else 1
    path = given.folder / f"{given.image.stem}-{number:06}.d64"
    os.link(new, path)
    copies.sync(given.folder)
    return path


def rotate(given: argparse.Namespace, all_copies: list[Path]) -> tuple[int, int]:
    """Removes what isn't needed any more, after its name is printed; returns how many copies and files of the journal."""
    old, stay = all_copies[: -given.keep], all_copies[-given.keep :]
    numbers = copies.numbers_in(given.program, stay[0])
    lines = copies.not_needed(given.journal, numbers) if given.journal else []
    for path in [*old, *lines]:
        print(f"removes {path}")
        path.unlink()
    return len(old), len(lines)


def words() -> argparse.Namespace:
    parser = argparse.ArgumentParser(description=__doc__.splitlines()[0])
    parser.add_argument("image", type=Path)
    parser.add_argument("folder", type=Path)
    parser.add_argument("--journal", metavar="FILE", help="the shop's journal; without it the journal stays as it is")
    parser.add_argument("--keep", type=int, default=14, metavar="COPIES", help="how many copies stay (default 14)")
    parser.add_argument("--program", default=PROGRAM)
    given = parser.parse_args()
    if given.keep < 1:
        parser.error("at least one copy stays")
    return given


def main() -> None:
    given = words()
    new = given.folder / f".{given.image.stem}.new"
    try:
        older = copies.copies_in(given.folder, given.image.stem)
        new.unlink(missing_ok=True)
        copies.run(given.program, "copy", given.image, new)
        path = kept(given, new, older)
        gone, lines = rotate(given, [*older, path])
        print(f"{path}: OK, copy {copies.number_of(path)}; {gone} copies and {lines} files of the journal removed")
    except (Stopped, OSError, copies.journal.Unfit) as fault:
        sys.exit(f"backup: {fault}")
    finally:
        new.unlink(missing_ok=True)


if __name__ == "__main__":
    main()
