"""Puts a shop back from its copies and its journal, step by step.

    ledger-shop restore /var/lib/ledger/shop1.d64 /var/backups/ledger --journal /var/lib/ledger/shop1.lines \\
        --unit ledger-bridge-mqtt@1

It prints each step before it does it, and ends at the first that fails. The image that was there is set aside with its log,
and never removed. Give `--copy N` for another copy than the newest sound one. If the journal is lost, `--without-journal`
goes on with the copy alone: that loses what was asked since, and the tills that asked have to begin again. Status 1: a
step failed; the last line says what stands."""

from __future__ import annotations

import argparse
import os
import shutil
import sys
from pathlib import Path

from ledger_shop import PROGRAM, copies, rebuild
from ledger_shop.account import Unfit
from ledger_shop.copies import Stopped


def log_of(image: Path) -> Path:
    """The log that `serve` keeps beside an image, and that alone has what it answered last."""
    return image.with_name(f"{image.name}-log")


class Restore:
    def __init__(self, given: argparse.Namespace) -> None:
        self.given, self.unit, self.step = given, copies.Unit(given.unit), 0
        self.new = given.image.with_name(f"{given.image.stem}.restored.d64")

    def say(self, text: str) -> None:
        self.step += 1
        print(f"{self.step}. {text}", flush=True)

    def find(self) -> Path:
        """The newest copy that is sound, or the one that is named."""
        self.say(f"Looks for a sound copy in {self.given.folder}")
        faults = []
        for path in reversed(copies.copies_in(self.given.folder, self.given.image.stem)):
            if self.given.copy not in (None, copies.number_of(path)):
                continue
            try:
                copies.numbers_in(self.given.program, path)
                return path
            except Stopped as fault:
                faults.append(str(fault))
        raise Stopped("; ".join(["there is no sound copy", *faults]))

    def make(self, copy: Path) -> None:
        """Makes the new image beside the old one."""
        if self.new.exists():
            raise Stopped(f"{self.new} is there already, of an earlier restore: look at it, and move it away")
        if self.given.without_journal:
            self.say(f"Takes {copy} alone: what was asked since is lost")
            shutil.copyfile(copy, self.new)
        else:
            self.say(f"Plays the journal over {copy}")
            print(rebuild.make(self.given.program, self.new, self.given.journal, backup=copy))
        if self.given.image.exists():
            owner = self.given.image.stat()
            os.chmod(self.new, owner.st_mode & 0o777)
            if os.geteuid() == 0:
                os.chown(self.new, owner.st_uid, owner.st_gid)

    def aside(self, path: Path) -> None:
        """Renames a file, and an image's log with it, to what nothing has yet. An image goes first: alone it would be an
        older shop."""
        number, log = 1, log_of(path)
        while (other := path.with_name(f"{path.name}.aside{number}")).exists() or log_of(other).exists():
            number += 1
        for old, new in ((path, other), (log, log_of(other))):
            if old.exists():
                old.rename(new)
                print(f"{old} is {new} now")

    def put(self) -> None:
        """Puts the new image in the old one's place."""
        self.say("Sets the old image aside, and puts the new one in its place")
        self.aside(self.given.image)
        copies.sync(self.given.image.parent)
        if self.given.without_journal and Path(self.given.journal).exists():
            self.aside(Path(self.given.journal))
        copies.sync(self.new)
        self.new.rename(self.given.image)
        copies.sync(self.given.image.parent)

    def run(self) -> None:
        copy = self.find()
        self.say(f"Stops the bridge {self.given.unit or '(none is named: it has to be stopped)'}")
        self.unit.control("stop")
        self.make(copy)
        self.say(f"Checks {self.new}")
        numbers = copies.numbers_in(self.given.program, self.new)
        self.put()
        self.say(f"Starts the bridge {self.given.unit or '(none is named)'}")
        self.unit.control("start")
        asked = ", ".join(f"{till}: {number}" for till, number in sorted(numbers.items()))
        print(f"{self.given.image}: restored of {copy.name} in {self.step} steps; the tills' last numbers are {asked or 'none'}")


def words() -> argparse.Namespace:
    parser = argparse.ArgumentParser(description=__doc__.splitlines()[0])
    parser.add_argument("image", type=Path)
    parser.add_argument("folder", type=Path)
    parser.add_argument("--journal", required=True, metavar="FILE", help="the shop's journal")
    parser.add_argument("--unit", help="the bridge's unit, which is stopped and started")
    parser.add_argument("--copy", type=int, metavar="N", help="this copy, not the newest sound one")
    parser.add_argument("--without-journal", action="store_true", help="lose what was asked since the copy")
    parser.add_argument("--program", default=PROGRAM)
    return parser.parse_args()


def main() -> None:
    given = words()
    restore = Restore(given)
    try:
        restore.run()
    except (Stopped, Unfit, OSError) as fault:
        stands = "the new image is in its place" if restore.step >= 6 else f"{given.image} is as it was"
        sys.exit(f"restore: step {restore.step} failed: {fault}. {stands}; the bridge may be stopped.")


if __name__ == "__main__":
    main()
