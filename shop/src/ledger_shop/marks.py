"""Which device has a till's number, over MQTT. Several devices may have a till's account, but the broker lets only one be
connected. Each device has a random mark. The broker keeps for each till, retained, which device is signed in, and which
devices had the last two numbers:

    shops/1/marks/7     MARK NUMBER:MARK NUMBER:MARK

A device takes a number there before it asks with it. So the next device sees each number that may have been asked with,
also while the shop is away. `shops/1/tills/7` has the shop's own number (`board.py`)."""

from __future__ import annotations

import os
import re
import secrets

from ledger_shop.account import StrPath
from ledger_shop.account import Unfit
from ledger_shop.wishes import COUNT, Taken, sync_folder

MARK = "[0-9a-f]{16}"
MARKS = re.compile(f"({MARK})((?: {COUNT}:{MARK}){{0,2}})", re.ASCII)
SHOWN = re.compile(rf"\S+ ({COUNT}),.*", re.ASCII)


def mark_of(book: StrPath) -> str:
    """The mark of the device that has this book: made once, in a file beside it. Raises Unfit if that file is none."""
    path = f"{book}.mark"
    try:
        with open(os.open(path, os.O_WRONLY | os.O_CREAT | os.O_EXCL, 0o600), "w", encoding="ascii") as file:
            file.write(secrets.token_hex(8) + "\n")
            file.flush()
            os.fsync(file.fileno())
        sync_folder(path)
    except FileExistsError:
        pass
    with open(path, encoding="ascii", errors="replace") as file:
        mark = file.read().strip()
    if not re.fullmatch(MARK, mark):
        raise Unfit(f"{path} isn't a device's mark: remove it, and this device is a new one")
    return mark


class Numbers:
    """What the broker has of a till's numbers, on one connection after another."""

    def __init__(self, mark: str) -> None:
        self.mark, self.was_here = mark, False
        self.at: str | None = None
        self.taken: dict[int, str] = {}
        self.forget()

    def forget(self) -> None:
        """A new connection: everything is learnt anew."""
        self.shop, self.at, self.taken, self.is_here = 0, None, {}, False

    def shows(self, text: str) -> None:
        """Takes what the bridge shows of the till."""
        found = SHOWN.fullmatch(text)
        self.shop = int(found[1]) if found else 0

    def notes(self, text: str, is_retained: bool) -> None:
        """Takes who is signed in, and who has the last numbers. One's own come back: then the broker has them."""
        found = MARKS.fullmatch(text)
        self.was_here |= found is not None and found[1] == self.mark
        if found and (is_retained or found[1] != self.mark):
            pairs = (pair.split(":") for pair in found[2].split())
            self.at, self.taken = found[1], {int(number): mark for number, mark in pairs}

    def compare(self, till: int, last: int, ask: str | None) -> None:
        """Raises Taken if another device has used the number after `last`, or has this till since this device had it. An
        open `ask` keeps its number, unless another device has taken that."""
        if self.at not in (None, self.mark) and self.was_here:
            raise Taken(f"another device is signed in as till {till}", None)
        used = max(self.shop, *self.taken, last)
        if used > last and (ask is None or self.taken.get(last + 1, self.mark) != self.mark):
            raise Taken(f"till {till} was used on another device (request {used})", used)

    def below(self, last: int) -> int | None:
        """The shop's number, if it is known and below this one. A shop for which 2 is ahead has none."""
        return self.shop if 0 < self.shop < last else 0 if last == 1 else None

    def take(self, number: int) -> str | None:
        """Takes a number for this device; returns what to publish for that, or None if it is so already. If others have taken
        later numbers, this one was taken before them, and theirs stay: they mustn't be forgotten."""
        is_late = max(self.taken, default=0) > number
        if self.is_here and (is_late or self.taken.get(number) == self.mark):
            return None
        if not is_late:
            kept = {other: mark for other, mark in self.taken.items() if other == number - 1}
            self.taken = {**kept, number: self.mark}
        self.at, self.is_here = self.mark, True
        return " ".join([self.mark, *(f"{other}:{mark}" for other, mark in self.taken.items())])
