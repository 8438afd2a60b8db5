"""A shop behind a bridge, whatever carries its messages: one `serve`, and the journal of what it took. `serve` keeps a log
beside the image; `show` reads it."""

from __future__ import annotations

import argparse
from collections.abc import Callable, Iterable, Iterator
from typing import Any, TypeVar
import os
import subprocess
import sys
import time
from contextlib import contextmanager

from ledger_shop import PROGRAM, account, journal
from ledger_shop.account import StrPath, Unfit
from ledger_shop.journal import Entries, Numbers, key_of
from ledger_shop.wishes import request_of, say

# exit statuses of a bridge, after sysexits.h
DEVICE, AGAIN, NO_SHOP = 74, 75, 78
MOST = 64
# seconds for which `show` is asked again while another command has the image
PATIENCE = 1.0
# the reply to a message that is no request
SYNTAX = b"30,SYNTAX ERROR,00,00"
# the key of that reply, the till that no message is from, and the seconds between two reports of refused messages
REFUSED, NOBODY, REPORT = "refused", -1, 60


class Gone(Exception):
    """`serve` has ended: with this status, and this text on standard error."""

    def __init__(self, status: int, text: str) -> None:
        super().__init__(f"serve has ended with status {status} {text}".rstrip())
        self.status, self.text = status, text

    def in_use(self) -> bool:
        return (self.status, self.text) == (3, "IN USE")

    def exit_status(self) -> int:
        """Whether a supervisor is to start the bridge again (AGAIN), or a keeper has to look first."""
        if self.status == 1:
            return NO_SHOP
        return DEVICE if self.text in ("DEVICE", "FILE") else AGAIN


class Unkept(Gone):
    """The journal failed, and `serve` doesn't get the request in hand."""

    def __init__(self, fault: OSError) -> None:
        Exception.__init__(self, f"the journal can't be written: {fault}")

    def exit_status(self) -> int:
        return DEVICE


class Stale(Gone):
    """The image isn't the one that the journal tells of, and isn't served. Or the journal is none."""

    def __init__(self, text: str) -> None:
        Exception.__init__(self, text)

    def exit_status(self) -> int:
        return NO_SHOP


def line_of(message: bytes) -> str:
    """A message without the end of its line, as text; what isn't ASCII, or is too long, can't be a request."""
    line = message.removesuffix(b"\n").removesuffix(b"\r")
    return line.decode("ascii", "replace") if len(line) <= MOST else ""


def place_of(reply: bytes) -> str:
    """Where a reply goes: to its till by number, or if it names none to `refused`."""
    return REFUSED if reply == SYNTAX else reply.partition(b",")[0].decode()


def till_of(key: str) -> int:
    """The till whose routing key or topic this is; NOBODY if it is none's."""
    return int(key) if key.isascii() and key.isdigit() and len(key) < 3 else NOBODY


class Refusals:
    """Counts the messages that are refused, by the till whose account sent them, and reports them now and then."""

    def __init__(self) -> None:
        self.counts: dict[int | None, int] = {}
        self.reported = 0.0

    def add(self, till: int | None) -> None:
        self.counts[till] = self.counts.get(till, 0) + 1
        if time.monotonic() < self.reported + REPORT:
            return
        by = ", ".join(
            f"{count} of {'nobody' if till in (None, NOBODY) else f'till {till}'}" for till, count in self.counts.items()
        )
        say(f"messages that are no request: {by}")
        self.counts, self.reported = {}, time.monotonic()


class Serve:
    """The one `serve` of an image, whose lock keeps every other away."""

    def __init__(self, program: str, image: StrPath, kept: journal.Journal | None = None) -> None:
        self.command, self.journal, self.refusals = [program, "serve", os.fspath(image)], kept, Refusals()
        # the process, with pipes to its streams, while it is open
        self.process: Any = None
        self.numbers: Numbers = {}
        self.strangers: set[int] = set()

    def is_open(self) -> bool:
        return self.process is not None

    def start(self, wait: Callable[[float], None] = time.sleep) -> None:
        """Starts it, and waits while another holds the image. A first empty line has its reply once the shop is open;
        then the image is compared with the journal. Raises Stale if the image is another or an older one."""
        waits = False
        while not self.is_open():
            self.run()
            try:
                self.turn(b"")
            except Gone as gone:
                if not gone.in_use():
                    raise
                if not waits:
                    say(f"{self.command[2]}: in use, waits")
                waits = True
                wait(0.2)
        if self.journal:
            with self.keeping():
                self.agree(self.journal, self.journal.open(wait))

    def run(self) -> None:
        pipe = subprocess.PIPE
        try:
            self.process = subprocess.Popen(self.command, stdin=pipe, stdout=pipe, stderr=pipe)
        except OSError as fault:
            raise Unfit(f"{self.command[0]} can't be run: {fault.strerror}") from fault

    @contextmanager
    def keeping(self) -> Iterator[None]:
        """Work on the journal, which ends `serve` if it fails."""
        try:
            yield
        except OSError as fault:
            self.end()
            raise Unkept(fault) from fault
        except Unfit as fault:
            self.end()
            raise Stale(str(fault)) from fault
        except Gone:
            self.end()
            raise

    def agree(self, kept: journal.Journal, entries: Entries) -> None:
        """Compares the image with what the journal has. The requests that the journal ends with are handed over once more:
        the bridge before may have died before it did that."""
        shown = self.shown()
        self.numbers = {till: int(line.split(",")[1]) for till, line in shown.items()}
        for till, number in sorted(entries.numbers.items()):
            self.compare(till, number, shown.get(till), entries.shown.get(till))
        for till, number in entries.answered.items():
            self.compare(till, number, shown.get(till), None)
        expected = dict(entries.numbers)
        for till, number in map(key_of, entries.open):
            self.compare(till, number - 1, shown.get(till), None)
            expected[till] = number
        is_ahead = any(number > expected.get(till, 0) for till, number in self.numbers.items())
        if is_ahead and entries.is_there:
            say(f"{self.command[2]}: served without its journal meanwhile: make a backup now, older ones don't lead on")
        taken = entries.open
        if entries.is_there and not entries.is_whole:
            taken = self.go_on(kept, entries)
        if taken:
            self.note(taken, self.turns(taken))
        if not entries.is_there or (is_ahead and entries.is_whole):
            kept.begin(self.numbers)

    def go_on(self, kept: journal.Journal, entries: Entries) -> list[str]:
        """Begins a new file of the journal, since something stands in this one that doesn't count; returns the requests that
        were taken and are handed over again. The image has what was answered."""
        taken = [line for line in entries.open if self.numbers.get(key_of(line)[0], 0) <= key_of(line)[1]]
        before = {till: number - 1 for till, number in map(key_of, taken)}
        old = kept.turn({**self.numbers, **before}, taken)
        why = "is damaged" if entries.is_damaged else "is of an earlier version" if entries.is_old else "broke off"
        say(f"the journal {kept.path} {why}: it is {old} now, and a new one begins. The shop has all that was answered")
        return taken

    def compare(self, till: int, number: int, image: str | None, kept: str | None) -> None:
        """Raises Stale if the image's last request of a till is older than the journal's, or another one."""
        has = int(image.split(",")[1]) if image else 0
        cure = "Make the image anew of a backup and the journal: ledger-shop rebuild"
        if has < number:
            raise Stale(f"the image is older than its journal (till {till}: {has}, journal {number}). {cure}")
        if has == number and kept and image != kept:
            raise Stale(f"the image isn't its journal's (till {till}: {image}, journal {kept}). {cure}")

    def show(self) -> list[str]:
        """The lines that `show` prints beside `serve`: the shop with all that it has answered."""
        end = time.monotonic() + PATIENCE
        while True:
            told = subprocess.run([self.command[0], "show", self.command[2]], capture_output=True, text=True)
            if told.returncode == 0:
                return told.stdout.splitlines()
            gone = Gone(told.returncode, told.stderr.strip())
            if not gone.in_use() or time.monotonic() > end:
                raise gone
            time.sleep(0.05)

    def shown(self) -> dict[int, str]:
        """Each till's last request and its answer, as `show` prints them."""
        lines = (line.removeprefix("TILL ") for line in self.show() if line.startswith("TILL "))
        return {int(line.partition(",")[0]): line for line in lines}

    def turn(self, line: bytes) -> bytes:
        """The reply to a line, which `serve` gives as soon as the shop is on the disk."""
        return self.turns([line.decode()])[0]

    def turns(self, lines: list[str]) -> list[bytes]:
        """The replies to lines that `serve` has at hand together, one after the other."""
        try:
            self.process.stdin.write("".join(f"{line}\n" for line in lines).encode())
            self.process.stdin.flush()
        except OSError:
            raise self.end() from None
        return [self.reply() for _ in lines]

    def reply(self) -> bytes:
        reply = self.process.stdout.readline()
        if not reply.endswith(b"\n") or reply.endswith(b",MEDIA\n"):
            raise self.end()
        return reply[:-1]

    def request(self, message: bytes, till: int | None = None) -> str | None:
        """The request that a message is, or None. A message that came by a till's key has to be that till's."""
        line = line_of(message)
        found = request_of(line)
        if found and till in (None, found[0]):
            return line
        self.refusals.add(till)
        return None

    def hand(self, message: bytes, till: int | None = None) -> bytes:
        """The reply to a message. One that is no request isn't handed over."""
        return self.hand_all([(message, till)])[0]

    def hand_all(self, messages: Iterable[tuple[bytes, int | None]]) -> list[bytes]:
        """The replies to messages, each with its till, in their order."""
        return self.answers([self.request(message, till) for message, till in messages])

    def answers(self, lines: list[str | None]) -> list[bytes]:
        """The replies to requests, and to what is none, in their order."""
        replies = iter(self.take([line for line in lines if line]))
        return [next(replies) if line else SYNTAX for line in lines]

    def take(self, lines: list[str]) -> list[bytes]:
        """Hands over requests, as many together as may be, and returns their replies."""
        replies: list[bytes] = []
        while len(replies) < len(lines):
            together, kept = self.together(lines[len(replies) :])
            replies += self.taken(together, kept) if kept else self.turns(together)
        return replies

    def together(self, lines: list[str]) -> tuple[list[str], list[str]]:
        """The first lines that go together, and those of them that have their till's next number: the journal has them
        before. All others change nothing, and aren't kept. Of those that are kept at most one is a till's: the shop has
        each till's last two answers, so whatever was done can be asked again."""
        kept: list[str] = []
        tills: set[int] = set()
        for at, line in enumerate(lines if self.journal else []):
            till, number = key_of(line)
            ahead = number - self.numbers.get(till, 0)
            if ahead == 2 and till in tills:
                return lines[:at], kept
            if ahead == 1 and till not in tills and till not in self.strangers:
                kept.append(line)
                tills.add(till)
        return lines, kept

    def taken(self, lines: list[str], kept: list[str]) -> list[bytes]:
        """The replies to lines, of which some are kept."""
        assert self.journal
        with self.keeping():
            self.journal.requests(kept)
            replies = self.turns(lines)
            first = {line: reply for line, reply in reversed(list(zip(lines, replies)))}
            self.note(kept, [first[line] for line in kept])
            if self.journal.is_full():
                say(f"{self.journal.path}: goes on in a new file, the one before is {self.journal.turn(self.numbers)}")
        return replies

    def note(self, lines: list[str], replies: list[bytes]) -> None:
        """Keeps the replies to requests that the journal has, and counts these."""
        if self.journal:
            self.journal.replies(lines, replies)
        for line, reply in zip(lines, replies):
            till, number = key_of(line)
            if journal.counts(line, reply.decode("latin-1")):
                self.numbers[till] = number
            elif reply.endswith(b",NO TILL"):
                self.strangers.add(till)

    def end(self) -> Gone:
        """Ends its input and waits for it, and returns how it ended."""
        process, self.process = self.process, None
        if process is None:
            return Gone(0, "")
        try:
            process.stdin.close()
        except OSError:
            pass
        process.stdout.read()
        text = process.stderr.read().decode("utf-8", "replace").strip()
        gone = Gone(process.wait(), text)
        process.stdout.close()
        process.stderr.close()
        if self.journal:
            self.journal.close()
        return gone


def words(parser: argparse.ArgumentParser) -> argparse.ArgumentParser:
    """The arguments that each bridge takes."""
    parser.add_argument("image", help="the shop's image; of several bridges that have it one serves at a time")
    parser.add_argument("--shop", default="1", help="the shop's name at the broker")
    parser.add_argument("--program", default=PROGRAM, help="the program that has the command serve")
    parser.add_argument("--keep", metavar="FILE", help="the shop's journal: who asked what, when, and the reply")
    size = f"bytes after which a new journal is begun (default {journal.SIZE})"
    parser.add_argument("--keep-size", type=int, default=journal.SIZE, metavar="BYTES", help=size)
    return account.words(parser)


S = TypeVar("S", bound=Serve)


def serve_of(given: argparse.Namespace, kind: Callable[..., S]) -> S:
    kept = journal.Journal(given.keep, given.keep_size) if given.keep else None
    return kind(given.program, given.image, kept)


def served(given: argparse.Namespace, work: Callable[[S], object], kind: Callable[..., S]) -> None:
    """Starts `serve` for a bridge and does its work with it, until the service is gone: then says so, and ends with the
    status that a supervisor goes by."""
    serve = serve_of(given, kind)
    try:
        work(serve)
    except Gone as gone:
        say(f"{given.image}: {gone}")
        sys.exit(gone.exit_status())
    except Unfit as unfit:
        say(f"{os.path.basename(sys.argv[0])}: {unfit}")
        sys.exit(NO_SHOP)
    except KeyboardInterrupt:
        serve.end()
