"""A till's own part, whatever carries its messages: it numbers its wishes, keeps the number and the open wish in a
book through its own death, asks the same until it hears the answer, and hears each answer once.

The rules are those of `Till` in crates/request_cards/src/till.rt (`wish`, `ask`, `hear`), of which it is proved that
they do each wish once and hear each answer once, whatever is lost, late, doubled or out of order (`both_ends`)."""

from __future__ import annotations

from collections.abc import Callable, Iterator
from typing import IO, Any
import argparse
import fcntl
import os
import re
import select
import subprocess
import sys
import time

from ledger_shop.account import StrPath
from ledger_shop import account
from ledger_shop.account import Unfit

MOST, MOST_ITEM, MOST_TILL = 999_999_999, 65535, 64
COUNT, NUMBER = "[1-9][0-9]{0,8}", "(?:0|[1-9][0-9]{0,8})"
WISH = re.compile(f"(?:[RIS],({COUNT}),{NUMBER}|M,({COUNT}),{NUMBER},({COUNT}))", re.ASCII)
REQUEST = re.compile(f"({COUNT}),({COUNT}),(.*)", re.ASCII)
# the answers of docs/MESSAGES.md, by the wish's kind
ANSWERS = {
    "S": f"DONE,{NUMBER}|72,DISK FULL|52,FILE TOO LARGE",
    "R": f"DONE,{NUMBER}|OVER,{NUMBER}|NO CARD",
    "I": f"DONE,{NUMBER}|SHORT,{NUMBER}|NO CARD",
    "M": f"DONE,{NUMBER},{NUMBER}|OVER,{NUMBER}|SHORT,{NUMBER}|NO CARD",
}
ANSWER = {kind: re.compile(form, re.ASCII) for kind, form in ANSWERS.items()}
# what no till hears that keeps these rules on a shop that it has always asked
REFUSALS = ("NO TILL", "CLASH", "STALE", "AHEAD")
# seconds until a wish is asked again: at first, and at most; and until the till says what it waits for
FIRST, LONGEST, PATIENCE = 2.0, 8.0, 4.0
# and seconds until an ask is sent again for which a broker had no room
SOON = 0.02
# the exit statuses of a till that a keeper has to look at, and of one that did all wishes of a file and had one refused
LOOK, REFUSED = 4, 3


class Refused(Exception):
    """The shop's books and this till's aren't of one piece: another till has its number, or the shop is another."""


class Taken(Exception):
    """Another device has this till, or has used its numbers: why, and the last number that was used, or None."""

    def __init__(self, why: str, number: int | None) -> None:
        super().__init__(why)
        self.number = number


class Away(Exception):
    """What carries the messages isn't there."""


class Full(Exception):
    """The broker has no room for the message now: others ask too much."""


def say(text: object) -> None:
    print(text, file=sys.stderr, flush=True)


def is_wish(text: str) -> bool:
    """Whether this is kind, item and quantity of a request, and for a move the item to go to."""
    found = WISH.fullmatch(text)
    items = [int(item) for item in found.groups() if item] if found else []
    return bool(items) and max(items) <= MOST_ITEM and len(set(items)) == len(items)


def request_of(text: str) -> tuple[int, int] | None:
    """The till and the number of a request, or None if this is none."""
    found = REQUEST.fullmatch(text)
    if not found or int(found[1]) > MOST_TILL or not is_wish(found[3]):
        return None
    return int(found[1]), int(found[2])


def is_answer(wish: str, text: str) -> bool:
    """Whether this is an answer that the trade rule has for the wish."""
    return bool(ANSWER[wish[0]].fullmatch(text))


def opened(path: StrPath) -> IO[bytes]:
    """A file to add lines to. If it is made, only its owner can read it, and its name is on the disk when this returns."""
    file = open(path, "a+b", opener=lambda name, flags: os.open(name, flags, 0o600))
    sync_folder(path)
    return file


def sync_folder(path: StrPath) -> None:
    """Brings the names in a file's folder to the disk."""
    folder = os.open(os.path.dirname(os.path.abspath(path)), os.O_RDONLY)
    os.fsync(folder)
    os.close(folder)


class Book:
    """A till's file. It has a line `? NUMBER,WISH` for each wish that was opened and `= NUMBER,ANSWER` for each
    answer that was heard; a line counts once it has its LF, and is on the disk before the till goes on. A keeper may add
    `= NUMBER,lost`. Its lock keeps away a second till. Raises Unfit, and leaves the file as it is, if it isn't a book, if
    its last line is damaged, or if another till has it."""

    LINE = re.compile(f"([?=]) ({NUMBER}),(.*)", re.ASCII)
    # what a line can have that broke off: no line is longer, or has other characters
    LONGEST, BROKEN = 80, re.compile(rb"(?:[?=] ?[0-9A-Z, ]*)?\0*")

    def __init__(self, path: StrPath) -> None:
        self.path, self.file = path, opened(path)
        try:
            fcntl.flock(self.file, fcntl.LOCK_EX | fcntl.LOCK_NB)
        except BlockingIOError:
            raise Unfit(f"{path} is in use: another till has this book open") from None
        self.file.seek(0)
        text = self.file.read()
        whole = text[: text.rfind(b"\n") + 1]
        lines = whole.decode("ascii", "replace").split("\n")[:-1]
        self.last, self.open = self.read(lines)
        rest = text[len(whole) :].rstrip(b"\0")
        if len(rest) > self.LONGEST or not self.BROKEN.fullmatch(rest):
            raise Unfit(f"{path} isn't a till's book: {rest[:40]!r}")
        self.file.truncate(len(whole))

    def read(self, lines: list[str]) -> tuple[int, str | None]:
        """The number of the last wish that was answered, and the open wish or None, by the last two lines."""
        entries = [self.entry(line) for line in lines]
        damaged = [number for number, entry in enumerate(entries, 1) if entry is None]
        if not lines:
            return 0, None
        if damaged and damaged[-1] == len(lines):
            raise Unfit(self.damaged(len(lines), lines[-1]))
        if damaged:
            say(f"{self.path}: line {damaged[-1]} is damaged; the lines after it are good, so the till goes on")
        last, before = entries[-1], entries[-2] if len(entries) > 1 else ("=", 0, "")
        assert last
        mark, number, text = last
        if before and text != "lost" and before[:2] != (("=", number - 1) if mark == "?" else ("?", number)):
            raise Unfit(self.damaged(len(lines), lines[-1]))
        return (number, None) if mark == "=" else (number - 1, text)

    def entry(self, line: str) -> tuple[str, int, str] | None:
        """Mark, number and text of a line, or None."""
        found = self.LINE.fullmatch(line)
        if not found:
            return None
        mark, number, text = found[1], int(found[2]), found[3]
        if text == "lost" and mark == "=":
            return mark, number, text
        is_right = any(form.fullmatch(text) for form in ANSWER.values()) if mark == "=" else is_wish(text)
        return (mark, number, text) if number and is_right else None

    def damaged(self, number: int, line: str) -> str:
        told = f"{self.path}, line {number}, is damaged or doesn't follow the line before: {line[:60]!r}."
        cure = "Look for this till's last number at the shop (`show` prints TILL 7,17,..),"
        return f"{told} {cure} and add it to the book as a line `= 17,lost`."

    def add(self, line: str) -> None:
        self.file.write(line.encode() + b"\n")
        self.file.flush()
        os.fdatasync(self.file.fileno())


class Till:
    """The till of this number, 1 to 64, with what its book says, or without a book from its first request on."""

    def __init__(self, till: int, book: Book | None = None) -> None:
        self.till, self.book, self.refused = till, book, 0
        self.last, self.open = (book.last, book.open) if book else (0, None)

    def note(self, line: str) -> None:
        if self.book:
            self.book.add(line)

    def wish(self, text: str) -> bool:
        """Opens this wish, if none is open and a number is left; returns whether it did."""
        if self.open or self.last >= MOST:
            return False
        self.note(f"? {self.last + 1},{text}")
        self.open = text
        return True

    def go_on(self, number: int) -> None:
        """Drops the open wish, and goes on after this number."""
        self.note(f"= {number},lost")
        self.last, self.open = number, None

    def ask(self) -> str:
        """The message of the open wish, the same each time."""
        return f"{self.till},{self.last + 1},{self.open}"

    def hear(self, reply: str) -> str | None:
        """The answer that this reply brings to the open wish, which it closes, or None. A reply counts only if all of it
        is this till, this number and an answer to this wish: nothing more, and no control bytes."""
        begin = f"{self.till},{self.last + 1},"
        if not self.open or not reply.startswith(begin):
            return None
        word = reply[len(begin) :]
        if word in REFUSALS:
            raise Refused(reply)
        if not is_answer(self.open, word):
            return None
        self.note(f"= {self.last + 1},{word}")
        self.last, self.open = self.last + 1, None
        return word


def answer_to(till: Till, link: Carrier) -> str:
    """Asks for the open wish until its answer is heard. After some seconds it says what it waits for."""
    wait, began, told = FIRST, time.monotonic(), None
    while True:
        until = time.monotonic() + wait
        try:
            link.send(till.ask())
            while (left := until - time.monotonic()) > 0:
                reply = link.reply(min(left, 1))
                answer = till.hear(reply) if reply else None
                if answer:
                    return answer
                told = complain(till, link, began, told)
        except Full:
            told = complain(till, link, began, told)
            time.sleep(SOON)
            continue
        except Away:
            told = complain(till, link, began, told)
            time.sleep(min(wait, 1))
        wait = min(2 * wait, LONGEST)


def wait_for(till: Till, link: Carrier) -> None:
    """Waits until a new wish may be taken."""
    began, told = time.monotonic(), None
    while not link.is_ready(till.last):
        told = complain(till, link, began, told)
        time.sleep(0.02)


def complain(till: Till, link: Carrier, began: float, told: str | None) -> str | None:
    """Says what a till waits for, if it has waited for long and this is another trouble than the last that was said."""
    if time.monotonic() - began < PATIENCE:
        return told
    trouble = link.trouble()
    if trouble != told:
        say(f"till {till.till}: {trouble}; it asks on")
    return trouble


class Carrier:
    """What carries a till's messages, where nobody else has its number."""

    def send(self, text: str) -> None:
        """Sends a message. Raises Away if that can't be, and Full if there is no room."""
        raise NotImplementedError

    def reply(self, seconds: float) -> str | None:
        """The next reply, or None after so many seconds. Raises Away."""
        raise NotImplementedError

    def trouble(self) -> str:
        """What a till waits for, in words."""
        raise NotImplementedError

    def close(self) -> None:
        raise NotImplementedError

    def is_ready(self, _last: int) -> bool:
        """Whether a new wish may be taken after this number; raises Taken if another device has used the next one."""
        return True

    def free(self) -> None:
        """Forgets the numbers that devices took: the shop never had them."""

    def shop_number(self, last: int) -> int | None:
        """The shop's last number of this till, after it has said that the one after `last` is ahead; None if it isn't known."""
        return None


class Pipe(Carrier):
    """Carries messages to a command that answers a line with a line, and is started again if it has ended."""

    def __init__(self, command: str) -> None:
        self.command, self.heard = command, b""
        self.process: Any = None

    def send(self, text: str) -> None:
        try:
            if not self.process:
                pipe = subprocess.PIPE
                self.process = subprocess.Popen(self.command, shell=True, bufsize=0, stdin=pipe, stdout=pipe)
            self.process.stdin.write(text.encode() + b"\n")
        except OSError as fault:
            self.close()
            raise Away from fault

    def reply(self, seconds: float) -> str | None:
        """The next line, or None after so many seconds."""
        until = time.monotonic() + seconds
        while b"\n" not in self.heard:
            if not select.select([self.process.stdout], [], [], max(until - time.monotonic(), 0))[0]:
                return None
            more = os.read(self.process.stdout.fileno(), 4096)
            if not more:
                self.close()
                raise Away
            self.heard += more
        line, _, self.heard = self.heard.partition(b"\n")
        return line.decode("ascii", "replace")

    def trouble(self) -> str:
        return "the command gives no answer" if self.process else "the command ends"

    def close(self) -> None:
        if self.process:
            self.process.kill()
            self.process.wait()
        self.process, self.heard = None, b""


class Wishes:
    """The wishes to come: of a file, whose line n is the wish of number n; or, as they come, of standard input, where a
    line that is no wish is asked for again."""

    def __init__(self, path: str, till: Till) -> None:
        self.path, self.till, self.wrong = path, till, 0
        self.is_asked = path == "-" and sys.stdin.isatty()

    def lines(self) -> Iterator[str]:
        if self.path == "-":
            while line := self.typed():
                yield line
            return
        with open(self.path, encoding="ascii", errors="replace") as file:
            for number, line in enumerate(file, 1):
                if number > self.till.last:
                    yield line

    def typed(self) -> str:
        if self.is_asked:
            print(f"till {self.till.till}, wish {self.till.last + 1}: ", end="", file=sys.stderr, flush=True)
        return sys.stdin.readline()

    def __iter__(self) -> Iterator[str]:
        for line in self.lines():
            wish = line.strip()
            if is_wish(wish):
                yield wish
                continue
            fault = f"{wish[:60]!r} is no wish: KIND,ITEM,QUANTITY with R, I or S, or M,ITEM,QUANTITY,TO"
            if self.path != "-":
                sys.exit(fault)
            say(fault)
            self.wrong += not self.is_asked


def words(description: str) -> argparse.ArgumentParser:
    """The arguments that each till takes."""
    parser = argparse.ArgumentParser(description=description)
    parser.add_argument("till", type=int, choices=range(1, 65), metavar="TILL", help="the till's number, 1 to 64")
    parser.add_argument("--shop", default="1", help="the shop's name at the broker")
    parser.add_argument("--book", required=True, help="the file that keeps the till's number and its open wish")
    parser.add_argument("--wishes", default="-", help="a file, line n of which is wish n; default: standard input")
    parser.add_argument("--pipe", metavar="COMMAND", help="no broker: a command that answers a line with a line")
    return account.words(parser)


def goes_on(given: argparse.Namespace, till: Till, taken: Taken, counts: str = "may or may not count") -> bool:
    """Goes on after the last number that another device used, if a person says so: by --go-on, or on a terminal. A file of
    wishes has a line for each number, so its till never does."""
    if taken.number is None or given.wishes != "-" or not (getattr(given, "go_on", False) or confirmed(f"{taken}. Go on here?")):
        return False
    dropped = f"; the open wish {till.open} {counts}" if till.open else ""
    say(f"till {till.till} goes on after request {taken.number}{dropped}")
    till.go_on(taken.number)
    return True


def confirmed(question: str) -> bool:
    if not sys.stdin.isatty():
        return False
    print(f"{question} [y/N] ", end="", file=sys.stderr, flush=True)
    return sys.stdin.readline().strip() in ("y", "Y", "yes")


def take(given: argparse.Namespace, till: Till, link: Carrier, wish: str) -> None:
    """Opens a wish, under a number that no other device has used."""
    while True:
        try:
            wait_for(till, link)
            break
        except Taken as taken:
            if not goes_on(given, till, taken):
                raise
    if not till.wish(wish):
        sys.exit("no number is left")


def do(given: argparse.Namespace, till: Till, link: Carrier) -> None:
    """Does the open wish, and prints number, wish and answer. It never gets another number: it may have been asked."""
    try:
        number, wish = till.last + 1, till.open
        answer = answer_to(till, link)
        print(number, wish, answer, flush=True)
        till.refused += not answer.startswith("DONE,")
    except Taken as taken:
        if not goes_on(given, till, taken):
            raise
    except Refused as refused:
        if not str(refused).endswith(",AHEAD"):
            raise
        # a device that was lost took a number and didn't ask with it, or the shop is older
        link.free()
        shop = link.shop_number(till.last)
        last = Taken(f"the shop's last request of till {till.till} is {shop}", shop)
        if not goes_on(given, till, last, "didn't count"):
            raise


def run(given: argparse.Namespace, connect: Callable[[argparse.Namespace], Carrier]) -> None:
    """Does wish after wish, each a line `R,42,5` or `M,42,5,43`, and prints number, wish and answer of each. `connect`
    makes what carries its messages, unless that is a pipe. Status 1: a line of the file, or of a standard input that is
    no terminal, is no wish. 3: nothing was done for a wish of a file, as its answer says. 4: a keeper has to look."""
    link = None
    try:
        till = Till(given.till, Book(given.book))
        link = Pipe(given.pipe) if given.pipe else connect(given)
        wishes = Wishes(given.wishes, till)
        if till.open:
            do(given, till, link)
        for wish in wishes:
            take(given, till, link, wish)
            do(given, till, link)
        if given.wishes != "-" and till.refused:
            say(f"till {given.till}: nothing was done for {till.refused} of these wishes, as their answers say")
            sys.exit(REFUSED)
        sys.exit(1 if wishes.wrong else 0)
    except Taken as taken:
        say(f"{taken}: with --go-on it goes on here" if taken.number else f"{taken}: start this one again to go on here")
        sys.exit(LOOK)
    except Refused as refused:
        cure = "; over MQTT --go-on takes the shop's number" if str(refused).endswith(",AHEAD") else ""
        say(f"{refused}: another till has this number, or the shop isn't the one asked before{cure}")
        sys.exit(LOOK)
    except (Unfit, OSError) as fault:
        say(f"till {given.till}: {fault}")
        sys.exit(LOOK)
    except KeyboardInterrupt:
        pass
    finally:
        if link:
            link.close()
