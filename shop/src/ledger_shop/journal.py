"""A shop's journal: who asked what, when, and what was answered. It is a text file with a line for each thing that is noted,
in the order in which `serve` took the requests:

    # 2026-11-26T19:00:00.000Z begins 1:12 7:15 =43,c00b0455
    # 2026-11-26T19:05:12.345Z takes 7,16,S,5,10 9,4,I,5,3 =54,7fcc6c02
    2026-11-26T19:05:12.349Z 7,16,S,5,10 -> 7,16,DONE,10 =52,7e6bcc05
    2026-11-26T19:05:12.349Z 9,4,I,5,3 -> 9,4,DONE,7 =48,32bcc0eb

A `takes` line is on the disk before `serve` gets its requests; a line with its reply follows for each. The next `takes` is
written after that, and its sync brings both to the disk. A `begins` line says with which number of each till a file goes on
(till 7 had asked 15 times). So the journal knows each till's last number, and an image that is older is found out.

**Each line ends with its length and its checksum.** The length counts the bytes before the blank and the `=`, and the checksum
is their CRC-32. A power loss loses only what wasn't synced: replies, and one `takes` line whose requests `serve` never got. Any
of their bytes may be missing, or be zeros. So what counts of a file are its lines up to the first that isn't whole. Requests
that were taken and have no reply in them are handed over again: the shop has each till's last two answers. A file that ends
with something else gets a time behind its name, as it is, and the journal goes on in a new file.

If whole lines stand behind the first that isn't, and a power loss can't have left them, the file was damaged. Then they count,
too, but for what is missing.

Files of earlier versions have no checks, and a request that was alone has no `takes` line. What counts there are lines that
have the right form, and a line is a reply only if it begins with its till and number and is an answer to its request."""

import fcntl
import os
import re
import zlib
from collections.abc import Callable, Iterable, Iterator
from dataclasses import dataclass, field
from datetime import datetime, timezone
from pathlib import Path

from ledger_shop.account import Unfit
from ledger_shop.wishes import COUNT, NUMBER, REFUSALS, is_answer, sync_folder

TIME = r"\d{4}-\d\d-\d\dT\d\d:\d\d:\d\d\.\d{3}Z"
ARROW = " -> "
REQUEST = rf"{COUNT},{COUNT},[RISM],{COUNT},{NUMBER}(?:,{COUNT})?"
ENTRY = re.compile(rf"({TIME}) ({REQUEST}){ARROW}(.*)", re.ASCII | re.DOTALL)
TAKES = re.compile(rf"# ({TIME}) takes((?: {REQUEST})+)", re.ASCII)
BEGINS = re.compile(rf"# ({TIME}) begins((?: {COUNT}:{COUNT})*)", re.ASCII)
CHECK = re.compile(r"(.*) =(\d{1,4}),([0-9a-f]{8})", re.ASCII | re.DOTALL)
# what a first line that broke off can have: no line is longer, or has other characters
LONGEST, BROKEN = 5000, re.compile(rb"(?:[#\0][0-9a-zTZ:., #=\-\0]*\n?)?")
# what a file's name gets when a new one is begun, and the bytes after which that happens
STAMP = re.compile(r"\.\d{8}T\d{6}\.\d{3}Z")
SIZE = 2_000_000

# each till's last number
Numbers = dict[int, int]


def now() -> str:
    return datetime.now(timezone.utc).isoformat(timespec="milliseconds").replace("+00:00", "Z")


def files_of(path: str | os.PathLike[str]) -> list[str]:
    """The files of a journal, in their order: those with a time behind the name, and the one that is added to. A file that
    has two names, since power went while a new one was begun, is there once."""
    folder, name = os.path.split(os.path.abspath(path))
    older = [one for one in os.listdir(folder) if one.startswith(name) and STAMP.fullmatch(one[len(name) :])]
    files = {}
    for one in [*(os.path.join(folder, one) for one in sorted(older)), os.fspath(path)]:
        try:
            there = os.stat(one)
        except FileNotFoundError:
            continue
        files[there.st_dev, there.st_ino] = one
    return list(files.values())


def numbers_of(text: str) -> Numbers:
    """Each till's last number, of ` 1:12 7:15`."""
    return {int(till): int(number) for till, number in (pair.split(":") for pair in text.split())}


def text_of(numbers: Numbers) -> str:
    return "".join(f" {till}:{number}" for till, number in sorted(numbers.items()) if number)


def key_of(request: str) -> tuple[int, int]:
    """The till and the number of a request's line."""
    till, number, _ = request.split(",", 2)
    return int(till), int(number)


def answer_of(reply: str) -> str:
    """What follows till and number in a reply."""
    return reply.split(",", 2)[2]


def is_reply(request: str, reply: str) -> bool:
    """Whether this is a reply to the request: it begins with its till and number, and goes on with an answer or a refusal."""
    begin = ",".join(request.split(",", 2)[:2]) + ","
    word = reply.removeprefix(begin)
    return reply.startswith(begin) and (word in REFUSALS or is_answer(request.split(",", 2)[2], word))


def counts(request: str, reply: str) -> bool:
    """Whether this reply says that the request used up its number."""
    return is_reply(request, reply) and answer_of(reply) not in REFUSALS


def checked(text: str) -> bytes:
    """A line with its length and checksum."""
    return f"{text} ={len(text)},{zlib.crc32(text.encode()):08x}\n".encode()


def unchecked(line: str) -> str | None:
    """The text of a line that has its length and checksum, or None."""
    found = CHECK.fullmatch(line)
    if not found or not found[1].isascii() or int(found[2]) != len(found[1]):
        return None
    return found[1] if int(found[3], 16) == zlib.crc32(found[1].encode()) else None


@dataclass(frozen=True)
class Begins:
    """The journal goes on with these numbers."""

    time: str
    numbers: Numbers


@dataclass(frozen=True)
class Takes:
    """`serve` gets these requests next."""

    time: str
    requests: tuple[str, ...]


@dataclass(frozen=True)
class Answer:
    """A request and its reply, which is None if it was lost."""

    time: str
    request: str
    reply: str | None


Note = Begins | Takes | Answer


def requests_of(note: Takes | Answer) -> tuple[str, ...]:
    return note.requests if isinstance(note, Takes) else (note.request,)


def note_of(text: str) -> Note | None:
    """What a line says, without its check, or None if it has no such form."""
    if begins := BEGINS.fullmatch(text):
        return Begins(begins[1], numbers_of(begins[2]))
    if takes := TAKES.fullmatch(text):
        return Takes(takes[1], tuple(takes[2].split()))
    if (entry := ENTRY.fullmatch(text)) and is_reply(entry[2], entry[3]):
        return Answer(entry[1], entry[2], entry[3])
    return None


def old_note_of(text: str, is_ended: bool) -> Note | None:
    """The same for a line of an earlier version, with or without its end. A request without a reply was taken."""
    if note := note_of(text) if is_ended else None:
        return note
    entry = ENTRY.fullmatch(text)
    return Takes(entry[1], (entry[2],)) if entry else None


@dataclass(frozen=True)
class Line:
    """A whole line of a file: what it says, and the places where it begins and ends."""

    note: Note
    start: int
    end: int


def lines_in(data: bytes) -> tuple[list[Line], bool]:
    """The whole lines of a file, and whether it is of an earlier version: none of its lines has a check."""
    texts = data.decode("ascii", "replace").split("\n")
    found, old, start = [], [], 0
    for number, text in enumerate(texts, 1):
        is_ended = number < len(texts)
        end = start + len(text) + is_ended
        own = unchecked(text) if is_ended else None
        if note := note_of(own) if own else None:
            found.append(Line(note, start, end))
        elif not found and (note := old_note_of(text, is_ended)):
            old.append(Line(note, start, end))
        start = end
    return (found, False) if found else (old, True)


def is_torn(taken: list[str], notes: list[Note]) -> bool:
    """Whether a power loss can have left these lines behind the last that counts, when so many requests were taken: replies
    to them (in a file of an earlier version also without the reply), and what was to be taken next."""
    rest = [one for one in notes if isinstance(one, Begins) or not set(requests_of(one)).issubset(taken)]
    return not rest or (rest == notes[-1:] and isinstance(rest[0], Takes))


@dataclass
class Entries:
    """What files of a journal say, one after the other: each till's last number, and its last request with its answer as
    `show` prints them; the requests that were answered; and the `open` ones, which were taken and have no reply. `answered` has
    each till's last number of all whole lines, also of those that don't count.

    Of the file that was read last: `is_old`, if it is of an earlier version; `is_whole`, if each of its lines has its check and
    nothing else stands in it; `is_damaged`, if whole lines follow what isn't whole, and a power loss can't have left that."""

    numbers: Numbers = field(default_factory=dict)
    shown: dict[int, str] = field(default_factory=dict)
    answers: list[Answer] = field(default_factory=list)
    open: list[str] = field(default_factory=list)
    answered: Numbers = field(default_factory=dict)
    is_there: bool = False
    is_old: bool = False
    is_whole: bool = False
    is_damaged: bool = False

    def read(self, data: bytes, path: str | os.PathLike[str]) -> "Entries":
        """Takes a file. Raises Unfit if it is no journal."""
        lines, is_old = lines_in(data)
        if is_old and not (lines and lines[0].start == 0 and isinstance(lines[0].note, Begins)):
            broken = data.rstrip(b"\0")
            if len(broken) > LONGEST or not BROKEN.fullmatch(broken):
                raise Unfit(f"{path} isn't a journal: name another file, or move it away and a new one is begun")
            lines = []
        self.is_there, self.is_old, self.is_damaged = bool(data), is_old and bool(lines), False
        end = 0
        for number, line in enumerate(lines):
            if line.start != end or not self.fits(line.note, is_old):
                rest = [one.note for one in lines[number:]]
                if is_torn(self.open, rest):
                    break
                self.skip(rest)
            self.take(line.note)
            end = line.end
        self.is_whole = bool(lines) and not is_old and not self.is_damaged and end == len(data)
        for line in lines:
            self.look(line.note)
        return self

    def fits(self, note: Note, is_old: bool) -> bool:
        """Whether a line can follow those before. In a file of an earlier version a request that was alone has one line."""
        if isinstance(note, Begins) or self.is_damaged:
            return True
        if isinstance(note, Answer):
            return self.open[:1] == [note.request] or (is_old and not self.open)
        keys = map(key_of, note.requests)
        return not self.open and (is_old or all(number == self.numbers.get(till, 0) + 1 for till, number in keys))

    def skip(self, rest: list[Note]) -> None:
        """Goes on after what was damaged, with these lines. Requests that were taken before, and have no reply there, have
        lost it."""
        known = []
        for note in rest:
            if not isinstance(note, Answer):
                break
            known.append(note.request)
        time = rest[0].time
        self.answers += [Answer(time, request, None) for request in self.open if request not in known]
        self.open, self.is_damaged = [], True

    def take(self, note: Note) -> None:
        """Takes a line."""
        if isinstance(note, Begins):
            # open requests that the shop had then have lost their replies
            done = [one for one in self.open if key_of(one)[1] <= note.numbers.get(key_of(one)[0], 0)]
            self.answers += [Answer(note.time, request, None) for request in done]
            same = {till for till, number in note.numbers.items() if number == self.numbers.get(till)}
            self.shown = {till: line for till, line in self.shown.items() if till in same}
            self.numbers, self.open = dict(note.numbers), []
        elif isinstance(note, Takes):
            self.open = list(note.requests)
        else:
            self.open = self.open[1:] if self.open[:1] == [note.request] else []
            self.answers.append(note)
            if counts(note.request, note.reply or ""):
                till, number = key_of(note.request)
                self.numbers[till] = number
                self.shown[till] = f"{note.request},{answer_of(note.reply or '')}"

    def look(self, note: Note) -> None:
        """Notes which numbers the shop has at least."""
        numbers = note.numbers if isinstance(note, Begins) else {}
        if isinstance(note, Answer) and counts(note.request, note.reply or ""):
            numbers = dict([key_of(note.request)])
        for till, number in numbers.items():
            self.answered[till] = max(number, self.answered.get(till, 0))


def answers_in(paths: Iterable[str | os.PathLike[str]]) -> Iterator[Answer]:
    """The requests of these files with their replies, in their order."""
    entries = Entries()
    for path in paths:
        entries.read(Path(path).read_bytes(), path)
        yield from entries.answers
        entries.answers = []


class Journal:
    """A journal that a bridge adds to. Its lock keeps away a bridge whose `serve` has died and that hasn't seen it yet:
    nothing follows the last line that the next bridge hands over. A file that fails raises OSError, and `serve` doesn't
    get the request in hand; one that is no journal raises Unfit, and stays as it is."""

    def __init__(self, path: str | os.PathLike[str], size: int = SIZE):
        self.path, self.most = os.fspath(path), size
        self.file: int | None = None
        self.size = 0

    def has_lock(self) -> bool:
        assert self.file is not None
        try:
            fcntl.flock(self.file, fcntl.LOCK_EX | fcntl.LOCK_NB)
            return True
        except BlockingIOError:
            return False

    def is_current(self) -> bool:
        """Whether the name still refers to this file: another bridge may have begun a new one meanwhile."""
        assert self.file is not None
        try:
            there, here = os.stat(self.path), os.fstat(self.file)
        except FileNotFoundError:
            return False
        return (there.st_dev, there.st_ino) == (here.st_dev, here.st_ino)

    def open(self, wait: Callable[[float], None]) -> Entries:
        """Waits while another bridge has it, and returns what it says. If there is none yet, it is made when it begins."""
        while True:
            self.close()
            try:
                self.file = os.open(self.path, os.O_RDWR | os.O_APPEND)
            except FileNotFoundError:
                return Entries()
            while not self.has_lock():
                wait(0.2)
            if self.is_current():
                break
        self.settle()
        with open(self.file, "rb", closefd=False) as file:
            data = file.read()
        self.size = len(data)
        return Entries().read(data, self.path)

    def settle(self) -> None:
        """Takes away a second name, which this file got when power went while a new one was begun."""
        folder, name = os.path.split(os.path.abspath(self.path))
        for one in os.listdir(folder):
            other = os.path.join(folder, one)
            if one.startswith(name) and STAMP.fullmatch(one[len(name) :]) and os.path.samefile(other, self.path):
                os.unlink(other)
                sync_folder(self.path)

    def add(self, text: bytes, sync: bool = True) -> None:
        assert self.file is not None
        self.size += len(text)
        while text:
            text = text[os.write(self.file, text) :]
        if sync:
            os.fdatasync(self.file)

    def begin(self, numbers: Numbers) -> None:
        """Says with which number of each till it goes on."""
        text = checked(f"# {now()} begins{text_of(numbers)}")
        if self.file is not None:
            self.add(text)
            return
        os.rename(self.made(text), self.path)
        sync_folder(self.path)

    def made(self, text: bytes) -> str:
        """Makes a file that has this text, which has no name of the journal's yet; returns its name."""
        new = self.path + ".new"
        if os.path.exists(new):
            os.unlink(new)
        self.file, self.size = os.open(new, os.O_RDWR | os.O_APPEND | os.O_CREAT | os.O_EXCL, 0o600), 0
        self.has_lock()
        self.add(text)
        return new

    def requests(self, lines: list[str]) -> None:
        """The requests that `serve` gets next."""
        if lines:
            self.add(checked(f"# {now()} takes {' '.join(lines)}"))

    def replies(self, lines: list[str], replies: list[bytes]) -> None:
        """Their replies. The next requests' sync, or the end, brings them to the disk; if they are lost, the requests are
        handed over again."""
        time = now()
        each = (checked(f"{time} {line}{ARROW}{reply.decode('ascii', 'replace')}") for line, reply in zip(lines, replies))
        self.add(b"".join(each), sync=False)

    def is_full(self) -> bool:
        return self.size >= self.most

    def turn(self, numbers: Numbers, lines: Iterable[str] = ()) -> str:
        """Begins a new file with these numbers, and with requests that are taken. The old one gets the time behind its name;
        the name always refers to one of them."""
        assert self.file is not None
        time = now()
        old, path = self.file, self.path + "." + time.replace(":", "").replace("-", "")
        os.fdatasync(old)
        takes = checked(f"# {time} takes {' '.join(lines)}") if lines else b""
        new = self.made(checked(f"# {time} begins{text_of(numbers)}") + takes)
        os.link(self.path, path)
        sync_folder(self.path)
        os.replace(new, self.path)
        sync_folder(self.path)
        os.close(old)
        return path

    def close(self) -> None:
        """Lets it go. A fault says nothing new here: each request was on the disk before."""
        file, self.file = self.file, None
        if file is None:
            return
        try:
            os.fdatasync(file)
        except OSError:
            pass
        os.close(file)
