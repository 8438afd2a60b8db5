"""Mutants as they are kept: one file a crate, `CRATE.txt`, with a record for each, in the form that README.md shows."""

import datetime
import fcntl
import re
import subprocess
from contextlib import suppress
from dataclasses import dataclass, replace
from pathlib import Path

FOLDER = Path(__file__).resolve().parent
TOP = FOLDER.parent
KEYS = ("false", "row", "tried")
TRIED = re.compile(r"(\d{4}-\d\d-\d\d) (\w+) ([^:]+?)(?:: (.*))?")


class BadForm(ValueError):
    """A line that no record can have."""


@dataclass(frozen=True)
class Verdict:
    """What came of a mutant: the day, the commit that was checked out, the word, and where it was refused or seen."""

    day: str
    commit: str
    word: str
    where: str = ""

    def __str__(self):
        return f"{self.day} {self.commit} {self.word}" + (f": {self.where}" if self.where else "")


@dataclass(frozen=True)
class Record:
    """A mutant. `values` says at which values of which clause it is false, `row` which rows are to see it, each where a record says
    so; `pairs` has for each text that it replaces the file, the old text and the new one."""

    crate: str
    name: str
    values: str | None = None
    row: str | None = None
    tried: Verdict | None = None
    pairs: tuple[tuple[str, str, str], ...] = ()

    @property
    def whole_name(self) -> str:
        return f"{self.crate}/{self.name}"

    def is_settled(self) -> bool:
        """Whether a clause refuses it or a row sees it."""
        return self.tried is not None and self.tried.word in ("refused", "seen")

    def fits(self, crate: Path) -> bool:
        """Whether each old text stands in its file once, with the crate in this folder."""
        return bool(self.pairs) and all((crate / file).is_file() and (crate / file).read_text(encoding="utf-8").count(old) == 1
                                        for file, old, _ in self.pairs)

    def edited(self, crate: Path, texts: dict[str, str] | None = None) -> dict[str, str]:
        """The texts of the files that it changes, in the folder or among these texts."""
        texts = dict(texts or {})
        for file, old, new in self.pairs:
            text = texts[file] if file in texts else (crate / file).read_text(encoding="utf-8")
            texts[file] = text.replace(old, new)
        return texts

    def __str__(self):
        lines, file = [f"== {self.name}"], None
        lines += [f"{key}: {value}" for key, value in zip(KEYS, (self.values, self.row, self.tried)) if value is not None]
        for its_file, old, new in self.pairs:
            lines += [f"file: {its_file}"] if its_file != file else []
            file = its_file
            lines += [f"{mark} {line}" if line else mark for mark, text in (("-", old), ("+", new)) for line in text.split("\n")]
        return "".join(f"{line}\n" for line in lines)


def parse(crate: str, text: str) -> list[Record]:
    """The records of a crate's file."""
    head, *parts = re.split(r"(?m)^== ", text)
    if head.strip():
        raise BadForm(f"{crate}.txt:1: before the first record stands {head.split(chr(10))[0]!r}")
    found, line = [], 1 + head.count("\n")
    for part in parts:
        found.append(parse_record(crate, part, line))
        line += part.count("\n")
    return found


def parse_record(crate: str, text: str, first: int) -> Record:
    """The record that begins at this line of the crate's file, whose text is this one behind `== `."""
    name, *lines = text.split("\n")
    said, pairs, file, sides, last = {}, [], None, ([], []), ""
    if not re.fullmatch(r"\w+", name):
        raise BadForm(f"{crate}.txt:{first}: {name!r} is no name")

    def end_pair():
        if sides[0] and sides[1]:
            pairs.append((file, "\n".join(sides[0]), "\n".join(sides[1])))
        elif sides[0] or sides[1]:
            raise BadForm(f"{crate}.txt:{first}: {name} has an old text without a new one, or a new one without an old one")
        sides[0].clear()
        sides[1].clear()

    for number, line in enumerate(lines, first + 1):
        key, colon, value = line.partition(": ")
        if line[:1] in ("-", "+") and line[1:2] in ("", " ") and file:
            if line[0] == "-" and last == "+":
                end_pair()
            last = line[0]
            sides[last == "+"].append(line[2:])
            continue
        end_pair()
        last = ""
        if key == "file" and colon:
            file = value
        elif key in KEYS and colon and file is None and key not in said:
            said[key] = value
        elif line:
            raise BadForm(f"{crate}.txt:{number}: {line!r} is no line of a record")
    end_pair()
    return Record(crate, name, said.get("false"), said.get("row"), verdict_of(said.get("tried"), f"{crate}/{name}"), tuple(pairs))


def verdict_of(text: str | None, name: str) -> Verdict | None:
    found = TRIED.fullmatch(text or "")
    if text is not None and not found:
        raise BadForm(f"{name}: {text!r} is no verdict")
    return Verdict(*(it or "" for it in found.groups())) if found else None


def parse_edit(crate: str, name: str, text: str) -> Record:
    """The record of an edit in the form that `rt must-fail` reads: lines `file:`, `old:` and `new:`, each text one line."""
    said, pairs, file, old = {}, [], None, None
    for line in text.split("\n"):
        key, _, value = line.partition(":")
        if key == "file":
            file = value.strip()
        elif key == "old":
            old = value.removeprefix(" ")
        elif key == "new" and file and old is not None:
            pairs.append((file, old, value.removeprefix(" ")))
            old = None
        elif key in ("false", "row"):
            said[key] = value.strip()
        elif line:
            raise BadForm(f"{crate}/{name}: {line!r} is no line of an edit")
    return Record(crate, name, said.get("false"), said.get("row"), None, tuple(pairs))


def printed(records: list[Record]) -> str:
    """The text of a crate's file."""
    return "\n".join(map(str, records))


def file_of(crate: str) -> Path:
    return FOLDER / f"{crate}.txt"


def crates() -> list[str]:
    """The crates that have mutants."""
    return sorted(it.stem for it in FOLDER.glob("*.txt"))


def records_of(crate: str) -> list[Record]:
    file = file_of(crate)
    return parse(crate, file.read_bytes().decode("utf-8")) if file.exists() else []


def chosen(words: list[str]) -> list[Record]:
    """The records that words `CRATE` and `CRATE/NAME` name, all where there is none."""
    found = []
    for word in words or crates():
        crate, _, name = word.partition("/")
        some = [it for it in records_of(crate) if not name or it.name == name]
        if not some:
            raise BadForm(f"there is no mutant {word}")
        found += [it for it in some if it not in found]
    return found


def put(record: Record) -> bool:
    """Puts a record into its crate's file, in the place of one of that name or behind the others, beside other runs that do so.
    Whether it replaced one."""
    with open(file_of(record.crate), "a+b") as file:
        fcntl.flock(file, fcntl.LOCK_EX)
        file.seek(0)
        records = parse(record.crate, file.read().decode("utf-8"))
        names = [it.name for it in records]
        replaces = record.name in names
        at = names.index(record.name) if replaces else len(names)
        records[at : at + 1] = [record]
        file.truncate(0)
        file.write(printed(records).encode("utf-8"))
    return replaces


def keep(record: Record, verdict: Verdict) -> None:
    """Writes a verdict into its record."""
    put(replace(record, tried=verdict))


def now() -> tuple[str, str]:
    """The day, and the commit that is checked out."""
    return datetime.datetime.now(datetime.timezone.utc).strftime("%Y-%m-%d"), said_by_git("rev-parse", "--short=8", "HEAD").strip()


def said_by_git(*words: str) -> str:
    return subprocess.run(["git", "-C", str(TOP), *words], capture_output=True).stdout.decode("utf-8")


def was_edited(record: Record) -> bool:
    """Whether a mutant's texts are others than at the commit of its verdict, or aren't known there. Its file may have another name."""
    before = record_at(record.tried.commit, record.crate, record.name) if record.tried else None
    return before is None or [it[1:] for it in before.pairs] != [it[1:] for it in record.pairs]


def record_at(commit: str, crate: str, name: str) -> Record | None:
    """A record as it is at a commit, which may keep it as an edit in a file of its own; None where it isn't there."""
    with suppress(BadForm):
        if text := said_by_git("show", f"{commit}:mutants/{crate}.txt"):
            return next((it for it in parse(crate, text) if it.name == name), None)
        for folder in (f"wrong_bodies/{crate}", f"crates/{crate}/wrong_bodies", f"crates/{crate}/must-fail"):
            if text := said_by_git("show", f"{commit}:{folder}/{name}.edit"):
                return parse_edit(crate, name, text)
    return None
