#!/usr/bin/env python3
"""The mutants of the crates, and what came of each:

    mutants/mutants.py list [CRATE[/NAME] ..]     a line for each, with its verdict
    mutants/mutants.py left [CRATE ..]            those that no clause refuses and no row sees
    mutants/mutants.py try [--missing] [CRATE[/NAME] ..]
                                                  tries them, and writes each verdict into its record
    mutants/mutants.py add CRATE FILE.edit ..     takes an edit, as `rt must-fail` reads it, into the crate's records
    mutants/mutants.py check                      whether all records are in their form and fit the sources

A record with `row:` is tried on rows (seeing.py), each other one on clauses (trying.py), which takes up to hours for a crate. With
`--missing` those are left out that are settled and not edited since, so that a run that was cut off goes on. The status is 1 where one
isn't refused or seen, or something isn't as it should be."""

import signal
import sys
from collections import Counter
from dataclasses import replace
from pathlib import Path

sys.dont_write_bytecode = True
import records as keeping
from records import TOP, BadForm, Record, Verdict
from seeing import seen
from trying import verdicts_of


def line_of(record: Record) -> str:
    return f"{record.whole_name}: {record.tried or 'not tried'}"


def list_them(words: list[str], only_left: bool = False) -> int:
    found = keeping.chosen(words)
    for it in found:
        if not only_left or not it.is_settled():
            print(line_of(it))
    words_of = Counter(it.tried.word if it.tried else "not tried" for it in found)
    print(f"mutants: {len(found)}: {', '.join(f'{count} {word}' for word, count in words_of.most_common())}")
    return 0


def keep(record: Record, word: str, where: str, why: str, when: tuple[str, str]) -> bool:
    """Prints a verdict, and writes it into the record; not one of a run that came to no verdict. Whether it settles the mutant."""
    print(f"{word:18} {record.whole_name}: {why or where}", flush=True)
    if word != "not run":
        keeping.keep(record, Verdict(*when, word, where))
    return word in ("refused", "seen")


def try_them(words: list[str]) -> int:
    flags = {it for it in words if it.startswith("--")}
    if flags - {"--missing"}:
        raise BadForm(f"there is no flag {min(flags)}")
    found = keeping.chosen([it for it in words if it not in flags])
    if flags:
        found = [it for it in found if not it.is_settled() or keeping.was_edited(it)]
    well, when = True, keeping.now()
    for crate in dict.fromkeys(it.crate for it in found):
        own = [it for it in found if it.crate == crate]
        print(f"mutants: {crate}, {len(own)}", file=sys.stderr, flush=True)
        for record in (it for it in own if it.row):
            well = keep(record, *seen(record), "", when) and well
        clauses = [it for it in own if not it.row]
        for told in verdicts_of(crate, clauses) if clauses else []:
            well = keep(*told, when) and well
    return 0 if well else 1


def add(words: list[str]) -> int:
    crate, *files = words
    if not (TOP / "crates" / crate / "src").is_dir() or not files:
        raise BadForm(f"{crate} is no crate, or no edit is named")
    for file in map(Path, files):
        record = keeping.parse_edit(crate, file.stem, file.read_bytes().decode("utf-8"))
        if not record.pairs:
            raise BadForm(f"{file} replaces nothing")
        old = next((it for it in keeping.records_of(crate) if it.name == record.name), None)
        if old and replace(old, tried=None) == record:
            record = old
        did = "replaced" if keeping.put(record) else "added"
        fits = "" if record.fits(TOP / "crates" / crate) else "; its old text doesn't stand in its file once"
        print(f"{record.whole_name}: {did}{fits}")
    return 0


def check() -> int:
    """Prints what isn't as it should be: a file's form, a name that stands twice, a text that doesn't fit, a gate's edit that is another."""
    wrong, all_records = [], {}
    for crate in keeping.crates():
        records = keeping.records_of(crate)
        if keeping.printed(records).encode("utf-8") != keeping.file_of(crate).read_bytes():
            wrong.append(f"mutants/{crate}.txt isn't written as `add` and `try` write it")
        for it in records:
            if it.whole_name in all_records:
                wrong.append(f"{it.whole_name} stands there twice")
            if not it.fits(TOP / "crates" / crate):
                wrong.append(f"{it.whole_name}: its old text doesn't stand in its file once")
            all_records[it.whole_name] = it
    for file in sorted(TOP.glob("crates/*/must-fail/*.edit")):
        own = keeping.parse_edit(file.parts[-3], file.stem, file.read_bytes().decode("utf-8"))
        kept = all_records.get(own.whole_name)
        if not kept or kept.pairs != own.pairs:
            wrong.append(f"{file.relative_to(TOP)} isn't the record {own.whole_name}")
    print(*wrong, sep="\n", end="\n" if wrong else "")
    print(f"mutants: {len(all_records)} records, {len(wrong)} wrong")
    return 1 if wrong else 0


def main(words: list[str]) -> int:
    try:
        match words:
            case ["list" | "left" as word, *rest]:
                signal.signal(signal.SIGPIPE, signal.SIG_DFL)  # `mutants.py list | head` ends without a word
                return list_them(rest, only_left=word == "left")
            case ["try", *rest]:
                return try_them(rest)
            case ["add", _, *_] as all_words:
                return add(all_words[1:])
            case ["check"]:
                return check()
    except BadForm as error:
        print(f"mutants: {error}", file=sys.stderr)
        return 2
    print(__doc__.split("\n\n")[1], file=sys.stderr)
    return 2


if __name__ == "__main__":
    sys.exit(main(sys.argv[1:]))
