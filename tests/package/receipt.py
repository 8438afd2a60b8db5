#!/usr/bin/env python3
"""Adds a command to the program, and tells what that took:

    tests/package/receipt.py            builds the program with it, plays its rows, and compares the table in CONTRIBUTING
    tests/package/receipt.py --prove    proves it, too: the crates that it touches
    tests/package/receipt.py --write    writes the table of CONTRIBUTING anew

The command is `relabel IMAGE --id ID`, which gives a disk another ID and leaves every other byte. It isn't part of the program: all that
it takes is kept in relabel.patch beside this script, which is the example for whoever adds a command that changes a disk. The patch is
applied to a copy of the repository, so it has to fit the sources as they are. There the program is built without being proved, and plays
the rows that the patch adds, with the other rows of their tables.

Lines that name what a file uses are counted apart, since the kit writes them (`rt check --fix-imports`)."""

import os
import re
import shutil
import subprocess
import sys
import tempfile
from pathlib import Path

sys.dont_write_bytecode = True
TOP = Path(__file__).resolve().parents[2]
sys.path.insert(0, str(TOP / "tests" / "lib"))
sys.path.insert(0, str(TOP / "mutants"))
from seeing import built
from trial import check, conduct, need

PATCH = Path(__file__).with_name("relabel.patch")
PAGE = TOP / "docs/CONTRIBUTING.md"
# what the copy is made of, and what a program's crates are built into
PARTS = ("crates.txt", "HANDLES", "crates", "docs", "mutants", "tests")
MADE = shutil.ignore_patterns("out", "__pycache__")
# the kinds of files, by where they lie
KINDS = {
    "definitions": r"crates/\w+/specs/.*\.antt",
    "code": r"crates/\w+/src/.*\.rt",
    "proofs": r"crates/\w+/proofs/.*\.antt",
    "rows": r"tests/rows/.*\.rows",
    "lists that scripts try": r"tests/.*\.py|docs/words\.toml",
    "mutants": r"mutants/.*\.txt",
    "pages": r".*\.md",
}
# the kinds that the checker reads
CHECKED = ("definitions", "code", "proofs")
IMPORT = re.compile(r"(?:pub )?(?:ghost )?use .*|(?:pub )?mod \w+;?")
BEGIN, END = "<!-- receipt: tests/package/receipt.py --write -->", "<!-- end of receipt -->"


def changes_of(patch):
    """The lines that a patch adds to each file, and those that it takes away."""
    changes, name, in_use = {}, None, {"+": False, "-": False}
    for line in patch.splitlines():
        if line.startswith("+++ b/"):
            name = line.removeprefix("+++ b/")
            changes[name] = {"+": [], "-": []}
        elif name and line[:1] in ("+", "-") and not line.startswith("--- "):
            changes[name][line[0]].append(line[1:])
        elif line.startswith("diff "):
            name = None
    return changes


def counted(lines):
    """How many of these lines say something, and how many only name what is used."""
    own, imports, within = 0, 0, False
    for line in lines:
        if within or IMPORT.fullmatch(line.strip()):
            within = not line.rstrip().endswith((";", "}")) and ("{" in line or within)
            imports += 1
        elif line.strip():
            own += 1
    return own, imports


def kind_of(name):
    return next(kind for kind, form in KINDS.items() if re.fullmatch(form, name))


def table_of(changes):
    """A row for each kind of files: which they are, how many lines they get, and of these how many are imports."""
    rows = ["| What | Files | Lines | Imports |", "|---|---|---|---|"]
    sums = {}
    for kind in KINDS:
        names = [it for it in changes if kind_of(it) == kind]
        own, imports = (sum(it) for it in zip((0, 0), *(counted(changes[it]["+"]) for it in names)))
        sums[kind] = len(names), own, imports
        rows.append(f"| {kind} | {', '.join(f'`{shown(it)}`' for it in names)} | {own} | {imports or ''} |")
    files, own, imports = (sum(sums[kind][it] for kind in CHECKED) for it in range(3))
    return files, own, imports, rows


def shown(name):
    """A file's name as the table has it: the crate or the folder, and the file without what all of its kind have."""
    crate = re.fullmatch(r"crates/(\w+)/(?:src|specs|proofs)/(.*)\.\w+", name)
    return f"{crate[1]}: {crate[2]}" if crate else name.removeprefix("crates/")


def told(changes):
    files, own, imports, rows = table_of(changes)
    return "\n".join([f"{len(changes)} files get lines, and {files} of them are read by the checker: {own} lines, and {imports} that name what is used.", "", *rows])


def copied(room):
    """A copy of the repository with the patch."""
    for part in PARTS:
        source = TOP / part
        shutil.copytree(source, room / part, ignore=MADE, symlinks=True) if source.is_dir() else shutil.copy2(source, room)
    done = subprocess.run(["git", "apply", "-"], cwd=room, input=PATCH.read_bytes(), capture_output=True)
    check(done.returncode == 0, f"relabel.patch doesn't fit the sources any more: {done.stderr.decode(errors='replace').strip()}")


def crates_of(changes):
    return sorted({it.split("/")[1] for it in changes if kind_of(it) in CHECKED})


def more(parser):
    parser.add_argument("--prove", action="store_true", help="prove the crates that the patch touches, too")
    parser.add_argument("--write", action="store_true", help="write the table of CONTRIBUTING anew, and try nothing")


def main(given):
    changes = changes_of(PATCH.read_text())
    text, page = told(changes), PAGE.read_text()
    begin, found, rest = page.partition(BEGIN)
    check(found and END in rest, f"CONTRIBUTING has no place for the table: {BEGIN}")
    wanted = f"{begin}{BEGIN}\n\n{text}\n\n{END}{rest.partition(END)[2]}"
    if given.write:
        PAGE.write_text(wanted)
        return
    check(page == wanted, "the table in CONTRIBUTING isn't that of relabel.patch: tests/package/receipt.py --write")
    need("rt", "git")
    with tempfile.TemporaryDirectory() as folder:
        room = Path(folder)
        copied(room)
        if given.prove:
            done = subprocess.run(["rt", "ci", *crates_of(changes)], cwd=room, capture_output=True, text=True, errors="replace")
            check(done.returncode == 0, f"rt ci {' '.join(crates_of(changes))}: {done.stdout[-2000:]}")
        program = built(room)
        check(isinstance(program, Path), f"the program can't be built: {program}")
        tables = [room / it for it in changes if kind_of(it) == "rows"]
        done = subprocess.run([room / "tests/rows/rows.py", program, *tables], capture_output=True, text=True,
                              env={**os.environ, "ROW_SECONDS": "600"})
        check(done.returncode == 0, done.stdout[-2000:])
    print(text, f"relabel: {done.stdout.splitlines()[-1]}", sep="\n\n")


if __name__ == "__main__":
    conduct(main, more, wants_program=False)
