#!/usr/bin/env python3
"""Compares what pages, help texts and hints name with what is there:  tests/documents/named.py PROGRAM

  - a version in the name of a package is that of the release under releases/;
  - after the name of a command of PROGRAM stand only flags that this command takes, in a page's code, in a help text and in a hint of
    the program's sources (as in `repair --free`);
  - a file or a folder of the repository that a page's code or a help text names is there.

It prints a line for each thing that isn't so. The last line is `named: N names compared, M wrong`, and the status is 1 if M isn't 0."""

import re
import subprocess
import sys
from pathlib import Path

sys.dont_write_bytecode = True
TOP = Path(__file__).resolve().parents[2]
PAGES = [TOP / it for it in ("README.md", "SECURITY.md", "releases/README.md")]
PAGES += [page for form in ("docs/*.md", "examples/**/*.md", "shop/**/*.md", "tests/**/*.md") for page in sorted(TOP.glob(form))]
# what is made from sources, or tells of what was
MADE = ("docs/CORE.md",)
SOURCES = sorted(it for name in ("ledger_jobs", "command_table", "ledger_cli") for it in TOP.glob(f"crates/{name}/src/**/*.rt"))
FOLDERS = ("bench", "crates", "docs", "examples", "mutants", "packaging", "releases", "shop", "tests", "tools")
PROGRAM = r"(?:\./)?ledger(?:-1541)?"


def flags_of(program):
    """The flags that each command takes, by what its help prints."""

    def printed(*words):
        return subprocess.run([program, *words], capture_output=True, text=True, timeout=60).stdout

    commands = re.findall(r"^  ([a-z][a-z-]+)  ", printed("--help"), re.M)
    return {it: set(re.findall(r"(?<![\w-])(--[a-z0-9][a-z0-9-]*|-[a-zA-Z])\b", printed(it, "--help"))) for it in commands}


def code_of(text):
    """The pieces of a page's code, each with its line: blocks, line by line, and what stands between backticks."""
    fenced = False
    for number, line in enumerate(text.split("\n"), 1):
        if line.lstrip().startswith("```"):
            fenced = not fenced
        elif fenced or re.match(r" {4}|\t", line):
            yield number, line.strip().removeprefix("$ ")
        else:
            for piece in re.findall(r"`([^`]+)`", line):
                yield number, piece


def texts_of(source):
    """The pieces between backticks of the texts in a source, each with its line."""
    text = source.read_text()
    for found in re.finditer(r'"((?:[^"\\]|\\.)*)"', text, re.S):
        said = re.sub(r"\\\n\s*", "", found[1])
        for piece in re.findall(r"`([^`]+)`", said):
            yield text.count("\n", 0, found.start()) + 1, piece


def wrong_flags(piece, flags, bare):
    """The flags after a command in a piece of code that this command doesn't take, and how many flags were compared. In a text of the
    program, or where `bare`, the piece may begin with the command."""
    seen, wrong = 0, []
    for part in re.split(r"[;|&>()]+", piece):
        found = re.match(rf"\s*(?:sudo )?{PROGRAM} ([a-z-]+)(.*)$", part) or (bare and re.match(r"\s*([a-z-]+)((?: .*)?)$", part))
        if not found or found[1] not in flags:
            continue
        words = re.sub(r"'[^']*'|\"[^\"]*\"", "", found[2]).split()
        words = words[: words.index("--")] if "--" in words else words
        for word in words:
            flag = re.match(r"(--[a-z0-9-]+)", word)
            if flag:
                seen += 1
                if flag[1] not in flags[found[1]]:
                    wrong.append(f"`{found[1]}` takes no {flag[1]}")
    return seen, wrong


def missing_paths(piece):
    """The files and folders that a piece of code names and that aren't there, and how many were compared."""
    found = re.findall(rf"(?<![\w/.-])((?:{'|'.join(FOLDERS)})/[\w./*{{}},-]*[\w*/}}])", piece)
    # what is built isn't in the repository
    found = [it for it in found if not re.search(r"[{}]|\.\.|NAME|CRATE|VERSION|FUNCTION|MODULE|/out\b", it)]
    return len(found), [f"there is no {it}" for it in found if not list(TOP.glob(it.rstrip("/")))]


def wrong_versions(text, version):
    """The packages that a page names with another version."""
    for number, line in enumerate(text.split("\n"), 1):
        for found in re.findall(r"ledger-1541[-_](\d+\.\d+\.\d+)", line):
            if found != version:
                yield number, f"the release is {version}, not {found}"


def main():
    flags = flags_of(sys.argv[1])
    built = (TOP / "releases/BUILT_FROM").read_text()
    version = re.search(r"^version: ([\d.]+)", built, re.M)[1]
    seen, wrong = 0, []
    for file in [*PAGES, *SOURCES]:
        name = str(file.relative_to(TOP))
        if name in MADE or not file.exists():
            continue
        page = file.suffix == ".md"
        pieces = code_of(file.read_text()) if page else texts_of(file)
        for number, piece in pieces:
            for count, faults in (wrong_flags(piece, flags, bare=True), missing_paths(piece)):
                seen += count
                wrong += [f"{name}:{number}: {it}" for it in faults]
        wrong += [f"{name}:{number}: {it}" for number, it in wrong_versions(file.read_text(), version)]
    print(*wrong, sep="\n", end="\n" if wrong else "")
    print(f"named: {seen} names compared, {len(wrong)} wrong")
    return 1 if wrong or not flags else 0


if __name__ == "__main__":
    sys.exit(main())
