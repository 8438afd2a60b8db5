#!/usr/bin/env python3
"""Sees that docs/PROMISES.md names no clause that isn't there, and other pages for programmers no name, and prints a line for each.

Below each promise stand calls in backticks, and in brackets behind them their clauses. A call is a function, a type, whose methods
it stands for, or a folder or file of tests. A clause is a label of a contract of one of these calls, a
field of a record that the contract cites, a word of the contract itself, or a record of specs/ on which it rests. In PAGES each name in backticks is one of the sources, of specs/, or of OTHERS; and in the lines of docs/PROOF.md that
number the theorem each clause is one of the calls before the colon. The status is 1 if something isn't found."""

import re
import sys
from pathlib import Path

TOP = Path(__file__).resolve().parents[2]
WORD = r"[A-Za-z_]\w*"
PAGES = ("README.md", "docs/PROOF.md", "docs/MAP.md", "docs/EMBED.md", "docs/LOG.md", "docs/POWER_CUTS.md", "crates/*/README.md")
# names in backticks of the kit, of its verdict, or of other programs
OTHERS = {"HANDLES", "LEFT", "grep", "incremental", "itoa", "native", "search", "statements", "thiserror"}


def record_fields():
    """The fields of each record of specs/ and the words of their types, with those of the records among these and in the
    abbreviations that they name."""
    found, cited, records = {}, {}, set()
    for file in TOP.glob("crates/*/specs/**/*.antt"):
        name = None
        for line in file.read_text().split("\n"):
            head = re.match(rf" *(pub record|abbrev pub) ({WORD})", line)
            field = re.match(rf" +pub «?({WORD})»? :", line)
            name = head[2] if head else name if line.startswith((" ", f"{name} ")) or not line else None
            if head and head[1] == "pub record":
                records.add(name)
            if name and field:
                found.setdefault(name, set()).add(field[1])
            if name and not head:
                cited.setdefault(name, set()).update(re.findall(WORD, re.sub(r"--.*", "", line)))
    for _ in range(3):  # records within records within records
        for name, words in cited.items():
            beneath = [found[it] for it in words if it in found and it != name]
            found.setdefault(name, set()).update(words, *beneath)
    return {name: words for name, words in found.items() if name in records}


def contract_words(fields):
    """For each function and each type the words of its contracts, with the fields of the records that these cite."""
    found = {}
    for file in TOP.glob("crates/*/src/**/*.rt"):
        owners, name = [], None
        for line in file.read_text().split("\n"):
            if re.match(r"\S", line):
                head = re.match(r"(?:pub )?(?:impl|trait|struct|enum)\b(.*)", line)
                owners = re.findall(WORD, head[1]) if head else []
            function = re.match(rf"\s*(?:pub(?:\([a-z]+\))? )?fn ({WORD})", line)
            name = function[1] if function else name
            words = set(re.findall(WORD, re.sub(r"//.*", "", line)))
            words |= {field for word in words for field in fields.get(word, ())}
            for it in [name] * bool(name) + owners:
                found.setdefault(it, set()).update(words)
    return found


def rows():
    """The lines of docs/PROMISES.md that say what carries a promise: those below one, and list items of one line."""
    for number, line in enumerate((TOP / "docs" / "PROMISES.md").read_text().split("\n"), 1):
        if line.startswith("  ") or line.startswith("- ") and not line.endswith("\\"):
            yield number, line.strip("- ")


def unknown_names(everywhere):
    """A line for each name in backticks of PAGES that isn't there."""
    for file in (it for form in PAGES for it in sorted(TOP.glob(form))):
        text = re.sub(r"(?ms)^```.*?^```", "", file.read_text())
        named = {it for it in re.findall(r"`([^`\n]+)`", text) if re.fullmatch(rf"{WORD}(::{WORD})*", it)}
        unknown = {word for it in named for word in re.findall(WORD, it)} - everywhere - OTHERS
        yield from (f"{file.relative_to(TOP)}: no such name: {it}" for it in sorted(unknown))


def unknown_clauses(words, fields):
    """A line for each clause in the theorem's lines of docs/PROOF.md that isn't one of the calls named with it."""
    for line in re.findall(r"(?m)^\d\. \*\*.*\((`.*`)\)$", (TOP / "docs/PROOF.md").read_text()):
        for calls, clauses in re.findall(r"([^;:]*(?:::[^;:]*)*): ([^;:]*)(?:;|$)", line):
            known = set(fields).union(*(words.get(it.split("::")[-1], set()) for it in re.findall(r"`([^`]+)`", calls)))
            missing = [it for it in re.findall(rf"`({WORD})`", clauses) if it not in known]
            yield from (f"PROOF.md: {calls.strip()}: no such clause: {it}" for it in missing)


def main():
    fields = record_fields()
    words = contract_words(fields)
    everywhere = set(fields).union(*words.values(), words)
    for file in TOP.glob("crates/*/*/**/*"):
        everywhere |= {file.stem, file.parts[len(TOP.parts) + 1]}
        if file.suffix == ".antt" and "specs" in file.parts:
            everywhere |= set(re.findall(WORD, file.read_text()))
    lines = []
    for number, cell in rows():
        for named in re.findall(r"`([^`/]+)`", cell):
            unknown = [it for it in re.findall(WORD, named) if it not in everywhere and it != "HANDLES"]
            lines += [f"PROMISES.md:{number}: no such name: {it}" for it in unknown]
        for calls, clauses in re.findall(r"((?:`[^`]+`(?:, | |'s ))+)\(([^)]*)\)", cell):
            names = [re.split(r"::", it)[-1] for it in re.findall(r"`([^`]+)`", calls)]
            names += [it.split("::")[0] for it in re.findall(r"`([^`]+::[^`]+)`", calls)]
            known = set(fields).union(*(words.get(it, set()) for it in names), *(fields.get(it, set()) for it in names))
            for clause in re.findall(rf"`({WORD})`", clauses):
                known |= fields.get(clause, set()) if clause in known else set()
            missing = [it for it in re.findall(rf"`({WORD})`", clauses) if it not in known]
            lines += [f"PROMISES.md:{number}: {', '.join(names)}: no such clause: {it}" for it in missing]
    lines += [*unknown_names(everywhere), *unknown_clauses(words, fields)]
    print("\n".join(lines) or "docs/PROMISES.md and other pages name nothing that isn't there")
    return 1 if lines else 0


if __name__ == "__main__":
    sys.exit(main())
