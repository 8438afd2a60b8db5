#!/usr/bin/env python3
"""Compares the table of words, docs/words.toml, with the program and with KEEPERS:

    tests/documents/words.py PROGRAM     compares
    tests/documents/words.py --write     writes the rows of KEEPERS anew from the table

  - `ledger help WORD` explains each word of the definitions of printed texts (`codes ".."` in the specs of the crates): each run of words
    in capitals. A definition whose text no command prints is listed below, with the reason. Each word is asked for as it is, in small
    letters unless that is a command's name, and with a sector after it;
  - what it prints of a word of the table is that word's `help`;
  - the table has each word that a refused command or command line prints, and no other word;
  - `ledger COMMAND --help` names, under *Exit status*, the words of the table that this command can end with, each at its status, and
    no others; and the table has each command, and only flags that the command takes;
  - KEEPERS has the words of each status in a table, with the meanings and the cures of docs/words.toml.

What is wrong is printed, and the status is 1 then."""

import re
import subprocess
import sys
import tomllib
from pathlib import Path

TOP = Path(__file__).resolve().parents[2]
TABLE = TOP / "docs/words.toml"
GUIDE = TOP / "docs/KEEPERS.md"
# where the words of refusals are defined
REFUSALS = TOP / "crates/command_faults/specs/Faults.antt"
USAGE_FAULTS = TOP / "crates/ledger_cli/src/faults.rt"
FAULT_TEXTS = TOP / "crates/disk_layout/specs/Texts.antt"
# ends of a command in whose place other words are printed: ERROR and BEYOND, and a word for each image
SILENT = {"TRIMMED", "STATUS"}
# words that a command ends with and that aren't among those definitions: `trim` and others print ERROR and BEYOND before they end so,
# and FEWER doesn't change the status
PRINTED = {"ERROR", "BEYOND", "FEWER"}

# definitions of texts that no command prints, or that are no words of the program
OTHERS = {
    "command_table": "what the words of a command line are called",
    "ledger_cli": "the same",
    "line_text/basic": "keywords of BASIC",
    "drive_channels/Spelling.antt": "what a program sends to a drive",
    "drive_channels/Statuses.antt": "what a drive tells a program; the two that a till sees are in request_cards",
    "disk_pictures/Pictures.antt": "a page's markup",
    "disk_pictures/Sheets.antt": "the same",
    "shop_commands/FreshShops.antt": "the name of a disk",
    "shop_commands/Images.antt": "the same",
    "image_looks/Plans.antt": "what stands for standard input in a command",
    "geos_files/Types.antt": "what GEOS calls its files",
}
# names of files
NAMES = {"STOCK", "REQUESTS"}
TEXT = re.compile(r'codes "((?:[^"\\]|\\.)*)"')
# capitals, after a number that belongs to them: `72,DISK FULL`
WORD = re.compile(r"(?:\d\d,)?[A-Z]{2,}(?: [A-Z]{2,})*")


def printed_words():
    """The words, each with a definition that has it."""
    words = {}
    for path in sorted((TOP / "crates").glob("*/specs/**/*.antt")):
        crate = path.relative_to(TOP / "crates").parts[0]
        if {crate, f"{crate}/{path.name}", f"{crate}/{path.parent.name}"} & OTHERS.keys() or crate.startswith(("tests_", "test_")):
            continue
        lines = [line for line in path.read_text(encoding="utf-8").splitlines() if not line.lstrip().startswith("--")]
        for text in TEXT.findall("\n".join(lines)):
            for word in WORD.findall(text.replace("\\n", " | ")):
                if word not in NAMES:
                    words.setdefault(word, f"{crate}/{path.name}")
    return words


def commands_of(program):
    """The names of the program's commands."""
    told = subprocess.run([program, "--help"], capture_output=True, text=True).stdout
    return set(re.findall(r"^  ([a-z-]+)  ", told, re.MULTILINE))


def stem_of(word):
    """A word of the table without the sector or the number after it."""
    return re.sub(r"( t/s| n)+$", "", word)


def row_of(word):
    """The row of KEEPERS that a word of the table has."""
    return f"| `{word['word']}` | {word['means']} | {word['cure']} |"


def is_row_at(word, heading):
    """Whether KEEPERS has the row of a word under this heading or paragraph."""
    status = re.match(r"\*\*Status (\d)\*\*", heading)
    return heading == "## Faults" if word.get("fault") else bool(status) and int(status[1]) == word["status"]


def parts_of_guide(text):
    """The lines of KEEPERS, each with whether it is a row of a word, and the heading or the paragraph of a status above it."""
    heading = ""
    for line in text.split("\n"):
        if line.startswith("#") or line.startswith("**Status "):
            heading = line
        is_word = heading == "## Faults" or heading.startswith("**Status ")
        yield line, is_word and bool(re.match(r"\| `[A-Z][^`]*` \| .* \| .* \|$", line)), heading


def written(text, words):
    """KEEPERS with the rows of the table: after the head of each table of words those that stand there."""
    lines = []
    for line, is_row, heading in parts_of_guide(text):
        if not is_row:
            lines.append(line)
        if line == "|---|---|---|" and (heading == "## Faults" or heading.startswith("**Status ")):
            lines += [row_of(word) for word in words if is_row_at(word, heading)]
    return "\n".join(lines)


def guide_faults(words):
    """What KEEPERS has in other words than the table."""
    found = {(heading, line) for line, is_row, heading in parts_of_guide(GUIDE.read_text(encoding="utf-8")) if is_row}
    headings = {heading for heading, _ in found}
    wanted = {(heading, row_of(word)) for word in words for heading in headings if is_row_at(word, heading)}
    for _, row in sorted(found ^ wanted):
        where = "docs/KEEPERS.md" if (_, row) in found else "docs/words.toml"
        yield f"{where} alone has (tests/documents/words.py --write takes that of docs/words.toml): {row}"
    for word in words:
        if not any(is_row_at(word, heading) for heading in headings):
            yield f"docs/KEEPERS.md has no table for {word['word']}, status {word['status']}"
    if written(GUIDE.read_text(encoding="utf-8"), words) != GUIDE.read_text(encoding="utf-8") and found == wanted:
        yield "docs/KEEPERS.md: the rows of words stand in another order than in docs/words.toml"


def defined_words():
    """The words that a refused command or command line prints, and the faults of a disk, by their definitions."""
    refused = set(re.findall(r'(?m)^command_text .* = codes "([A-Z ]+?) ?"', REFUSALS.read_text(encoding="utf-8")))
    refused |= set(re.findall(r'#\[error\("([A-Z]+)"\)\]', USAGE_FAULTS.read_text(encoding="utf-8")))
    faults = set(re.findall(r'(?m)^fault_text .* = codes "([A-Z]+)', FAULT_TEXTS.read_text(encoding="utf-8")))
    return refused - SILENT | PRINTED, faults - {"DEVICE"}


def table_faults(words):
    """The words that the table lacks, or that are none."""
    refused, faults = defined_words()
    for wanted, had in ((refused, {stem_of(it["word"]) for it in words if not it.get("fault")}),
                        (faults, {it["word"] for it in words if it.get("fault")})):
        for word in sorted(wanted ^ had):
            yield f"docs/words.toml: {'there is no ' + word if word in wanted else word + ' is no word of the program'}"


def statuses_of(text):
    """What a help text says under *Exit status*, by the status."""
    part = re.search(r"(?s)\nExit status:\n(.*?)(?:\n\n|\Z)", text)
    found = re.split(r"(?m)^  (\d)  ", part[1] if part else "")
    return {int(status): " ".join(said.split()) for status, said in zip(found[1::2], found[2::2])}


def words_in(said, stems):
    """Those of these words that a text has; of two that begin alike the longer one."""
    longest = sorted(stems, key=len, reverse=True)
    return set(re.findall(rf"(?<![\w])({'|'.join(map(re.escape, longest))})(?![\w])", said))


def help_faults(program, words, commands):
    """What the helps have otherwise than the table."""
    status_of = {stem_of(it["word"]): it["status"] for it in words if not it.get("fault")}
    named = commands_of(program) - {"help"}
    for name in sorted(named ^ commands.keys()):
        yield f"docs/words.toml: {name} is missing, or is no command"
    for name in sorted(named & commands.keys()):
        text = subprocess.run([program, name, "--help"], capture_output=True, text=True).stdout
        command, said = commands[name], statuses_of(text)
        for status in (1, 2, 3):
            wanted, found = set(command.get(str(status), [])), words_in(said.get(status, ""), status_of)
            for word in sorted(wanted ^ found):
                yield f"{name} --help: status {status} {'lacks' if word in wanted else 'names'} {word}"
            for word in sorted(wanted):
                if status_of.get(word) != status:
                    yield f"docs/words.toml: {name} has {word} at status {status}"
        if ("a fault" in said.get(1, "").replace("LAYOUT and a fault", "")) != command.get("faults", False):
            yield f"{name} --help: status 1 and `faults` of the table differ"
        ends = {it for status in ("1", "2", "3") for it in command.get(status, [])}
        for flag, some in [*command.get("only", {}).items(), *command.get("never", {}).items()]:
            if not re.search(rf"(?m)^  +(?:-\w, )?{flag}\b", text):
                yield f"docs/words.toml: {name} takes no {flag}"
            for word in set(some) - ends:
                yield f"docs/words.toml: {name} {flag}: {word} isn't among those that it can end with"


def explained_faults(program, words):
    """The words that `help WORD` doesn't explain, or not as the table has it; and how many were looked for."""
    commands, printed, helps = commands_of(program), printed_words(), {stem_of(it["word"]): it["help"] for it in words}
    for word, where in printed.items():
        for typed in [word, f"{word} 18/0"] + ([word.lower()] if word.lower() not in commands else []):
            done = subprocess.run([program, "help", *typed.split()], capture_output=True, text=True)
            if done.returncode or not done.stdout.startswith(f"{typed}: "):
                yield f"{where}: `help {typed}` explains nothing"
    for word, said in helps.items():
        done = subprocess.run([program, "help", *word.split()], capture_output=True, text=True)
        if done.stdout != f"{word}: {said}\n":
            yield f"docs/words.toml: `help {word}` prints: {done.stdout.strip()}"


def main(given):
    table = tomllib.loads(TABLE.read_text(encoding="utf-8"))
    words, commands = table["word"], table["commands"]
    if given == "--write":
        GUIDE.write_text(written(GUIDE.read_text(encoding="utf-8"), words), encoding="utf-8")
        return 0
    program = str(Path(given).resolve())
    wrong = [*explained_faults(program, words), *table_faults(words), *help_faults(program, words, commands), *guide_faults(words)]
    print(*wrong, sep="\n", end="\n" if wrong else "")
    print(f"words: {len(printed_words())} words looked for, {len(words)} words and {len(commands)} commands of the table, {len(wrong)} wrong")
    return 1 if wrong else 0


if __name__ == "__main__":
    if len(sys.argv) != 2:
        sys.exit(__doc__)
    sys.exit(main(sys.argv[1]))
