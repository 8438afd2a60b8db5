#!/usr/bin/env python3
"""Sees that what documents quote whole stands so in the sources.

In README.md and docs/*.md a line `<!-- FILE: NAME -->` stands before a block of code that quotes the definition NAME of FILE, with
the comment over it. Of a FILE of Rust NAME is a trait that is implemented there, and the block has a line for each of its functions:
name and body; or it is a function or a trait, which the block has without comments, attributes and blank lines. Both have to be the
same, line by line. `<!-- FILE: NAME without A, B -->` leaves out these functions of a trait, whose bodies a clause binds. `--write` puts the definition into the block. Without words nothing is written, and the status is 1 where a block
isn't up to date, where NAME isn't there, or where nothing is quoted."""

import re
import sys
from pathlib import Path

TOP = Path(__file__).resolve().parents[2]
QUOTE = re.compile(r"(<!-- (\S+): (\w+)(?: without ([\w, ]+?))? -->\n+```\w*\n)(.*?)(```\n)", re.S)


def bodies(lines, trait):
    """The functions of the one implementation of a trait among these lines: the name and the body of each; None where it isn't there."""
    heads = [at for at, line in enumerate(lines) if re.match(rf"impl\b.*\b{trait}\b.* for ", line)]
    if len(heads) != 1:
        return None
    said = [re.sub(r"^\s*(//|#\[|ghost ).*", "", it) for it in lines[heads[0] : lines.index("}", heads[0])]]
    found = re.findall(r"(?ms)^    fn (\w+)\b[^{]*\{\n(.*?)^    \}$", "\n".join(said))
    return "".join(f"{name}: {' '.join(body.split()).replace(' .', '.')}\n" for name, body in found)


def item(lines, name):
    """The one function or trait of this name among these lines, as a block has it; None where it isn't there."""
    heads = [at for at, line in enumerate(lines) if re.match(rf" *(pub(\(crate\))? )?(fn|trait) {name}\b", line)]
    if len(heads) != 1:
        return None
    indent = len(lines[heads[0]]) - len(lines[heads[0]].lstrip())
    end = lines.index(" " * indent + "}", heads[0])
    said = [it[indent:] for it in lines[heads[0] : end + 1] if it.strip() and not re.match(r"\s*(//|#\[)", it)]
    return "".join(f"{it}\n" for it in said)


def definition(file, name):
    """A definition with the comment over it, from its file; None where it isn't there."""
    lines = (TOP / file).read_text(encoding="utf-8").split("\n")
    if file.endswith(".rt"):
        return bodies(lines, name) or item(lines, name)
    heads = [at for at, line in enumerate(lines) if re.match(rf" *(unfoldable |abbrev )?pub (record |data )?{name}\b", line)]
    if len(heads) != 1:
        return None
    begin = end = heads[0]
    inset = " " * (len(lines[begin]) - len(lines[begin].lstrip()))
    while begin and lines[begin - 1].startswith(f"{inset}--"):
        begin -= 1
    while end + 1 < len(lines) and re.match(rf"{inset}( |{name}\b)", lines[end + 1]):
        end += 1
    return "".join(f"{line.removeprefix(inset)}\n" for line in lines[begin : end + 1])


def left_out(lines, names):
    """The lines of a trait without those of these functions; None where one of them isn't there."""
    absent = [it for it in names if not re.search(rf"(?m)^{it}: ", lines)]
    return None if absent else "".join(f"{it}\n" for it in lines.splitlines() if it.partition(":")[0] not in names)


def main(words):
    faults = quoted = 0
    for page in [TOP / "README.md", *sorted((TOP / "docs").glob("*.md"))]:
        text = page.read_text(encoding="utf-8")
        made = text
        for head, file, name, without, block, foot in QUOTE.findall(text):
            quoted += 1
            wanted = definition(file, name) if (TOP / file).exists() else None
            if wanted and without:
                wanted = left_out(wanted, without.split(", "))
            if wanted is None:
                print(f"{page.relative_to(TOP)}: {file} has no {name}")
                faults += 1
            elif block != wanted:
                made = made.replace(head + block + foot, head + wanted + foot)
                if "--write" not in words:
                    print(f"{page.relative_to(TOP)}: {name} isn't as in {file}")
                    faults += 1
        if made != text and "--write" in words:
            page.write_text(made, encoding="utf-8")
    print(f"{quoted} definitions are quoted")
    return int(bool(faults) or not quoted)


if __name__ == "__main__":
    sys.exit(main(sys.argv[1:]))
