"""Reads what stands in the crates' specs/: for tests/documents/core.py; and how it ends.

A definition has a key: its crate, its module below specs/ (of a declared Rust type ""), and its name."""

import re
import sys
from collections import namedtuple
from pathlib import Path

TOP = Path(__file__).resolve().parents[2]
CRATES = sorted(it.parent.name for it in TOP.glob("crates/*/src"))
WORD = r"[A-Za-z_][\w'-]*"
# the lines of its comment, its text, the keys of what it names here, and what it names of the kit
Definition = namedtuple("Definition", "comment text uses kit")


def without_comments(text, mark):
    return re.sub(rf"^\s*{mark}.*$|\s{mark} .*$", "", text, flags=re.M)


def imports(text, keyword):
    """The words of this repository's specs/ that a file takes in, by the names that it gives them: their crate, module and name."""
    found = {}
    for crate, module, names in re.findall(rf"{keyword} Rattle\.(\w+)\.specs\.([\w.]+)\.\{{([^}}]*)\}}", text):
        for part in names.split(",") if crate in CRATES else []:
            name, _, other = part.strip().partition(" as ")
            found[other or name] = (crate, module, name)
    modules = re.findall(rf"{keyword} Rattle\.(\w+)\.specs\.([\w.]+) as (\w+)", text)
    return found, {name: (crate, module) for crate, module, name in modules if crate in CRATES}


def ends_head(line, is_first):
    """Whether a function's contract ends with this line: its body begins, or it has none."""
    bare = line.strip()
    return bare in ("{", "{}") or line.endswith(";") or (is_first or bare.startswith(")")) and line.endswith(("{", "}"))


def side_table():
    """The lines of tests/documents/definitions.txt: for a crate and a name its sentence `=`, its source `<` and its example `:`."""
    found, faults, crate = {}, [], None
    for line in (TOP / "tests" / "documents" / "definitions.txt").read_text().split("\n"):
        head = re.match(r"\[(\w+)\]$", line)
        row = re.match(rf"({WORD}) ?([=<:]) (.+)", line)
        if head:
            crate = head[1]
        elif row and (crate, row[1], row[2]) not in found:
            found[crate, row[1], row[2]] = row[3]
        elif line and not line.startswith("#"):
            faults.append(f"not read, or twice: {crate}/{line}")
    return found, faults


def begins(line, indent):
    """What a line of specs/ begins: the name of a definition, or "" for anything else that ends the one before it."""
    if re.match(r"(use|infix|module|pub mod|pub use)\b", line):
        return ""
    head = re.match(r"( *)(?:(?:abbrev|unfoldable|ext) )*(?:pub )?(?:(?:record|data) )?(\S+)(?= |$)", line)
    if head and len(head[1]) <= indent and re.match(r" *(abbrev|unfoldable|ext|(pub )?(record|data))\b", line):
        return head[2]
    return "" if re.match(rf" {{0,{indent}}}(pub )?{WORD} :( |$)", line) else None


def parts(lines):
    """The definitions in the lines of a file of specs/: the name of each, where its comment and its text begin, and where it ends."""
    starts, indent = [], 0
    for at, line in enumerate(lines):
        indent = 2 if line.startswith("module _") else 0 if re.match(r"\w", line) else indent
        if begins(line, indent) is not None:
            starts.append((at, begins(line, indent)))
    begun = []
    for at, name in starts:
        first = at
        while first > 0 and lines[first - 1].lstrip().startswith("--"):
            first -= 1
        begun.append((name, first, at))
    ends = [*[first for _, first, _ in begun[1:]], len(lines)]
    return [(name, first, at, end) for (name, first, at), end in zip(begun, ends) if name]


def bare(text, mark):
    """A text without comments, and without the names of fields where they are declared, set or read."""
    text = re.sub(rf"(?m)^( +pub )«?{WORD}»? :|([{{;]\s*){WORD} =", r"\1\2=", without_comments(text, mark))
    return text, re.sub(rf"(?<=[\w)»])\.{WORD}", "", text)


def named(text, known, mark="--"):
    """What a text names of this repository's specs/."""
    names, modules = known
    whole, rest = bare(text, mark)
    qualified = re.findall(rf"(?<![\w.])({WORD})\.({WORD})", whole)
    words = set(re.findall(WORD, rest)) | set(rest.split())
    alone = {key for name, key in names.items() if words.issuperset(it for it in name.split("◌") if it)}
    return {(*modules[alias], word) for alias, word in qualified if alias in modules} | alone


def kit_words(text, file_text):
    """The kit's words that a text names, each with its module."""
    found = re.findall(r"use Rattle\.(\w+)\.specs\.([\w.]+)\.\{([^}]*)\}", file_text)
    words = {it.strip(): f"{crate}/{module}" for crate, module, names in found if crate not in CRATES for it in names.split(",")}
    return {(words[it], it) for it in set(re.findall(WORD, bare(text, "--")[1])) if it in words}


def definitions(crate, file):
    """The definitions of a file of specs/, in their order."""
    text = file.read_text()
    lines = text.split("\n")
    module = ".".join(file.relative_to(TOP / "crates" / crate / "specs").with_suffix("").parts)
    found = parts(lines)
    names, modules = imports(text, "use")
    known = {**names, **{name: (crate, module, name) for name, *_ in found}}, modules
    for name, first, at, end in found:
        body = "\n".join(lines[at:end]).rstrip()
        arguments = re.findall(rf"(?m)^ *{re.escape(name)} ([^=\n]*)=", body)
        bound = {it for it in re.findall(WORD, " ".join(arguments)) if it[0].islower()} | {name}
        uses = named(body, ({it: key for it, key in known[0].items() if it not in bound}, known[1]))
        yield (crate, module, name), Definition(lines[first:at], body, uses, kit_words(body, text))


def declaration(crate, name, file):
    """A Rust type as it is declared, with its comment and without its attributes; None where the file hasn't got it."""
    lines = [it for it in file.read_text().split("\n") if not re.match(r"\s*#\[", it)]
    at = next((at for at, it in enumerate(lines) if re.match(rf"pub (?:struct|enum) {name}\b", it)), None)
    if at is None:
        return None
    end = at if lines[at].endswith((";", "}")) else next(n for n in range(at, len(lines)) if lines[n] == "}")
    first = at
    while lines[first - 1].startswith("///"):
        first -= 1
    text = "\n".join(lines[at : end + 1])
    fields = re.sub(rf"(?m)^    {WORD}(?=[ ,({{])|\b{name}\b", "", without_comments(text, "//"))
    uses = {(crate, "", it) for it in re.findall(WORD, fields) if it[0].isupper()}
    return Definition(lines[first:at], text, uses | named(text, imports(file.read_text(), "ghost use"), "//"), set())


def all_declared():
    """The public Rust types of all crates, by crate and name."""
    found = {}
    for crate in CRATES:
        for file in sorted((TOP / "crates" / crate / "src").rglob("*.rt")):
            for name in re.findall(rf"(?m)^pub (?:struct|enum) ({WORD})", file.read_text()):
                found[crate, "", name] = declaration(crate, name, file)
    return found


def heading(crate, module):
    """The comment at the head of a file of specs/."""
    lines = (TOP / "crates" / crate / "specs" / f"{module.replace('.', '/')}.antt").read_text().split("\n")
    end = next(at for at, it in enumerate(lines) if not it.startswith("--"))
    return " ".join(it[2:].strip() for it in lines[:end])


def everything():
    """All definitions and declared types."""
    known = all_declared()
    for crate in CRATES:
        for file in sorted((TOP / "crates" / crate / "specs").rglob("*.antt")):
            known.update(definitions(crate, file))
    return known


def write_or_check(page, text, faults, fine):
    """Writes a page that a script makes; with the word `--check` sees that it is up to date. Prints what is wrong, or that all
    is fine, and gives the status."""
    place = TOP / page
    if sys.argv[1:] == ["--check"]:
        faults += [] if place.exists() and place.read_text() == text else [f"{page} isn't up to date: run {sys.argv[0]}"]
    else:
        place.write_text(text)
    print("\n".join(faults) or fine)
    return 1 if faults else 0
