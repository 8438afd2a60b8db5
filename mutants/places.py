"""Where a mutant edits: the functions that have its texts, by the lines of their files."""

import re

FUNCTION = re.compile(r"( *)(?:pub(?:\([a-z]+\))? )?(?:const )?fn (\w+)")
# a constant, to its end
CONSTANT = re.compile(r"^(?:pub(?:\([a-z]+\))? )?(?:const|static) (\w+)(:.*?;)$", re.M | re.S)
# `impl<T> Trait<Word> for Type<T> {`: the proofs of a method are in TypeTrait, or in TypeTraitWord where several are of one trait
IMPL = re.compile(r"impl(?:<(?P<own>.*?)>)? (?:(?:\w+::)*(?P<trait>\w+)(?:<(?P<word>.*)>)? for )?(?:\w+::)*(?P<type>\w+)(?:<(?P<of>.*)>)?")


def places(record, crate):
    """The functions that a mutant edits, and those that use a constant that it edits: file, name, first and last line, a method's type
    and trait or nothing. None where it edits something else. `crate` is the crate's folder."""
    found = set()
    for file, old, _ in record.pairs:
        place = function_around(crate, file, old)
        users = {place} if place else users_of(crate, file, old)
        if users is None:
            return None
        found |= users
    return sorted(found) or None


def is_of_functions(record, crate):
    """Whether a mutant edits nothing but functions."""
    return all(function_around(crate, file, old) for file, old, _ in record.pairs)


def line_of(text, old):
    """The number of the line that the old text begins on, from 0."""
    return text[:text.find(old) + len(old) - len(old.lstrip())].count("\n")


def function_around(crate, file, old):
    """The function of this file that has the text."""
    if not file.startswith("src/"):
        return None
    text = (crate / file).read_text(encoding="utf-8")
    return function_at(file, text.split("\n"), line_of(text, old))


def function_at(file, lines, last):
    """The function that has this line of the file."""
    first = last
    while first >= 0 and not FUNCTION.match(lines[first]):
        first -= 1
    if first < 0:
        return None
    indent, name = FUNCTION.match(lines[first]).groups()
    end = next((n for n in range(first, len(lines)) if lines[n] in (indent + "}", indent + "{}")), -1)
    if last > end:
        return None
    kinds = [IMPL.match(line) for line in lines[:first]] if indent else []
    kind = next((folder_of(it) for it in reversed(kinds) if it), "")
    while first and lines[first - 1].strip().startswith(("#[", "//")):
        first -= 1
    return file, name, first + 1, end + 1, kind


def parameters(head):
    """The parameters of an `impl` that begins so."""
    return re.findall(r"(?:^|, )(\w+)", head["own"] or "")


def named(text, head):
    """The types that stand between such brackets, in one word: neither lifetimes nor the parameters of the `impl` itself."""
    words = [it for it in re.findall(r"'?\w+", text or "") if it not in parameters(head) and not it.startswith("'")]
    return "".join(it[0].upper() + it[1:] for it in words)


def folder_of(head):
    """A type and its trait as the folder of their proofs is called, if an `impl` begins so. Of any type it is `Any`."""
    kind = "Any" if head["type"] in parameters(head) else head["type"]
    return "".join([kind, named(head["of"], head), head["trait"] or "", named(head["word"], head)])


def users_of(crate, file, old):
    """The functions of the crate that use the constant that has the text, by way of other constants too; none for a line of imports or
    a comment. None where the text is in another item."""
    if not file.startswith("src/"):
        return None
    text = (crate / file).read_text(encoding="utf-8")
    lines = text.split("\n")
    at = line_of(text, old)
    item = next((lines[n] for n in range(at, -1, -1) if lines[n] and lines[n][0] not in " })]"), "")
    if item.startswith(("use ", "ghost use ", "pub use ", "//")):
        return set()
    name = re.match(r"(?:pub(?:\([a-z]+\))? )?(?:const|static) (\w+):", item)
    if not name:
        return None
    names, more = set(), {name[1]}
    sources = {str(it.relative_to(crate)): it.read_text(encoding="utf-8") for it in (crate / "src").rglob("*.rt")}
    while more - names:
        names |= more
        word = re.compile(rf"\b(?:{'|'.join(names)})\b")
        more = {it[1] for source in sources.values() for it in CONSTANT.finditer(source) if word.search(it[2])}
    users = {function_at(name, source.split("\n"), n) for name, source in sources.items()
             for n, line in enumerate(source.split("\n")) if word.search(line)}
    return users - {None}


def name_of(place):
    """The end of a function's name as a check prints it."""
    module = [it for it in re.sub(r"^src/|\.rt$", "", place[0]).split("/") if it not in ("lib", "main", "mod")]
    return "::".join([*([place[4]] if place[4] else module), place[1]])


def edited(crate, records):
    """The texts of the files that these mutants change."""
    texts = {}
    for record in records:
        texts = record.edited(crate, texts)
    return texts


def in_rounds(crate, records):
    """Mutants with their functions, in rounds of which none has two of one function. One that isn't of functions is in none."""
    rounds = []
    for record in records:
        found = places(record, crate)
        if found:
            free = next((it for it in rounds if all(set(found).isdisjoint(others) for _, others in it)), None)
            if free is None:
                rounds.append(free := [])
            free.append((record, found))
    return rounds
