"""Copies of functions beside them, each with a wrong body, so that one check judges all the wrong bodies of a crate.

A copy has the contract of the function, and its proof. Nothing calls it, so that it keeps no other function from being proved."""

import re
from pathlib import Path

from places import FUNCTION, IMPL, folder_of, is_of_functions, places

# what a line at the margin begins with, if it doesn't begin an item
NO_ITEM = (" ", "}", "#", "//", ")", "{", "where")


class Copy:
    """A wrong body as a copy of its function: the lines that are added to its file, its place there, and the files of its proof."""

    def __init__(self, edit, place, head, lines, proofs):
        self.edit = edit
        self.file, self.name, self.kind = place[0], copied_name(edit, place), kind_of(head)
        self.lines = [*head, *lines, "}"] if head else lines
        self.proofs = proofs
        self.place = None

    def add_to(self, texts, crate):
        """Adds the copy to the end of its file among these texts, and notes where it stands."""
        text = texts.get(self.file) or (crate / self.file).read_text(encoding="utf-8")
        first = text.count("\n") + 2
        texts[self.file] = text + "\n" + "\n".join(self.lines) + "\n"
        self.place = self.file, self.name, first, first + len(self.lines) - 1, self.kind
        texts.update(self.proofs)


def copied_name(edit, place):
    """The name of an edit's copy of a function."""
    return f"{place[1]}_in_{edit.name}"


def copy_of(crate, edit):
    """The wrong body as a copy of the function that it edits. None where it edits more than one function or something else, where the
    function calls itself or has its contract from a trait, and where it isn't known which proof is its own."""
    found = places(edit, crate) or []
    if len(found) != 1 or not is_of_functions(edit, crate):
        return None
    place = found[0]
    lines = (crate / place[0]).read_text(encoding="utf-8").split("\n")
    first, head = place[2] - 1, head_of(crate, lines, place)
    while first and (lines[first - 1].rstrip().endswith(")]") or lines[first - 1].strip().startswith(("#[", "//"))):
        first -= 1
    body = lines[first:place[3]]
    proofs = None if head is None else copied_proofs(crate, edit, place, kind_of(head))
    if proofs is None or is_cyclic(body, place):
        return None
    text = "\n".join(body)
    for _, old, new in edit.pairs:
        text = text.replace(old, new)
    text = re.sub(rf"^( *(?:pub(?:\([a-z]+\))? )?(?:const )?fn ){place[1]}\b", rf"\g<1>{copied_name(edit, place)}", text, 1, re.M)
    return Copy(edit, place, head, text.split("\n"), proofs)


def head_of(crate, lines, place):
    """How the `impl` of a method's type begins, with what it takes into scope; nothing for a function of a module. None where a copy
    can't stand beside the function, as it has its contract from a trait."""
    start = next(n for n in range(place[2] - 1, place[3]) if FUNCTION.match(lines[n]))
    if not lines[start].startswith(" "):
        return []
    above = next((n for n in range(start, -1, -1) if lines[n] and not lines[n].startswith(NO_ITEM)), None)
    found = above is not None and IMPL.match(lines[above])
    if not found or place[4] != folder_of(found):
        return None
    begun = next(n for n in range(above, len(lines)) if lines[n].endswith("{"))
    end = next(n for n in range(begun, len(lines)) if lines[n] == "}")
    uses = re.findall(r"^    (?:ghost )?use [^;]*;", "\n".join(lines[begun:end]), re.M)
    head = [*lines[above:begun + 1], *uses]
    if found["trait"]:
        own = any(line.strip().startswith("ensures") for line in lines[start:place[3]])
        if not own or found["type"] == "T" or may_ask(crate.parent, found["trait"], place[1]):
            return None
        head[0] = re.sub(rf"\b(?:\w+::)*{found['trait']}(?:<.*>)? for ", "", head[0])
    return head


def kind_of(head):
    """The type whose `impl` begins so, nothing where there is none."""
    found = head and IMPL.match(head[0])
    return found["type"] if found else ""


def may_ask(crates, trait, name):
    """Whether a trait's method may have a `requires`, which each of its methods then has: one that isn't found may."""
    for file in crates.glob("*/src/**/*.rt"):
        whole = re.search(rf"^(?:pub )?trait {trait}\b.*?^}}", file.read_text(encoding="utf-8"), re.M | re.S)
        said = whole and re.search(rf"^    fn {name}\b.*?(?=^    fn |^}})", whole[0], re.M | re.S)
        if said:
            return "requires" in said[0]
    return True


def is_cyclic(body, place):
    """Whether a function calls itself, as far as its text tells, or is said to be in a cycle of calls."""
    own = rf"\b(?:self\.|Self::|{place[4]}::)" if place[4] else r"(?<![.:\w])"
    calls = re.compile(rf"(?<!fn ){own}{place[1]}(?:::<.*?>)?\(")
    return any(calls.search(line) or "#[cycle" in line for line in body if not line.strip().startswith("//"))


def copied_proofs(crate, edit, place, kind):
    """The files of the function's proof, as those of its copy, a method of `kind`; None where several folders may have it."""
    module = [it for it in re.sub(r"^src/|\.rt$", "", place[0]).split("/") if it not in ("lib", "main", "mod")]
    if place[4]:
        folders = [it for it in (crate / "proofs").rglob(f"{place[4]}/{place[1]}") if any(it.glob("*.antt"))]
    else:
        folders = [it for it in (crate.joinpath("proofs", *module, place[1]),) if any(it.glob("*.antt"))]
    if len(folders) > 1:
        return None
    copied = {}
    for folder in folders:
        place_of = folder.relative_to(crate / "proofs").parts
        whole = re.compile(rf"\bproofs\.{re.escape('.'.join(place_of))}(?=[.\s])")
        target = [*(place_of[:-2] + (kind,) if kind else place_of[:-1]), copied_name(edit, place)]
        for file in sorted(folder.rglob("*.antt")):
            text = whole.sub(f"proofs.{'.'.join(target)}", file.read_text(encoding="utf-8"))
            copied[str(Path("proofs", *target, file.relative_to(folder)))] = text
    return copied
