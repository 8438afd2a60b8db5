#!/usr/bin/env python3
"""Makes docs/CORE.md: the contracts of ROOTS, and each definition on which they rest.  tests/documents/core.py [--check]

A definition rests on what its text names. The page has its text and its comment from specs/, and its example from
tests/documents/definitions.txt; a Rust type has its declaration; of the kit's words the page has the names.

Without words the page is written. With `--check` nothing is written, and the status is 1 where the page isn't up to date. In both
cases the status is 1 where a definition has no sentence."""

import re
import sys
import textwrap
from pathlib import Path

sys.dont_write_bytecode = True
sys.path.insert(0, str(Path(__file__).resolve().parents[1] / "lib"))
from spec_files import (  # noqa: E402
    TOP,
    Definition,
    ends_head,
    everything,
    heading,
    imports,
    kit_words,
    named,
    side_table,
    without_comments,
    write_or_check,
)

# what the page begins from: a trait, a public function, or a method `Type::name`, each with its crate
ROOTS = (
    ("d64_image", "Sectors"),
    ("host_session", "Session::open"),
    ("host_session", "Session::handle"),
    ("shop_life", "one_list"),
    ("shop_life", "answered_stays"),
    ("shop_life", "all_ends"),
)
INTRODUCTION = """# The core

The theorem is said by [the contracts](#the-contracts) at the end of this page: the device, the two calls that are its steps, and its laws.
They rest on the definitions above, and on no others of this repository. A definition stands before those that use it; an *example* is a theorem or a test that decides
it. "The Guide" is the 1541 User's Guide; *the disk with STOCK* has one relative file of one block. [PROOF.md](PROOF.md) says how to
read a contract, and what is trusted. `tests/documents/core.py` makes this page.
"""


def contract(crate, root):
    """A root: the head of its function, or its trait, with its comment."""
    owner, _, name = root.rpartition("::")
    for file in sorted((TOP / "crates" / crate / "src").rglob("*.rt")):
        lines, inside = file.read_text().split("\n"), ""
        for at, line in enumerate(lines):
            inside = line if re.match(r"impl\b", line) else inside if line.startswith((" ", "}")) or not line else ""
            is_trait = not owner and re.match(rf"pub trait {name}\b", line)
            if not (is_trait or re.match(rf"\s*pub fn {name}\b", line) and (f" {owner}<" in inside if owner else not inside)):
                continue
            end = at
            while not (lines[end] == "}" if is_trait else ends_head(lines[end], end == at)):
                end += 1
            first = at
            while lines[first - 1].lstrip().startswith("///"):
                first -= 1
            shown = lines[at : end + 1] if is_trait else [inside] * bool(owner) + lines[at:end]
            text = "\n".join(shown)
            uses = named(text, imports(file.read_text(), "ghost use"), "//")
            return Definition([it.strip() for it in lines[first:at]], text, uses, kit_words(text, file.read_text()))
    raise SystemExit(f"no such root: {crate}/{root}")


def resolved(key, known):
    """The key of what is named so: a declared type stands by its name, in its own crate or the one from which it comes."""
    crate, module, name = key
    if module.startswith("declared."):
        module, name = "", next(it for it in reversed(module.split(".")) if it != "TheVariants")
    if module or (crate, "", name) in known:
        return (crate, module, name) if (crate, module, name) in known else None
    return next((it for it in known if it[1:] == ("", name)), None)


def closure(roots, known):
    """All on which the roots rest, each with what it names itself."""
    found, left = {}, [it.uses for it in roots]
    while left:
        for key in {resolved(it, known) for it in left.pop()} - {None} - set(found):
            found[key] = {resolved(it, known) for it in known[key].uses} - {None, key}
            left.append(found[key])
    return found


def in_order(found, known):
    """What was found, by crate and module: crates from the lowest, of each its types first, a module before those that use it."""
    crates = [it.split(":")[0] for it in (TOP / "crates.txt").read_text().split("\n") if it and not it.startswith("#")]
    modules, at = {}, {key: place for place, key in enumerate(known)}
    for key in sorted(found, key=at.get):
        modules.setdefault(key[:2], []).append(key)
    ordered = {}

    def add(module):
        if module not in ordered:
            below = {it[:2] for key in modules[module] for it in found[key]} - {module}
            for it in sorted(it for it in below if it[0] == module[0]):
                add(it)
            ordered[module] = modules[module]

    for module in sorted(modules, key=lambda it: (crates.index(it[0]), it[1])):
        add(module)
    return ordered


def lines_of(key, it):
    """How many lines a definition or a contract has, without comments."""
    is_of_specs = len(key) == 3 and key[1]
    return sum(1 for line in without_comments(it.text, "--" if is_of_specs else "//").split("\n") if line.strip())


def said(text):
    """A sentence as comment lines."""
    return textwrap.wrap(text, 120, initial_indent="-- ", subsequent_indent="-- ", break_on_hyphens=False)


def shown(key, it, side):
    """A definition as the page has it: its comment, its example, its text."""
    sentence, example = side.get((key[0], key[2], "=")), side.get((key[0], key[2], ":"))
    comment = it.comment or (said(sentence) if sentence else [])
    return "\n".join([*comment, *(said(f"Example: {example}.") if example else []), it.text])


def chapters(modules, known, side):
    """The page's definitions, crate by crate."""
    lines, last = [], None
    for (crate, module), keys in modules.items():
        lines += [f"\n## `{crate}`"] if crate != last else []
        lines += ["", f"**`{module.replace('.', '/')}`** {heading(crate, module)}" if module else "Types:"]
        lines += ["", "```" if module else "```rust", "\n\n".join(shown(it, known[it], side) for it in keys), "```"]
        last = crate
    return lines


def table(sizes):
    """How much of each crate the page has."""
    crates = list(dict.fromkeys(crate for crate, _ in sizes))
    rows = [(f"`{it}`", [lines for crate, lines in sizes if crate == it]) for it in crates]
    rows.append(("all", [lines for _, lines in sizes]))
    return ["| | Definitions and contracts | Lines |", "|---|---|---|", *(f"| {it} | {len(all_)} | {sum(all_):,} |" for it, all_ in rows)]


def kit_lines(words):
    """The kit's words, module by module."""
    modules = sorted({module for module, _ in words})
    rows = [f"- `{it}`: {', '.join(f'`{word}`' for module, word in sorted(words) if module == it)}" for it in modules]
    return ["\n## Words of the kit", "\n`rt lemma WORD` shows the definition of each.\n", *rows]


def faults_of(order, found, all_shown, side):
    """Definitions without a sentence, and those that stand before one that they use."""
    faults = [f"no sentence: {'/'.join(key)}" for key, it in all_shown if not it.comment and (key[0], key[-1], "=") not in side]
    for at, key in ((at, it) for at, it in enumerate(order) if it[1]):
        faults += [f"{'/'.join(key)} stands before {'/'.join(it)}, which it uses" for it in found[key].intersection(order[at + 1 :])]
    return faults


def in_core():
    """The keys of all definitions of the page."""
    known = everything()
    return set(closure([contract(*it) for it in ROOTS], known))


def page():
    """The page, and what is wrong with it."""
    known, (side, faults) = everything(), side_table()
    roots = {it: contract(*it) for it in ROOTS}
    found = closure(roots.values(), known)
    modules = in_order(found, known)
    order = [key for keys in modules.values() for key in keys]
    all_shown = [*((key, known[key]) for key in order), *roots.items()]
    sizes = [(key[0], lines_of(key, it)) for key, it in all_shown]
    faults += faults_of(order, found, all_shown, side)
    text = [INTRODUCTION, *table(sizes), *kit_lines({word for _, it in all_shown for word in it.kit})]
    text += [*chapters(modules, known, side), "\n## The contracts"]
    for (crate, name), it in roots.items():
        text += [f"\n**`{name}`** of `{crate}`\n", "```rust", "\n".join([*it.comment, it.text]), "```"]
    return "\n".join(text) + "\n", faults


def main():
    text, faults = page()
    return write_or_check("docs/CORE.md", text, faults, "docs/CORE.md has all on which the contracts rest")


if __name__ == "__main__":
    sys.exit(main())
