#!/usr/bin/env python3
"""Counts for docs/PROOF.md: lines of code, contracts, definitions and proofs, without blank lines and comments, functions and mutants.

    tests/documents/proof_figures.py [--check | --write | --without]

A line of a contract is one of a clause (`ensures`, `requires`) or of another ghost item; tests are code. Without words it prints the
figures; `--check` sees whether the page has them, and `--write` writes them there. With `--without` it prints each function of the
product that has no `ensures` of its own and doesn't implement a trait's."""

import re
import sys
from pathlib import Path

sys.dont_write_bytecode = True
sys.path.insert(0, str(Path(__file__).resolve().parents[1] / "lib"))
from outline import TOP, groups  # noqa: E402

sys.path.insert(0, str(TOP / "mutants"))
from records import chosen  # noqa: E402
from spec_files import ends_head  # noqa: E402

# the rows of the table, by the headings of crates.txt
KINDS = {
    "Product": "the product",
    "System": "the system as one value",
    "Tests": "tests",
    "Tools": "tools, examples",
    "Example": "tools, examples",
    "Simulator": "the simulator",
}


def code_and_contract(text):
    """How many lines of a source are code, and how many stand in its contracts."""
    code, contract, depth = 0, 0, 0
    for line in (it.strip() for it in text.split("\n")):
        if not line or line.startswith("//"):
            continue
        if depth > 0 or re.match(r"(ensures|requires|ghost)\b", line):
            contract += 1
            depth = max(depth + line.count("{") - line.count("}"), 0)
        else:
            code += 1
    return code, contract


def lines_of(crate, folder):
    """How many lines of a folder's .antt files say something."""
    texts = (it.read_text().split("\n") for it in crate.glob(f"{folder}/**/*.antt"))
    return sum(1 for lines in texts for it in lines if it.strip() and not it.strip().startswith("--"))


def without_clause(text):
    """The functions of a source whose heads have no `ensures`: the line of each, and whether it implements a trait's function."""
    lines, implements = text.split("\n"), False
    for at, line in enumerate(lines):
        if re.match(r"\w", line) and not line.startswith(("where", "ghost")):
            implements = bool(re.match(r"impl\b.* for [^{]*", line))
        if re.match(r"\s*(pub(\([a-z]+\))? )?fn ", line):
            end = next(it for it in range(at, len(lines)) if ends_head(lines[it], it == at))
            if not any(re.search(r"\bensures\b", it) for it in lines[at : end + 1]):
                yield at + 1, implements


def functions_without(shows):
    """How many functions of the product have no `ensures` of their own, and how many of these implement a trait's."""
    found = []
    for file in sorted(it for crate in groups()["Product"] for it in TOP.glob(f"crates/{crate}/src/**/*.rt")):
        text = file.read_text()
        for number, implements in without_clause(text):
            found.append(implements)
            if shows and not implements:
                print(f"{file.relative_to(TOP)}:{number}: {text.split(chr(10))[number - 1].strip()}")
    return len(found), sum(found)


def table():
    """The rows of the table, the product first."""
    rows, kinds = {}, {crate: KINDS[group] for group, crates in groups().items() for crate in crates}
    for crate in sorted(it.parent for it in TOP.glob("crates/*/src")):
        sources = [it.read_text() for it in crate.glob("src/**/*.rt")]
        code, contract = (sum(column) for column in zip(*map(code_and_contract, sources)))
        functions = sum(len(re.findall(r"(?m)^\s*(?:pub(?:\([a-z]+\))? )?fn ", it)) for it in sources)
        tests = sum(it.count("#[test]") for it in sources)
        counts = (1, code, contract, lines_of(crate, "specs"), lines_of(crate, "proofs"), functions, tests)
        row = rows.setdefault(kinds[crate.name], [0] * len(counts))
        rows[kinds[crate.name]] = [had + more for had, more in zip(row, counts)]
    return sorted(rows.items(), key=lambda it: -it[1][4])


def figures(shows):
    """What the page says in figures: a pattern that finds each piece of it, and that piece."""
    rows = table()
    printed = "".join(f"| {kind} | {' | '.join(f'{it:,}' for it in row)} |\n" for kind, row in rows)
    _, code, contract, definitions, proofs, *_ = rows[0][1]
    bare, of_trait = functions_without(shows)
    mutants = chosen([])
    refused, seen = (sum(1 for it in mutants if it.tried and it.tried.word == word) for word in ("refused", "seen"))
    for_rows = sum(1 for it in mutants if it.row)
    return [
        (r"(?:\| (?:the product|the system as one value|tests|tools, examples|the simulator) \|[^\n]*\n)+", printed),
        (r"Beside a line of the product's code stand [^\n]*\n",
         f"Beside a line of the product's code stand {contract / code:.1f} lines of contracts, {definitions / code:.1f} of definitions and "
         f"{proofs / code:.1f} of proofs.\n"),
        (r"- [\d,]+ functions of the product have no postcondition", f"- {bare - of_trait} functions of the product have no postcondition"),
        (r"[\d,]+ more have only the postcondition of their trait", f"{of_trait} more have only the postcondition of their trait"),
        (r"There are [\d,]+ \[mutants\]\(\.\./mutants/README\.md\)\. Clauses refuse [\d,]+, and rows saw [\d,]+ of the [\d,]+",
         f"There are {len(mutants):,} [mutants](../mutants/README.md). Clauses refuse {refused:,}, and rows saw {seen:,} of the {for_rows:,}"),
    ]


def main(words):
    page = TOP / "docs" / "PROOF.md"
    had = page.read_text()
    text, lost = had, []
    for form, piece in figures("--without" in words):
        if "--without" not in words and not words:
            print(piece.rstrip("\n"))
        text, times = re.subn(form, lambda _, piece=piece: piece, text)
        lost += [piece] if times != 1 else []
    if "--write" in words:
        page.write_text(text)
    if "--check" in words and text != had:
        print("docs/PROOF.md has other figures: run tests/documents/proof_figures.py --write")
    for piece in lost if words else []:
        print(f"docs/PROOF.md has no place, or several, for: {piece.strip()}")
    return 1 if words and (lost or "--check" in words and text != had) else 0


if __name__ == "__main__":
    sys.exit(main(sys.argv[1:]))
