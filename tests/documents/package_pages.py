#!/usr/bin/env python3
"""Makes the documents and the man pages of a package, as ./package does, and looks at them:

    tests/documents/package_pages.py PROGRAM

  - each link of a page leads to a file and a heading of the package;
  - no sentence has fewer than three words, unless it has a link, code or a number; none ends in an open bracket or `;`;
  - a path of the repository that a page names is in the package, or the page's note says that it isn't; the man pages have no note;
  - the pages for users are there, and no other;
  - the README names no command of the repository, such as `./trials`;
  - the man page explains each word of refusals and faults with what to do, and has an option of all commands once;
  - no line of a man page that is formatted for 80 columns is wider, and `man` warns of nothing.

It prints a line for each thing that isn't so. The last line is `package_pages: N pages, M findings`, and the status is 1 if M isn't 0.
It wants Debian's package man-db."""

import os
import re
import subprocess
import sys
import tempfile
from pathlib import Path

sys.dont_write_bytecode = True
TOP = Path(__file__).resolve().parents[2]
sys.path[:0] = [str(TOP / "packaging"), str(TOP / "tests/lib")]
from documents import LINK, PAGES, PATH  # noqa: E402
from language import broken_links, blocks, sentences  # noqa: E402

NAME = "ledger-1541"
FAULTS = {"MAPWRONG", "COUNTWRONG", "BADSIDE", "BADLINK", "LOOP", "OWNEDTWICE", "UNCLOSED", "BADTYPE", "BADLENGTH"}
# ends of a command in whose place other words are printed: ERROR and BEYOND, and a word for each image
SILENT = {"TRIMMED", "STATUS"}
NOTE = re.compile(r"(?m)^This page also speaks of (.*), which the program's repository has and this package hasn't\.$")
OTHER_PAGES = {"README.md", "SECURITY.md", "CHANGELOG.md", "examples/README.md", "examples/disks/README.md"}
OTHER_PAGES |= {f"shop/{it}.md" for it in ("QUICK_START", "README", "SECURITY")}


def make(folder):
    """The documents of a package, with what ./package adds to them."""
    subprocess.run([sys.executable, TOP / "packaging/documents.py", folder / "doc", folder / "shop", NAME], check=True)
    for entry in (folder / "shop").iterdir():
        (folder / "doc/shop" / entry.name).symlink_to(entry)
    (folder / "doc/copyright").touch()


def fragments(text):
    """What isn't a whole sentence of a page, with its line. A heading within a line, such as `**Mark.**`, is none; an answer is one."""
    for line, block in blocks(text):
        plain = re.sub(r"`[^`]*`", "CODE", re.sub(r"^\*\*.*?\*\*:? *", "", block))
        for said in sentences(plain):
            bare = LINK.sub(lambda it: it[2], said)
            words = re.findall(r"\w[\w'.,/-]*", bare)
            is_whole = len(words) > 2 or bare != said or re.search(r"CODE|\d|^(Yes|No)\.$", bare)
            if not is_whole and re.search(r"[.!?]\W*$", bare):
                yield line, "less than three words", said
            if re.search(r"[(\[;]\W*$", bare) or re.search(r"\(\s*[);,.:]|[(;,:]\s*\)", bare):
                yield line, "an open or an empty bracket, or `;` at the end", said


def missing_paths(page, text, folder):
    """The paths of the repository that a page names, that the package lacks, and that its note doesn't name."""
    found = NOTE.search(text)
    noted = re.findall(r"`([^`]*)`", found[1]) if found else []
    for it in PATH.finditer(LINK.sub(lambda link: link[2], text)):
        path = it[1].rstrip("/.")
        if not list(TOP.glob(path)) or any(f"{path}/".startswith(f"{place.rstrip('/')}/") for place in noted):
            continue
        if not list(folder.glob(path)):
            yield text.count("\n", 0, it.start()) + 1, "the package has no such file", path


def documents(folder):
    """How many pages there are, and what is wrong with them."""
    pages = sorted(folder.rglob("*.md"))
    found = []
    for page in pages:
        name, text = str(page.relative_to(folder)), page.read_text(encoding="utf-8")
        faults = [(line, what, it) for line, what, it in broken_links(page, text) if "](" + it in text]
        faults += [*fragments(text), *missing_paths(page, text, folder)]
        if name == "README.md":
            faults += [(1, "the package has no such command", it) for it in re.findall(r"\./(?:ledger|package|test|trials)\b", text)]
        found += [f"{name}:{line}: {what}: {it}" for line, what, it in faults]
    there = {str(it.relative_to(folder)) for it in pages}
    wanted = OTHER_PAGES | {f"docs/{it}.md" for it in PAGES}
    found += [f"{it}: there is no such page, or it is for nobody who uses the program" for it in sorted(there ^ wanted)]
    return len(pages), found


def formatted(page):
    """A man page as a terminal of 80 columns shows it, and what `man` warns of."""
    done = subprocess.run(["man", "--warnings", "--local-file", page], capture_output=True, text=True,
                          env={**os.environ, "MANWIDTH": "80", "LC_ALL": "C.UTF-8", "MANPAGER": "cat"})
    return done.stdout, done.stderr


def refusals():
    """The words of refusals, by the definitions of what is printed for each fault of a command and of a command line."""
    defined = (TOP / "crates/command_faults/specs/Faults.antt").read_text(encoding="utf-8")
    words = set(re.findall(r'(?m)^command_text .* = codes "([A-Z ]+?) ?"', defined))
    words |= set(re.findall(r'#\[error\("([A-Z]+)"\)\]', (TOP / "crates/ledger_cli/src/faults.rt").read_text(encoding="utf-8")))
    return words - SILENT


def explained(source):
    """What is wrong with the words of the program's man page."""
    for heading, wanted in (("FAULTS", FAULTS), ("DIAGNOSTICS", refusals())):
        part = re.search(rf"(?ms)^\.SH {heading}\n(.*?)(?=^\.S[HS] )", source)
        words = re.findall(r"(?ms)^\.TP\n\.B (.*?)\n(.*?)(?=^\.(?:TP|PP)\n|\Z)", part[1]) if part else []
        for word in sorted(wanted - {re.sub(r"( t/s| n)+$", "", it) for it, _ in words}):
            yield f"{heading}: {word} isn't explained"
        for word, text in words:
            if not re.search(r"(?m)^What to do: \S", text) or "As for" in text:
                yield f"{heading}: {word} has no cure of its own"
    if source.count("\\-\\-explain\\fP") + source.count(".B \\-\\-explain\n") > 2:
        yield "--explain is explained more than once"


def man_pages(program, folder):
    """How many man pages there are, and what is wrong with them."""
    folder.mkdir()
    subprocess.run([sys.executable, TOP / "packaging/pages.py", program, folder, NAME, "0" * 40], check=True)
    shop = subprocess.run([sys.executable, TOP / "packaging/shop_page.py", NAME, "0"], check=True, capture_output=True, text=True)
    (folder / "ledger-shop.1").write_text(shop.stdout, encoding="utf-8")
    found, pages = [], sorted(folder.glob("*.1"))
    for page in pages:
        shown, warned = formatted(page)
        faults = [f"{len(line)} columns: {line.strip()}" for line in shown.splitlines() if len(line) > 80]
        faults += warned.splitlines() + ([] if shown else ["`man` shows nothing"])
        joined = re.sub(r"[-‐]\n\s+", "", shown)
        faults += [f"the package has no {it}" for it in PATH.findall(joined)
                   if list(TOP.glob(it.rstrip("/."))) and not list((folder.parent / "doc").glob(it.rstrip("/.")))]
        faults += explained(page.read_text(encoding="utf-8")) if page.name == f"{NAME}.1" else []
        found += [f"{page.name}: {it}" for it in faults]
    return len(pages), found


def main():
    if len(sys.argv) != 2:
        sys.exit(__doc__)
    program = Path(sys.argv[1]).resolve()
    with tempfile.TemporaryDirectory() as work:
        folder = Path(work).resolve()
        make(folder)
        pages, found = documents(folder / "doc")
        more, wrong = man_pages(program, folder / "man")
    found += wrong
    print(*found, sep="\n", end="\n" if found else "")
    print(f"package_pages: {pages + more} pages, {len(found)} findings")
    return 1 if found else 0


if __name__ == "__main__":
    sys.exit(main())
