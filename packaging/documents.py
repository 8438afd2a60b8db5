#!/usr/bin/env python3
"""Writes the documents of a package, as a user of it reads them:

    packaging/documents.py FOLDER SHOP NAME

NAME is the command under which the program is installed. FOLDER gets the pages for users, with their pictures, and all files under
examples/. SHOP gets what is under shop/ and no page, but its tests: the program that a shop runs. A link to a file that isn't among
them becomes plain text, with the file's path if the text doesn't name the file. A page that names such files says that they are in the
repository. Where a page speaks of this folder and of the program in it, the copy speaks of the package's. Files stay executable.
tests/documents/package_pages.py looks at the result."""

import os
import re
import shutil
import sys
from pathlib import Path

TOP = Path(__file__).resolve().parent.parent
PAGES = ("WHY", "KEEPERS", "SHOP_OWNER", "OPERATIONS", "TRUST", "LOG", "MESSAGES", "CARDS", "DISK", "DRIVE", "POWER_CUTS", "SPEED",
         "TRIALS", "FAQ", "GLOSSARY")
# folders whose files nobody needs who runs a shop
LEFT_OUT = {"__pycache__", "tests", ".mypy_cache", ".pytest_cache"}
LINK = re.compile(r"(!?)\[([^\]]*)\]\(([^)\s]+)\)")
# paths from the top of the repository, as pages name them
PATH = re.compile(r"(?<![\w/.-])((?:bench|crates|docs|examples|mutants|packaging|releases|shop|tests|tools)/[\w./*-]*)")


def shipped():
    """The files of the package, from the top."""
    pages = ["README.md", "SECURITY.md", "CHANGELOG.md", *(f"docs/{it}.md" for it in PAGES)]
    found = [TOP / it for it in pages]
    found += sorted(it for form in ("*.svg", "*_390.png") for it in TOP.glob(f"docs/pictures/{form}"))
    folders = [it for form in ("examples/**/*", "shop/**/*") for it in sorted(TOP.glob(form))]
    found += [it for it in folders if it.is_file() and not LEFT_OUT.intersection(it.relative_to(TOP).parts)]
    return [it.relative_to(TOP) for it in found]


class Links:
    """The links of a page, and which of them lead to a file of the package."""

    def __init__(self, page, files):
        self.page, self.files = page, files
        self.missing = set()

    def path(self, target):
        """The file to which a link leads, from the top of the repository; None if it leads elsewhere."""
        file = target.partition("#")[0]
        is_file = file and not re.match(r"[a-z]+:", target)
        return os.path.relpath((TOP / self.page.parent / file).resolve(), TOP) if is_file else None

    def kept(self, line):
        """A line without its dead links."""

        def alive_or_plain(link):
            path = self.path(link[3])
            if path is None or TOP / path in self.files:
                return link[0]
            self.missing.add(path)
            said = LINK.sub(lambda it: it[2], line)
            if re.search(rf"\b{re.escape(Path(path).stem)}\b", said):
                return link[2]
            return f"{link[2]}: `{path}`" if line[: link.start()].endswith("(") else f"{link[2]} (`{path}`)"

        return LINK.sub(alive_or_plain, line)

    def note(self, text):
        """What a page says of the files that it names and that the package doesn't have."""
        for path in {it.rstrip("/.") for it in PATH.findall(LINK.sub(lambda it: it[2], text))}:
            # a form, such as `crates/NAME`, or what is built, is no file of the repository either
            there = set(TOP.glob(path))
            self.missing |= {path} if there and not there & self.files else set()
        tops = {it.partition("/")[0] for it in self.missing}
        names = sorted(it for it in self.missing if it.startswith(("docs/", "examples/", "shop/")))
        names += [f"{it}/" for it in sorted(tops - {"docs", "examples", "shop"})]
        listed = ", ".join(f"`{it}`" for it in names[:-1]) + (" and " if names[1:] else "") + "".join(f"`{it}`" for it in names[-1:])
        return f"This page also speaks of {listed}, which the program's repository has and this package hasn't.\n" if names else ""

    def kept_of(self, text):
        """The page as the package has it. The README ends with the note, other pages begin with it."""
        text = "\n".join(map(self.kept, text.split("\n")))
        note = self.note(text)
        if not note:
            return text
        title, _, rest = text.partition("\n")
        return f"{text}\n{note}" if str(self.page) == "README.md" else f"{title}\n\n{note}{rest}"


def replaced(form, by, text):
    """A text with other words in place of those of a form, which it has to have."""
    made, times = re.subn(form, by, text)
    if not times:
        sys.exit(f"documents: a page has no longer what the package says in other words: {form}")
    return made


def readme(text):
    """The README, of which the package's licence is the file `copyright`, and whose program is on the path."""
    begins = "With the program on the path as `ledger` ([docs/KEEPERS.md](docs/KEEPERS.md) says how), in a copy of this folder:"
    tests = "The repository has all proofs and all trials, and its README says how to run them.\n"
    text = replaced(r"\(LICENSE\)", "(copyright)", text)
    text = replaced(r"(?m)^In a clone.*$", begins, text)
    text = replaced(r"(?m)^.*\[released\]\(.*\n\n", "", text)
    text = replaced(r"(?ms)^\*\*Without the kit\*\*.*?^```sh.*?^```\n", tests, text)
    text = replaced(r"(?m)^\./test .*\n", "", text)
    return replaced(r"(?m)(^|`)\./ledger ", r"\1ledger ", text)


def renamed(text, name):
    """A script or a unit, which calls the program by the package's name."""
    return re.sub(r"/usr/bin/ledger(?![\w-])", f"/usr/bin/{name}", text).replace('PROGRAM = "ledger"', f'PROGRAM = "{name}"')


def for_users(file, text, name):
    """What the package has of a file."""
    if file.name == "QUICK_START.md":
        text = replaced(r"(?m)^\./ledger --version\ninstall .* /usr/bin/ledger\n", "", text)
        text = replaced(re.escape(" (`./ledger --version` puts the released program into `releases/out`.)"), "", text)
        place = f"Install the package first. Then type all commands as root in its folder `/usr/share/doc/{name}`, and write `{name}` for `ledger`."
        text = replaced(r"Type all commands as root, at the top of a clone .*", place, text)
    if str(file) == "shop/README.md":
        text = replaced("The program `ledger` has to be in `/usr/bin`", f"The program `{name}` has to be in `/usr/bin`", text)
    if str(file) == "README.md":
        text = readme(text)
    return renamed(text, name) if file.suffix in (".py", ".service", ".sh") else text


def main():
    if len(sys.argv) != 4:
        sys.exit(__doc__)
    folder, shop, name = Path(sys.argv[1]), Path(sys.argv[2]), sys.argv[3]
    files = shipped()
    known = {TOP / it for file in files for it in (file, *file.parents)} | {TOP / "copyright"}
    for file in files:
        is_program = file.parts[0] == "shop" and file.suffix != ".md"
        copied = shop / file.relative_to("shop") if is_program else folder / file
        copied.parent.mkdir(parents=True, exist_ok=True)
        shutil.copyfile(TOP / file, copied)
        copied.chmod(0o755 if os.access(TOP / file, os.X_OK) else 0o644)
        if file.suffix in (".md", ".py", ".service", ".sh"):
            text = for_users(file, (TOP / file).read_text(encoding="utf-8"), name)
            copied.write_text(Links(file, known).kept_of(text) if file.suffix == ".md" else text, encoding="utf-8")


if __name__ == "__main__":
    main()
