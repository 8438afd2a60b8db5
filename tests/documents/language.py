#!/usr/bin/env python3
"""Checks the language and links of the documents, and prints a line for each thing that it finds:
  tests/documents/language.py [--counts] [FILE ..]

Documents are README.md, CHANGELOG.md, SECURITY.md, releases/README.md, docs/*.md, crates/*/README.md and each page under examples/ and shop/;
FILE names some of them. Of each it checks
  - sentences of more than 35 words, outside tables, code and pictures;
  - the words of WORDS below, outside code and quotation marks;
  - links: the file is there, and so is the heading that an anchor, or the name in italics after a link, refers to;
  - file names in backticks that begin with a folder of this repository;
  - that each subcommand of the program has a line in tests/lib/commands.py. (The man page has each flag, since it is made of the help.);
  - in docs/EMBED.md and docs/PROOF.md the lines of code, each of which is a line of a source (but for comments and `...`).
It also counts the words of all documents, without the definitions that they quote whole (tests/documents/quotes.py checks those). No
page has a limit: each has the length that its reader needs. Of the sources it checks
  - that each public item of the product's crates has a `///` over it;
  - the words of WORDS in comments of `src/` and `specs/`;
  - the program's help texts: sentences, words, and lines of more than 80 columns.
By crate, and as counts that don't change the status, it reports the long sentences of comments, and definitions of `specs/`
without a comment over them. With --counts it prints one line for each document and no findings. The status is 1 if a document or
a source has a finding."""

import re
import sys
from pathlib import Path

sys.dont_write_bytecode = True
sys.path.insert(0, str(Path(__file__).resolve().parents[1] / "lib"))
from commands import COMMANDS  # noqa: E402

TOP = Path(__file__).resolve().parents[2]
LONGEST = 35
FOLDERS = ("bench", "crates", "docs", "examples", "mutants", "packaging", "shop", "tests", "tools")
GENERATED = ("docs/CORE.md",)
# copies of the sources, whose words don't count
COPIED = ("docs/CORE.md",)
QUOTING = ("docs/EMBED.md", "docs/PROOF.md")
ELSE = r"(?<!thing )(?<!where )(?<!\banyone )(?<!somebody )(?<!anybody )(?<![Nn]obody )(?<!what )(?<!whatever )"
# what a document doesn't say, and what it says in its place
WORDS = {
    "tell": (r"\b[Tt](ell|ells|old|elling)\b(?! apart)", "print, report, return or answer"),
    "behind": (r"\b[Bb]ehind\b", "after"),
    "Of": (r"(?:^|(?<=[.:;!?] ))Of\b", "name the subject first"),
    "who": (r"\b(?:[Ff]or|[Bb]y|[Tt]o|[Oo]f) who\b|(?:^|(?<=[.;!?] ))Who (?:has|hasn't|wants|writes|sees|can|knows)\b", "if you, or anyone who"),
    "else": (rf"{ELSE}\b[Ee]lse\b", "otherwise"),
    "..": (r"(?<![.\w/])\.\.(?![.\w/])", "..."),
    "wrong body": (r"\b[Ww]rong bod(?:y|ies)\b", "mutant"),
    "rooms": (r"\b[Rr]ooms\b", "folders"),
}

# words in comments of low crates that were seen too late to prove all crates above again: each goes with the next change of its crate
POSTPONED = set()


def documents():
    """The documents, in the order in which they are printed."""
    found = [TOP / it for it in ("README.md", "CHANGELOG.md", "SECURITY.md", "releases/README.md")]
    for form in ("docs/*.md", "crates/*/README.md", "examples/**/*.md", "shop/**/*.md"):
        found += sorted(TOP.glob(form))
    return [it for it in found if it.exists()]


def blocks(text):
    """The paragraphs, headings and list items of a document, each with the number of its first line."""
    kept, start, in_code = [], 0, False
    for number, line in enumerate([*text.split("\n"), ""], 1):
        in_code ^= line.lstrip().startswith("```")
        is_left = in_code or line.lstrip().startswith(("```", "|", "<", "![")) or re.match(r" {4}", line) and not kept
        is_new = re.match(r"\s*([-*]|\d+\.)\s|#", line) or not line.strip()
        if (is_left or is_new) and kept:
            yield start, " ".join(kept)
            kept = []
        if not is_left and line.strip():
            start = start if kept else number
            kept.append(re.sub(r"^\s*([-*]|\d+\.)\s+|^#+ ", "", line.strip()).rstrip("\\"))
            if line.endswith("\\"):
                yield start, " ".join(kept)
                kept = []


def prose(block):
    """A block without its code, pictures, links' targets and quotations: a word stands for each."""
    block = re.sub(r"!\[[^\]]*\]\([^)]*\)", "", block)
    block = re.sub(r"`[^`]*`", "CODE", block)
    block = re.sub(r"\[([^\]]*)\]\([^)]*\)", r"\1", block)
    return re.sub(r'"[^"]*"', "QUOTED", block).replace("**", "")


def sentences(text):
    return re.split(r"(?<=[.!?])(?:\)|\*)* +(?=[A-Z0-9`(*\"]|--)", text)


def findings(text):
    """What the prose of a document has: its line, which check, and the words."""
    for line, block in blocks(text):
        plain = prose(block)
        for it in sentences(plain):
            length = len(re.findall(r"[\w][\w'.,/-]*", it))
            if length > LONGEST:
                yield line, f"{length} words", it[:90]
        for name, (form, better) in WORDS.items():
            for it in re.finditer(form, plain):
                yield line, f"'{name}' ({better})", plain[max(0, it.start() - 30) : it.end() + 30]


def slug(heading):
    """The anchor of a heading, as the usual hosts make it."""
    plain = re.sub(r"\[([^\]]*)\]\([^)]*\)", r"\1", heading)
    return re.sub(r"[^\w\- ]", "", plain.lower()).replace(" ", "-")


def headings(file):
    return re.findall(r"(?m)^#+ (.+)$", re.sub(r"(?ms)^```.*?^```", "", file.read_text()))


def broken_links(file, text):
    """Links without a file or heading, and file names in backticks that aren't there."""
    plain = re.sub(r"(?ms)^```.*?^```", "", text)
    for it in re.finditer(r"\]\(([^)\s]+)\)((?:\)|,|:)? \(?\*([^*]+)\*)?", plain):
        line = text.count("\n", 0, text.find(it[0])) + 1
        target, _, anchor = it[1].partition("#")
        if re.match(r"[a-z]+:", target):
            continue
        place = (file.parent / target).resolve() if target else file
        if not place.exists():
            yield line, "no such file", it[1]
        elif place.suffix == ".md":
            known = headings(place)
            if anchor and anchor not in map(slug, known):
                yield line, "no such heading", it[1]
            is_title = it[3] and it[3][0].isupper() and it[3] not in known
            if is_title and not any(head.startswith(it[3]) for head in known):
                yield line, "no such heading", f"{target or file.name}: {it[3]}"
    for it in re.finditer(rf"`((?:{'|'.join(FOLDERS)})/[\w./-]+)(?: [^`]*)?`", plain):
        is_form = re.search(r"/(NAME|CRATE|MODULE|FUNCTION|NOTION)\b", it[1])
        if not is_form and not (TOP / it[1]).exists() and not any(TOP.glob(f"crates/*/{it[1]}*")):
            yield text.count("\n", 0, text.find(it[0])) + 1, "no such file", it[1]


def source_lines():
    """All lines of sources and definitions, without blanks at their ends."""
    files = [it for form in ("src/**/*.rt", "specs/**/*.antt") for it in TOP.glob(f"crates/*/{form}")]
    return {line.strip() for file in files for line in file.read_text().split("\n")}


def unknown_code(text, known):
    """Lines of Rust in a document that no source has."""
    for block in re.finditer(r"(?ms)^```rust\n(.*?)^```", text):
        first = text.count("\n", 0, block.start()) + 2
        for number, line in enumerate(block[1].split("\n"), first):
            wanted = line.strip()
            if wanted and not wanted.startswith("//") and not wanted.endswith("...") and wanted not in known:
                yield number, "no such line in a source", wanted


def untried_commands():
    """Subcommands of the program's grammar that no script tries."""
    table = "".join(it.read_text() for it in sorted((TOP / "crates/command_table/src").glob("*.rt")))
    tried = {word for command in COMMANDS for word in command.words}
    return [(1, "not in tests/lib/commands.py", it) for it in re.findall(r'name: "([a-z-]+)",\s*about:', table) if it not in tried]


def count_words(text):
    """The words of a document, but for the definitions that it quotes whole."""
    own = re.sub(r"(?ms)^<!-- \S+: \w+ -->\n+```\w*\n.*?^```\n", "", text)
    return sum(1 for it in own.split() if re.search(r"\w", it))


def check(file, shows):
    """Prints what is found of a document, or a line with its counts; gives the number of its findings and of its words."""
    text = file.read_text()
    name = str(file.relative_to(TOP))
    found = [] if name in GENERATED else [*findings(text), *broken_links(file, text)]
    found += untried_commands() if name == "README.md" else []
    if name in QUOTING:
        found += unknown_code(text, source_lines())
    words = count_words(text) if name not in COPIED else 0
    if shows:
        for line, what, where in sorted(found):
            print(f"{name}:{line}: {what}: {where}")
    else:
        long = sum(what.endswith(" words") for _, what, _ in found)
        print(f"{name}: {words} words, {long} long sentences, {len(found) - long} other findings")
    return len(found), words


def uncommented(file, item, comment):
    """Lines of a source that begin an item without a comment over it, but for attributes and notes between."""
    lines = file.read_text().split("\n")
    for number, line in enumerate(lines, 1):
        if re.match(item, line):
            above = next((it for it in reversed(lines[: number - 1]) if not re.match(r"\s*(#\[|// |infix|$)", it)), "")
            if not above.lstrip().startswith(comment) or not lines[number - 2].strip():
                yield number, "no comment", line.strip()[:90]


ITEM = r"\s*pub (?:const fn|fn|struct|enum|trait|const|static|type)\b"
DEFINITION = r"(?:abbrev |unfoldable )pub |pub (?:record|data)\b"


def product_crates():
    return sorted(it for it in TOP.glob("crates/*") if (it / "src").is_dir() and not re.match(r"tests?_|benchmarks", it.name))


def help_findings(text):
    """What a help text has: its rows, which begin with two blanks, are read as paragraphs of their own."""
    rows = re.sub(r"(?m)^( .*\n)(?=\S)", r"\1\n", re.sub(r"(?m)^(?=  \S)", "\n", text))
    yield from ((what, where) for _, what, where in findings(rows))
    yield from (("more than 80 columns", line) for line in text.split("\n") if len(line) > 80)


def source_findings():
    """Prints the public items of the product without a comment, and what its help texts have; gives their number."""
    count = 0
    for file in (it for crate in product_crates() for it in sorted(crate.glob("src/**/*.rt"))):
        for number, what, where in uncommented(file, ITEM, "///"):
            print(f"{file.relative_to(TOP)}:{number}: {what}: {where}")
            count += 1
    for file in sorted((TOP / "crates/command_table/src").glob("*.rt")):
        for it in re.findall(r'"((?:[^"\\]|\\.|\\\n)*)"', file.read_text()):
            for what, where in help_findings(re.sub(r"\\(\W)", r"\1", it.replace("\\\n", ""))):
                print(f"{file.relative_to(TOP)}: {what}: {where}")
                count += 1
    return count


def comments(file):
    """The comments of a source, lines that follow each other as one: the number of the first line, and the text."""
    mark = r"\s*//[/!]? ?(.*)$" if file.suffix == ".rt" else r"\s*-- ?(.*)$"
    kept, start = [], 0
    for number, line in enumerate([*file.read_text().split("\n"), ""], 1):
        if found := re.match(mark, line):
            start = start if kept else number
            kept.append(found[1])
        elif kept:
            yield start, "\n".join(kept)
            kept = []


def comment_findings():
    """Prints the words of the list in comments; gives their number. For each crate it also prints how many long sentences its
    comments have, and how many definitions have none."""
    count, postponed = 0, set()
    for crate in sorted(it for it in TOP.glob("crates/*") if (it / "src").is_dir()):
        specs = sorted(crate.glob("specs/**/*.antt"))
        texts = [(file, *it) for file in [*sorted(crate.glob("src/**/*.rt")), *specs] for it in comments(file)]
        found = [(file, start + line - 1, *it) for file, start, text in texts for line, *it in findings(text)]
        words = [it for it in found if not it[2].endswith(" words")]
        long = len(found) - len(words)
        known = {(str(it[0].relative_to(TOP)), it[2]) for it in words} & POSTPONED
        postponed |= known
        for file, line, what, where in words:
            if (str(file.relative_to(TOP)), what) not in known:
                print(f"{file.relative_to(TOP)}:{line}: {what}: {where}")
                count += 1
        bare = [it for file in specs for it in uncommented(file, DEFINITION, "--")]
        if long or bare:
            print(f"comments of {crate.name}: {long} long sentences, {len(bare)} definitions without a comment")
    for name, what in sorted(POSTPONED - postponed):
        print(f"{name}: {what}: is mended; take it out of POSTPONED")
        count += 1
    return count


def main():
    words = [it for it in sys.argv[1:] if it != "--counts"]
    shows = "--counts" not in sys.argv
    chosen = [Path(it).resolve() for it in words] or documents()
    counts = [check(it, shows) for it in chosen]
    found, length = (sum(column) for column in zip(*counts))
    if words:
        return 1 if found else 0
    found += comment_findings() + source_findings()
    print(f"language: {len(counts)} documents, {length:,} words, {found} findings")
    return 1 if found else 0


if __name__ == "__main__":
    sys.exit(main())
