#!/usr/bin/env python3
"""Makes the man page and the completions for bash, zsh and fish from the program's own help:

    packaging/pages.py PROGRAM FOLDER NAME COMMIT

PROGRAM is asked for --help, and so is each of its subcommands. So the pages name the words that the program takes, and no others.
The man page also has the faults that `check` prints and the words of refusals, each with its meaning and its cure, from the tables of
docs/KEEPERS.md, and what that page says about those in ADVICE. Every other word that PROGRAM explains (crates/ledger_jobs/src/meanings.rt
lists them) has the sentence that `PROGRAM help WORD` prints.
NAME is the command under which the program is installed, COMMIT names the sources that it was built from. FOLDER gets `NAME.1`,
`NAME.bash`, `_NAME` (zsh) and `NAME.fish`."""

import re
import subprocess
import sys
from dataclasses import dataclass, field
from pathlib import Path

sys.dont_write_bytecode = True

from documents import PAGES  # the module beside this one

TOP = Path(__file__).resolve().parent.parent
GUIDE = TOP / "docs/KEEPERS.md"
MEANINGS = TOP / "crates/ledger_jobs/src/meanings.rt"
# sections of the guide that stand whole in the man page
ADVICE = ("Images of another size", "A part of a file was lost", "`DEVICE`")
# what the man page calls the sections that the guide links to
HERE = {"faults": "FAULTS", "when-something-is-refused": "DIAGNOSTICS"}
HERE |= {it.lower().replace(" ", "-").strip("`"): it.strip("`") for it in ADVICE}
# how long a line may be in the text of a command, so that it has 80 columns at most on the page
ROOM = 71
# where a help text says that more is, and what the page says there
OF_THIS_PAGE = ('"ledger help LOOP" says what to do about it.', "The section FAULTS says what to do about each.")

STATUSES = (
    ("0", "Success; also when help was asked for."),
    ("1", "An image, a script or records were refused, and nothing was changed; or check, map or picture found a fault; "
          "or a file is cut short (SHORT); or repair kept sectors (KEPT)."),
    ("2", "The command line was refused."),
    ("3", "A file, the output or memory failed, or another program has the image."),
)

DESCRIPTION = (
    "A toolbox for keepers of old disks, and a stock ledger, on images of Commodore 1541 disks (D64).",
    "Keepers check, list, extract, draw and repair such images, and put files on them. `list`, `check`, `show` and the commands that "
    "change a disk take an image of 35 tracks without error bytes, which has 174,848 bytes. The other commands that look at disks show "
    "the first 35 tracks of an image with more tracks or error bytes, too.",
    "The stock ledger keeps a shop's books on such a disk. A till sends requests, and repeats a request if it didn't get the answer: a "
    "repeat gets the kept answer and has no second effect. If power fails, the next opening puts everything right. But after a power loss "
    "in `play` without `--sync`, answered requests may be lost, or the shop be wrong.",
)

# a command, what it does, and what it prints
EXAMPLES = (
    ("{0} check hurt.d64", "checks a disk, and prints the fault and its sector:", ("MAPWRONG 20/6",)),
    ("{0} list customers.d64", "prints the directory:", ('0 "CUSTOMERS 1987" CU 2A', '132 "ADDRESS" REL', "..", "393 BLOCKS FREE")),
    ("{0} records customers.d64 ADDRESS", "prints the records of a relative file:", ('1,"CLARK\\0d12 MILL LANE\\0dLEEDS\\0d"', "..")),
    ("{0} format --new shop.d64 --tills 4", "makes a shop for four tills; a file of this name is left alone:", ("FORMATTED",)),
    ("{0} play --sync shop.d64 day.txt", "plays the messages of a script, and prints the reply to each line:", ("1,1,DONE,40", "..")),
)


@dataclass
class Word:
    """A subcommand, as its help describes it."""

    name: str
    does: str
    usage: str = ""
    values: list = field(default_factory=list)
    options: list = field(default_factory=list)
    more: list = field(default_factory=list)


@dataclass
class Option:
    """An option: its short and long word, whether a value follows, and what it does."""

    short: str
    long: str
    value: str
    does: str


def helped(program, *words):
    """What the program prints if it is asked for help."""
    return subprocess.run([program, *words, "--help"], check=True, capture_output=True, text=True).stdout


def rows(text, heading):
    """The rows under a heading of a help text: the part before the gap, and the part after it."""
    part = re.search(rf"^{heading}:\n((?:  .*\n)+)", text, re.M)
    return [tuple(re.split(r"\s{2,}", line.strip(), maxsplit=1)) for line in part[1].splitlines()] if part else []


def option_of(row):
    """An option from its row, such as `-h, --help` or `--tills <TILLS>`."""
    short = re.search(r"(?<!\S)-(\w)\b", row[0])
    long = re.search(r"--([a-z-]+)", row[0])
    value = re.search(r"<(\w+)>", row[0])
    return Option(short[1] if short else "", long[1], value[1] if value else "", row[1] if len(row) > 1 else "")


def words_of(program):
    """The subcommands of the program."""
    found = []
    for row in rows(helped(program), "Commands"):
        if row[0] == "help":
            continue
        text = helped(program, row[0])
        usage = re.search(r"^Usage: \S+ (.*)$", text, re.M)[1]
        more = re.search(r"(?m)^Options:\n(?:  .*\n)+\n((?s:.*))\Z", text)[1].splitlines()
        word = Word(row[0], row[1], usage, rows(text, "Arguments"), rows(text, "Options"), more)
        named = " ".join(it[0] for it in word.values + word.options)
        missing = [value for value in re.findall(r"<\w+>", usage) if value not in named]
        if missing or not more:
            sys.exit(f"pages: the help of {row[0]} isn't read whole: {missing}")
        if wide := [line for line in text.splitlines() if len(line) > 80]:
            sys.exit(f"pages: the help of {row[0]} has more than 80 columns: {wide}")
        found.append(word)
    return found


def escaped(text):
    """Text as roff takes it."""
    text = text.replace("\\", "\\e").replace("-", "\\-").replace("'", "\\(aq").replace('"', "\\(dq").replace("\n", " ")
    return "\\&" + text if text.startswith(".") else text


def coded(text):
    """Text for roff, with what stands between backticks in bold letters."""
    parts = text.split("`")
    return "".join(f"\\fB{escaped(part)}\\fP" if number % 2 else escaped(part) for number, part in enumerate(parts))


def table(rows):
    """The rows of a help text's table for roff: as they are, if they are narrow and no list of statuses."""
    found = []
    for row in rows:
        parts = re.match(r"  (\S+)  +(\S.*)$", row)
        if parts:
            found.append([parts[1], parts[2]])
        elif found:
            found[-1][1] += " " + row.strip()
    if not found or found[0][0] != "0" and max(map(len, rows)) <= ROOM:
        return [".nf", *map(escaped, rows), ".fi"]
    width = max(len(term) for term, _ in found) + 2
    return [".PD 0", *(it for term, text in found for it in (f".TP {width}", f".B {escaped(term)}", coded(text))), ".PD", ".PP"]


def laid_out(lines):
    """Lines of a help text for roff: those that begin with a blank are a table, and an empty one begins a paragraph."""
    found, rows = [], []
    for line in [*lines, ""]:
        if line.startswith(" "):
            rows.append(line)
            continue
        found += table(rows) if rows else []
        rows = []
        found.append(coded(line) if line else ".PP")
    return [it for number, it in enumerate(found[:-1]) if it != ".PP" or found[number + 1] != ".PP"]


def linked(link):
    """What the man page has of a link: a section's name, or the file of the page."""
    label, target = link[1].replace("*", ""), link[2]
    heading = re.match(r"#(.*)", target)
    if heading and heading[1] in HERE:
        return f'"{HERE[heading[1]]}"'
    page = re.match(r"(\w+)\.md", f"{GUIDE.name}{target}" if heading else target)
    if not page or page[1] not in PAGES:
        sys.exit(f"pages: the package has no page {target}")
    return f"docs/{page[1]}.md" if label == page[1] or "*" in link[1] else f"{label} (docs/{page[1]}.md)"


def guided(text, name):
    """A paragraph of the guide for roff, which calls the program by its name."""
    parts = re.sub(r"\[([^\]]*)\]\(([^)]*)\)", linked, text).split("`")
    parts = [re.sub(r"^ledger (?=[a-z])", f"{name} ", part) if number % 2 else part.replace("*", "") for number, part in enumerate(parts)]
    return coded("`".join(parts))


def section(heading, end):
    """The text of the guide from a heading to the next one of that form."""
    found = re.search(rf"(?ms)^{re.escape(heading)}\n(.*?)(?=^{end} )", GUIDE.read_text(encoding="utf-8"))
    if not found:
        sys.exit(f"pages: docs/KEEPERS.md has no section {heading}")
    return found[1]


def row_of(cells, cures, name):
    """A row of a table of the guide for roff: a word, what it means, and what to do. A cure that is that of an earlier row is copied."""
    word, *texts = cells
    texts[-1] = cures[word] = re.sub(r"^As for (`[^`]+`)\.?", lambda it: cures[it[1]], texts[-1])
    lines = [".TP", f".B {guided(word.replace('`', ''), name)}", guided(texts[0], name)]
    return lines + [it for text in texts[1:] for it in (".br", f"What to do: {guided(text, name)}")]


def blocks(text, name):
    """Paragraphs, lists, tables and code of the guide for roff. A table's first row is its heading, which the page leaves out."""
    lines, cures, is_code, in_table = [], {}, False, False
    for line in text.splitlines():
        was_code, inset = is_code, len(line) - len(line.lstrip())
        is_code = inset >= 4
        if was_code and not is_code:
            lines.append(".fi")
        if line.startswith("|"):
            cells = [it.strip() for it in line.strip("|").split("|")]
            if in_table and not line.startswith("|--"):
                lines += row_of(cells, cures, name)
        elif is_code:
            lines += [] if was_code else ['.IP "" 7', ".nf"]
            lines.append(escaped(re.sub(r"^\$ ledger ", f"$ {name} ", line.strip())))
        elif item := re.match(r"(\d+\.|-) +(.*)", line):
            lines += [f".IP {escaped(item[1])} 3", guided(item[2], name)]
        elif line:
            lines += ['.IP "" 3' if inset else ".PP", guided(line.strip(), name)]
        in_table = line.startswith("|")
    lines += [".fi"] * is_code
    return lines[1:] if lines[:1] == [".PP"] else lines


def rows_of(heading):
    """The first cells of the rows of a section's tables: its words, without the sector or the number after them."""
    return {re.sub(r"( t/s| n)+$", "", word) for word in re.findall(r"(?m)^\| `([A-Z][^`]*)` \|", section(heading, "##"))}


def explained_words(program, name):
    """The words that the program prints for roff, each with what it means."""
    faults, refusals = "## Faults", "## When something is refused"
    # the drawings after the table, and the paragraph that introduces them, aren't for a terminal
    table_of_faults, _, _ = section(faults, "##").partition("\nThe drawings")
    lines = [".SH FAULTS", "What", ".B check", "prints, with the sector where it is:", *blocks(table_of_faults, name)]
    lines += [".SH DIAGNOSTICS", *blocks(section(refusals, "###"), name)]
    for heading in ADVICE:
        lines += [f".SS {coded(heading)}", *blocks(section(f"### {heading}", "#{2,3}"), name)]
    others = re.findall(r'\(\s*"([^"]+)",', MEANINGS.read_text(encoding="utf-8").partition("const MEANINGS")[2].partition("];")[0])
    lines += [".SH OTHER WORDS", "What commands print of what they did, and replies to a till. Items, quantities and the like follow them.",
              f"\\fB{escaped(name)} help\\fP WORD prints these sentences, too."]
    for word in others:
        if word not in rows_of(faults) | rows_of(refusals):
            # tests/documents/words.py sees that the program explains each
            meaning = subprocess.run([program, "help", *word.split()], capture_output=True, text=True).stdout.strip()
            lines += [".TP", f".B {escaped(word)}", coded(meaning.removeprefix(f"{word}: "))] if meaning else []
    return lines


def command_page(word, common, name):
    """What the man page has of a subcommand. Options of all commands stand elsewhere."""
    lines = [f".SS {escaped(word.usage)}", escaped(word.does) + "."]
    for called, *what in word.values + [it for it in word.options if it not in common]:
        lines += [".TP", f".B {escaped(called)}", coded(what[0] if what else "")]
    first = next((at for at, line in enumerate(word.more) if line.startswith("Example")), len(word.more))
    lines += [".PP", *laid_out([line.replace(*OF_THIS_PAGE) for line in word.more[:first]])]
    examples = [re.sub(r"\bledger ", f"{name} ", re.sub(r"^Examples?:", "", line).strip()) for line in word.more[first:]]
    if examples:
        lines += [".PP", "Examples:" if examples[1:] else "Example:"]
    return lines + [line for it in examples for line in (".br", f".B {escaped(it)}")]


def man_page(program, words, version, name, commit):
    """The man page of the program. What `--version` prints of it is its number, and perhaps its day."""
    number, _, day = version.partition(" ")
    lines = [f'.TH {escaped(name.upper())} 1 "{day.strip("()")}" "{name} {number}" "User Commands"', ".SH NAME",
             f"{escaped(name)} \\- check, read and repair D64 disk images; keep a stock ledger", ".SH SYNOPSIS"]
    for usage in [*(word.usage for word in words), "help <COMMAND>|<WORD>", "--version"]:
        lines += [".br", f".B {escaped(name)} {escaped(usage)}"]
    lines.append(".SH DESCRIPTION")
    lines += [it for text in DESCRIPTION for it in (".PP", coded(text))][1:]
    lines.append(".SH OPTIONS OF ALL COMMANDS")
    common = [it for it in words[0].options if all(it in word.options for word in words)]
    for called, *what in common:
        lines += [".TP", f".B {escaped(called)}", coded(what[0])]
    lines.append(".SH COMMANDS")
    for word in words:
        lines += command_page(word, common, name)
    lines += [".SS help <COMMAND>|<WORD>", "Print the help of a command, or say what a word means that a command printed."]
    lines.append(".SH EXIT STATUS")
    for status, when in STATUSES:
        lines += [".TP", f".B {status}", escaped(when)]
    lines += explained_words(program, name)
    lines.append(".SH EXAMPLES")
    for line, does, printed in EXAMPLES:
        lines += [".TP", f".B {escaped(line.format(name))}", escaped(does), ".nf", *("\\&" + escaped(it) for it in printed), ".fi"]
    lines += [".SH FILES", ".TP", f".I /usr/share/doc/{escaped(name)}",
              "The folder of the pages that are named here, for example docs/KEEPERS.md. Its folder examples/disks has the disks of the",
              f"examples. In the tarball it is share/doc/{escaped(name)}."]
    lines += [".SH VERSION", f"{escaped(version)}, of the commit", ".br", f"{commit}.", ".SH SEE ALSO", ".BR ledger\\-shop (1)"]
    return "\n".join(lines) + "\n"


def values_of(word):
    """The names of a subcommand's values that have no option, in their order."""
    return [row[0].strip("<>") for row in word.values]


def is_file(word, value):
    """Whether a value of a subcommand is a file's path. NAME, OLD and the NEW of `rename` are files within the image."""
    return value not in ("NAME", "OLD", "T/S") and (word.name, value) != ("rename", "NEW")


def bash(words, options, name):
    """The completions for bash. They complete files by `-o default`, which quotes a name with blanks as it has to be."""
    named = " ".join(word.name for word in words)
    cases = "\n".join(
        "        {}) words=\"{}\" valued=\"{}\" files=\"{}\" ;;".format(
            word.name, " ".join(f"--{it.long}" for it in map(option_of, word.options)),
            " ".join(f"--{it.long}" for it in map(option_of, word.options) if it.value),
            " ".join("yes" if is_file(word, it) else "no" for it in values_of(word)))
        for word in words)
    function = "_" + name.replace("-", "_")
    return f"""# completions of {name} for bash
{function}() {{
    local word=${{COMP_WORDS[COMP_CWORD]}} before=${{COMP_WORDS[COMP_CWORD-1]}}
    local command="" words="" valued="" files="" at count=0
    COMPREPLY=()
    for ((at = 1; at < COMP_CWORD; at++)); do
        case ${{COMP_WORDS[at]}} in
            -*) ;;
            *) command=${{COMP_WORDS[at]}}; break ;;
        esac
    done
    case $command in
        "") words="{named} help {" ".join(f"--{it.long}" for it in options)}" ;;
        help) words="{named}" ;;
{cases}
        *) return ;;
    esac
    case " $valued " in
        *" $before "*) compopt +o default; return ;;
    esac
    if [[ -z $command || $command == help || $word == -* ]]; then
        compopt +o default
        mapfile -t COMPREPLY < <(compgen -W "$words" -- "$word")
        return
    fi
    # which of the subcommand's values the word is: those of options aren't counted
    for ((at++; at < COMP_CWORD; at++)); do
        case " $valued " in
            *" ${{COMP_WORDS[at]}} "*) ((at++)) ;;
            *) [[ ${{COMP_WORDS[at]}} == -* ]] || ((++count)) ;;
        esac
    done
    local -a kinds=($files)
    [[ ${{kinds[count]}} == yes ]] || compopt +o default
}}
complete -o default -F {function} {name}
# where the name `ledger` leads to this program, too
case $(readlink -f -- "$(type -P ledger)") in
    */{name}) complete -o default -F {function} ledger ;;
esac
"""


def quoted(text):
    """Text in single quotes, as a shell takes it."""
    return "'" + text.replace("'", "'\\''") + "'"


def described(text):
    """A description in a specification of zsh."""
    return re.sub(r"([\[\]:\\])", r"\\\1", text)


def zsh_options(options):
    """What `_arguments` of zsh takes for these options."""
    found = []
    for it in options:
        what = f"[{described(it.does)}]" + (f":{it.value}:" if it.value else "")
        found += [quoted(f"(- *){word}{what}" if it.long in ("help", "version") else word + what)
                  for word in ([f"-{it.short}"] if it.short else []) + [f"--{it.long}"]]
    return found


def zsh(words, options, name):
    """The completions for zsh."""
    commands = "\n".join(f"        {quoted(f'{word.name}:{word.does}')}" for word in words)
    cases = []
    for word in words:
        taken = zsh_options(map(option_of, word.options))
        taken += [quoted(f"{number}:{value}:{'_files' if is_file(word, value) else ''}") for number, value in enumerate(values_of(word), 1)]
        cases.append(f"                {word.name})\n                    _arguments " + " \\\n                        ".join(taken) + " ;;")
    tops = " \\\n        ".join(zsh_options(options))
    function = "_" + name
    return f"""#compdef {name}
# completions of {name} for zsh
{function}() {{
    local -a commands=(
{commands}
        'help:Print help of a command'
    )
    local context state state_descr line
    typeset -A opt_args
    _arguments -C \\
        {tops} \\
        '1:command:->command' \\
        '*::argument:->argument'
    case $state in
        command) _describe -t commands command commands ;;
        argument)
            case $words[1] in
                help) _describe -t commands command commands ;;
{chr(10).join(cases)}
            esac ;;
    esac
}}
{function} "$@"
"""


def fish(words, options, name):
    """The completions for fish."""
    lines = [f"# completions of {name} for fish"]
    for it in options:
        lines.append(f"complete -c {name} -n __fish_use_subcommand -l {it.long}" + (f" -s {it.short}" if it.short else "")
                     + f" -d {quoted(it.does)}")
    for word in words:
        lines.append(f"complete -c {name} -n __fish_use_subcommand -f -a {word.name} -d {quoted(word.does)}")
    lines.append(f"complete -c {name} -n __fish_use_subcommand -f -a help -d 'Print help of a command'")
    lines.append(f"complete -c {name} -n '__fish_seen_subcommand_from help' -f -a '{' '.join(word.name for word in words)}'")
    for word in words:
        for it in map(option_of, word.options):
            lines.append(f"complete -c {name} -n '__fish_seen_subcommand_from {word.name}' -l {it.long}" + (
                f" -s {it.short}" if it.short else "") + (" -x" if it.value else "") + f" -d {quoted(it.does)}")
    return "\n".join(lines) + "\n"


def main():
    if len(sys.argv) != 5:
        sys.exit(__doc__)
    program, folder, name, commit = Path(sys.argv[1]).resolve(), Path(sys.argv[2]), *sys.argv[3:]
    printed = subprocess.run([program, "--version"], check=True, capture_output=True, text=True).stdout
    version = printed.strip().partition(" ")[2]
    words = words_of(program)
    options = [option_of(row) for row in rows(helped(program), "Options")]
    (folder / f"{name}.1").write_text(man_page(program, words, version, name, commit), encoding="utf-8")
    for file, made in ((f"{name}.bash", bash), (f"_{name}", zsh), (f"{name}.fish", fish)):
        (folder / file).write_text(made(words, options, name), encoding="utf-8")


main()
