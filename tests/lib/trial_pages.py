"""What is kept of trials, and the pages that are made of it and of tests/trials.toml: tests/README.md, and the table of docs/TRIALS.md."""

import fcntl
import re
from dataclasses import dataclass
from pathlib import Path

from trial import AMOUNTS, TESTS, TOP, entries

RECORD = TESTS / "RECORD"
README = TESTS / "README.md"
TRIALS = TOP / "docs" / "TRIALS.md"
BEGIN, END = "<!-- made by ./trials --tables -->", "<!-- end of what is made -->"
GROUPS = {
    "rows": ("Rows", "Tables of what the program prints, reports and leaves: the gate plays them, and [FORM](rows/FORM) has their form."),
    "power": ("Power and kills", "Power goes, or a process is killed, at any moment."),
    "hands": ("Hands on files", "Someone moves, cuts, fills or closes what the program uses."),
    "hostile": ("Hostile input", "Damaged and odd disks, refused memory, little stack."),
    "peers": ("Other programs", "Programs that others wrote read and write the same disks."),
    "pictures": ("Pictures", "What `map` and `picture` print, also in browsers."),
    "network": ("Tills, brokers, operator", "The networked shop: bridges, brokers, pages and the operator's commands. All traffic stays on this machine."),
    "documents": ("Documents", "Pages against the sources, each other and the program."),
    "package": ("Package and first run", "What is released, installed and run for the first time."),
}
INTRODUCTION = """# Trials

These scripts try the built program, and compare the pages with the sources. `./trials --readme` makes this page from [trials.toml](trials.toml).

    ./trials --list [NAME|GROUP ..]      what there is, and what it wants
    ./trials --quick                     what wants nothing but python3 and the program, side by side
    ./trials power hostile/advice        a group and a trial; without words all for which this machine has what is needed
    ./trials --amount long --seed 7 --record

Trials that this machine can't run are left out by name, with the reason. `--program PATH` names another program than the one that was built or released here, and `--limit MINUTES` ends a trial that takes longer. Each trial runs in a temporary folder of its own. What it prints is kept if it fails, together with the folder. The last line is `N passed, M failed, K left out`, and the status is 0 only if nothing failed. `--record` keeps a line for each trial in [RECORD](RECORD), from which `./trials --tables` makes the table of [TRIALS](../docs/TRIALS.md).

Each script can be run by itself as well, in the same words: `tests/power/kill.py PROGRAM [--seed N] [--amount short|ordinary|long|N]`. If it fails, it prints the smallest command known that shows the failure again. The words and the last line are those of [lib/trial.py](lib/trial.py); the other modules of `lib` are used by several folders.

We don't use pytest here. A trial is one long process with a seed that counts what it tried, often as root or in a container, and some are shell scripts. So of what pytest has we would use a time limit and a selection, and the gate has to go on working with python3 alone. The shop's Python package has unit tests, and pytest runs those (`network/package_tests`).

To add a trial, write a script whose `main` gets what the command line says and returns how many things passed, let `conduct(main)` run it, give it a part of [trials.toml](trials.toml), and run `./trials --readme`.
"""


@dataclass(frozen=True)
class Run:
    """The last run of a trial, as a line of RECORD has it."""

    name: str
    day: str
    release: str
    commit: str
    seed: str
    amount: str
    passed: int
    failed: int
    seconds: int

    def __str__(self):
        return (f"{self.name} {self.day} {self.release} {self.commit} seed {self.seed} amount {self.amount}:"
                f" {self.passed} passed, {self.failed} failed, {self.seconds} s")


LINE = re.compile(r"(\S+) (\S+) (\S+) (\S+) seed (\S+) amount (\S+): (\d+) passed, (\d+) failed, (\d+) s")


def runs() -> dict[str, Run]:
    """The last runs that are kept, by the trials' names."""
    lines = RECORD.read_text().splitlines() if RECORD.exists() else []
    found = [LINE.fullmatch(line) for line in lines]
    return {it[1]: Run(*it.groups()[:6], *map(int, it.groups()[6:])) for it in found if it}


def keep(run: Run) -> None:
    """Keeps a run, in the place of an earlier one of the same trial; runs of `./trials` side by side wait for each other here."""
    with open(RECORD, "a") as lock:
        fcntl.flock(lock, fcntl.LOCK_EX)
        kept = {**runs(), run.name: run}
        RECORD.write_text("".join(f"{kept[it]}\n" for it in sorted(kept)))


def named(group: str, name: str) -> str:
    return f"{group}/{name}"


def wants_of(entry: dict) -> str:
    """What a trial wants of a machine, in words."""
    more = [word for key, word in (("root", "root"), ("browser", "a browser"), ("net", "a network"), ("alone", "the machine for itself"))
            if entry.get(key)]
    return ", ".join([*more, *(it.replace("|", " or ") for it in entry.get("wants", []))])


def minutes_of(entry: dict, amount: str = "ordinary") -> float:
    minutes = entry["minutes"]
    return minutes[AMOUNTS.index(amount)] if isinstance(minutes, list) else minutes


def amounts_of(entry: dict) -> str:
    return f"{', '.join(f'{it:,}' for it in entry['amounts'])} {entry['unit']}" if "amounts" in entry else ""


def readme() -> str:
    parts = [INTRODUCTION]
    for group, (title, what) in GROUPS.items():
        rows = [f"| [{name}]({it['file']}) | {it['tries']} | {amounts_of(it)} | {minutes_of(it):g} | {wants_of(it)} |"
                for name, it in entries().items() if it["group"] == group]
        head = "| Trial | What it tries | Short, ordinary, long | Minutes | Wants |\n|---|---|---|---|---|"
        parts.append("\n".join([f"## {title}", "", f"{what} (`./trials {group}`)", "", head, *rows]) + "\n")
    return "\n".join(parts)


def minor(version: str) -> str:
    return ".".join(version.split(".")[:2])


def table(version: str) -> str:
    """The table of docs/TRIALS.md: the last run of each trial of the program, and which have none."""
    kept, rows, without = runs(), [], {}
    for name, entry in entries().items():
        whole = named(entry["group"], name)
        run = kept.get(whole)
        if entry["group"] == "documents":
            continue
        if not run:
            without[whole] = entry
            continue
        other = "" if minor(run.release) == minor(version) else f", not of {minor(version)}"
        passed = f"{run.passed:,}" + (f", **{run.failed} failed**" if run.failed else "")
        amount = f"{int(run.amount):,} {entry['unit']}" if run.amount.isdecimal() and "unit" in entry else ""
        rows.append(f"| [{whole}](../tests/{entry['file']}) | {entry['tries']} | {amount} | {passed} | {run.release}{other}, {run.day} |")
    head = ["| Trial | What happens | Amount | Passed | Release, day |", "|---|---|---|---|---|"]
    more = [f"| [{whole}](../tests/{entry['file']}) | {entry.get('without', 'not run yet')} |" for whole, entry in without.items()]
    more = ["| No run is kept of | Why |", "|---|---|", *more, ""] if more else []
    return "\n".join([BEGIN, "", *head, *rows, "", *more, END])


def with_table(page: str, version: str) -> str:
    """The page with the table anew."""
    before, rest = page.split(BEGIN)
    return before + table(version) + rest.split(END)[1]


def version_here() -> str:
    """The version of the release that is here."""
    return re.search(r"^version: ([\d.]+)", (TOP / "releases" / "BUILT_FROM").read_text(), re.M)[1]


def pages() -> dict[Path, str]:
    """The pages that are made, with what they should have."""
    return {README: readme(), TRIALS: with_table(TRIALS.read_text(), version_here())}


def stale() -> list[str]:
    return [str(page.relative_to(TOP)) for page, text in pages().items() if not page.exists() or page.read_text() != text]
