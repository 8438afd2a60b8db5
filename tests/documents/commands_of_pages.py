#!/usr/bin/env python3
"""Runs the commands of README and SHOP_OWNER as they are printed, in a folder with nothing but what the pages name:

    tests/documents/commands_of_pages.py PROGRAM

A command has to stand on its page as it is here; what it is given comes from the page, too, and what it prints has to be what the
page shows after it. guide.py runs KEEPERS' commands."""

import re
import subprocess
import sys
import tempfile
from pathlib import Path

sys.dont_write_bytecode = True
sys.path.insert(0, str(Path(__file__).resolve().parents[1] / "lib"))
from served import want
from shop_paths import TOP
from trial import conduct, passed


class Page:
    """A page, and the folder in which its commands run."""

    def __init__(self, name: str, folder: Path):
        self.name, self.folder = name, folder
        self.lines = (TOP / name).read_text().split("\n")

    def after(self, command: str) -> list[str]:
        """The lines of the page's block after this command."""
        for number, line in enumerate(self.lines):
            if re.sub(r"^( {4})?(\$ )?|  +#.*$", "", line) == command:
                block = self.lines[number + 1 :]
                end = next(n for n, it in enumerate(block) if not it.startswith("    "))
                return [it[4:] for it in block[:end]]
        want(False, f"{self.name} has no command {command}")
        return []

    def column(self, heading: str) -> list[tuple[str, ...]]:
        """The code in the rows of the table with this heading: of each row its first and its last column."""
        begin = next(n for n, it in enumerate(self.lines) if it.startswith(heading))
        rows = self.lines[begin + 2 :]
        end = next(n for n, it in enumerate(rows) if not it.startswith("|"))
        return [tuple(cells[n].strip(" `") for n in (1, -2)) for cells in (it.split("|") for it in rows[:end])]

    def block(self, heading: str, sentence: str) -> list[str]:
        """The lines of the block after the first line below a heading that has this sentence."""
        begin = self.lines.index(heading)
        at = next(n for n in range(begin, len(self.lines)) if sentence in self.lines[n])
        return [it[4:] for it in self.lines[at + 2 : self.lines.index("", at + 2)]]

    def run(self, command: str, given: str = "", wanted: list[str] | None = None) -> None:
        """Runs a command of the page as a shell does; it has to print these lines."""
        self.after(command)
        done = subprocess.run(["sh", "-c", command], cwd=self.folder, input=given, capture_output=True, text=True, timeout=120,
                              env={"PATH": f"{self.folder}/bin:/usr/bin:/bin", "HOME": str(self.folder), "LC_ALL": "C"})
        want(done.returncode == 0, f"{self.name}: {command}: status {done.returncode}, {done.stderr}")
        printed = done.stdout.splitlines()
        want(wanted is None or printed == wanted, f"{self.name}: {command} prints {printed}, not {wanted}")
        passed()


def readme(page: Page) -> None:
    """The README's first session, and the day that it shows."""
    replies = (TOP / "examples/day_with_power_cuts.replies").read_text().splitlines()
    shown = page.lines[page.lines.index("TOP 9242") :]
    page.run("./ledger format --new shop.d64 --tills 4", wanted=["FORMATTED"])
    page.run("./ledger play shop.d64 examples/day_with_power_cuts.txt", wanted=replies)
    page.run("./ledger show shop.d64", wanted=shown[: shown.index("```")])
    page.run("./ledger check shop.d64", wanted=["OK"])


def shop_owner(page: Page) -> None:
    """A shop at one computer: set up, a day with the till, a look; and the same day by hand."""
    (page.folder / "list.csv").write_text("\n".join(page.block("## Set up", "Write the stock into a file")) + "\n")
    page.run("shop/ledger-shop import list.csv --stock stock.txt")
    page.run("ledger format --new shop.d64 --tills 4", wanted=["FORMATTED"])
    page.run("ledger play --sync shop.d64 stock.txt")
    (page.folder / "by_hand.d64").write_bytes((page.folder / "shop.d64").read_bytes())
    till = "shop/ledger-shop till 2 --book till2.book --pipe 'shop/ledger-shop bridge shop.d64 --pipes --keep shop.lines'"
    asked = page.after(till)
    typed = [it.partition(": ")[2] for it in asked if it.startswith("till 2, wish")]
    page.run(till, "".join(f"{it}\n" for it in typed), [it for it in asked if not it.startswith("till 2, wish")])
    page.run("ledger show shop.d64 | shop/ledger-shop goods goods.csv --show")
    shown = subprocess.run([page.folder / "bin/ledger", "show", "shop.d64"], cwd=page.folder, capture_output=True, text=True).stdout
    want(shown.splitlines() == page.block("## Look", "prints the highest item"), f"{page.name}: show prints {shown}")
    (page.folder / "by_hand.d64").rename(page.folder / "shop.d64")
    rows = page.column("| Line of `monday.txt` |")
    (page.folder / "monday.txt").write_text("".join(f"{line}\n" for line, _ in rows))
    page.run("ledger play --sync shop.d64 monday.txt", wanted=[reply for _, reply in rows])
    line, reply = page.after("tee -a monday.txt | ledger serve shop.d64")
    page.run("tee -a monday.txt | ledger serve shop.d64", f"{line}\n", [reply])


def main(given):
    for name, see in (("README.md", readme), ("docs/SHOP_OWNER.md", shop_owner)):
        with tempfile.TemporaryDirectory() as room:
            folder = Path(room)
            (folder / "bin").mkdir()
            for link, target in (("bin/ledger", given.program), ("ledger", given.program), ("shop", TOP / "shop"),
                                 ("examples", TOP / "examples"), ("goods.csv", TOP / "shop/deploy/goods.csv")):
                (folder / link).symlink_to(target)
            see(Page(name, folder))


if __name__ == "__main__":
    conduct(main)
