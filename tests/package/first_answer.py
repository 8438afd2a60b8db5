#!/usr/bin/env python3
"""Measures what README and OPERATIONS say of the first minute: how long the first answer takes after a clone, and how much memory
`serve` takes.

    tests/package/first_answer.py PROGRAM [--amount N] [--write]

The last commit here is cloned into an empty folder as often as `--amount` says, and there the README's first command makes a shop, as
somebody does who never had the program before. Its time is the first answer's; that of the clone depends on the net, and is
printed beside it. Then the released program serves 60,000 requests of 64 tills, and the system says how much memory it had at most. If
the release isn't of this commit's files, the trial is left out, since `./ledger` would begin to prove.

What is measured may be TIMES as much as the pages say, because other work on the machine makes everything slower; more is a failure.
With --write the pages get the new figures, with the day, the release, and how fast the machine is (bench/machine.sh, which wants
rustc). tests/documents/figures.py compares README with docs/SPEED.md."""

import os
import re
import statistics
import subprocess
import sys
import tempfile
import time
from datetime import datetime, timezone
from pathlib import Path

sys.dont_write_bytecode = True
sys.path.insert(0, str(Path(__file__).resolve().parents[1] / "lib"))
from trial import TOP, LeftOut, check, conduct

SPEED, README, OPERATIONS = TOP / "docs/SPEED.md", TOP / "README.md", TOP / "docs/OPERATIONS.md"
BEGIN, END = "<!-- made by tests/package/first_answer.py --write -->", "<!-- end of what is made -->"
# the seconds and the MB that a page says
SECONDS = re.compile(r"(?m)^\| first answer after a clone \| ([\d.]+) s ")
MEMORY = re.compile(r"(?m)^\| memory \| ([\d.]+) MB for `serve` \([^)]*\)")
TIMES = 8
TILLS, REQUESTS, AT_ONCE = 64, 60_000, 64


def run(*words: str | Path, **more) -> str:
    return subprocess.run(words, check=True, capture_output=True, text=True, **more).stdout.strip()


def is_of_release(clone: Path) -> bool:
    """Whether the release of this clone is of its files."""
    named = re.search(r"(?m)^tree: (\S+)", (clone / "releases/BUILT_FROM").read_text())
    return named is not None and run(clone / "tools/tree_sum") == named[1]


def first_answer(folder: Path) -> tuple[float, float, float]:
    """The seconds of a clone, of the first answer in it, and of the second one."""
    clone, home = folder / "ledger", folder / "home"
    home.mkdir()
    began = time.monotonic()
    run("git", "clone", "--quiet", "--depth", "1", f"file://{TOP}", clone)
    cloned = time.monotonic()
    if not is_of_release(clone):
        raise LeftOut("the release isn't of the last commit's files")
    environment = {"PATH": "/usr/bin:/bin", "HOME": str(home)}
    command = re.search(r"(?m)^\./ledger format .*$", (TOP / "README.md").read_text())[0]
    moments = [time.monotonic()]
    for words in (command.split(), ["./ledger", "check", "shop.d64"]):
        answer = run(*words, cwd=clone, env=environment)
        moments.append(time.monotonic())
        check(answer == ("FORMATTED" if "format" in words else "OK"), f"{' '.join(words)} prints {answer}")
    return cloned - began, moments[1] - moments[0], moments[2] - moments[1]


def memory_of_serve(program: str, folder: Path) -> float:
    """The MB that `serve` had at most while it answered the requests of all tills."""
    image = folder / "shop.d64"
    run(program, "format", "--new", image, "--tills", str(TILLS))
    with subprocess.Popen([program, "serve", image], stdin=subprocess.PIPE, stdout=subprocess.PIPE) as serve:
        for first in range(0, REQUESTS, AT_ONCE):
            number = first // AT_ONCE + 1
            lines = [f"{till},{number},S,{1 + (first + till) % 8000},{number}\n" for till in range(1, AT_ONCE + 1)]
            serve.stdin.write("".join(lines).encode())
            serve.stdin.flush()
            replies = [serve.stdout.readline() for _ in lines]
            check(all(b"DONE" in it for it in replies), f"serve answers {replies}")
        found = re.search(r"VmHWM:\s+(\d+) kB", Path(f"/proc/{serve.pid}/status").read_text())
        serve.stdin.close()
        check(serve.wait() == 0, f"serve ends with status {serve.returncode}")
    return int(found[1]) * 1024 / 1e6


def machine() -> str:
    """How fast this machine is, as a page says it."""
    made = subprocess.run([TOP / "bench/machine.sh"], capture_output=True, text=True)
    return f"on a machine on which `bench/machine.sh` prints {made.stdout.split()[0]} s" if made.returncode == 0 else "on a machine that wasn't timed"


def section(clone: list[float], first: list[float], second: list[float], memory: float, where: str) -> str:
    rows = [("`git clone --depth 1` from the same disk", clone), ("the first answer after it, `format` (it takes the program out of its tarball)", first),
            ("the next answer, `check` (most of it compares the sources with the release)", second)]
    table = [f"| {what} | {statistics.median(it):.1f} s | {min(it):.1f} to {max(it):.1f} s |" for what, it in rows]
    return "\n".join([BEGIN, "", f"Measured {where}, {len(first)} times:", "", "| What | Median | From, to |", "|---|---|---|", *table, "",
                      f"`serve` had {memory:.1f} MB of memory at most while it answered {REQUESTS:,} requests of {TILLS} tills.", "", END])


def write(clone: list[float], first: list[float], second: list[float], memory: float, release: str) -> None:
    day = datetime.now(timezone.utc).strftime("%Y-%m-%d")
    text = SPEED.read_text()
    made = section(clone, first, second, memory, f"on {day}, with release {release}, {machine()}")
    SPEED.write_text(text[: text.index(BEGIN)] + made + text[text.index(END) + len(END) :])
    row = f"| first answer after a clone | {statistics.median(first):.1f} s "
    README.write_text(SECONDS.sub(row, README.read_text()))
    said = f"| memory | {memory:.1f} MB for `serve` (release {release}, {REQUESTS:,} requests of {TILLS} tills, {day})"
    OPERATIONS.write_text(MEMORY.sub(said, OPERATIONS.read_text()))


def main(given) -> None:
    times = []
    for _ in range(given.amount):
        with tempfile.TemporaryDirectory() as folder:
            times.append(first_answer(Path(folder)))
    clone, first, second = map(list, zip(*times))
    with tempfile.TemporaryDirectory() as folder:
        memory = memory_of_serve(given.program, Path(folder))
    release = run(given.program, "--version").split()[1]
    if given.write:
        write(clone, first, second, memory, release)
    median = statistics.median(first)
    print(f"clone {statistics.median(clone):.1f} s, first answer {median:.2f} s, next answer {statistics.median(second):.2f} s, serve {memory:.1f} MB")
    for what, measured, page, form in (("the first answer", median, README, SECONDS), ("the memory of serve", memory, OPERATIONS, MEMORY)):
        said = float(form.search(page.read_text())[1])
        check(measured <= TIMES * said, f"{what}: {page.name} says {said}, and it was {measured:.2f}")


if __name__ == "__main__":
    conduct(main, lambda parser: parser.add_argument("--write", action="store_true", help="put the figures into the pages"))
