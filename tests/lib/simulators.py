"""The simulator that trials run."""

import subprocess
from pathlib import Path

from trial import LeftOut, TOP


def add_words(parser):
    """The word for another simulator than the one that was built here."""
    parser.add_argument("--simulator", metavar="PATH", help="the simulator that is run (what `tools/program simulator` prints)")


def simulator_of(given) -> str:
    """The path of the simulator: the one of the command line, or the one that was built here."""
    if given.simulator:
        return str(Path(given.simulator).resolve())
    built = subprocess.run([TOP / "tools/program", "--built", "simulator"], capture_output=True, text=True)
    if built.returncode != 0:
        raise LeftOut("the simulator wasn't built here: tools/program simulator")
    return built.stdout.strip()


def played(simulator: str, *words: object) -> subprocess.CompletedProcess:
    """A run of the simulator with these words."""
    return subprocess.run([simulator, *map(str, words)], capture_output=True, text=True, errors="replace")
