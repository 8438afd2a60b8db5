#!/usr/bin/env python3
"""Tries the simulator itself: each step of a log's life is left out in turn, or made late, and the table that is printed says which seed
found that.

    tests/power/simulator_teeth.py [--late] [--amount SEEDS] [--simulator PATH]

A step is a call that changes something, after a call of another kind: for example a sync of the folder after a file was renamed. The
machine in memory can leave one out: it returns, and does nothing. For the program that is as if the line of the step stood in no source.
With --late the machine makes the step after the next call of another kind, a printing among them, as if two lines of the source had
changed places: a log is named before it is synced, or a reply is printed before its commit is.
The simulator plays the seeds 1, 2, ... until it finds something wrong; for a step that has to be found up to four times as many, since
which seed finds a step changes with each change of the program. The status is 1 if such a step isn't found, or if the first seeds don't
meet it; and if a step that isn't found has no reason in COVERED or COVERED_LATE, why it does no harm to leave that step out, or to make it
late, alone."""

import re
import sys
from concurrent.futures import ThreadPoolExecutor
from os import sched_getaffinity
from pathlib import Path
from typing import NamedTuple

sys.dont_write_bytecode = True
sys.path.insert(0, str(Path(__file__).resolve().parents[1] / "lib"))
from simulators import add_words, played, simulator_of
from trial import conduct

ACT = re.compile(r"(\d+): (.*), after: (.*)")
FOUND = re.compile(r"seed (\d+), step (\d+): (.*)")

# what can't be left out: without a file there is nothing to go on with
NO_STEPS = ("the beginning", "make a file")
# how many times as many seeds are played for a step of MUST
LONGER = 4
# the steps that were found both when they were left out and when they were late, each with the kind of call before it
MUST_BOTH = {
    ("sync the log", "the beginning"),
    ("remove a name", "sync the folder"),
    ("rename a file", "sync the folder"),
    ("write IMAGE", "sync the folder"),
    ("write the mark", "sync the folder"),
    ("remove a name", "sync IMAGE"),
    ("write IMAGE", "sync IMAGE"),
    ("write the log", "sync IMAGE"),
    ("write IMAGE", "sync the log"),
    ("write the log", "sync the log"),
    ("write the mark", "sync the log"),
    ("write the log in the making", "sync the log in the making"),
    ("give a second name", "sync another file"),
    ("write another file", "sync another file"),
    ("set a length", "make a file"),
    ("sync IMAGE", "write IMAGE"),
    ("sync the log", "write the log"),
    ("write the mark", "write the log in the making"),
    ("sync another file", "write another file"),
    ("sync the log in the making", "set a length"),
    ("sync the folder", "sync the log in the making"),
    ("sync the log", "write the mark"),
    ("remove a name", "give a second name"),
    # a copy has its name, and COPIED is printed
    ("sync the folder", "remove a name"),
    # the same where links are refused, so a copy is renamed
    ("rename a file", "give a second name"),
    ("sync the folder", "rename a file"),
    # these by a file that is no image, over which `format` writes
    ("sync another file", "set a length"),
    ("write another file", "sync the folder"),
}
# and those that were found when they were left out
MUST = MUST_BOTH | {
    ("sync the log in the making", "write the log in the making"),
    ("sync the log in the making", "write the mark"),
    # this by a file that is no image, over which `format` writes
    ("set a length", "write another file"),
    # these by the faults that meet at a story's end
    ("sync IMAGE", "the beginning"),
    ("sync the folder", "the beginning"),
    ("sync IMAGE", "sync the folder"),
    ("sync the folder", "sync IMAGE"),
}
# after which calls a name is removed only because the call failed
FAILED = (
    "make a file",
    "set a length",
    "rename a file",
    "write another file",
    "sync another file",
    "write the log in the making",
    "sync the log in the making",
    "write the mark",
)
# the steps that do no harm if they alone are left out
COVERED = {
    ("write the mark", "sync IMAGE"): "no commit was made, so the log gives its base, which IMAGE is: a log beside its base needs no mark",
    ("sync IMAGE", "sync the log"): "nothing of IMAGE was written since its last sync, in this run or at its beginning",
    ("sync the folder", "make a file"): "the sync after the image has its name brings the same removals to the disk, and nothing is reported before",
    ("sync the folder", "sync another file"): "`format` writes over a file that has its name already",
    **{
        ("remove a name", it): "a call failed: what was being made has no name of its own, and the next command removes it or takes a free name"
        for it in FAILED
    },
}

# the steps that were found when they were made late
MUST_LATE = MUST_BOTH
# the steps that do no harm if they alone are late
COVERED_LATE = {
    **COVERED,
    ("sync the folder", "the beginning"): "only `play` begins so, which promises nothing of a loss of power while it writes IMAGE",
    ("sync IMAGE", "the beginning"): "it changes places with the sync of the folder, and neither waits for the other",
    ("sync IMAGE", "sync the folder"): "`play` found a log: the mark is written before and synced after, and IMAGE is written only then",
    ("sync the folder", "sync IMAGE"): "it still comes before IMAGE is written, and before a log gets its name",
    ("sync the log in the making", "write the log in the making"): "it changes places with the sync of the folder, and still comes before the log gets its name",
    ("sync the log in the making", "write the mark"): "it changes places with the sync of the folder, and still comes before the log gets its name",
    ("set a length", "write another file"): "the next sync brings it to the disk, and until then a file that is too long is refused",
}


class Way(NamedTuple):
    """What is done with a step: the simulator's word for it, the steps that have to be found then, and why the others do no harm."""

    word: str
    must: set
    covered: dict


WITHOUT = Way("--without", MUST, COVERED)
LATE = Way("--late", MUST_LATE, COVERED_LATE)


def main(given):
    simulator = simulator_of(given)
    way = LATE if given.late else WITHOUT
    listed = played(simulator, "--seed", 1, "--seeds", given.amount, "--acts").stdout
    steps = [it.groups() for it in map(ACT.fullmatch, listed.splitlines()) if it and it[2] not in NO_STEPS]

    def tried(step):
        seeds = given.amount * (LONGER if step[1:] in way.must else 1)
        return step, FOUND.search(played(simulator, "--seed", 1, "--seeds", seeds, way.word, step[0]).stdout)

    right = wrong = 0
    with ThreadPoolExecutor(len(sched_getaffinity(0))) as pool:
        for (_, act, before), found in pool.map(tried, steps):
            reason = None if (act, before) in way.must else way.covered.get((act, before))
            lacks = not found and not reason
            right, wrong = right + (not lacks), wrong + lacks
            said = f"seed {found[1]}, step {found[2]}: {found[3]}" if found else reason or "IT HAS TO BE FOUND"
            print(f"| {act} | {before} | {said} |", flush=True)
    for act, before in sorted(way.must - {step[1:] for step in steps}):
        wrong += 1
        print(f"| {act} | {before} | NO STORY MEETS IT |", flush=True)
    return right, wrong


def add_teeth(parser):
    """The words of this trial."""
    add_words(parser)
    parser.add_argument("--late", action="store_true", help="steps are made late, and not left out")


if __name__ == "__main__":
    conduct(main, add_teeth, wants_program=False)
