#!/usr/bin/env python3
"""Plays stories of the simulator, by seeds: the whole program over a machine in memory, with kills, power losses, calls that fail, and
hands on files (crates/simulator).

    tests/power/simulator.py [--seed N] [--amount STORIES] [--simulator PATH]

The seeds are N and those after it. A failure prints its seed, and the command that plays it step by step. For hours call the simulator
itself: `$(tools/program simulator) --hours 8 --seed 1000`."""

import sys
from pathlib import Path

sys.dont_write_bytecode = True
sys.path.insert(0, str(Path(__file__).resolve().parents[1] / "lib"))
from simulators import add_words, played, simulator_of
from trial import at, conduct


def main(given):
    simulator = simulator_of(given)
    first = given.seed
    ended = played(simulator, "--seed", first, "--seeds", given.amount)
    print(ended.stdout, end="")
    if ended.returncode != 0:
        at(given.amount)
        sys.exit(f"the simulator ended with status {ended.returncode}: {ended.stderr.strip()}")
    return given.amount


if __name__ == "__main__":
    conduct(main, add_words, wants_program=False)
