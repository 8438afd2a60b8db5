#!/usr/bin/env python3
"""Types each command of docs/KEEPERS.md, in order, in a copy of examples/disks, and compares what it prints with what the page shows:

    tests/documents/guide.py PROGRAM

A command is a line `$ ledger ..` of a block, and what it prints follows; `..` stands for lines that are left out. A command with `>`
prints nothing else, and ends with status 0."""

import os
import re
import shutil
import subprocess
import sys
import tempfile
from pathlib import Path

sys.dont_write_bytecode = True
sys.path.insert(0, str(Path(__file__).resolve().parents[1] / "lib"))
from trial import conduct

TOP = Path(__file__).resolve().parents[2]
GUIDE = TOP / "docs/KEEPERS.md"
DISKS = TOP / "examples/disks"
COMMAND = re.compile(r"( {4,})\$ (ledger .*)")


def steps():
    """The commands of the guide, each with the lines that it prints."""
    found, edge = [], None
    for line in GUIDE.read_text(encoding="utf-8").splitlines():
        if begins := COMMAND.fullmatch(line):
            edge = begins[1]
            found.append((begins[2], []))
        elif edge and line.startswith(edge):
            found[-1][1].append(line[len(edge):])
        else:
            edge = None
    return found


def fits(printed, shown):
    """Whether these lines are those that the guide shows."""
    at, is_loose = 0, False
    for line in shown:
        if line == "..":
            is_loose = True
            continue
        if is_loose and line in printed[at:]:
            at = printed.index(line, at)
        if printed[at:at + 1] != [line]:
            return False
        at, is_loose = at + 1, False
    return is_loose or at == len(printed)


def typed(command, folder):
    """What the command prints if it is typed in a folder with the disks, line by line, and its status."""
    path = f"{folder / 'bin'}:{os.environ['PATH']}"
    done = subprocess.run(["sh", "-c", command], cwd=folder / "disks", env={**os.environ, "PATH": path}, text=True, timeout=60,
                          stdout=subprocess.PIPE, stderr=subprocess.STDOUT, encoding="latin-1")
    return done.stdout.splitlines(), done.returncode


def main(given):
    differing = 0
    with tempfile.TemporaryDirectory() as name:
        folder = Path(name)
        shutil.copytree(DISKS, folder / "disks")
        (folder / "bin").mkdir()
        (folder / "bin/ledger").symlink_to(given.program)
        # a program's load address and its end
        (folder / "disks/game.prg").write_bytes(b"\x01\x08\x00\x00")
        for command, shown in steps():
            printed, status = typed(command, folder)
            is_file = ">" in command
            if status if is_file else not fits(printed, shown):
                print(f"{GUIDE.name}: {command}\n  ends with status {status} and prints {printed[:8]}\n  in place of {shown[:8]}")
                differing += 1
    return len(steps()) - differing, differing or int(not steps())


if __name__ == "__main__":
    conduct(main)
