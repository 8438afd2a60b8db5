#!/usr/bin/env python3
"""Kills the built program while it changes a disk, and looks whether the disk is the one of before or the changed one:

    tests/power/keepers_kill.py PROGRAM [--amount KILLS] [--seed N]

PROGRAM is what `tools/program` prints. It is killed (SIGKILL) at random moments of `repair`, `repair --sides`, `make`, `store`, `put`,
`rename` and `delete`, on disks with other files. They lie in FOLDER (/var/tmp), which has to be on a disk, so that each sync takes its
time. After each kill `copy` finds the image of before or the changed one, byte by byte, and the changed one if a line was printed. Then
the same command ends as on that image, which nobody is told is IN USE, and leaves the changed one alone, with no log; of those runs too
some are killed before. The last line says how much was tried. The status is 1 at the first difference."""

import random
import signal
import subprocess
import sys
import tempfile
import time
from pathlib import Path

sys.dont_write_bytecode = True
sys.path.insert(0, str(Path(__file__).resolve().parents[1] / "lib"))
from changes import IMAGE, WORDS, Draw
from served import want
from trial import at, conduct


class Killer:
    """Kills commands, and counts."""

    def __init__(self, folder, draw):
        self.folder, self.draw = folder, draw
        self.kills = self.logs = self.changed = 0

    def killed(self, change, image, seconds):
        """Runs the command and kills it within that time; whether a line was printed."""
        process = subprocess.Popen(change.over(image), stdout=subprocess.PIPE, stderr=subprocess.PIPE)
        time.sleep(self.draw.uniform(0, seconds))
        process.kill()
        out, err = process.communicate()
        dead = process.returncode == -signal.SIGKILL
        want(dead or process.returncode in (change.end[0], change.end_again[0]), f"{change.words}: {process.returncode} {err}")
        self.kills += dead
        return b"\n" in out

    def kill(self, change, seconds):
        """One state, which has to be one of the two images."""
        image, images = change.put({IMAGE: change.before}), [change.before, change.after]
        for _ in range(self.draw.choice([1, 1, 1, 2, 3])):
            if self.killed(change, image, seconds):
                images = [change.after]
            self.logs += (self.folder / "state" / f"{IMAGE}-log").exists()
            found = change.seen(image, self.folder / "copied.d64")
            want(found in images, f"{change.words}: {found if isinstance(found, str) else 'another image'}")
            images = images[images.index(found) :]
        self.changed += found == change.after
        why = change.ends(image, found)
        want(not why, f"{change.words}: {why}")


def main(given):
    draw, commands = random.Random(given.seed), 0
    with tempfile.TemporaryDirectory() as folder:
        killer = Killer(Path(folder), draw)
        drawn = Draw(given.program, killer.folder, draw)
        while killer.kills < given.amount:
            change = drawn.change(WORDS[commands % len(WORDS)])
            commands += 1
            started = time.monotonic()
            change.again(change.put({IMAGE: change.before}))
            seconds = 1.1 * (time.monotonic() - started)
            for _ in range(20):
                killer.kill(change, seconds)
            at(killer.kills)
    print(
        f"keepers_kill: {killer.kills} kills in {commands} commands, {killer.logs} with a log, {killer.changed} changed by then; no difference"
    )
    return killer.kills


if __name__ == "__main__":
    conduct(main)
