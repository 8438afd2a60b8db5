#!/usr/bin/env python3
"""Kills the built program while it serves a day of requests, and looks at what it left:

    tests/power/serve_kill.py PROGRAM [--amount KILLS] [--seed N]

PROGRAM is what `tools/program` prints. A client sends the lines of days of 1,500
lines of 64 tills, one at a time or up to eight ahead, of which two are one till's; `serve` is killed (SIGKILL) at random moments,
also while it opens the shop, and started again at once: it is never told `IN USE`, for the lock falls with the
process. What wasn't answered is sent again.
- Each reply is the one that `dry` gives, in order, and `show` after a kill tells a shop.
- Behind each day `check` says OK, and `show` prints the same as of a disk on which the day was played without a kill.
It prints how much was tried. The status is 1 at the first difference."""

import random
import signal
import sys
import tempfile
import threading
import time
from pathlib import Path

sys.dont_write_bytecode = True
sys.path.insert(0, str(Path(__file__).resolve().parents[1] / "lib"))
from days import TILLS, day
from served import Served, script, sure, want
from trial import at, conduct


def few_of_each(lines):
    """How many of these lines come before the third of one till: a shop keeps the answers to a till's last two requests."""
    seen = []
    for line in lines:
        till = line.partition(",")[0]
        if seen.count(till) == 2:
            break
        seen.append(till)
    return len(seen)


class Client:
    """Sends lines to a `serve` that is killed now and then, until each has its reply."""

    def __init__(self, program, folder, draw):
        self.program, self.folder, self.draw = program, folder, draw
        self.image = folder / "shop.d64"
        self.kills = self.missed = self.lines = 0
        # the seconds that a turn takes, and an opening at most, which makes a log first
        self.turn, self.opening = 0.005, 0.1

    def killer(self, served, answered):
        """Kills within the time of an opening, or of two turns."""
        return threading.Timer(self.draw.uniform(0, 2 * self.turn if answered else self.opening), served.process.kill)

    def live(self, lines, replies, mortal):
        """One life of `serve`: how many of the lines were answered before it was killed, or all."""
        ahead, doomed = self.draw.choice([1, 1, 8]), self.draw.choice([0, self.draw.randint(1, 40)])
        served, killer, answered, sent = Served(self.program, self.image), None, 0, 0
        while answered < len(lines):
            if mortal and killer is None and answered >= doomed:
                killer = self.killer(served, answered)
                killer.start()
            started = time.monotonic()
            sent = answered + few_of_each(lines[answered : answered + ahead])
            answered += self.turn_of(served, lines[answered:sent], replies[answered:sent])
            if answered < sent:
                break
            self.turn = 0.9 * self.turn + 0.1 * (time.monotonic() - started)
        if killer:
            killer.join()
        self.buried(served, answered, sent, len(lines))
        return answered

    def turn_of(self, served, lines, replies):
        """Sends these lines and reads their replies; how many there were."""
        served.send(lines)
        for told, (line, reply) in enumerate(zip(lines, replies)):
            heard = served.reply()
            if heard is None:
                return told
            want(heard == reply, f"{line!r} is told {heard!r}, not {reply!r}")
        return len(lines)

    def buried(self, served, answered, sent, count):
        """Judges the end of a life."""
        status, out, err = served.finish()
        want(not out, f"{out} is printed for no line")
        if status == -signal.SIGKILL:
            self.kills += 1
            self.missed += answered < sent
            sure(self.program, "show", self.image)
        else:
            want(status == 0 and answered == count, f"status {status}, {err}, with {answered} of {count} answered")

    def one_day(self, kills):
        """A day with so many kills at most."""
        lines = day(self.draw)
        replies = sure(self.program, "dry", script(self.folder, lines))
        sure(self.program, "format", self.image, "--tills", TILLS)
        before, answered = self.kills, 0
        while answered < len(lines):
            mortal = self.kills - before < kills
            answered += self.live(lines[answered:], replies[answered:], mortal)
        self.lines += len(lines)
        self.judge(lines)

    def judge(self, lines):
        """Compares the disk with one on which the lines were played without a kill."""
        other = self.folder / "other.d64"
        sure(self.program, "format", other, "--tills", TILLS)
        sure(self.program, "play", other, script(self.folder, lines, "played.txt"))
        shown = [sure(self.program, "show", image) for image in (self.image, other)]
        want(shown[0] == shown[1], "the shop isn't that of the same day without a kill")
        want(sure(self.program, "check", self.image) == ["OK"], "check isn't OK")


def main(given):
    with tempfile.TemporaryDirectory() as folder:
        client = Client(given.program, Path(folder), random.Random(given.seed))
        while client.kills < given.amount:
            client.one_day(min(100, given.amount - client.kills))
            at(client.kills)
        missed = f"{client.missed} of them left lines without a reply"
        print(f"{client.kills} kills, {missed}, {client.lines} lines: no difference")
    return client.kills


if __name__ == "__main__":
    conduct(main)
