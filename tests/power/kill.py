#!/usr/bin/env python3
"""Kills the built program while it plays a day of requests on a file, and looks at what it left:

    tests/power/kill.py PROGRAM [--amount KILLS] [--seed N]

PROGRAM is what `tools/program` prints. It is killed (SIGKILL) at random moments until the day is over, and then another
day begins on a fresh disk. After each kill
- what was printed is the beginning of what `dry` prints for these lines;
- the recovery itself is killed some times; then a whole one runs, and `check` says OK;
- the disk holds the day up to some line, no less than was printed: `show` prints the same of it as of a disk on which these
  lines were played without a kill;
- each till repeats its last request, and has the answer that `dry` gives, and `show` stays.
Then the size of files is limited. Where the image is longer, the day isn't begun (`FILE` and status 3), and the image stays. It prints
how much was tried. The status is 1 at the first difference."""

import random
import resource
import signal
import subprocess
import sys
import tempfile
import time
from pathlib import Path

sys.dont_write_bytecode = True
sys.path.insert(0, str(Path(__file__).resolve().parents[1] / "lib"))
from days import TILLS, day
from trial import conduct


class Trial:
    def __init__(self, program, folder, draw):
        self.program, self.folder, self.draw = program, folder, draw
        self.image = folder / "shop.d64"
        self.kills = self.recoveries = self.repeats = self.limits = 0

    def run(self, *words, limit=None):
        def limited():
            signal.signal(signal.SIGXFSZ, signal.SIG_IGN)
            resource.setrlimit(resource.RLIMIT_FSIZE, (limit, limit))

        done = subprocess.run([self.program, *map(str, words)], capture_output=True, text=True, preexec_fn=limited if limit else None)
        return done.returncode, done.stdout.splitlines(), done.stderr.strip()

    def sure(self, *words):
        status, out, err = self.run(*words)
        self.want(status == 0, f"{words}: status {status}, {err}")
        return out

    def want(self, holds, what):
        if not holds:
            print(f"kill: {what}", file=sys.stderr)
            sys.exit(1)

    def script(self, lines, name="script.txt"):
        path = self.folder / name
        path.write_text("".join(line + "\n" for line in lines))
        return path

    def killed(self, script, seconds):
        """Plays the script and kills the program after so many seconds; what it printed, whole lines alone."""
        out = self.folder / "out.txt"
        with open(out, "w") as to:
            process = subprocess.Popen([self.program, "play", self.image, script], stdout=to, stderr=subprocess.DEVNULL)
            try:
                process.wait(seconds)
            except subprocess.TimeoutExpired:
                process.kill()
                process.wait()
        text = out.read_text()
        return text[: text.rfind("\n") + 1].splitlines(), process.returncode == -signal.SIGKILL

    def begin(self):
        """A fresh disk and a day for it, with the replies that `dry` gives."""
        self.sure("format", self.image, "--tills", TILLS)
        self.lines = day(self.draw)
        self.replies = self.sure("dry", self.script(self.lines))
        # for each till, where each of its numbers is first counted
        self.counted = {}
        for index, (line, reply) in enumerate(zip(self.lines, self.replies)):
            told = reply.split(",", 2)
            if told[2:] and told[2].split(",")[0] in ("DONE", "SHORT", "OVER", "NO CARD", "72", "52"):
                self.counted.setdefault((int(told[0]), int(told[1])), index)

    def held(self, least):
        """Recovers the disk, judges it, and tells how many lines of the day it holds, no fewer than `least`."""
        empty = self.script([], "empty.txt")
        for _ in range(self.draw.choice([0, 0, 1, 3])):
            self.killed(empty, self.draw.uniform(0, 0.004))
            self.recoveries += 1
        self.want(self.sure("play", self.image, empty) == [], "an empty script printed something")
        self.want(self.sure("check", self.image) == ["OK"], "check isn't OK")
        shown = self.sure("show", self.image)
        last = {}
        for line in shown:
            if line.startswith("TILL "):
                till, number = line[5:].split(",")[:2]
                last[int(till)] = int(number)
        count = max([1 + self.counted[it] for it in last.items()], default=0)
        self.want(self.counted.keys() >= set(last.items()), "a till has a request that it never sent")
        if count < least:
            # what lies between may be lines that count nowhere
            self.want(all(it not in range(count, least) for it in self.counted.values()), "a reply was printed and its request is lost")
            count = least
        self.same(shown, count)
        repeats = [self.lines[self.counted[it]] for it in sorted(last.items())]
        want = [self.replies[self.counted[it]] for it in sorted(last.items())]
        self.want(self.sure("play", self.image, self.script(repeats, "repeats.txt")) == want, "a repeat has another answer")
        self.want(self.sure("show", self.image) == shown, "a repeat changed the shop")
        self.repeats += len(repeats)
        return count

    def same(self, shown, count):
        """`show` is that of a disk on which so many lines of the day were played without a kill."""
        other = self.folder / "other.d64"
        self.sure("format", other, "--tills", TILLS)
        self.sure("play", other, self.script(self.lines[:count], "begun.txt"))
        self.want(self.sure("show", other) == shown, f"after {count} lines the shop is another")

    def one_day(self, kills):
        self.begin()
        started = time.monotonic()
        other = self.folder / "timed.d64"
        self.sure("format", other, "--tills", TILLS)
        self.sure("play", other, self.script(self.lines))
        seconds = time.monotonic() - started
        done = 0
        while done < len(self.lines) and self.kills < kills:
            printed, dead = self.killed(self.script(self.lines[done:]), self.draw.uniform(0, seconds / 3))
            self.want(printed == self.replies[done : done + len(printed)], "replies are others than those of dry")
            self.kills += dead
            done = self.held(done + len(printed))

    def one_limit(self):
        """A day under a limit of the size of files."""
        self.begin()
        limit = self.draw.choice((256 * self.draw.randint(1, 682), 174848))
        before = self.image.read_bytes()
        status, out, err = self.run("play", self.image, self.script(self.lines), limit=limit)
        if limit < len(before):
            self.limits += 1
            self.want((status, out, err) == (3, [], "FILE"), f"status {status} and {err} under a limit of {limit}")
            self.want(self.image.read_bytes() == before, f"another image under a limit of {limit}")
        else:
            self.want(status == 0, f"status {status} under a limit of {limit}")
            self.want(out == self.replies, "replies are others than those of dry")
        self.held(len(out))


def main(given):
    days = max(given.amount // 10, 1)
    with tempfile.TemporaryDirectory() as folder:
        trial = Trial(given.program, Path(folder), random.Random(given.seed))
        while trial.kills < given.amount:
            trial.one_day(given.amount)
        print(f"{trial.kills} kills, {trial.recoveries} recoveries killed, {trial.repeats} repeats: no difference")
        for _ in range(days):
            trial.one_limit()
        print(f"{days} days under a limit of the file's size, in {trial.limits} of which the image is longer: no difference")
    return trial.kills + trial.recoveries + days


if __name__ == "__main__":
    conduct(main)
