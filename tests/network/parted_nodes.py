#!/usr/bin/python3
"""Nodes of a cluster that lose each other for a moment, and a queue that takes another bridge for the active one then, of
which the first isn't told:

    tests/network/parted_nodes.py PROGRAM [--amount TIMES] [--folder FOLDER]

A cluster of three RabbitMQ nodes on the loopback address goes on whatever its nodes see of each other
(`cluster_partition_handling = ignore`, as it is where nobody sets it). Two bridges and a till are connected to the first
node; the queue's leader is another, which is told to drop its connection to the first. The bridge that serves has to
let the image go to the one that is active now, and the till to hear its answer; at last all holds that tests/network/tills.py
wants."""

import sys
import tempfile
import time
from pathlib import Path

sys.dont_write_bytecode = True
sys.path.insert(0, str(Path(__file__).resolve().parents[1] / "lib"))
import tills
from served import sure, want
from shop_paths import command
from trial import conduct

QUEUE = "shop.1.bridge"
# seconds that a change of hands may take
LONGEST = 90


class Parted(tills.Trial):
    """A shop with two bridges and one till, which gets its wishes one by one."""

    def broker_in(self, folder):
        return tills.Rabbit(folder, parted="ignore")

    def start(self):
        sure(self.program, "format", self.image, "--tills", self.given.tills)
        self.broker.start()
        self.bridges = [self.bridge("A"), self.bridge("B")]
        self.wishes = self.folder / "wishes1"
        self.wishes.touch()
        self.tills = [self.till(1)]
        self.lines = []

    def till(self, till):
        words = [till, "--book", self.book(till), "--wishes", self.wishes, *self.broker.words(f"till-1-{till}")]
        return tills.Supervised("till 1", command("till", *words), self.folder / "till1.log")

    def until(self, holds, what):
        end = time.monotonic() + LONGEST
        while not holds():
            said = [Path(bridge.log).read_text().splitlines()[-1:] for bridge in self.bridges]
            want(time.monotonic() < end, f"{what} didn't come, behind {said}")
            self.tend()
            time.sleep(0.05)

    def ask(self):
        """One wish more; the seconds until its answer."""
        self.until(lambda: self.tills[0].done, "the till's end")
        self.lines.append(f"R,1,{len(self.lines)}" if self.lines else "S,1,1000")
        self.wishes.write_text("".join(line + "\n" for line in self.lines))
        began = time.monotonic()
        self.tills[0].done = False
        self.tills[0].start()
        self.until(lambda: self.tills[0].done, "an answer")
        return time.monotonic() - began

    def leader(self):
        """The index of the queue's leader, as the first node knows it, or None."""
        told = self.broker.cluster.control("eval", f"ra_leaderboard:lookup_leader('%2F_{QUEUE}').")
        return next((index for index, name in enumerate(self.broker.cluster.names) if name in told), None)

    def led_elsewhere(self):
        """Sees that the leader isn't the first node; its index."""
        here, there = (f"{{'%2F_{QUEUE}', '{name}'}}" for name in self.broker.cluster.names[:2])
        while not (leader := self.leader()):
            self.broker.cluster.control("eval", f"ra:transfer_leadership({here}, {there}).")
            self.until(lambda: self.leader() is not None, "a leader")
        return leader

    def waited(self):
        return sum(Path(bridge.log).read_text().count("in use, waits") for bridge in self.bridges)

    def part(self):
        """The leader drops its connection to the first node; whether that made the other bridge the active one."""
        index, before = self.led_elsewhere(), self.waited()
        cluster = self.broker.cluster
        cluster.control("eval", f"erlang:disconnect_node('{cluster.names[0]}').", index=index)
        seconds = self.ask()
        return self.waited() - before, seconds

    def run(self):
        self.ask()
        changes, most = 0, 0.0
        for _ in range(self.given.times):
            changed, seconds = self.part()
            changes, most = changes + changed, max(most, seconds)
            self.ask()
        want(changes, "another bridge was never made the active one: nothing was tried")
        self.end_bridges()
        return changes, most


def main(given):
    given.times, given.tills = given.amount, 1
    with tempfile.TemporaryDirectory(dir=given.folder) as folder:
        trial = Parted(given, Path(folder))
        try:
            trial.start()
            changes, most = trial.run()
            trial.judge()
        finally:
            for one in [*getattr(trial, "bridges", []), *getattr(trial, "tills", [])]:
                one.kill()
            trial.broker.stop()
    told = f"another bridge was made the active one {changes} times; an answer took at most {most:.1f} s"
    print(f"nodes that lost each other {given.times} times: {told}: no difference")
    return given.times


if __name__ == "__main__":
    conduct(main, lambda parser: parser.add_argument("--folder", help="a folder on the disk that is asked about"))
