#!/usr/bin/python3
"""Two machines with one image, one of which goes away again and again; `tests/network/two_machines.sh` makes the net and runs
it within:

    tests/network/two_machines.py PROGRAM --net NAME [--over rabbit|mqtt] [--disk local|glusterfs] [--amount CHANGES] [--seed N]

Machines A and B are the network namespaces NAMEA and NAMEB, with a bridge each over one image and one file of kept
lines in a folder that both see: the same folder, or one that a GlusterFS server in this namespace has. This namespace
has the broker, the tills, and the cables `toA` and `toB`. Again and again, in an order that is drawn, the machine that
serves
- is cut off: its cable is pulled, and it lives on;
- loses power: its cable is pulled, and all its processes are killed;
- is killed: all its processes, and the broker is told by its system;
- is stopped: all its processes stand still until the broker has given it up and the other machine waits, and then go on.
Then the other one has to serve, and the tills to hear answers; a machine that is cut off has to end its `serve` while
it is; and when the machine is back it has to stand by. Where the disk is cut off too, a bridge may end with 74 (a
write failed): it is started again, as by a keeper. At last all holds that tests/network/tills.py wants."""

import fcntl
import os
import signal
import subprocess
import sys
import tempfile
import time
from collections import defaultdict
from pathlib import Path

sys.dont_write_bytecode = True
sys.path.insert(0, str(Path(__file__).resolve().parents[1] / "lib"))
import tills
from served import want
from shared_disk import Glusterfs, Local
from shop_paths import command
from trial import conduct

HERE = "192.0.2.1"
# seconds between two words of a broker, seconds in which it gives up a client, and that a change of hands may take
HEARTBEAT, GIVEN_UP, LONGEST = 2, 10, 120
CUT, POWER, KILLED, STOPPED = "cut off", "without power", "killed", "stopped"


class Machine(tills.Supervised):
    """A network namespace with a bridge, which is started again when it ends."""

    AGAIN = (*tills.AGAIN, 74)

    def __init__(self, name, net, disk, command, log):
        self.net, self.cable, self.disk = net + name, f"to{name}", disk
        self.is_up, self.failed = True, 0
        disk.seen(self.net)
        super().__init__(name, ["ip", "netns", "exec", self.net, *command], log)

    def processes(self):
        told = subprocess.run(["ip", "netns", "pids", self.net], capture_output=True, text=True, check=True)
        return [int(process) for process in told.stdout.split()]

    def signal(self, number):
        for process in self.processes():
            try:
                os.kill(process, number)
            except ProcessLookupError:
                pass

    def tend(self):
        if self.is_up:
            self.failed += self.process.poll() == 74
            super().tend()

    def kill(self):
        """Until the bridge is dead: one that was started just now may come into the namespace behind the first look."""
        self.is_up = False
        while self.process.poll() is None:
            self.signal(signal.SIGKILL)
            time.sleep(0.01)
        self.signal(signal.SIGKILL)

    def boot(self):
        if not self.is_up:
            self.is_up = True
            self.disk.seen(self.net)
            self.start()

    def said(self):
        """The last that its bridge said of itself."""
        lines = [line for line in Path(self.log).read_text().splitlines() if not line.startswith("messages ")]
        return lines[-1].partition(": ")[2] if lines else ""

    def is_alive(self):
        return self.process.poll() is None

    def serves(self):
        return self.is_alive() and self.said() == "serving" and bool(self.children())

    def stands_by(self):
        return self.is_alive() and self.said() in ("stands by", "in use, waits")


class Two(tills.Trial):
    """A shop, and two machines for it."""

    def __init__(self, given, folder):
        super().__init__(given, folder)
        self.seconds, self.left = defaultdict(list), []
        self.goes_on, self.bridges, self.tills = True, [], []
        self.disk = DISKS[given.disk](folder, HERE)

    def start(self):
        self.disk.start()
        if self.given.disk != "local":
            self.fence()
        self.image, self.kept = (self.disk.seen() / path.name for path in (self.image, self.kept))
        super().start()

    def fence(self):
        """A machine that is cut off loses its lock to the other, and can't write what it had open, nor when it is back."""
        with open(self.disk.seen() / "trial", "wb") as trial:
            trial.write(b"-")
        first, second = (open(self.disk.seen(self.given.net + name) / "trial", "r+b", 0) for name in "AB")
        want(has_lock(first) and not has_lock(second), "the disk doesn't keep the second away from a locked file")
        plug("toA", "down")
        self.fenced = self.until(lambda: has_lock(second), "the lock of a machine that is cut off")
        want(writes(second, b"2"), "the disk refuses the one that has the lock")
        want(not writes(first, b"1"), "a machine that is cut off writes")
        plug("toA", "up")
        folder = self.disk.seen(self.given.net + "A")
        self.until(lambda: is_there(folder), "the disk, back at a machine that was cut off")
        want(not writes(first, b"1"), "a machine that lost its lock writes when it is back")
        closed(first)
        want((folder / "trial").read_bytes() == b"2", "a machine that lost its lock has written")
        closed(second)

    def stop(self):
        for one in [*self.bridges, *self.tills]:
            one.kill()
        self.broker.stop()
        self.disk.stop()

    def broker_in(self, folder):
        if self.given.over == "rabbit":
            return tills.Rabbit(folder, count=1, address=HERE, heartbeat=HEARTBEAT)
        return tills.Mqtt(folder, address=HERE)

    def bridge(self, name):
        seen = self.disk.seen(self.given.net + name)
        words = [seen / self.image.name, "--program", self.program, "--keep", seen / self.kept.name]
        words += self.broker.words("bridge-1")
        if self.given.over == "mqtt":
            words += ["--silence", HEARTBEAT]
        asked = command(self.broker.bridge, *words)
        return Machine(name, self.given.net, self.disk, asked, self.folder / f"machine{name}.log")

    def tend(self):
        """While machines change hands no till is done: it gets more wishes, and is started again."""
        super().tend()
        for number, till in enumerate(self.tills, 1):
            if till.done and self.goes_on:
                more = tills.wishes_of(self.draw, number, self.given.tills, self.given.wishes + 1)[1:]
                with open(self.folder / f"wishes{number}", "a") as file:
                    file.writelines(line + "\n" for line in more)
                till.done = False
                till.start()

    def until(self, holds, what):
        """Waits until it holds; how long that took."""
        began = time.monotonic()
        while not holds():
            want(time.monotonic() < began + LONGEST, f"{what} didn't come, after {self.told()}")
            time.sleep(0.02)
            self.tend()
        return time.monotonic() - began

    def told(self):
        return "; ".join(f"{machine.name}: {machine.said()}" for machine in self.bridges)

    def holders(self):
        """The processes that hold the image's lock."""
        image = f":{self.image.stat().st_ino}"
        locks = [line.split()[1:] for line in Path("/proc/locks").read_text().splitlines()]
        return [int(lock[3]) for lock in locks if lock[0] == "FLOCK" and lock[4].endswith(image)]

    def answered(self):
        return sum(self.book(till).read_bytes().count(b"\n= ") for till in range(1, self.given.tills + 1))

    def run(self):
        kinds = [CUT, POWER, KILLED, STOPPED] * (self.given.changes // 4 + 1)
        kinds = kinds[: self.given.changes]
        self.draw.shuffle(kinds)
        self.until(lambda: any(machine.serves() for machine in self.bridges), "a bridge that serves")
        self.until(lambda: all(self.book(till).exists() for till in range(1, self.given.tills + 1)), "a till's book")
        for kind in kinds:
            self.more(self.draw.randint(1, self.given.between))
            self.change(kind)
        self.goes_on = False
        self.until(lambda: all(till.done for till in self.tills), "the last answers")
        self.noise.ended.set()
        self.noise.join()
        self.end_bridges()

    def more(self, count=1):
        """Waits for so many answers more."""
        enough = self.answered() + count
        self.until(lambda: self.answered() >= enough, "the next answer")

    def change(self, kind):
        """Takes the machine that serves away, sees the other go on, and lets it come back."""
        self.until(self.is_sound, "one that serves and one that stands by")
        here, other = self.bridges if self.bridges[0].serves() else self.bridges[::-1]
        began = time.monotonic()
        {CUT: self.cut, POWER: self.power, KILLED: self.killed, STOPPED: self.stopped}[kind](here, other)
        self.until(other.serves, f"{other.name} that serves while {here.name} is {kind}")
        if self.given.disk == "local":
            want(self.holders() == other.children(), f"the image's lock isn't {other.name}'s, with {here.name} {kind}")
        self.more()
        self.seconds[kind].append(time.monotonic() - began)
        plug(here.cable, "up")
        here.boot()
        self.until(self.is_sound, f"one that serves and one that stands by, {here.name} back from being {kind}")

    def is_sound(self):
        """Whether one machine serves and the other stands by."""
        first, second = self.bridges
        return (first.serves() and second.stands_by()) or (second.serves() and first.stands_by())

    def cut(self, here, _other):
        plug(here.cable, "down")
        self.left.append(self.until(lambda: not here.children(), f"the end of {here.name}'s serve, which is cut off"))

    def power(self, here, _other):
        plug(here.cable, "down")
        here.kill()

    def killed(self, here, _other):
        here.kill()

    def stopped(self, here, other):
        """The system doesn't tell of the stop: the broker has to find out, and the lock keeps the other waiting."""
        here.signal(signal.SIGSTOP)
        began = time.monotonic()
        self.until(lambda: other.said() == "in use, waits", f"{other.name} that waits while {here.name} is stopped")
        self.until(lambda: time.monotonic() > began + GIVEN_UP, "the end of the stop")
        here.signal(signal.SIGCONT)

    def report(self, seconds):
        counted = self.judge()
        lines = sum(len(tills.requests_in(path)) for path in tills.journals(self.kept))
        changes = sum(len(times) for times in self.seconds.values())
        each = [f"{kind} {len(times)} ({tell(times)})" for kind, times in sorted(self.seconds.items())]
        waited = sum(Path(machine.log).read_text().count("in use, waits") for machine in self.bridges)
        print(f"  until the next answer: {', '.join(each)}; cut off, `serve` ended behind {tell(self.left)}")
        failed = sum(machine.failed for machine in self.bridges)
        told = f"{waited} times a bridge waited for the image, {failed} times one ended since a write failed"
        print(f"  {told}; {self.noise.old} old messages sent again", flush=True)
        if self.given.disk != "local":
            print(f"  the lock of a machine that was cut off fell after {self.fenced:.1f} s, and it wrote no more")
        done = f"{counted} wishes of {self.given.tills} tills answered in {seconds:.0f} s, {lines} in the journal"
        how = f"{self.given.over}, disk {self.given.disk}"
        print(f"{how}: {changes} changes of hands between two machines; {done}: no difference", flush=True)
        return changes


def plug(cable, state):
    subprocess.run(["ip", "link", "set", cable, state], check=True)


def has_lock(file):
    try:
        fcntl.flock(file, fcntl.LOCK_EX | fcntl.LOCK_NB)
        return True
    except BlockingIOError:
        return False


def writes(file, text):
    """Whether this text could be brought to the file's beginning."""
    try:
        os.pwrite(file.fileno(), text, 0)
        os.fdatasync(file.fileno())
        return True
    except OSError:
        return False


def closed(file):
    """Lets a file go, whatever its disk says to it."""
    try:
        file.close()
    except OSError:
        pass


def is_there(folder):
    """Whether the folder can be read."""
    try:
        return bool(os.listdir(folder))
    except OSError:
        return False


DISKS = {"local": Local, "glusterfs": Glusterfs}


def tell(times):
    """Median and most of some seconds."""
    return f"{sorted(times)[len(times) // 2]:.1f}, at most {max(times):.1f} s" if times else "none"


def more(parser):
    parser.add_argument("--net", required=True, help="the name with which the machines' namespaces begin")
    parser.add_argument("--over", choices=sorted(tills.BROKERS), default="rabbit")
    parser.add_argument("--disk", choices=sorted(DISKS), default="local")
    parser.add_argument("--tills", type=int, default=8)
    parser.add_argument("--wishes", type=int, default=50, help="that a till gets at a time")
    parser.add_argument("--between", type=int, default=60, help="answers between two changes, at most")
    parser.add_argument("--folder", help="a folder on the disk that is asked about")


def main(given):
    given.changes = given.amount
    with tempfile.TemporaryDirectory(dir=given.folder) as folder:
        trial = Two(given, Path(folder))
        try:
            trial.start()
            began = time.monotonic()
            trial.run()
            changes = trial.report(time.monotonic() - began)
        finally:
            trial.stop()
    return changes


if __name__ == "__main__":
    conduct(main, more)
