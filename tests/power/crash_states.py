#!/usr/bin/env python3
"""Makes the states that a power failure can leave of what `serve` wrote, and looks whether each is a shop (Debian's package strace):

    tests/power/crash_states.py PROGRAM [--amount STATES] [--seed N] [--torn]

PROGRAM is what `tools/program` prints. The model knows nothing of our formats. strace records the system calls of a day that is
served in bursts of 1 to 64 lines. The script replays them up to a random call over a model of a file system:
- A write that wasn't synced reaches the disk whole or not at all. With `--torn` it also comes byte by byte in any mix, or as a
  prefix, and a block of 512 or 4,096 bytes of the log that was being written may be damaged: other bytes stand in all of it. Each
  file draws its own way.
- Names that were made, changed or removed since the folder was synced reach the disk each or not, in any order.
The shop of each state is shown, and served on. After that `show` has to print the shop after the first n lines, where n is at least
the number of lines that were answered before the failure, and at most the number that were handed over; and each till's last answered
request has to get its kept answer once more. The image alone has to be such a shop too, or to say that its log is away. Of some states the calls of the recovery are recorded too, and cut in the same way.

Then the same without the calls that sync, which has to fail: otherwise nothing was tried. The status is 1 at the first state that is
wrong, and if the states without syncs are all right. The last line says how much was tried."""

import functools
import itertools
import random
import re
import shutil
import subprocess
import sys
import tempfile
from pathlib import Path

sys.dont_write_bytecode = True
sys.path.insert(0, str(Path(__file__).resolve().parents[1] / "lib"))
from days import day
from served import differs, run, sure, want
from shop_days import ShopDay, Wrong, need, put_state
from shop_rule import request_of
from trial import conduct


CALLS = "openat,creat,close,dup,dup2,lseek,write,pwrite64,writev,pwritev,ftruncate,fallocate,fsync,fdatasync"
CALLS += ",rename,renameat,renameat2,unlink,unlinkat,link,linkat"
LINES, TILLS, DEPTH = 300, 8, 2
SYNCS = ("fsync", "fdatasync")
BLOCKS = (512, 4096)
# How much of the writes that weren't synced reaches the disk: of each of them whole, and of torn ones.
WHOLE, TORN = ["all", "some", "none"], ["start", "bytes", "damage"]
CALL = re.compile(r"(?:\d+ +)?(\w+)\((.*)\) += (-?\d+)")
TEXT = re.compile(r'"((?:\\x[0-9a-f]{2})*)"')


@functools.lru_cache(maxsize=10_000)
def bytes_of(text):
    """The bytes of a text as `strace -xx` prints it."""
    return bytes.fromhex(TEXT.search(text)[1].replace("\\x", ""))


class Inode:
    """A file: the bytes on the disk, and the changes since it was synced: (place, bytes), or (None, length)."""

    def __init__(self, held=b""):
        self.held, self.changes = bytearray(held), []

    def change(self, place, what):
        self.changes.append((place, what))

    def sync(self):
        for change in self.changes:
            apply(self.held, change)
        self.changes = []

    def copy(self):
        other = Inode(self.held)
        other.changes = list(self.changes)
        return other

    def now(self):
        held = bytearray(self.held)
        for change in self.changes:
            apply(held, change)
        return held


def apply(held, change):
    place, what = change
    if place is None:
        del held[what:]
        held.extend(bytes(what - len(held)))
        return
    held.extend(bytes(max(0, place + len(what) - len(held))))
    held[place : place + len(what)] = what


class Folder:
    """The names of a folder and the files that they lead to, on the disk and since it was synced."""

    def __init__(self, files):
        self.held, self.changes = {name: Inode(held) for name, held in files.items()}, []

    def now(self):
        names = dict(self.held)
        for change in self.changes:
            rename(names, change)
        return names

    def change(self, *what):
        self.changes.append(what)

    def sync(self):
        self.held, self.changes = self.now(), []


def rename(names, change):
    """Applies what became of a name: made, renamed or removed. A change of a name that isn't there does nothing."""
    kind, name, other = change
    if kind == "made":
        names[name] = other
    elif kind == "removed":
        names.pop(name, None)
    elif name in names:
        names[other] = names.pop(name)


class Machine:
    """Replays recorded calls over a folder."""

    def __init__(self, files, path):
        self.folder, self.path, self.open, self.at = Folder(files), str(path) + "/", {}, {}
        self.printed = 0

    def name(self, text):
        """A path's name in the folder, or None if it leads elsewhere; the folder itself is an empty name."""
        path = text.decode()
        inside = path.removeprefix(self.path)
        return "" if path + "/" == self.path else inside if inside != path and "/" not in inside else None

    def do(self, call, words, result):
        if result < 0:
            return
        act = getattr(self, f"do_{call}", None)
        if act:
            act(words, result)

    def do_openat(self, words, result):
        name = self.name(bytes_of(words))
        flags = words.rpartition('"')[2]
        names = self.folder.now()
        if name is None:
            self.open.pop(result, None)
        elif not name:
            self.open[result] = self.folder
        else:
            if name not in names:
                names[name] = Inode()
                self.folder.change("made", name, names[name])
            self.open[result], self.at[result] = names[name], 0
            if "O_TRUNC" in flags:
                names[name].change(None, 0)

    def do_close(self, words, result):
        self.open.pop(int(words), None)

    def file(self, words):
        return self.open.get(int(words.split(",")[0]))

    def do_write(self, words, result):
        number, file = int(words.split(",")[0]), self.file(words)
        if number == 1 and file is None:
            self.printed += bytes_of(words)[:result].count(b"\n")
        elif isinstance(file, Inode):
            file.change(self.at[number], bytes_of(words)[:result])
            self.at[number] += result

    def do_pwrite64(self, words, result):
        file = self.file(words)
        if isinstance(file, Inode):
            file.change(int(words.rpartition(",")[2]), bytes_of(words)[:result])

    def do_lseek(self, words, result):
        self.at[int(words.split(",")[0])] = result

    def do_ftruncate(self, words, result):
        file = self.file(words)
        if isinstance(file, Inode):
            file.change(None, int(words.split(",")[1]))

    def do_fallocate(self, words, result):
        number, mode, start, length = words.split(",")
        file, end = self.file(words), int(start) + int(length)
        want(mode.strip() == "0", f"fallocate with {mode}")
        if isinstance(file, Inode) and len(file.now()) < end:
            file.change(None, end)

    def do_fsync(self, words, result):
        file = self.file(words)
        if file is not None:
            file.sync()

    do_fdatasync = do_fsync

    def do_rename(self, words, result):
        old, new = (bytes.fromhex(it.replace("\\x", "")) for it in TEXT.findall(words))
        names = self.name(old), self.name(new)
        want(None not in names, f"renamed elsewhere: {old} {new}")
        self.folder.change("renamed", *names)

    do_renameat = do_renameat2 = do_rename

    def do_unlink(self, words, result):
        name = self.name(bytes_of(words))
        if name:
            self.folder.change("removed", name, None)

    do_unlinkat = do_unlink

    def unknown(self, words, result):
        want(not isinstance(self.file(words), Inode), f"a call that the model doesn't know: {words[:80]}")

    do_writev = do_pwritev = do_dup = do_dup2 = do_link = do_linkat = unknown


class Power:
    """Draws what a power failure leaves."""

    def __init__(self, draw, ways):
        self.draw, self.ways = draw, ways

    def left_of_write(self, held, place, what, way):
        """One write that wasn't synced, as so much of it reaches the disk."""
        draw = self.draw
        if way == "all" or way == "some" and draw.random() < 0.5:
            apply(held, (place, what))
        elif way == "start":
            apply(held, (place, what[: draw.randint(0, len(what))]))
        elif way == "bytes":
            held.extend(bytes(max(0, place + len(what) - len(held))))
            for at in range(len(what)):
                if draw.random() < 0.5:
                    held[place + at] = what[at]
        elif way == "damage":
            block = draw.choice(BLOCKS)
            apply(held, (place, what[: draw.randint(0, len(what))]))
            first = (place + draw.randrange(max(1, len(what)))) // block * block
            end = min(first + block, len(held))
            if first < end:
                held[first:end] = draw.randbytes(end - first) if draw.random() < 0.5 else bytes(end - first)

    def left_of(self, name, file):
        held = bytearray(file.held)
        way = self.draw.choice([it for it in self.ways if it != "damage" or "-log" in name])
        last = self.draw.randint(0, len(file.changes))
        for number, (place, what) in enumerate(file.changes):
            if place is None:
                if self.draw.random() < 0.5:
                    apply(held, (place, what))
            elif way == "start":
                self.left_of_write(held, place, what, "all" if number < last else "start" if number == last else "none")
            else:
                self.left_of_write(held, place, what, way)
        return bytes(held)

    def left(self, folder):
        """The files that stand after power went."""
        names, changes = dict(folder.held), list(folder.changes)
        if self.draw.random() < 0.5:
            self.draw.shuffle(changes)
        for change in changes:
            if self.draw.random() < 0.5:
                rename(names, change)
        return {name: self.left_of(name, file) for name, file in names.items()}


def recorded(program, folder, bursts):
    """The calls of a `serve` to which the bursts of lines are handed, one after the answers to the one before; and for each call how
    many lines were handed over before it."""
    trace = folder.parent / "calls"
    command = ["strace", "-f", "-xx", "-s", "5000000", "-o", str(trace), "-e", f"trace={CALLS}"]
    command += [program, "serve", str(folder / "shop.d64")]
    process = subprocess.Popen(command, stdin=subprocess.PIPE, stdout=subprocess.PIPE, stderr=subprocess.PIPE)
    replies, handed = [], 0
    for burst in bursts:
        process.stdin.write("".join(line + "\n" for line in burst).encode())
        process.stdin.flush()
        replies += [process.stdout.readline().decode().rstrip("\n") for _ in burst]
    process.stdin.close()
    err = process.stderr.read().decode()
    need(process.wait(600) == 0, f"a recorded serve ended badly: {err}")
    calls = []
    for line in trace.read_text(encoding="latin-1").splitlines():
        found = CALL.match(line)
        if found:
            calls.append((found[1], found[2], int(found[3])))
    return calls, replies


class Trial:
    """Looks at states of one day, and cuts recoveries again."""

    def __init__(self, program, draw, without, power, room):
        self.program, self.draw, self.without, self.power, self.room = program, draw, without, power, room
        self.states = self.recoveries = 0

    def look(self, a_day, files, least, most, depth=1):
        """Looks at one state, in which at least and at most so many lines count."""
        self.states += 1
        self.look_alone(a_day, files["shop.d64"], least, most)
        folder = put_state(self.room, files)
        image = folder / "shop.d64"
        status, shown, err = run(self.program, "show", image)
        where = f"state {self.states}, {least} to {most} lines, {sorted(files)}"
        need(status == 0, f"{where}: show: {status} {err}")
        counts = [n for n in range(least, most + 1) if shown[1:] == a_day.shows[n]]
        need(counts, f"{where}: show prints no shop of the day")
        repeats = list(a_day.repeats(counts[0]))
        if depth < DEPTH and self.draw.random() < 0.1:
            self.cut_again(a_day, files, counts[0], counts[-1], depth)
            put_state(self.room, files)
        text = "".join(line + "\n" for line, _ in repeats).encode()
        status, told, err = run(self.program, "serve", image, stdin=text)
        need(status == 0, f"{where}: serve: {status} {err}")
        need(told == [reply for _, reply in repeats], f"{where}: a repeat got another answer")
        need(sure(self.program, "show", image)[1:] == shown[1:], f"{where}: a recovery changed the shop")
        need(sure(self.program, "check", image) == ["OK"], f"{where}: check")

    def look_alone(self, a_day, held, least, most):
        """Without its log the image is refused, or has a shop in which all answered lines count."""
        image = put_state(self.room, {"shop.d64": held}) / "shop.d64"
        status, shown, err = run(self.program, "show", image)
        is_away = status == 1 and "LOG AWAY" in err
        need(is_away or shown[1:] in a_day.shows[least : most + 1], f"the image alone is an older shop, and doesn't say so: {status} {err}")

    def cut_again(self, a_day, files, least, most, depth):
        """Cuts the recovery of a state."""
        folder = put_state(self.room, files)
        calls, _ = recorded(self.program, folder, [])
        for _ in range(4):
            self.recoveries += 1
            left = self.left(files, folder, calls, self.draw.randint(0, len(calls)))
            self.look(a_day, left[0], least, most, depth + 1)

    def left(self, files, folder, calls, cut):
        """What stands if power goes before the call of that number; and how many lines were printed by then."""
        machine = Machine(files, folder)
        for call in calls[:cut]:
            if call[0] not in self.without:
                machine.do(*call)
        return self.power.left(machine.folder), machine.printed


def bursts_of(draw, lines):
    """The lines in bursts of 1 to 64."""
    at = 0
    while at < len(lines):
        size = draw.choice([1, 1, 2, draw.randint(1, 64)])
        yield lines[at : at + size]
        at += size


def try_states(program, draw, without, is_torn, states):
    """Tries so many states, of days of their own; how many days, states and cut recoveries it were."""
    with tempfile.TemporaryDirectory() as room:
        room = Path(room)
        power = Power(draw, [*WHOLE, *TORN] if is_torn else WHOLE)
        trial, days = Trial(program, draw, without, power, room), 0
        while trial.states < states:
            days += 1
            folder = room / "day"
            shutil.rmtree(folder, ignore_errors=True)
            folder.mkdir()
            sure(program, "format", "--new", folder / "shop.d64", "--tills", TILLS)
            top = int(sure(program, "show", folder / "shop.d64")[0].removeprefix("TOP "))
            lines = [it for it in day(draw, LINES, (20, 100)) if not request_of(it) or request_of(it)[0] <= TILLS]
            a_day, first = ShopDay(lines, top, TILLS), {"shop.d64": (folder / "shop.d64").read_bytes()}
            bursts = list(bursts_of(draw, lines))
            calls, replies = recorded(program, folder, bursts)
            need(replies == a_day.replies, f"day {days}: other replies than the rule's")
            ends = list(itertools.accumulate(map(len, bursts)))
            for _ in range(min(200, states - trial.states)):
                files, printed = trial.left(first, folder, calls, draw.randint(0, len(calls)))
                handed = next((end for end in ends if printed < end), len(lines))
                trial.look(a_day, files, printed, handed)
        return days, trial.states, trial.recoveries


def main(given):
    try:
        days, states, recoveries = try_states(given.program, random.Random(given.seed), (), given.torn, given.amount)
    except Wrong as wrong:
        differs(wrong)
    try:
        try_states(given.program, random.Random(given.seed), SYNCS, given.torn, 200)
        differs("each state of a service that syncs nothing is a shop: nothing was tried")
    except Wrong:
        pass
    kind = "torn" if given.torn else "whole"
    print(f"{states} crash states of {days} days ({kind} writes), {recoveries} cut recoveries: each is a shop with all answered lines")
    return states + recoveries


if __name__ == "__main__":
    conduct(main, lambda parser: parser.add_argument("--torn", action="store_true", help="writes are torn, and blocks lost"))
