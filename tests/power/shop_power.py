#!/usr/bin/python3
"""Makes the states that a power failure can leave of a bridge's journal, image and log together, and serves each on (Debian's
package strace):

    tests/power/shop_power.py PROGRAM [--amount STATES] [--seed N]

PROGRAM is what `tools/program` prints. strace records the system calls of a bridge without a broker and of its `serve`, to which
a day is handed in bursts of 1 to 12 lines, with a journal that goes on in new files now and then. The model of a file system is
that of `crash_states.py`. What wasn't synced reaches the disk whole, not at all, byte by byte in any mix, as a prefix, or by
blocks of 512 or 4,096 bytes, each of which has what was written up to some moment. A file has any length that it had meanwhile.

In each state a bridge has to start. Then
- `show` prints the shop after the first n lines of the day; n is at least the number of lines that were told before,
- each till's last request gets its kept answer once more,
- the journal has the requests that count among the first n, in their order, each once and with its reply,
- of a fresh image, and of a backup that was made during the day, the journal makes the same shop (in a third of the states),
- and the bridge goes on in the same journal when it is started again (in a sixth).
Of some states the recovery is recorded and cut, too. A part of the days are journals of version 0.2.7, which this version finds
after the power cut.

Then the same without the calls that sync, of which some have to be wrong: otherwise nothing was tried. The last line is
`N passed, M failed`; the status is 1 if one failed."""

import itertools
import os
import random
import re
import shutil
import subprocess
import sys
import tempfile
from pathlib import Path

sys.dont_write_bytecode = True
sys.path.insert(0, str(Path(__file__).resolve().parents[1] / "lib"))
import crash_states as model
from crash_states import CALLS, SYNCS, Inode, apply
from days import day
from served import run, sure
from shop_days import ShopDay, Wrong, need, put_state
from shop_paths import PYTHON
from shop_rule import request_of
from trial import conduct

from ledger_shop import copies, journal, rebuild, service

LINES, TILLS, MOST = 150, 8, 12
# bytes after which a new file of the journal begins: some in a day
TURN = 2500
BLOCKS = (512, 4096)
WAYS = ["all", "some", "none", "start", "bytes", "blocks", "blocks", "blocks"]
IMAGE, KEPT, BACKUP = "shop.d64", "shop.lines", "backup.d64"
STARTED = re.compile(r"(\d+) +(\w+)\((.*) <unfinished \.\.\.>")
RESUMED = re.compile(r"(\d+) +<\.\.\. (\w+) resumed>(.*)\) += (-?\d+)")
WHOLE = re.compile(r"(\d+) +(\w+)\((.*)\) += (-?\d+)")


class OldJournal(journal.Journal):
    """A journal as version 0.2.7 wrote it: no checks, and one line for a request that is alone."""

    is_alone = False

    def begin(self, numbers):
        text = f"# {journal.now()} begins{journal.text_of(numbers)}\n".encode()
        if self.file is None:
            os.rename(self.made(text), self.path)
            journal.sync_folder(self.path)
        else:
            self.add(text)

    def requests(self, lines):
        self.is_alone = len(lines) == 1
        if self.is_alone:
            self.add(f"{journal.now()} {lines[0]} -> ".encode())
        elif lines:
            self.add(f"# {journal.now()} takes {' '.join(lines)}\n".encode())

    def replies(self, lines, replies):
        if self.is_alone:
            self.add(replies[0] + b"\n", sync=False)
        else:
            each = (f"{journal.now()} {line} -> ".encode() + reply + b"\n" for line, reply in zip(lines, replies))
            self.add(b"".join(each), sync=False)


def serve_bursts(program, folder, is_old):
    """A bridge whose bursts come as lines of standard input, with blanks between their messages."""
    kept = (OldJournal if is_old else journal.Journal)(folder / KEPT, journal.SIZE if is_old else TURN)
    serve = service.Serve(program, str(folder / IMAGE), kept)
    serve.start()
    for burst in sys.stdin:
        for reply in serve.hand_all([(message.encode(), None) for message in burst.rstrip("\n").split(";")]):
            os.write(1, reply + b"\n")
    serve.end()


def calls_in(trace):
    """The calls of a trace in the order in which they ended: process, call, words, result."""
    held = {}
    for line in trace.read_text(encoding="latin-1").splitlines():
        if found := WHOLE.match(line):
            yield found[1], found[2], found[3], int(found[4])
        elif found := STARTED.match(line):
            held[found[1], found[2]] = found[3]
        elif found := RESUMED.match(line):
            yield found[1], found[2], held.pop((found[1], found[2])) + found[3], int(found[4])


def recorded(program, folder, bursts, is_old=False):
    """The calls of a bridge and its `serve` to which the bursts of lines are handed, and what it told."""
    trace = folder.parent / "calls"
    command = ["strace", "-f", "-xx", "-s", "5000000", "-o", str(trace), "-e", f"trace={CALLS}"]
    command += [PYTHON, __file__, "--serve", program, str(folder), "old" if is_old else "new"]
    process = subprocess.Popen(command, stdin=subprocess.PIPE, stdout=subprocess.PIPE, stderr=subprocess.PIPE)
    replies = []
    for burst in bursts:
        process.stdin.write((";".join(burst) + "\n").encode())
        process.stdin.flush()
        replies += [process.stdout.readline().decode().rstrip("\n") for _ in burst]
    process.stdin.close()
    err = process.stderr.read().decode()
    need(process.wait(600) == 0, f"a recorded bridge ended badly: {err}")
    return list(calls_in(trace)), replies


class Machine(model.Machine):
    """Replays the calls of several processes over a folder. The first one tells the tills."""

    def __init__(self, files, path):
        super().__init__(files, path)
        self.first, self.tables, self.ends = None, {}, set()

    def do_call(self, process, call, words, result):
        self.first = self.first or process
        self.process = process
        self.open, self.at = self.tables.setdefault(process, ({}, {}))
        self.do(call, words, result)

    def do_openat(self, words, result):
        super().do_openat(words, result)
        self.ends.discard((self.process, result))
        if "O_APPEND" in words:
            self.ends.add((self.process, result))

    def do_write(self, words, result):
        number, file = int(words.split(",")[0]), self.file(words)
        if number == 1 and self.process != self.first:
            return
        if isinstance(file, Inode) and (self.process, number) in self.ends:
            self.at[number] = len(file.now())
        super().do_write(words, result)

    def do_link(self, words, result):
        old, new = (self.name(bytes.fromhex(it.replace("\\x", ""))) for it in model.TEXT.findall(words))
        self.folder.change("made", new, self.folder.now()[old])

    do_linkat = do_link


class Power(model.Power):
    """Draws what a power failure leaves, by blocks too."""

    def left_of(self, name, file):
        self.ways = [self.draw.choice(WAYS)]
        if self.ways != ["blocks"]:
            return super().left_of(name, file)
        draw, block, last = self.draw, self.draw.choice(BLOCKS), len(file.changes)
        now, left, sizes, moments = bytearray(file.held), bytearray(), [], {}
        ends = [place + len(what) if place is not None else what for place, what in file.changes]
        for at in range(0, max([len(now), *ends]), block):
            moments.setdefault(draw.choice([0, last, draw.randint(0, last)]), []).append(at)
        for moment in range(last + 1):
            if moment:
                apply(now, file.changes[moment - 1])
            sizes.append(len(now))
            for at in moments.get(moment, []):
                left.extend(bytes(max(0, at + block - len(left))))
                one = now[at : at + block]
                left[at : at + len(one)] = one
        length = draw.choice([draw.choice(sizes), max(sizes), min(max(sizes), draw.randint(0, max(sizes) // block + 1) * block)])
        length = max(length, min(sizes))
        return bytes(left[:length]) + bytes(max(0, length - len(left)))


class Day(ShopDay):
    """A day's lines, and what the shop and the journal are after each."""

    def __init__(self, lines, top):
        super().__init__(lines, top, TILLS)
        self.noted = [[]]
        for line, reply, before, after in zip(lines, self.replies, self.kept, self.kept[1:]):
            self.noted.append(self.noted[-1] + ([(line, reply)] if after != before else []))


class Trial:
    """Looks at states of one day, and cuts recoveries again."""

    def __init__(self, program, draw, without, room):
        self.program, self.draw, self.without, self.room = program, draw, without, room
        self.power = Power(draw, WAYS)
        self.passed, self.faults, self.recoveries, self.backed_up = 0, [], 0, 0

    def tried(self):
        return self.passed + len(self.faults)

    def look(self, a_day, files, least, most, depth=1):
        """Looks at one state, and counts it."""
        try:
            self.judge(a_day, files, least, most)
            self.passed += 1
        except (Wrong, OSError, service.Gone, copies.Stopped, journal.Unfit) as fault:
            self.faults.append(f"{fault} ({least} to {most} lines, {sorted(files)})")
            return
        if depth < 2 and self.draw.random() < 0.05:
            self.cut_again(a_day, files, least, most)

    def serve(self, folder):
        return service.Serve(self.program, str(folder / IMAGE), journal.Journal(folder / KEPT, TURN))

    def judge(self, a_day, files, least, most):
        folder = put_state(self.room, files)
        serve = self.serve(folder)
        serve.start()
        try:
            shown = serve.show()[1:]
            counts = [n for n in range(least, most + 1) if shown == a_day.shows[n]]
            need(counts, "show prints no shop of the day")
            asked = list(a_day.repeats(counts[0]))
            told = [serve.hand(line.encode()).decode() for line, _ in asked]
            need(told == [reply for _, reply in asked], "a repeat got another answer")
        finally:
            serve.end()
        kept = folder / KEPT
        noted = [(one.request, one.reply) for one in journal.answers_in(journal.files_of(kept))]
        noted = [(request, reply) for request, reply in noted if reply is None or journal.counts(request, reply)]
        need(noted == a_day.noted[counts[0]], f"the journal has {noted[-3:]}, and not {a_day.noted[counts[0]][-3:]}")
        chance = self.draw.random()
        if chance < 1 / 3:
            is_later = counts[0] >= self.backed_up and self.draw.random() < 0.5
            which = {"backup": self.room / BACKUP} if is_later else {"tills": TILLS}
            rebuild.make(self.program, folder / "new.d64", kept, other=folder / IMAGE, **which)
        if chance > 1 / 6:
            return
        files = journal.files_of(kept)
        again = self.serve(folder)
        again.start()
        again.end()
        need(journal.files_of(kept) == files, "another start begins another file of the journal")

    def cut_again(self, a_day, files, least, most):
        """Cuts the recovery of a state."""
        folder = put_state(self.room, files)
        try:
            calls, _ = recorded(self.program, folder, [])
        except Wrong as fault:
            self.faults.append(f"a recovery is recorded: {fault}")
            return
        for left, _ in self.left(files, folder, calls, sorted(self.draw.randint(0, len(calls)) for _ in range(4))):
            self.recoveries += 1
            self.look(a_day, left, least, most, 2)

    def left(self, files, folder, calls, cuts):
        """What stands if power goes before the calls of these numbers; and how many lines were told by then."""
        machine, at = Machine(files, folder), 0
        for cut in cuts:
            for process, call, *rest in calls[at:cut]:
                if call not in self.without:
                    machine.do_call(process, call, *rest)
            at = cut
            yield self.power.left(machine.folder), machine.printed


def bursts_of(draw, lines):
    """The lines in bursts of 1 to 12."""
    at = 0
    while at < len(lines):
        size = draw.choice([1, 1, 1, 2, draw.randint(1, MOST)])
        yield lines[at : at + size]
        at += size


def try_day(trial, states):
    """Tries so many states of a day."""
    draw, folder = trial.draw, trial.room / "day"
    shutil.rmtree(folder, ignore_errors=True)
    folder.mkdir()
    sure(trial.program, "format", "--new", folder / IMAGE, "--tills", TILLS)
    top = int(sure(trial.program, "show", folder / IMAGE)[0].removeprefix("TOP "))
    lines = [it for it in day(draw, LINES, (20, 100)) if not request_of(it) or request_of(it)[0] <= TILLS]
    lines = [it for it in lines if ";" not in it and it]
    a_day, first = Day(lines, top), {IMAGE: (folder / IMAGE).read_bytes()}
    bursts = list(bursts_of(draw, lines))
    calls, replies = recorded(trial.program, folder, bursts, is_old=draw.random() < 0.25)
    need(replies == a_day.replies, "other replies than the rule's")
    back_up(trial, first, bursts)
    ends = list(itertools.accumulate(map(len, bursts)))
    began = next(n for n, (_, call, words, _) in enumerate(calls) if call == "write" and words.startswith("1,"))
    # some states before the first answer
    cuts = sorted(draw.randint(began, len(calls)) if draw.random() < 0.9 else draw.randint(0, began) for _ in range(states))
    for files, told in trial.left(first, folder, calls, cuts):
        handed = next((end for end in ends if told < end), len(lines))
        trial.look(a_day, files, told, handed)


def back_up(trial, first, bursts):
    """A backup with the first third of the day."""
    (trial.room / BACKUP).unlink(missing_ok=True)
    image = put_state(trial.room, first) / IMAGE
    lines = [line for burst in bursts[: len(bursts) // 3] for line in burst]
    run(trial.program, "serve", image, stdin="".join(f"{line}\n" for line in lines).encode())
    sure(trial.program, "copy", image, trial.room / BACKUP)
    trial.backed_up = len(lines)


def try_states(program, draw, without, states):
    with tempfile.TemporaryDirectory() as room:
        trial, days = Trial(program, draw, without, Path(room)), 0
        while trial.tried() < states:
            days += 1
            try_day(trial, min(100, states - trial.tried()))
        return trial, days


def main(given):
    service.say = lambda text: None
    trial, days = try_states(given.program, random.Random(given.seed), (), given.amount)
    for fault in trial.faults[:20]:
        print(f"wrong: {fault}")
    print(f"{trial.tried()} states of {days} days, {trial.recoveries} of cut recoveries")
    loose, _ = try_states(given.program, random.Random(given.seed), SYNCS, 100)
    print(f"without syncs {len(loose.faults)} of {loose.tried()} states are wrong")
    return trial.passed + bool(loose.faults), len(trial.faults) + (not loose.faults)


if __name__ == "__main__":
    if sys.argv[1:2] == ["--serve"]:
        serve_bursts(sys.argv[2], Path(sys.argv[3]), sys.argv[4] == "old")
    else:
        conduct(main)
