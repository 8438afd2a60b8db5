#!/usr/bin/env python3
"""Tries a shop on disks that are full, that fill up, and that can't be written (as root, or where user namespaces may be made):

    tests/hands/full_disks.py PROGRAM [--seed N]

PROGRAM is what `tools/program` prints. Each disk is a `tmpfs` of a size of its own in a name space of its own. What the shop has to be
is calculated by `shop_rule.py`. It tries:
- `serve` with room for less than its log, from no page to all but one: `FILE`, status 3, no reply, and image and folder as they were.
  With room for the log it serves.
- A disk that another program fills while `serve` runs: its log has all its room, so each line is answered. When the log is full and no
  room is left for a new one, `serve` ends with `DEVICE`, and every answered line is in the shop.
- `copy`, `format --new`, `new` and `extract` without room: `FILE`, status 3, and nothing is left. With room they work.
- A folder that can't be written, with a log and without one: words that read work, words that write report `FILE` and change nothing.
- Each command with limits on the length of a file (`ulimit -f`), its output and standard error in files, too: no signal ends it. It ends
  as without a limit, or with `FILE`, or `DEVICE` where a change has no log, and each file is as it was, or as the command leaves it.

The status is 1 at the first difference; the last line says how much was tried."""

import argparse
import os
import random
import resource
import shutil
import signal
import subprocess
import sys
import tempfile
from pathlib import Path

sys.dont_write_bytecode = True
sys.path.insert(0, str(Path(__file__).resolve().parents[1] / "lib"))
from commands import CHANGES, COMMANDS, scene
from days import day
from served import Served, run, script, sure, want
from shop_rule import Shop, request_of
from trial import conduct

PAGE, IMAGE_BYTES, LOG_BYTES = 4096, 174848, 4198400
# how long a file may be
LIMITS = (0, 1, 7, 100, 1000, 30_000, 91_648, IMAGE_BYTES - 1, IMAGE_BYTES, 200_000, LOG_BYTES - 1, LOG_BYTES)
TILLS = 8
INSIDE = "--inside"


class Disk:
    """A file system of so many bytes at a folder, which goes with the name space."""

    def __init__(self, folder, size):
        self.folder = folder
        folder.mkdir(exist_ok=True)
        subprocess.run(["mount", "-t", "tmpfs", "-o", f"size={size}", "tmpfs", str(folder)], check=True)

    def fill(self):
        """Another file takes what room is left."""
        with open(self.folder / "filler", "ab", buffering=0) as filler:
            try:
                while filler.write(bytes(PAGE)):
                    pass
            except OSError:
                pass

    def is_read_only(self):
        subprocess.run(["mount", "-o", "remount,ro", str(self.folder)], check=True)

    def close(self):
        subprocess.run(["umount", str(self.folder)], check=True)


def lines_of(draw, count):
    return [it for it in day(draw, count, (40,)) if request_of(it) and request_of(it)[0] <= TILLS]


class Trial:
    def __init__(self, program, draw, room):
        self.program, self.draw, self.room, self.tried = program, draw, room, 0

    def shop_on(self, size):
        disk = Disk(self.room / "disk", size)
        image = disk.folder / "shop.d64"
        sure(self.program, "format", "--new", image, "--tills", TILLS)
        top = int(sure(self.program, "show", image)[0].removeprefix("TOP "))
        return disk, image, Shop(TILLS, top)

    def room_for_part_of_a_log(self):
        """Less room than a log needs, in steps."""
        needed = -(-LOG_BYTES // PAGE) * PAGE
        image_room = -(-IMAGE_BYTES // PAGE) * PAGE
        for room in sorted({0, PAGE, 47 * PAGE, needed - PAGE, *(self.draw.randrange(0, needed, PAGE) for _ in range(12)), needed}):
            disk, image, shop = self.shop_on(image_room + room)
            held = image.read_bytes()
            lines = lines_of(self.draw, 40)
            got = run(self.program, "serve", image, stdin="".join(line + "\n" for line in lines).encode())
            if room < needed:
                want(got == (3, [], "FILE"), f"room for {room} bytes: {got}")
                want(image.read_bytes() == held, f"room for {room} bytes: the image was changed")
                want([it.name for it in disk.folder.iterdir()] == ["shop.d64"], f"room for {room} bytes: {list(disk.folder.iterdir())}")
            else:
                want(got == (0, [shop.reply(line) for line in lines], ""), f"room for a log: {got}")
            disk.close()
            self.tried += 1

    def filled_while_serving(self):
        """A disk that fills while lines come, until the log is full and no new one can be made."""
        disk, image, shop = self.shop_on(IMAGE_BYTES + LOG_BYTES + 64 * PAGE)
        served = Served(self.program, image)
        answered = 0
        for number in range(1, 1200):
            line = f"1,{number},S,{number % 40 + 1},{number % 500}"
            served.send([line])
            if number == 5:
                disk.fill()
            heard = served.reply()
            if heard is None or heard.endswith("MEDIA"):
                break
            want(heard == shop.reply(line), f"{line} gets the answer {heard}")
            answered = number
        status, rest, err = served.finish()
        want((status, rest, err) == (3, [], "DEVICE"), f"a full log without room ends with {status}, {rest}, {err}")
        want(answered > 900, f"only {answered} lines were answered from the log's own room")
        self.is_shop(image, shop, f"1,{answered + 1},S,{(answered + 1) % 40 + 1},{(answered + 1) % 500}")
        (disk.folder / "filler").unlink()
        sure(self.program, "serve", image)
        want(sorted(it.name for it in disk.folder.iterdir()) == ["shop.d64"], "a log is left after the room came back")
        self.is_shop(image, shop, f"1,{answered + 1},S,{(answered + 1) % 40 + 1},{(answered + 1) % 500}")
        disk.close()
        self.tried += answered

    def is_shop(self, image, shop, unanswered):
        """The shop of the answered lines, with the last unanswered one or without."""
        got = sure(self.program, "show", image)[1:]
        if got != shop.shown():
            shop.reply(unanswered)
            want(got == shop.shown(), "show prints another shop")

    def no_room_for_an_image(self):
        """`copy`, `format --new`, `new` and `extract` without room, and with it."""
        disk, image, _ = self.shop_on(2 * IMAGE_BYTES + 60 * PAGE)
        new = disk.folder / "new"
        for words in (["copy", image, new], ["format", "--new", new, "--tills", 4], ["new", new, "--name", "NEW", "--id", "01"],
                      ["extract", image, new]):
            for room in (0, 1, 2) if words[0] == "extract" else (0, 1, 2, 7):
                disk.fill()
                os.truncate(disk.folder / "filler", (disk.folder / "filler").stat().st_size - room * PAGE)
                status, out, err = run(self.program, *words)
                want((status, out, err) == (3, [], "FILE"), f"{words[0]} with {room} pages: {status}, {out}, {err}")
                left = sorted(it.name for it in disk.folder.iterdir())
                want(left == ["filler", "shop.d64"], f"{words[0]} with {room} pages leaves {left}")
                self.tried += 1
            (disk.folder / "filler").unlink()
            want(run(self.program, *words)[0] == 0, f"{words[0]} with room is refused")
            shutil.rmtree(new) if new.is_dir() else new.unlink()
        disk.close()

    def read_only(self):
        """A folder that can't be written."""
        for has_log in (False, True):
            disk, image, shop = self.shop_on(4 * LOG_BYTES)
            served = Served(self.program, image)
            for line in lines_of(self.draw, 30):
                want(served.ask(line) == shop.reply(line), f"{line}")
            served.kill() if has_log else served.finish()
            empty = script(disk.folder, [])
            want((disk.folder / "shop.d64-log").exists() == has_log, "the log isn't as the trial wants it")
            held = {it.name: it.read_bytes() for it in disk.folder.iterdir()}
            disk.is_read_only()
            want(sure(self.program, "show", image)[1:] == shop.shown(), "show prints another shop")
            for word, *more in (["check"], ["list"], ["map"], ["picture"], ["records", "STOCK"], ["bytes", "STOCK"]):
                sure(self.program, word, image, *more)
                self.tried += 1
            writing = [["serve"], ["play", empty], ["play", "--sync", empty], ["repair"], ["make", "CARDS", "--length", 30],
                       ["store", "STOCK", empty], ["put", "TEXT", empty, "--type", "seq"], ["rename", "CARDS", "NOTES"], ["delete", "CARDS"], ["format", "--tills", 4]]
            for word, *more in writing:
                status, out, err = run(self.program, word, image, *more)
                want((status, out, err) == (3, [], "FILE"), f"{word} in a folder that can't be written: {status}, {out}, {err}")
                self.tried += 1
            want({it.name: it.read_bytes() for it in disk.folder.iterdir()} == held, "a word has changed a file")
            disk.close()

    def limited_run(self, command, folder, most):
        """What a run with such a limit leaves: its status, output, standard error, and the files of its folder."""
        def limit():
            signal.signal(signal.SIGXFSZ, signal.SIG_DFL)
            resource.setrlimit(resource.RLIMIT_FSIZE, (most, most))

        scene(self.program, folder)
        with tempfile.TemporaryFile() as out, tempfile.TemporaryFile() as err:
            started = subprocess.run([self.program, *command.over()], cwd=folder, input=command.given, stdout=out, stderr=err, preexec_fn=limit)
            out.seek(0)
            err.seek(0)
            return started.returncode, out.read(), err.read(), {it.name: it.read_bytes() for it in sorted(folder.rglob("*")) if it.is_file()}

    def limited(self):
        """Limits on the length of a file, for each command."""
        folder = self.room / "limited"
        folder.mkdir()
        for command in COMMANDS:
            scene(self.program, folder)
            before = {it.name: it.read_bytes() for it in folder.iterdir()}
            status, out, err, after = self.limited_run(command, folder, resource.RLIM_INFINITY)
            want(status == 0, f"{command.name}: {status}, {err}")
            for most in LIMITS:
                got = self.limited_run(command, folder, most)
                what = f"{command.name} with at most {most} bytes in a file"
                is_done = got[:3] == (status, out, err)
                told = {b"FILE\n"[:most], b"DEVICE\n"[:most] if command.does == CHANGES else b""}
                want(is_done or got[0] == 3 and got[2] in {b"", *told}, f"{what}: {got[:3]}")
                want(is_done or len(got[1]) <= most and out.startswith(got[1]), f"{what} prints {got[1]}")
                for name in {*before, *after, *got[3]} - {"shop.d64-log.new"}:
                    want(got[3].get(name) in (before.get(name), after.get(name)), f"{what} leaves another {name}")
                self.tried += 1


def main(given):
    if not given.inside:
        rights = [] if os.getuid() == 0 else ["--map-root-user"]
        os.execvp("unshare", ["unshare", "--mount", *rights, sys.executable, *sys.argv, INSIDE])
    draw = random.Random(given.seed)
    with tempfile.TemporaryDirectory() as room:
        trial = Trial(given.program, draw, Path(room))
        try:
            for one in (trial.room_for_part_of_a_log, trial.filled_while_serving, trial.no_room_for_an_image, trial.read_only, trial.limited):
                one()
                print(f"{one.__doc__} As it has to be", flush=True)
        finally:
            subprocess.run(["umount", "--lazy", str(trial.room / "disk")], capture_output=True)
        print(f"full_disks: {trial.tried} trials, no difference")
    return trial.tried


if __name__ == "__main__":
    conduct(main, lambda parser: parser.add_argument(INSIDE, dest="inside", action="store_true", help=argparse.SUPPRESS))
