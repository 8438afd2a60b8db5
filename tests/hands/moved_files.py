#!/usr/bin/env python3
"""Moves, replaces, removes and cuts the image of a running `serve`, and sees that it says so:

    tests/hands/moved_files.py PROGRAM

Behind each change the next line hears MEDIA, standard error has DEVICE, and the status is 3; also a line that is repeated and known
from memory. If the input ends instead, it ends so too, and over a log nothing is landed or removed. The same with the log of a
running `serve`; then no reply is told to the next line. The image alone, copied from under a `serve`, is refused (LOG AWAY). A log that is changed in place under a `serve` loses no answer, and an image that is changed isn't landed on. Files beside an image that are no logs stay. Of two `serve`s under one name only the one whose file the name leads to answers. It ends by itself and uses no network."""

import os
import shutil
import subprocess
import sys
import tempfile
from pathlib import Path

sys.dont_write_bytecode = True
sys.path.insert(0, str(Path(__file__).resolve().parents[1] / "lib"))
from trial import conduct

PROGRAM = ""  # the program, which main names


def want(what, got, wanted):
    if got != wanted:
        print(f"moved_files: {what}: {got!r} and not {wanted!r}", file=sys.stderr)
        sys.exit(1)


class Served:
    def __init__(self, folder, *words):
        self.process = subprocess.Popen(
            [PROGRAM, "serve", "s.d64", *words], cwd=folder,
            stdin=subprocess.PIPE, stdout=subprocess.PIPE, stderr=subprocess.PIPE,
        )

    def ask(self, line):
        self.process.stdin.write(line + b"\n")
        self.process.stdin.flush()
        return self.process.stdout.readline().rstrip(b"\n")

    def end(self):
        self.process.stdin.close()
        told = self.process.stderr.read()
        return self.process.wait(timeout=20), told


def moved(folder):
    (folder / "s.d64").rename(folder / "t.d64")


def replaced(folder):
    shutil.copy(folder / "backup.d64", folder / "new.d64")
    (folder / "new.d64").rename(folder / "s.d64")


def removed(folder):
    (folder / "s.d64").unlink()


def emptied(folder):
    os.truncate(folder / "s.d64", 0)


def cut(folder):
    os.truncate(folder / "s.d64", 174_847)


def longer(folder):
    with (folder / "s.d64").open("ab") as file:
        file.write(b"x")


def made_a_folder(folder):
    removed(folder)
    (folder / "s.d64").mkdir()


def held(folder):
    """What stands there by its name."""
    return {each.name: each.is_file() and each.read_bytes() for each in folder.iterdir()}


def log_moved(folder):
    (folder / "s.d64-log").rename(folder / "kept")


def log_replaced(folder):
    shutil.copy(folder / "s.d64-log", folder / "kept")
    (folder / "kept").rename(folder / "s.d64-log")


def log_removed(folder):
    (folder / "s.d64-log").unlink()


def log_cut(folder):
    os.truncate(folder / "s.d64-log", 4_194_304)


def log_longer(folder):
    with (folder / "s.d64-log").open("ab") as file:
        file.write(b"x")


def log_a_folder(folder):
    log_removed(folder)
    (folder / "s.d64-log").mkdir()


LOG_CHANGES = [log_moved, log_replaced, log_removed, log_cut, log_longer, log_a_folder]
CHANGES = [moved, replaced, removed, emptied, cut, longer, made_a_folder]


def run(folder, *words):
    done = subprocess.run([PROGRAM, *words], cwd=folder, stdin=subprocess.DEVNULL, capture_output=True)
    return done.returncode


def alone(folder):
    """A served image that is copied without its log says so, and so it does once the log is gone for good."""
    fresh(folder)
    served = Served(folder)
    want("the first line", served.ask(b"1,1,S,15,7"), b"1,1,DONE,7")
    shutil.copy(folder / "s.d64", folder / "c.d64")
    words = ["show"], ["serve"], ["play", "/dev/null"], ["play", "--sync", "/dev/null"], ["repair"], ["delete", "STOCK"]
    for word, *others in words:
        done = subprocess.run([PROGRAM, word, "c.d64", *others], cwd=folder, stdin=subprocess.DEVNULL, capture_output=True)
        want(f"{word} of the image alone", (done.returncode, done.stderr), (1, b"LOG AWAY\n"))
    want("a check of it", run(folder, "check", "c.d64"), 0)
    shutil.copy(folder / "s.d64-log", folder / "c.d64-log")
    want("the image beside its log", run(folder, "show", "c.d64"), 0)
    (folder / "c.d64-log").unlink()
    want("a loss that is accepted", [run(folder, *it, "c.d64") for it in (["repair", "--accept-loss"], ["show"])], [0, 0])
    want("the end of the service", served.end(), (0, b""))
    want("a show of its image", run(folder, "show", "s.d64"), 0)
    return len(words)


def log_older(folder):
    shutil.copyfile(folder / "older", folder / "s.d64-log")


def log_wiped(folder):
    (folder / "s.d64-log").write_bytes(bytes(4_198_400))


def log_flipped(folder):
    """One bit of the last commit, which ends with a byte of a card that isn't zero."""
    bytes_of = bytearray((folder / "s.d64-log").read_bytes())
    bytes_of[len(bytes(bytes_of).rstrip(b"\0")) - 1] ^= 1
    (folder / "s.d64-log").write_bytes(bytes_of)


def changed_in_place(folder):
    """A log that is changed under a service loses no answer. An image that is changed isn't landed on. Returns how many were changed."""
    lines = [b"1,1,S,15,7", b"1,2,I,15,1", b"2,1,S,16,3", b"1,3,I,15,2"]
    replies = [b"1,1,DONE,7", b"1,2,DONE,6", b"2,1,DONE,3", b"1,3,DONE,4"]
    kept = b"CARD 15,4\nCARD 16,3\nTILL 1,3,I,15,2,DONE,4\nPRIOR 1,2,I,15,1,DONE,6\nTILL 2,1,S,16,3,DONE,3\n"
    for change in (log_older, log_wiped, log_flipped):
        fresh(folder)
        served = Served(folder)
        want("the first line", served.ask(lines[0]), replies[0])
        shutil.copyfile(folder / "s.d64-log", folder / "older")
        want("the others", [served.ask(it) for it in lines[1:]], replies[1:])
        change(folder)
        want(f"the end after {change.__name__}", served.end(), (0, b""))
        shown = subprocess.run([PROGRAM, "show", "s.d64"], cwd=folder, check=True, capture_output=True).stdout
        want(f"the shop after {change.__name__}", (shown.partition(b"\n")[2], (folder / "s.d64-log").exists()), (kept, False))
    fresh(folder)
    run(folder, "format", "other.d64", "--tills", "8")
    served = Served(folder)
    want("the first line", served.ask(lines[0]), replies[0])
    shutil.copyfile(folder / "other.d64", folder / "s.d64")
    want("the end after another image", served.end(), (3, b"DEVICE\n"))
    want("that image", (folder / "s.d64").read_bytes(), (folder / "other.d64").read_bytes())
    want("a log beside another image", run(folder, "show", "s.d64"), 1)
    run(folder, "copy", "--log", "s.d64-log", "got.d64")
    shown = subprocess.run([PROGRAM, "show", "got.d64"], cwd=folder, check=True, capture_output=True).stdout
    want("the shop of the log", shown.partition(b"\n")[2], b"CARD 15,7\nTILL 1,1,S,15,7,DONE,7\n")
    return 4


def strangers(folder):
    """Files at the names of a log that are none stay, whatever runs. Returns how many commands ran."""
    tried = 0
    for name, what in (("s.d64-log", b"notes\n"), ("s.d64-log", bytes(4_198_400)), ("s.d64-log.new", b"notes\n")):
        for words in (["serve", "s.d64"], ["format", "s.d64", "--tills", "2"], ["delete", "s.d64", "NONE"], ["play", "s.d64", "/dev/null"]):
            fresh(folder)
            (folder / name).write_bytes(what)
            image = (folder / "s.d64").read_bytes()
            status = run(folder, *words)
            want(f"{words} beside {name}", (folder / name).read_bytes(), what)
            if name == "s.d64-log":
                want(f"{words} beside {name}", (status != 0, (folder / "s.d64").read_bytes()), (True, image))
            tried += 1
    # what a kill may leave of a log in the making doesn't stay
    for what in (b"", bytes(4_198_400), b"\1" * 4_198_400):
        fresh(folder)
        (folder / "s.d64-log.new").write_bytes(what)
        want("a log in the making", (run(folder, "serve", "s.d64"), sorted(held(folder))), (0, ["backup.d64", "s.d64"]))
        tried += 1
    return tried


def fresh(folder):
    for old in folder.iterdir():
        old.rmdir() if old.is_dir() else old.unlink()
    subprocess.run([PROGRAM, "format", "s.d64", "--tills", "4"], cwd=folder, check=True, stdout=subprocess.DEVNULL)
    shutil.copy(folder / "s.d64", folder / "backup.d64")


def main(given):
    global PROGRAM
    PROGRAM = given.program
    tried = 0
    with tempfile.TemporaryDirectory() as place:
        folder = Path(place)
        for change in CHANGES:
            for line in (b"1,2,I,15,1", b"1,1,S,15,7", b"2,1,R,15,1"):
                fresh(folder)
                served = Served(folder)
                want("the first line", served.ask(b"1,1,S,15,7"), b"1,1,DONE,7")
                change(folder)
                name = f"{change.__name__} {line}"
                want(name, served.ask(line), b",".join(line.split(b",")[:2]) + b",MEDIA")
                want(name, served.end(), (3, b"DEVICE\n"))
                tried += 1
            fresh(folder)
            served = Served(folder)
            want("the first line", served.ask(b"1,1,S,15,7"), b"1,1,DONE,7")
            change(folder)
            before = held(folder)
            name = f"{change.__name__}, and then the input's end"
            want(name, served.end(), (3, b"DEVICE\n"))
            want(name, held(folder), before)
            tried += 1
        for change in LOG_CHANGES:
            for line in (b"1,2,I,15,1", None):
                fresh(folder)
                served = Served(folder)
                want("the first line", served.ask(b"1,1,S,15,7"), b"1,1,DONE,7")
                change(folder)
                before = held(folder)
                name = f"{change.__name__} {line}"
                if line:
                    want(name, served.ask(line), b"")
                want(name, served.end(), (3, b"DEVICE\n"))
                if line is None:
                    want(name, held(folder), before)
                else:
                    want(name, set(held(folder)), set(before))
                tried += 1
        tried += strangers(folder) + alone(folder) + changed_in_place(folder)
        # the goods of a shop whose copy came in its place are sold once: the second service lands the log of the first
        fresh(folder)
        first = Served(folder)
        want("stock", first.ask(b"1,1,S,15,10"), b"1,1,DONE,10")
        shutil.copy(folder / "s.d64", folder / "copy.d64")
        (folder / "copy.d64").rename(folder / "s.d64")
        second = Served(folder)
        want("the second sells", second.ask(b"2,1,I,15,10"), b"2,1,DONE,0")
        want("the first doesn't", first.ask(b"3,1,I,15,3"), b"")
        want("the first", first.end(), (3, b"DEVICE\n"))
        want("the second", second.end(), (0, b""))
        tried += 1
        # what stays in its place goes on
        fresh(folder)
        served = Served(folder)
        want("the first line", served.ask(b"2,1,S,16,1"), b"2,1,DONE,1")
        (folder / "s.d64").rename(folder / "t.d64")
        (folder / "t.d64").rename(folder / "s.d64")
        os.link(folder / "s.d64", folder / "other.d64")
        want("a file that came back", served.ask(b"1,1,S,15,7"), b"1,1,DONE,7")
        want("its end", served.end(), (0, b""))
    print(f"moved_files: {tried + 1} changes under a running serve: each was noticed, and what stayed went on")
    return tried + 1


if __name__ == "__main__":
    conduct(main)
