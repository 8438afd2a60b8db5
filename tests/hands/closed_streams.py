#!/usr/bin/env python3
"""Runs each command with each of the eight choices of closed standard streams, and sees that what it prints or is told never comes
into its image:

    tests/hands/closed_streams.py PROGRAM

IMAGE has to be as the same command leaves it whose streams are open, or as it was; a closed input or output that is needed ends with
status 3; and no file grows. Also tried: pipes, devices and folders as IMAGE, which are refused and not waited for. It ends by itself
and uses no network."""

import itertools
import os
import pty
import stat
import subprocess
import sys
import tempfile
from pathlib import Path

sys.dont_write_bytecode = True
sys.path.insert(0, str(Path(__file__).resolve().parents[1] / "lib"))
from commands import CHANGES, COMMANDS, LOOKS, MAKES, NEW, PRINT_REFUSALS, TAKES, scene, those_that
from trial import conduct

PROGRAM = ""  # the program, which main names
SIZE = 174_848
tried = 0


def wrong(*what):
    print("closed_streams:", *what, file=sys.stderr)
    sys.exit(1)


def state(folder):
    return {path.name: path.read_bytes() for path in sorted(folder.rglob("*")) if path.is_file()}


def run(folder, command, closed):
    """Its status, output and what it is told, with these streams closed. A shell closes them, as a user's does."""
    shell = "exec \"$0\" \"$@\" " + " ".join(f"{fd}{'<' if fd == 0 else '>'}&-" for fd in closed)
    done = subprocess.run(
        ["sh", "-c", shell, str(PROGRAM), *command.over()],
        cwd=folder, input=command.given, capture_output=True, timeout=60,
    )
    return done.returncode, done.stdout, done.stderr


def closed_streams(folder):
    global tried
    for command in COMMANDS:
        name = command.name
        scene(PROGRAM, folder)
        before = state(folder)
        status, out, err = run(folder, command, ())
        after = state(folder)
        if status != 0:
            wrong(name, "ends with", status, err)
        for count in (1, 2, 3):
            for closed in itertools.combinations(range(3), count):
                scene(PROGRAM, folder)
                left_status, left_out, left_err = run(folder, command, closed)
                left = state(folder)
                tried += 1
                if set(left) != set(after) and set(left) != set(before):
                    wrong(name, closed, "leaves", set(left))
                for path, data in left.items():
                    if data not in (before.get(path), after.get(path)):
                        wrong(name, closed, "changes", path, len(data))
                needed = 1 in closed or (0 in closed and command.given != b"")
                if left_status != (3 if needed else status):
                    wrong(name, closed, "ends with", left_status, left_err)
                if needed and 2 not in closed and left_err != b"FILE\n":
                    wrong(name, closed, "is told", left_err)
                if 1 not in closed and not needed and left_out != out:
                    wrong(name, closed, "prints", left_out)


def told_on_terminal(folder, words):
    """What a person at a terminal reads, who waits ten seconds at most."""
    main, other = pty.openpty()
    done = subprocess.run(
        [PROGRAM, *words], cwd=folder, stdin=subprocess.DEVNULL, stdout=subprocess.DEVNULL, stderr=other, timeout=10
    )
    os.close(other)
    try:
        told = os.read(main, 4096)
    except OSError:  # nothing was written
        told = b""
    os.close(main)
    return done.returncode, told


def no_files(folder):
    """A pipe, a socket's kind of device and a folder as IMAGE are refused at once, and keep what they are."""
    global tried
    scene(PROGRAM, folder)
    os.mkfifo(folder / "pipe.d64")
    (folder / "folder.d64").mkdir()
    loop = folder / "link.d64"
    loop.symlink_to("pipe.d64")
    for image in ("pipe.d64", "link.d64", "folder.d64", "/dev/null", "/dev/full", "/dev/tty0"):
        if image.startswith("/dev") and not os.path.exists(image):
            continue
        for command in those_that(LOOKS, TAKES, CHANGES, MAKES):
            if NEW in command.words:
                continue
            status, told = told_on_terminal(folder, command.over(image=image))
            tried += 1
            if status != 3 or not told.startswith(b"" if command.name in PRINT_REFUSALS else b"FILE\r\n"):
                wrong(command.name, image, "ends with", status, told)
    if not stat.S_ISFIFO(os.stat(folder / "pipe.d64").st_mode):
        wrong("the pipe isn't one any more")
    (folder / "folder.d64").rmdir()


def main(given):
    global PROGRAM
    PROGRAM = given.program
    with tempfile.TemporaryDirectory() as place:
        folder = Path(place)
        closed_streams(folder)
        no_files(folder)
    print(f"closed_streams: {tried} runs of {len(COMMANDS)} commands: no reply in an image, nothing waited for")
    return tried


if __name__ == "__main__":
    conduct(main)
