#!/usr/bin/env python3
"""Tries that `show` waits a moment for a service that is starting, and a service for readers, and that a closed pipe ends what prints a
lot without a word:

    tests/hands/waits.py PROGRAM

Another process has the image alone, as a service has while it starts: for 0.4 s, and then for longer than a second. Readers follow each
other in three threads while services start: each of these starts. The outputs of `picture`, `map`, `bytes` and `plan` are pipes whose
reader is gone. The last line is `N passed, M failed`, and the status is 1 if M isn't 0."""

import fcntl
import os
import subprocess
import sys
import tempfile
import threading
import time
from pathlib import Path

LONG = 2.5


def held(image, seconds):
    """Has the image alone for so long, in a thread of its own."""
    file = image.open()
    fcntl.flock(file, fcntl.LOCK_EX)
    thread = threading.Thread(target=lambda: (time.sleep(seconds), file.close()))
    thread.start()
    return thread


def timed(*words):
    begin = time.monotonic()
    done = subprocess.run(words, stdin=subprocess.DEVNULL, capture_output=True, text=True)
    return done.returncode, done.stdout, done.stderr, time.monotonic() - begin


def starts_beside_readers(program, image, many):
    """What services and plays over a log ended with that were started while `show` runs again and again in three threads."""
    ended = threading.Event()

    def read():
        while not ended.is_set():
            subprocess.run([program, "show", image], capture_output=True)

    readers = [threading.Thread(target=read) for _ in range(3)]
    for reader in readers:
        reader.start()
    came = [subprocess.run([program, *words], input="", capture_output=True, text=True) for _ in range(many)
            for words in (["serve", image], ["play", "--sync", image, "/dev/null"])]
    ended.set()
    for reader in readers:
        reader.join()
    return [(it.returncode, it.stderr) for it in came]


def unread(*words):
    """What a command whose output nobody reads ends with, and what it reports."""
    reads, writes = os.pipe()
    os.close(reads)
    done = subprocess.run(words, stdout=writes, stderr=subprocess.PIPE, text=True)
    os.close(writes)
    return done.returncode, done.stderr


def main(program):
    passed, failed = 0, 0

    def want(what, came, wanted):
        nonlocal passed, failed
        if came == wanted:
            passed += 1
        else:
            failed += 1
            print(f"{what}: {came}, wanted {wanted}")

    with tempfile.TemporaryDirectory() as name:
        image = Path(name) / "shop.d64"
        subprocess.run([program, "format", image, "--tills", "2"], check=True, stdout=subprocess.DEVNULL)
        shown = timed(program, "show", image)[:3]
        thread = held(image, 0.4)
        status, printed, told, seconds = timed(program, "show", image)
        want("show of an image that is free soon", (status, printed, told), shown)
        want("it waited", 0.1 < seconds < 2, True)
        thread.join()
        thread = held(image, LONG)
        status, printed, told, seconds = timed(program, "show", image)
        want("show of an image that isn't free", (status, printed, told), (3, "", "IN USE\n"))
        want("it waited about a second", 0.9 < seconds < LONG, True)
        want("check doesn't wait", timed(program, "check", image)[3] < 0.5, True)
        want("a change doesn't wait", timed(program, "put", image, "A", image, "--type", "seq")[2:3], ("IN USE\n",))
        thread.join()
        for words in (["serve", image], ["play", "--sync", image, "/dev/null"]):
            thread = held(image, 0.4)
            status, printed, told, seconds = timed(program, *words)
            want(f"{words[0]} of an image that is free soon", (status, printed, told, 0.1 < seconds < 2), (0, "", "", True))
            thread.join()
            thread = held(image, LONG)
            status, printed, told, seconds = timed(program, *words)
            want(f"{words[0]} of an image that isn't free", (status, printed, told, 0.9 < seconds < LONG), (3, "", "IN USE\n", True))
            thread.join()
        want("starts beside readers", set(starts_beside_readers(program, image, 40)), {(0, "")})
        for words in (("picture", image), ("map", image), ("bytes", image, "STOCK"), ("plan", image, image)):
            want(f"{words[0]} that nobody reads", unread(program, *words), (3, ""))
        for words in (("list", image), ("check", image), ("show", image)):
            want(f"{words[0]} that nobody reads", unread(program, *words), (3, "FILE\n"))
        status, printed, told, _ = timed(program)
        want("the program's name alone", (status, printed, "Usage:" in told and "Print the directory" in told), (2, "", True))
    print(f"{passed} passed, {failed} failed")
    return 1 if failed else 0


if __name__ == "__main__":
    sys.exit(main(str(Path(sys.argv[1]).resolve())))
