#!/usr/bin/env python3
"""Asks the program about many images at once, and compares with what it prints of each alone:

    tests/hands/several_images.py PROGRAM [--seed N]

PROGRAM is what `tools/program` prints. The shelf has sound disks, disks with bytes changed at random, disks of other sizes, names
with blanks, quotation marks and a newline, a folder and a name that doesn't exist. Of each command the lines of all images, in their
order, are those of each image alone, with its name before each; after a check follows where a file is cut short, as `check --all` of
that image says. Standard error stays empty, and the status is the greatest. Then
1,000 images are checked within five seconds. The status is 1 if something differs."""

import random
import subprocess
import sys
import tempfile
import time
from pathlib import Path

sys.dont_write_bytecode = True
sys.path.insert(0, str(Path(__file__).resolve().parents[1] / "lib"))
from trial import conduct

SIZE = 174848


def run(program, *words):
    """The status, output and standard error of the program with these words."""
    done = subprocess.run([program, *words], capture_output=True, check=False, stdin=subprocess.DEVNULL)
    return done.returncode, done.stdout, done.stderr


def shelf_of(program, folder, chance):
    """Images of all kinds, as paths in an order of their own."""
    run(program, "format", "--new", str(folder / "shop.d64"), "--tills", "6")
    sound = (folder / "shop.d64").read_bytes()
    names = [f"disk {k}.d64" for k in range(30)] + ["it's.d64", 'quoted ".d64', "two\nlines.d64", " blank.d64", "ü.d64"]
    for name in names:
        image = bytearray(sound)
        for _ in range(chance.choice((0, 0, 1, 3, 20))):
            # mostly the directory's track
            image[chance.choice((91392, 91392, 86016, 0)) + chance.randrange(2048)] = chance.randrange(256)
        (folder / name).write_bytes(image)
    (folder / "short.d64").write_bytes(sound[: SIZE - 256])
    (folder / "errors.d64").write_bytes(sound + b"\1" * 683)
    (folder / "empty.d64").write_bytes(b"")
    (folder / "folder.d64").mkdir()
    paths = [str(it) for it in sorted(folder.iterdir())] + [str(folder / "none.d64")]
    chance.shuffle(paths)
    return paths


def named(path, text):
    """The text with the name before each line; a newline in a name is shown as its number."""
    shown = path.replace("\n", "\\u{a}").encode()
    return b"".join(shown + b": " + line for line in text.splitlines(keepends=True))


def cut(program, path):
    """The line that says where a file of an image is cut short; nothing if none is."""
    last = run(program, "check", "--all", path)[1].splitlines(keepends=True)[-1:]
    return b"".join(it for it in last if it.startswith(b"SHORT "))


def compared(program, command, paths):
    """How many images differ from what they are alone."""
    alone = [run(program, command, it) for it in paths]
    status, printed, told = run(program, command, *paths)
    cuts = [cut(program, it) if command == "check" else b"" for it in paths]
    wanted = b"".join(named(path, out + err + more) for path, (_, out, err), more in zip(paths, alone, cuts))
    wrong = (printed != wanted) + (told != b"") + (status != max(it[0] for it in alone))
    print(f"{command}: {len(paths)} images, {sum(it[0] == 0 for it in alone)} sound, {wrong} differences")
    return wrong


def main(given):
    program, chance = given.program, random.Random(given.seed)
    with tempfile.TemporaryDirectory() as name:
        folder = Path(name)
        paths = shelf_of(program, folder, chance)
        looks = ("check", "list", "map")
        wrong = sum(compared(program, it, paths) for it in looks)
        many = [str(folder / "shop.d64")] * 1000
        start = time.monotonic()
        status, printed, _ = run(program, "check", *many)
        took = time.monotonic() - start
        wrong += status != 0 or printed.count(b": OK\n") != 1000 or took > 5
        print(f"1,000 images: {took:.2f} s")
    return len(looks) + 1 - wrong, wrong


if __name__ == "__main__":
    conduct(main)
