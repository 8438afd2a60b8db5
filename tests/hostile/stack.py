#!/usr/bin/env python3
"""Finds with how much stack each command ends as it does with plenty:

    tests/hostile/stack.py PROGRAM

PROGRAM is what `tools/program` prints. The limit of the system (`ulimit -s`) is halved until a command dies by a signal, and the
least with which it ends is found to 4 kB. It prints a line a command: kB of stack, which hold the program's words and its
environment too (some 2 kB here, where both are short)."""

import resource
import subprocess
import sys
import tempfile
from dataclasses import replace
from pathlib import Path

sys.dont_write_bytecode = True
sys.path.insert(0, str(Path(__file__).resolve().parents[1] / "lib"))
from commands import CHANGES, COMMANDS, IMAGE, SCRIPT, SCRIPTS, command, scene
from trial import conduct

TOP = Path(__file__).resolve().parents[2]
DAY = str(TOP / "examples" / "day_with_power_cuts.txt")


def ended(words, kilobytes, lines):
    """The status with so much stack; negative where it died by a signal."""
    limit = kilobytes * 1024

    def limited():
        resource.setrlimit(resource.RLIMIT_STACK, (limit, limit))

    try:
        ran = subprocess.run(
            words, input=lines, stdout=subprocess.DEVNULL, stderr=subprocess.DEVNULL, preexec_fn=limited, env={}
        )
    except OSError:
        return -1
    return ran.returncode


def least(program, command, folder):
    """The fewest kB with which it ends as it does with 8 MB, over the same files each time, and that status."""
    image = (folder / IMAGE).read_bytes()

    def ends(kilobytes):
        command.forget(folder)
        (folder / IMAGE).write_bytes(image)
        return ended([program, *command.over(folder, str(folder / IMAGE))], kilobytes, command.given)

    wanted = ends(8192)
    low, high = 0, 8192
    while high - low > 4:
        middle = (low + high) // 8 * 4
        if ends(middle) == wanted:
            high = middle
        else:
            low = middle
    command.forget(folder)
    (folder / IMAGE).write_bytes(image)
    return high, wanted


def commands(program, folder):
    """Each command over a shop of 64 tills in which 600 requests were played."""
    script = "".join(f"{1 + n % 64},{1 + n // 64},R,{1 + n},5\n" for n in range(600)).encode()
    scene(program, folder, 64, script)
    subprocess.run([program, "play", IMAGE, SCRIPT], cwd=folder, check=True, stdout=subprocess.DEVNULL)
    for each in COMMANDS:
        yield replace(each, given=script) if each.words[0] == "serve" else each
    yield command(CHANGES, f"play {IMAGE} {DAY}", "play, a day with resets")
    yield command(SCRIPTS, "--help")


def main(given):
    tried = 0
    with tempfile.TemporaryDirectory() as folder:
        for each in commands(given.program, Path(folder)):
            kilobytes, status = least(given.program, each, Path(folder))
            print(f"{each.name}: {kilobytes} kB (status {status})", flush=True)
            tried += 1
    return tried


if __name__ == "__main__":
    conduct(main)
