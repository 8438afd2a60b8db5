#!/usr/bin/env python3
"""Damages the log of a `serve` that was killed, in one place, and looks what is made of it:

    tests/hands/damaged_logs.py PROGRAM [--amount COMMITS] [--seed N]

PROGRAM is what `tools/program` prints. Each request is a commit of one block or more. In each block of each commit a bit is turned, or
512 bytes are lost. Damage that a torn last commit can't leave has to end as LOG, and nothing may be changed then. In the last commit, and
in the last block of the one before it, damage may give the shop before it, and nothing else. `copy --log` has to give the shop before the
commit that is damaged, or cut off; and of the whole log the image that `copy` gives. It ends by itself and uses no network."""

import random
import subprocess
import sys
import tempfile
import time
from pathlib import Path

sys.dont_write_bytecode = True
sys.path.insert(0, str(Path(__file__).resolve().parents[1] / "lib"))
from trial import conduct

BLOCK, BLOCKS = 4096, 1024


def want(what, got, wanted):
    if got not in wanted:
        print(f"damaged_logs: {what}: {got!r} and none of {wanted!r}", file=sys.stderr)
        sys.exit(1)


def show(program, folder):
    done = subprocess.run([program, "show", "s.d64"], cwd=folder, capture_output=True, stdin=subprocess.DEVNULL)
    return (done.returncode, done.stdout if done.returncode == 0 else done.stderr.splitlines()[0])


def killed(program, folder, commits):
    """A log with so many commits, and what `show` prints after each of them and after the base."""
    subprocess.run([program, "format", "s.d64", "--tills", "4"], cwd=folder, check=True, stdout=subprocess.DEVNULL)
    served = subprocess.Popen([program, "serve", "s.d64"], cwd=folder, stdin=subprocess.PIPE, stdout=subprocess.PIPE)
    shows = []
    for number in range(commits + 1):
        if number:
            served.stdin.write(f"1,{number},S,{number % 40 + 1},{number}\n".encode())
            served.stdin.flush()
            served.stdout.readline()
        else:
            while not (folder / "s.d64-log").exists() or show(program, folder) == (3, b"IN USE"):
                time.sleep(0.01)
        shows.append(show(program, folder))
    served.kill()
    served.wait()
    return shows


def commits_of(log):
    """The blocks of each commit, the base first."""
    commits, blocks = [], []
    for q in range(BLOCKS):
        kind = log[q * BLOCK + 10]
        if kind not in (1, 2):
            break
        blocks.append(q)
        if kind == 2:
            commits.append(blocks)
            blocks = []
    return commits


def damages(draw, log, q):
    """The log with a bit of block q turned, and with 512 bytes of it lost, if they hold anything."""
    turned = bytearray(log)
    turned[q * BLOCK + draw.randrange(BLOCK)] ^= 1 << draw.randrange(8)
    yield "turned", bytes(turned)
    at = q * BLOCK + 512 * draw.randrange(8)
    if any(log[at : at + 512]):
        yield "lost", log[:at] + bytes(512) + log[at + 512 :]


def salvaged(program, folder, log, shows, k):
    """Looks whether `copy --log` takes the first k commits of a log: the base and those after it."""
    (folder / "hurt-log").write_bytes(log)
    done = subprocess.run([program, "copy", "--log", "hurt-log", "new.d64"], cwd=folder, capture_output=True)
    want("the log is read", (folder / "hurt-log").read_bytes() == log, [True])
    if not k:
        want("no base", (done.returncode, done.stderr.splitlines()[0], (folder / "new.d64").exists()), [(1, b"LOG", False)])
        return None
    words = [line.split() for line in done.stdout.decode().splitlines()]
    want("salvage", (done.returncode, words[:2]), [(0, [["COPIED"], ["COMMITS", str(k)]])])
    shown = subprocess.run([program, "show", "new.d64"], cwd=folder, capture_output=True)
    want("the shop of the whole commits", (shown.returncode, shown.stdout), [shows[k - 1]])
    image = (folder / "new.d64").read_bytes()
    (folder / "new.d64").unlink()
    return image, int(words[2][1])


def main(given):
    program, commits = given.program, given.amount
    draw, tried = random.Random(given.seed), 0
    with tempfile.TemporaryDirectory() as place:
        folder = Path(place)
        shows = killed(program, folder, commits)
        log, image = (folder / "s.d64-log").read_bytes(), (folder / "s.d64").read_bytes()
        found = commits_of(log)
        want("commits", len(found), [commits + 1])
        subprocess.run([program, "copy", "s.d64", "copy.d64"], cwd=folder, check=True, stdout=subprocess.DEVNULL)
        whole = ((folder / "copy.d64").read_bytes(), 0)
        for new in ("copy.d64", "s.d64", "gone.d64"):
            (folder / "gone.d64-log").write_bytes(b"junk")
            done = subprocess.run([program, "copy", "--log", "s.d64-log", new], cwd=folder, capture_output=True)
            want(f"a log copied to {new}", (done.returncode, done.stderr), [(1, b"FILE EXISTS\n")])
        want("what stood there", ((folder / "copy.d64").read_bytes(), (folder / "s.d64").read_bytes()), [(whole[0], image)])
        want("the whole log", salvaged(program, folder, log, shows, commits + 1) == whole, [True])
        for k, blocks in enumerate(found):
            salvaged(program, folder, log[: blocks[-1] * BLOCK + draw.randrange(11)], shows, k)
            for q in blocks if k else draw.sample(blocks, 5):
                for how, hurt in damages(draw, log, q):
                    (folder / "s.d64-log").write_bytes(hurt)
                    left = salvaged(program, folder, hurt, shows, k)
                    want("blocks left", left is None or left[1] >= found[-1][-1] - blocks[0] + (0 if k == commits else 1), [True])
                    older = k and (k == commits or k == commits - 1 and q == blocks[-1])
                    name = f"block {q} of commit {k} {how}"
                    want(name, show(program, folder), [shows[k - 1]] if older else [(1, b"LOG")])
                    if not older:
                        done = subprocess.run([program, "play", "s.d64", "/dev/null"], cwd=folder, capture_output=True)
                        want(name, (done.returncode, done.stderr.splitlines()[0]), [(1, b"LOG")])
                        want(name, ((folder / "s.d64-log").read_bytes() == hurt, (folder / "s.d64").read_bytes() == image), [(True, True)])
                    tried += 1
    print(f"damaged_logs: {tried} damages of a log of {commits} commits: each was refused that no torn commit leaves")
    return tried


if __name__ == "__main__":
    conduct(main)
