#!/usr/bin/env python3
"""Who may use a log or a copy, what isn't read, and what isn't left: `serve` and `copy` over images of several modes, a script that is
too long, names that lead nowhere, and runs that were killed.

    tests/hands/guarded_files.py PROGRAM

While a service runs, its log has the mode of IMAGE whatever the umask is; and so has one that `play --sync` leaves when it is killed.
So has a copy, and as root the owner of IMAGE. A script of more than 16 MiB is refused, and one of 16 MiB is played. A symbolic link that
leads nowhere counts as a file, and in the place of a log it is `LOG`. `copy`, `new`, `format --new` and `extract` are killed at each of
their calls that make, sync or name something: the new name leads to nothing then, or to what is whole, and the next run isn't blocked."""

import os
import shutil
import stat
import subprocess
import sys
import tempfile
from pathlib import Path

sys.dont_write_bytecode = True
sys.path.insert(0, str(Path(__file__).resolve().parents[1] / "lib"))
from trial import conduct

PROGRAM = ""  # the program, which main names
MODES = (0o600, 0o640, 0o644, 0o660)
MASKS = (0o022, 0o077, 0o000)


def ran(*words, **more):
    return subprocess.run([PROGRAM, *map(str, words)], capture_output=True, text=True, timeout=120, **more)


def mode_of_log(image, mode, mask):
    """The mode of the log of an image with this mode, while a service with this umask runs."""
    os.chmod(image, mode)
    log = Path(f"{image}-log")
    with subprocess.Popen([PROGRAM, "serve", image], stdin=subprocess.PIPE, stdout=subprocess.PIPE, text=True, umask=mask) as service:
        service.stdin.write("1,1,R,7,1\n")
        service.stdin.flush()
        service.stdout.readline()
        found = stat.S_IMODE(log.stat().st_mode)
        service.stdin.close()
        service.wait(60)
    return found


def lost_logs(room, see):
    """A log's name that leads nowhere, beside an image."""
    image, link = room / "lost.d64", room / "lost.d64-log"
    ran("format", "--new", image, "--tills", 4)
    held = image.read_bytes()
    link.symlink_to(room / "gone")
    for words in (["show", image], ["check", image], ["copy", image, room / "lost-copy.d64"], ["play", image, "/dev/stdin"],
                  ["play", "--sync", image, "/dev/null"], ["serve", image], ["repair", image], ["put", image, "A", image, "--type", "prg"]):
        done = ran(*words, input="1,1,R,7,1\n")
        see(f"{words[0]} beside a lost log", (done.returncode, done.stdout, done.stderr), (1, "", "LOG\n"))
    see("the image beside a lost log", (image.read_bytes() == held, link.is_symlink()), (True, True))


def mounted_alone(room, see):
    """An image that is mounted by itself in another folder, whose name has a space, as in a container (as root)."""
    image, other = room / "mounted.d64", room / "an other"
    ran("format", "--new", image, "--tills", 4)
    held = image.read_bytes()
    other.mkdir()
    place = other / "a b.d64"
    place.write_bytes(b"")
    for words, status, err in ((["show"], 0, ""), (["check"], 0, ""), (["repair"], 1, "TWO NAMES\n"), (["serve"], 1, "TWO NAMES\n"),
                               (["play", "--sync"], 1, "TWO NAMES\n"), (["play"], 1, "TWO NAMES\n"), (["format", "--tills", "4"], 1, "TWO NAMES\n")):
        script = ["/dev/null"] if words[0] == "play" else []
        line = ["unshare", "-m", "sh", "-c", 'mount --bind "$1" "$2" && shift && shift && exec "$@"', "sh", image, place, PROGRAM, *words, place, *script]
        done = subprocess.run([str(it) for it in line], capture_output=True, text=True, timeout=60, stdin=subprocess.DEVNULL)
        see(f"{words} of an image mounted by itself", (done.returncode, done.stderr), (status, err))
    see("the image mounted by itself", image.read_bytes() == held, True)


def left_names(room, see):
    """What stands where a file is made first isn't touched, and doesn't block; nor does a new name that is taken meanwhile."""
    image, new = room / "kept.d64", room / "made.d64"
    ran("format", "--new", image, "--tills", 4)
    words = (["copy", image, new], ["format", "--new", new, "--tills", 4], ["new", new, "--name", "N", "--id", "01"], ["extract", image, new])
    for number in range(11):
        for what in words:
            done = ran(*what)
            see(f"{what[0]} beside {number} names", (done.returncode, new.exists()), (0, True) if number < 10 else (1, False))
            if number < 10:
                shutil.rmtree(new) if new.is_dir() else new.unlink()
        (room / f"made.d64.new{number or ''}").write_bytes(b"a stranger's")
    strangers = [it.read_bytes() for it in room.glob("made.d64.new*")]
    see("strangers' files", strangers, [b"a stranger's"] * 11)
    for it in room.glob("made.d64.new*"):
        it.unlink()


def killed_runs(room, see):
    """Runs that are killed at each of some calls leave no part under the new name, and don't block the next run."""
    image, new = room / "kept.d64", room / "killed.d64"
    words = (["copy", image, new], ["format", "--new", new, "--tills", 4], ["new", new, "--name", "N", "--id", "01"], ["extract", image, new])
    for what in words:
        ran(*what)
        whole = sorted(it.name for it in new.iterdir()) if new.is_dir() else new.read_bytes()
        for call in ("openat", "pwrite64", "fsync", "link", "unlink", "rename", "mkdir"):
            for number in range(1, 100):
                shutil.rmtree(new) if new.is_dir() else new.unlink()
                done = ran_killed(call, number, what)
                found = sorted(it.name for it in new.iterdir()) if new.is_dir() else new.read_bytes() if new.exists() else None
                see(f"{what[0]} killed at {call} {number}", found in (None, whole), True)
                if found is None:
                    see(f"{what[0]} after it was killed at {call} {number}", ran(*what).returncode, 0)
                for left in room.glob("killed.d64.new*"):
                    shutil.rmtree(left) if left.is_dir() else left.unlink()
                if done.returncode == 0:
                    break
        shutil.rmtree(new) if new.is_dir() else new.unlink()


def ran_killed(call, number, what):
    """A run that is killed at a call of this name and number, if it makes so many."""
    words = ["strace", "-f", "-o", "/dev/null", "-e", f"trace={call}", "-e", f"inject={call}:signal=KILL:when={number}", PROGRAM, *map(str, what)]
    return subprocess.run(words, capture_output=True, text=True, timeout=120)


def main(given):
    global PROGRAM
    PROGRAM = given.program
    wrong, tried = [], 0

    def see(what, found, wanted):
        nonlocal tried
        tried += 1
        if found != wanted:
            wrong.append(f"{what}: {found!r} in place of {wanted!r}")

    with tempfile.TemporaryDirectory() as room:
        for mode in MODES:
            for mask in MASKS:
                image = Path(room) / f"{mode:o}-{mask:o}.d64"
                see("format", ran("format", "--new", image, "--tills", 4).returncode, 0)
                see(f"the log of {mode:o} under {mask:o}", oct(mode_of_log(image, mode, mask)), oct(mode))
                copy = Path(room) / f"{mode:o}-{mask:o}-copy.d64"
                if os.geteuid() == 0:
                    os.chown(image, 1234, 5678)
                see("copy", ran("copy", image, copy, umask=mask).returncode, 0)
                like, made = image.stat(), copy.stat()
                see(f"a copy of {mode:o} under {mask:o}", (oct(stat.S_IMODE(made.st_mode)), made.st_uid, made.st_gid),
                    (oct(mode), like.st_uid, like.st_gid))
        lost_logs(Path(room), see)
        if os.geteuid() == 0:
            mounted_alone(Path(room), see)
        left_names(Path(room), see)
        killed_runs(Path(room), see)
        script = Path(room) / "script"
        line = b"1,1,R,7,1\n"
        for size, status in ((16 << 20, 0), ((16 << 20) + 1, 3)):
            script.write_bytes((line * (size // len(line) + 1))[:size])
            see(f"dry of {size} bytes", ran("dry", script).returncode, status)
        nowhere = Path(room) / "nowhere.d64"
        nowhere.symlink_to(Path(room) / "gone")
        see("new over a link that leads nowhere", ran("new", nowhere, "--name", "A", "--id", "01").stderr.splitlines()[:1], ["FILE EXISTS"])
        see("the link stays", nowhere.is_symlink(), True)
    print("\n".join([*wrong, f"guarded_files: {tried} looks, {len(wrong)} wrong"]))
    return tried - len(wrong), len(wrong)


if __name__ == "__main__":
    conduct(main)
