#!/usr/bin/env python3
"""What the program does at calls of the system of which no clause speaks:

    tests/hands/unbound_calls.py PROGRAM

A file of another in the place of a log that is made, or of a log, stays; what a run that was killed left doesn't block. A log with
many blocks is read to its end, and so is each byte of an image, from a log and from standard input. Paths of 250 bytes are as good as
short ones, also beside a service; a sheet has each of forty images. A change that changes nothing says what it did. Where strace is
there: what is made, forgotten or extracted is synced in its folder, and a log or a copy in the making is its owner's alone. What comes to
a name between a look and a call stays. A reader syncs the log that it shows, also one that lands meanwhile."""

import fcntl
import os
import re
import shutil
import stat
import subprocess
import sys
import tempfile
import time
from pathlib import Path

sys.dont_write_bytecode = True
sys.path.insert(0, str(Path(__file__).resolve().parents[1] / "lib"))
from trial import conduct

PROGRAM = ""  # the program, which main names
LAST = 256 * 683 - 1  # the last byte of an image, 35/16+255
LOG_BYTES = 4_198_400
# requests one by one fill more than 900 blocks of a log, and fewer than its 1,024
MANY = 930


def ran(*words, input=None, **more):
    how = {"input": input} if input is not None else {"stdin": subprocess.DEVNULL}
    return subprocess.run([PROGRAM, *map(str, words)], capture_output=True, timeout=120, **how, **more)


def shop(path, tills=4):
    """An image of an empty shop, whose last byte isn't 0: its block belongs to no file."""
    done = ran("format", "--new", path, "--tills", tills)
    assert done.returncode == 0, done.stderr
    image = bytearray(path.read_bytes())
    image[LAST] = 0xA5
    path.write_bytes(image)
    return path


class Service:
    """A service of an image, which answers requests one by one."""

    def __init__(self, image):
        self.run = subprocess.Popen([PROGRAM, "serve", image], stdin=subprocess.PIPE, stdout=subprocess.PIPE, stderr=subprocess.DEVNULL)

    def ask(self, line):
        self.run.stdin.write(line)
        self.run.stdin.flush()
        return self.run.stdout.readline()

    def end(self):
        self.run.stdin.close()
        return self.run.wait(60)

    def kill(self):
        self.run.kill()
        self.run.wait(60)


def long_logs(room, see):
    """A log whose late blocks count: it is shown and copied while its service runs, and landed."""
    image = shop(room / "long.d64")
    service = Service(image)
    for n in range(1, MANY + 1):
        service.ask(b"1,%d,R,7,1\n" % n)
    see("what is shown of a long log", b"TILL 1,%d" % MANY in ran("show", image).stdout, True)
    see("a copy beside a long log", ran("copy", image, room / "long-copy.d64").returncode, 0)
    see("what is shown of the copy", b"TILL 1,%d" % MANY in ran("show", room / "long-copy.d64").stdout, True)
    service.kill()
    see("what is shown once its service was killed", b"TILL 1,%d" % MANY in ran("show", image).stdout, True)
    see("a repair lands it", ran("repair", image).returncode, 0)
    see("what was landed", b"TILL 1,%d" % MANY in ran("show", image).stdout, True)


def every_byte(room, see):
    """Each byte of an image is read, from its file, from standard input and from a log."""
    image = shop(room / "bytes.d64")
    held = image.read_bytes()
    with image.open("rb") as file:
        done = subprocess.run([PROGRAM, "copy", "/dev/stdin", room / "given.d64"], stdin=file, capture_output=True)
    see("a copy of standard input", (done.returncode, (room / "given.d64").read_bytes() == held), (0, True))
    service = Service(image)
    service.ask(b"1,1,R,7,1\n")
    see("a copy beside a service", ran("copy", image, room / "beside.d64").returncode, 0)
    see("the last byte of it", (room / "beside.d64").exists() and (room / "beside.d64").read_bytes()[LAST], 0xA5)
    sector = ran("sector", image, "35/16").stdout
    see("the last sector, beside a service", b"a5" in sector.lower(), True)
    see("the service ends", service.end(), 0)
    see("the last byte of what was landed", image.read_bytes()[LAST], 0xA5)


def other_files(room, see):
    """What isn't the program's own is left; what a killed run of its own left doesn't block."""
    for name, held, stays in (("text", b"somebody's notes", True), ("empty", b"", False), ("half a log", bytes(LOG_BYTES // 2), True)):
        image = shop(room / f"{name.replace(' ', '-')}.d64")
        making = Path(f"{image}-log.new")
        making.write_bytes(held)
        done = ran("serve", image, input=b"1,1,R,7,1\n")
        see(f"a service beside {name} where its log is made", done.returncode != 0, stays)
        see(f"{name} where a log is made", making.exists() and making.read_bytes() == held, stays)
    left = shop(room / "left.d64")
    Path(f"{left}-log.new").write_bytes(bytes(LOG_BYTES))
    see("a service after a run that left a log in the making", ran("serve", left, input=b"1,1,R,7,1\n").returncode, 0)
    for name, held in (("short", b"somebody's notes"), ("as long as a log", b"X" * LOG_BYTES)):
        image = shop(room / f"foreign-{name.replace(' ', '-')}.d64")
        log = Path(f"{image}-log")
        log.write_bytes(held)
        before = image.read_bytes()
        see(f"format beside another's file, {name}", ran("format", image, "--tills", 2).returncode != 0, True)
        see(f"another's file where a log would stand, {name}", log.exists() and log.read_bytes() == held, True)
        see(f"the image beside another's file, {name}", image.read_bytes() == before, True)


def kept_logs(room, see):
    """A log stays if the image that is to replace its shop can't be made."""
    image, log = shop(room / "kept.d64"), room / "kept.d64-log"
    service = Service(image)
    service.ask(b"1,1,R,7,1\n")
    service.kill()
    image.unlink()
    held = log.read_bytes()
    limit = ["sh", "-c", 'ulimit -f 8; exec "$@"', "sh", PROGRAM, "format", image, "--tills", "2"]
    done = subprocess.run(limit, capture_output=True, stdin=subprocess.DEVNULL)
    see("format where there is no room", done.returncode != 0, True)
    see("the log of what wasn't replaced", log.exists() and log.read_bytes() == held, True)


def long_paths(room, see):
    """A path of 250 bytes and more, beside which a log's name is still short enough."""
    folder = room
    for _ in range(4):
        folder /= "f" * 60
    folder.mkdir(parents=True)
    image, text = shop(folder / "disk.d64"), room / "text"
    text.write_bytes(b"TEXT")
    for words, given in ((["put", image, "A", text, "--type", "seq"], None), (["title", image, "--name", "NEW", "--id", "01"], None), (["serve", image], b"1,1,R,7,1\n"),
                         (["list", image, image], None), (["check", image, image], None)):
        done = ran(*words, input=given)
        see(f"{words[0]} of {len(words) - 1} words at a long path", (done.returncode, done.stderr), (0, b""))
    service = Service(image)
    service.ask(b"1,2,R,7,1\n")
    done = ran("show", image)
    see("show at a long path beside a service", (done.returncode, b"TILL 1,2" in done.stdout), (0, True))
    see("put at a long path beside a service", ran("put", image, "B", text, "--type", "seq").stderr, b"IN USE\n")
    see("the service at a long path ends", service.end(), 0)


def short_logs(room, see):
    """A log that isn't as long as a log is none, although its commits are there."""
    image = shop(room / "short.d64")
    service = Service(image)
    service.ask(b"1,1,R,7,1\n")
    service.kill()
    log = Path(f"{image}-log")
    os.truncate(log, 4096 * 100)
    for words in (["show", image], ["copy", image, room / "short-copy.d64"], ["repair", image]):
        done = ran(*words)
        see(f"{words[0]} beside a log that was cut", (done.returncode, done.stdout, done.stderr), (1, b"", b"LOG\n"))
    see("a log that was cut stays", log.stat().st_size, 4096 * 100)


def sheets(room, see):
    """A sheet of forty images has forty."""
    images = []
    for n in range(40):
        images.append(room / f"sheet{n}.d64")
        shutil.copyfile(room / "bytes.d64", images[-1])
    done, fewer = ran("picture", "--sheet", *images), ran("picture", "--sheet", *images[:39])
    see("a sheet of forty images", (done.returncode, len(done.stdout) > len(fewer.stdout)), (0, True))
    done = ran("list", *images)
    see("a list of forty images", len({it.partition(b":")[0] for it in done.stdout.splitlines()}), 40)


def same_again(room, see):
    """A change that leaves the image as it was says what it did."""
    image = shop(room / "same.d64")
    for words, said in ((["title", image, "--name", "NEW", "--id", "01"], b"TITLED\n"), (["sort", image], b"SORTED\n")):
        ran(*words)
        held = image.read_bytes()
        done = ran(*words)
        see(f"{words[0]} once more", (done.returncode, done.stdout, image.read_bytes() == held), (0, said, True))


def calls_of(room, *words, input=b""):
    """The calls that open, sync, rename and remove, in a run with these words; each with the names of its files."""
    told = room / "calls"
    line = ["strace", "-f", "-y", "-o", told, "-e", "trace=openat,fsync,fdatasync,rename,unlink,link,linkat,pwrite64", PROGRAM, *words]
    done = subprocess.run([str(it) for it in line], capture_output=True, input=input)
    return done, told.read_text(errors="replace").splitlines()


def synced_names(room, see):
    """What is forgotten or extracted is synced; what is in the making is its owner's alone."""
    if not shutil.which("strace"):
        return
    image = shop(room / "private.d64")
    image.chmod(0o600)
    (room / "text").write_bytes(b"TEXT")
    ran("put", image, "A", room / "text", "--type", "seq")
    old = os.umask(0)
    try:
        for words, given in ((["serve", image], b"1,1,R,7,1\n"), (["copy", image, room / "private-copy.d64"], b"")):
            done, calls = calls_of(room, *words, input=given)
            modes = {it[2] for it in re.finditer(r'openat\([^"]*"([^"]*\.new\d?)", [A-Z_|]*O_CREAT[A-Z_|]*, (0\d+)\)', "\n".join(calls))}
            see(f"the modes of what {words[0]} makes", (done.returncode, modes), (0, {"0600"}))
    finally:
        os.umask(old)
    done, calls = calls_of(room, "extract", image, room / "files")
    synced = [n for n, it in enumerate(calls) if "fsync(" in it and re.search(r"fsync\(\d+<[^>]*/files\.new>\)", it)]
    made = [n for n, it in enumerate(calls) if "O_CREAT" in it and "/files.new/" in it]
    see("the names of extracted files are synced", (done.returncode, bool(synced and made) and max(synced) > max(made)), (0, True))
    away = shop(room / "away.d64")
    service = Service(away)
    service.ask(b"1,1,R,7,1\n")
    service.kill()
    Path(f"{away}-log").unlink()
    done, calls = calls_of(room, "show", "--accept-loss", away)
    done, calls = calls_of(room, "repair", "--accept-loss", away)
    tag = [n for n, it in enumerate(calls) if "pwrite64(" in it and "away.d64>" in it and it.rstrip().endswith("= 8") and ", 91640)" in it]
    after = [n for n, it in enumerate(calls) if "fsync(" in it and "away.d64>" in it and tag and n > tag[0]]
    other = [n for n, it in enumerate(calls) if "pwrite64(" in it and "away.d64" in it and tag and n > tag[0]]
    see("the tag that is taken off is synced before the next write", bool(tag and after) and (not other or min(after) < min(other)), True)
    shop(room / "gone.d64")
    service = Service(room / "gone.d64")
    service.ask(b"1,1,R,7,1\n")
    service.kill()
    (room / "gone.d64").unlink()
    done, calls = calls_of(room, "format", room / "gone.d64", "--tills", 2)
    gone = [n for n, it in enumerate(calls) if "unlink(" in it and 'gone.d64-log"' in it]
    synced = [n for n, it in enumerate(calls) if "fsync(" in it and f"<{room}>" in it]
    see("a log that is forgotten is synced", (done.returncode, bool(gone and synced) and max(synced) > max(gone)), (0, True))


def late(room, words, inject, is_due, act):
    """A run with these words, one of whose calls comes two seconds late, and what is done meanwhile, once that is due."""
    told = room / "late"
    told.unlink(missing_ok=True)
    line = ["strace", "-f", "-qq", "-o", told, "-e", f"trace={inject.partition(':')[0]}", "-e", f"inject={inject}", PROGRAM, *words]
    with subprocess.Popen([str(it) for it in line], stdin=subprocess.DEVNULL, stdout=subprocess.PIPE, stderr=subprocess.PIPE) as run:
        while run.poll() is None and not is_due():
            time.sleep(0.02)
        act()
        printed, said = run.communicate(timeout=120)
    return run.returncode, printed, said


def meanwhile(room, see):
    """What comes to a name between a look and the call that would take it is kept."""
    if not shutil.which("strace"):
        return
    image, text = shop(room / "late.d64"), room / "text"
    text.write_bytes(b"TEXT")
    ran("put", image, "A", text, "--type", "seq")
    folder = room / "late-files"
    done = late(room, ["extract", image, folder], "mkdir:delay_exit=2000000", Path(f"{folder}.new").exists, folder.mkdir)
    see("extract to a folder that came meanwhile", (done[0], list(folder.iterdir())), (1, []))
    making = room / "late-copy.d64.new"

    def replaces(path, held):
        """Puts another file in the place of that which has a name."""
        other = room / "other"
        other.write_bytes(held)
        other.rename(path)

    done = late(room, ["copy", image, room / "late-copy.d64"], "fsync:error=EIO:when=1:delay_enter=2000000", making.exists,
                lambda: replaces(making, b"mine"))
    see("a copy that fails", (done[0], done[1]), (3, b""))
    see("another's file in the place of what was made", making.exists() and making.read_bytes(), b"mine")
    taken = room / "late-taken.d64"
    done = late(room, ["copy", image, taken], "link,linkat:error=EPERM:delay_enter=2000000", Path(f"{taken}.new").exists,
                lambda: taken.write_bytes(b"mine"))
    see("a copy to a name that came meanwhile, where no link can be made", (done[0] != 0, taken.read_bytes()), (True, b"mine"))
    service = Service(image)
    service.ask(b"1,1,R,7,1\n")
    service.kill()
    log = Path(f"{image}-log")
    held = log.read_bytes()
    image.unlink()
    done = late(room, ["format", image, "--tills", 2], "fsync:when=1:delay_enter=2000000", Path(f"{image}.new").exists,
                lambda: replaces(log, held))
    see("format beside a log that another came for", (done[0] != 0, log.exists()), (True, True))
    small = room / "small"
    small.write_bytes(b"no image")
    with small.open("rb") as file:
        fcntl.flock(file, fcntl.LOCK_EX)
        see("format over a file that is in use", (ran("format", small, "--tills", 2).stderr, small.read_bytes()), (b"IN USE\n", b"no image"))


def views(room, see):
    """A reader syncs the log that it shows, and a log that lands while it is read is shown as it was read."""
    if not shutil.which("strace"):
        return
    (room / "text").write_bytes(b"TEXT")
    image = shop(room / "view.d64")
    service = Service(image)
    service.ask(b"1,1,R,7,1\n")
    done, calls = calls_of(room, "show", image)
    see("a log is synced before it is shown", (done.returncode, any("fdatasync(" in it and "view.d64-log>" in it for it in calls)), (0, True))
    told = room / "reads"
    subprocess.run([str(it) for it in ["strace", "-y", "-o", told, "-e", "trace=read", PROGRAM, "show", image]], capture_output=True)
    reads = told.read_text(errors="replace").splitlines()
    last = max(n for n, it in enumerate(reads, 1) if "view.d64-log>" in it)

    def lands():
        service.ask(b"1,2,R,7,1\n")
        service.end()

    def has_read():
        """Whether all reads before the last one of the log were made."""
        return (room / "late").exists() and (room / "late").read_bytes().count(b"\n") >= last - 1

    status, printed, said = late(room, ["show", image], f"read:delay_exit=2000000:when={last}", has_read, lands)
    see("show of a log that lands meanwhile", (status, b"TILL 1," in printed, said), (0, True, b""))
    done, calls = calls_of(room, "put", image, "A", room / "text", "--type", "seq")
    made = [n for n, it in enumerate(calls) if "O_CREAT" in it and "view.d64-log.new" in it]
    synced = [n for n, it in enumerate(calls) if "fsync(" in it and f"<{room}>" in it]
    see("names are synced before a change", (done.returncode, bool(made and synced) and min(synced) < min(made)), (0, True))


def main(given):
    global PROGRAM
    PROGRAM = given.program
    tried, wrong = 0, []

    def see(what, came, wanted):
        nonlocal tried
        tried += 1
        if came != wanted:
            wrong.append(f"{what}: {came!r}, wanted {wanted!r}")

    with tempfile.TemporaryDirectory() as name:
        room = Path(name).resolve()
        for part in (every_byte, long_logs, other_files, kept_logs, long_paths, short_logs, sheets, same_again, synced_names, meanwhile, views):
            part(room, see)
    print("\n".join([*wrong, f"unbound_calls: {tried} looks, {len(wrong)} wrong"]))
    return tried - len(wrong), len(wrong)


if __name__ == "__main__":
    conduct(main)
