"""A run of a program in a folder: what it prints and reports, how it ends, and which files it changes. It has a minute, or ROW_SECONDS."""

import os
import subprocess
import sys
import threading
import tty
from contextlib import suppress
from pathlib import Path

SECONDS = int(os.environ.get("ROW_SECONDS", "60"))
FAULTS = Path(__file__).resolve().parent / "faults.py"


class Stream:
    """A pipe, or a terminal, that the program writes to."""

    def __init__(self, is_terminal):
        self.ours, self.theirs = os.openpty() if is_terminal else os.pipe()
        if is_terminal:
            tty.setraw(self.theirs)
        self.came, self.reader = b"", threading.Thread(target=self.read)
        self.reader.start()

    def read(self):
        with suppress(OSError):  # a terminal fails once nobody writes to it any more
            while part := os.read(self.ours, 65536):
                self.came += part

    def taken(self):
        os.close(self.theirs)
        self.reader.join()
        os.close(self.ours)
        return self.came


def fed(path, text):
    """Makes a pipe that gives a text, once it is read."""
    def feed():
        with suppress(OSError):
            path.write_bytes(text)
    os.mkfifo(path)
    threading.Thread(target=feed, daemon=True).start()


def seen_in(folder):
    """The bytes of each file in a folder, with none of what is no file."""
    return {str(it.relative_to(folder)): it.read_bytes() if it.is_file() else b"" for it in folder.rglob("*")}


def counted(path):
    """How many calls there were, of those that were watched."""
    done = path.read_text(encoding="ascii").split() if path.exists() else []
    behind = done[: done.index("read")] if "read" in done else []
    counts = {b"writes": done.count("write"), b"syncs": done.count("sync"), b"folder-syncs": done.count("folder-sync"), b"reads-behind": behind.count("sync")}
    return {name: b"%d" % count for name, count in counts.items()}


def left_by(program, words, folder, given, terminals, is_full, faults=None):
    """What a run leaves, by the words of a row. `terminals` has whether the output and standard error are; or the output is full. With
    faults, also with none of them, its calls are watched."""
    before, counts = seen_in(folder), folder.parent / "counts"
    out, err = (Stream(it) for it in terminals)
    with open("/dev/full", "wb") as full, open(given, "rb") as given:
        how = {"stdin": given, "stdout": full if is_full else out.theirs, "stderr": err.theirs, "cwd": folder}
        if faults is not None:
            words, program = [sys.executable, FAULTS, counts, *faults, "--", program, *words], sys.executable
        with subprocess.Popen(words, executable=program, **how) as started:
            try:
                status = b"%d" % started.wait(SECONDS)
            except subprocess.TimeoutExpired:
                started.kill()
                status = b"no end"
    for gone in folder.glob("*-elsewhere"):
        gone.rename(folder / gone.name.removesuffix("-elsewhere"))
    after = seen_in(folder)
    made = {it for it in after.keys() - before.keys() if it.startswith("out/")}
    changed = {it for it in {*before, *after} - made if before.get(it) != after.get(it)}
    own = {"a.d64", *(["out"] if made else []), *(["a.d64-log"] if "a.d64-log" not in before.keys() & after.keys() else [])}
    return {
        b"prints": out.taken(),
        b"tells": err.taken(),
        b"ends": status,
        b"makes": b"%d" % len(made),
        b"logged": b"" if "a.d64-log" in after else b"no log",
        b"written": b"" if "a.d64" in changed else b"as it was",
        b"others": ", ".join(sorted(changed - own)).encode(),
        **counted(counts),
    }
