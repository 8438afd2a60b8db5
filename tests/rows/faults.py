#!/usr/bin/env python3
"""Runs a program with system calls that fail, by Linux' seccomp: it needs no other program and no right (amd64, Linux 5.9).

    tests/rows/faults.py COUNTS FAULT .. -- PROGRAM WORD ..

A FAULT is one of these; files are told by their names:
- `sync N`, `folder-sync N`, `log-sync N`: the Nth call that syncs *.d64, its folder or *.d64-log fails (EIO)
- `disk-takes N`, `output-takes N`: *.d64 or standard output takes so many bytes, and is full then (ENOSPC)
- `output-interrupted`: the first call to the output is interrupted (EINTR)
- `input-fails`: standard input fails behind its last byte (ETIMEDOUT); `input-in N`: it comes N bytes at a time, behind an interrupted
  call; `input-not-ready N`: its Nth read finds nothing yet (EAGAIN); `unreadable`: each read of *.d64 fails (EIO)
- `others unknown`: no lock is known (EOPNOTSUPP); `shared N`: the Nth lock that isn't for one program alone
- `longest N`: a file may have so many bytes (`ulimit -f`)
- `gone N`, `other N`, `cut N`: before the Nth look at the name of *.d64 the file goes to *.d64-elsewhere, and another of its bytes comes, or
  half of its bytes go; `unseen N`: that look finds nothing (ENOENT); `log-gone N`: before its Nth sync *.d64-log goes; `log-other N`:
  before the Nth look at the name of *.d64-log or *.d64-log.new *.d64-log goes, and another of its bytes comes

The file COUNTS gets a word for each call that syncs, or reads or writes *.d64: `sync`, `folder-sync`, `log-sync`, `read`, `write`. The
status is the program's."""

import ctypes
import errno
import fcntl
import os
import re
import resource
import select
import shutil
import signal
import socket
import struct
import sys

LIBC = ctypes.CDLL(None, use_errno=True)
READ, WRITE, PWRITE, FLOCK, FSYNC, FDATASYNC, STATX, SECCOMP = 0, 1, 18, 73, 74, 75, 332, 317
SYNCS = {"image": "sync", "folder": "folder-sync", "log": "log-sync"}
GOES_ON, ENDLESS = 1, 1 << 60
RECEIVE, SEND = 0xC0502100, 0xC0182101
NO_NEW_RIGHTS, END_WITH_PARENT = 38, 1


def watched():
    """Lets the calls of this process be decided on by who reads the file that is returned (seccomp(2), seccomp_unotify(2))."""
    calls = (READ, WRITE, PWRITE, FLOCK, FSYNC, FDATASYNC, STATX)
    lines = [(0x20, 0, 0, 0), *((0x15, len(calls) - it, 0, call) for it, call in enumerate(calls)), (6, 0, 0, 0x7FFF0000), (6, 0, 0, 0x7FC00000)]
    text = ctypes.create_string_buffer(b"".join(struct.pack("HBBI", *line) for line in lines))
    program = ctypes.create_string_buffer(struct.pack("HxxxxxxQ", len(lines), ctypes.addressof(text)))
    LIBC.prctl(NO_NEW_RIGHTS, 1, 0, 0, 0)
    listener = LIBC.syscall(SECCOMP, 1, 8, program)
    if listener < 0:
        raise OSError(ctypes.get_errno(), "seccomp")
    return listener


def has_image(path):
    """Whether it's a folder with an image."""
    return os.path.isdir(path) and any(is_image(it) for it in os.listdir(path))


def is_image(path):
    """Whether it's the name of an image, or of one in the making."""
    return path.endswith((".d64", ".d64.new"))


class Faults:
    """What fails, and what was done."""

    def __init__(self, faults):
        named = [it.partition(" ")[::2] for it in faults]
        self.at = {name: int(re.sub(r"\D", "", rest) or 0) for name, rest in named}
        self.at.update({"first-input": 1, "first-output": 1})
        self.done, self.counts = [], {}

    def is_due(self, name):
        """Counts a call, and whether it's that of this number."""
        self.counts[name] = self.counts.get(name, 0) + 1
        return self.at.get(name) == self.counts[name]

    def path_of(self, number, call, given):
        """The file of a call."""
        if call != STATX:
            return os.readlink(f"/proc/{number}/fd/{given[0]}")
        with open(f"/proc/{number}/mem", "rb") as memory:
            memory.seek(given[1])
            name = memory.read1(4096).partition(b"\0")[0].decode()
        return os.path.join(os.readlink(f"/proc/{number}/cwd"), name) if name else ""

    def decide(self, number, call, given):
        """The error of a call, or what it returns, as a number that isn't positive; None where it goes on."""
        path = self.path_of(number, call, given)
        kind = "image" if is_image(path) else "log" if ".d64-log" in path else "folder" if has_image(path) else ""
        if call in (FSYNC, FDATASYNC) and kind:
            self.done.append(SYNCS[kind])
            if kind == "log" and self.is_due("log-gone"):
                os.rename(path, path + "-elsewhere")
            return errno.EIO if self.is_due(SYNCS[kind]) else None
        if call == STATX and kind == "image":
            return self.look(path)
        if call == STATX and kind == "log" and self.is_due("log-other"):
            os.rename(path, path + "-elsewhere")
            shutil.copyfile(path + "-elsewhere", path)
        if call == FLOCK:
            is_refused = "others" in self.at or given[1] & fcntl.LOCK_SH and self.is_due("shared")
            return errno.EOPNOTSUPP if is_refused else None
        if call == READ:
            return self.read(number, given, kind)
        if call in (WRITE, PWRITE) and (kind == "image" or given[0] == 1):
            return self.write(number, call, given, "disk-takes" if kind == "image" else "output-takes")
        return None

    def look(self, path):
        if self.is_due("gone"):
            os.rename(path, path + "-elsewhere")
        if self.is_due("other"):
            os.rename(path, path + "-elsewhere")
            shutil.copyfile(path + "-elsewhere", path)
        if self.is_due("cut"):
            os.truncate(path, os.path.getsize(path) // 2)
        return errno.ENOENT if self.is_due("unseen") else None

    def read(self, number, given, kind):
        if kind == "image":
            self.done.append("read")
            return errno.EIO if "unreadable" in self.at else None
        if given[0] != 0:
            return None
        if self.is_due("input-not-ready"):
            return errno.EAGAIN
        if "input-in" in self.at and not self.is_due("first-input"):
            part = os.read(0, min(given[2], self.at["input-in"]))
            with open(f"/proc/{number}/mem", "r+b", buffering=0) as memory:
                memory.seek(given[1])
                memory.write(part)
            return -len(part)
        at_end = os.lseek(0, 0, os.SEEK_CUR) == os.fstat(0).st_size
        return errno.EINTR if "input-in" in self.at else errno.ETIMEDOUT if "input-fails" in self.at and at_end else None

    def write(self, number, call, given, room):
        if room == "disk-takes":
            self.done.append("write")
        if room == "output-takes" and "output-interrupted" in self.at and self.is_due("first-output"):
            return errno.EINTR
        if given[2] <= self.at.get(room, ENDLESS):
            self.at[room] = self.at.get(room, ENDLESS) - given[2]
            return None
        taken, self.at[room] = self.at[room], 0
        if not taken:
            return errno.ENOSPC
        with open(f"/proc/{number}/mem", "rb", buffering=0) as memory:
            memory.seek(given[1])
            part = memory.read(taken)
        out = os.open(f"/proc/{number}/fd/{given[0]}", os.O_WRONLY)
        os.pwrite(out, part, given[3]) if call == PWRITE else os.write(out, part)
        os.close(out)
        return -taken

    def watch(self, listener):
        """Decides on each call until the program has ended."""
        poll = select.poll()
        poll.register(listener, select.POLLIN)
        while poll.poll()[0][1] & select.POLLIN:
            call = bytearray(80)
            fcntl.ioctl(listener, RECEIVE, call)
            which, number, _, kind, _, _, *given = struct.unpack("QIIiIQ6Q", call)
            back = self.decide(number, kind, given)
            flags = GOES_ON if back is None else 0
            fcntl.ioctl(listener, SEND, struct.pack("QqiI", which, max(-(back or 0), 0), min(-(back or 0), 0), flags))


def main(words):
    counts, cut = words[0], words.index("--")
    ours, theirs = socket.socketpair()
    child = os.fork()
    if not child:
        LIBC.prctl(END_WITH_PARENT, 9, 0, 0, 0)
        for most in (int(it.partition(" ")[2]) for it in words[1:cut] if it.startswith("longest ")):
            resource.setrlimit(resource.RLIMIT_FSIZE, (most, most))
            signal.signal(signal.SIGXFSZ, signal.SIG_DFL)
        socket.send_fds(theirs, [b"."], [watched()])
        os.execv(words[cut + 1], words[cut + 2 :])
    faults = Faults(words[1:cut])
    theirs.close()
    _, (listener, *_), _, _ = socket.recv_fds(ours, 1, 1)
    faults.watch(listener)
    with open(counts, "w", encoding="ascii") as file:
        file.write("\n".join(faults.done))
    status = os.waitstatus_to_exitcode(os.waitpid(child, 0)[1])
    os._exit(status if status >= 0 else 128 - status)


if __name__ == "__main__":
    main(sys.argv[1:])
