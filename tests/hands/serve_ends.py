#!/usr/bin/env python3
"""Tries how the built program begins and ends to serve, where no contract sees it:

    tests/hands/serve_ends.py PROGRAM

PROGRAM is what `tools/program` prints. It prints a line for each thing tried:
- a reply comes while the input stays open, and the lines are answered in order, however they come;
- unfinished, empty, long and `@` lines, bytes that are no text; a line of many megabytes takes no memory;
- a holder that was killed, readers beside readers (`serve_logs.py` tries what stands beside a log);
- an output that is full or closed, an input that is a folder or doesn't wait, images that are none; a limit on a file's length;
  names that leave no room for a log's;
- with `strace` installed: the sync of a commit fails once (EIO): `DEVICE`, no reply, and the next `serve` answers the repeat.
The status is 1 at the first difference."""

import fcntl
import os
import resource
import shutil
import subprocess
import sys
import tempfile
from pathlib import Path

sys.dont_write_bytecode = True
sys.path.insert(0, str(Path(__file__).resolve().parents[1] / "lib"))
from commands import CHANGES, IMAGE, LOOKS, MAKES, PRINT_REFUSALS, TAKES, scene, those_that
from served import Served, run, script, sure, want
from trial import conduct, passed

SYNTAX = "30,SYNTAX ERROR,00,00"
# a request that grows STOCK, changes a card in two sectors, and is kept: nine writes
GROWS = "1,1,S,15,7"
# the commands that need the image
OTHERS = [each for each in those_that(LOOKS, TAKES, CHANGES, MAKES) if IMAGE in each.words]


def is_in_use(command, ended):
    """Whether it ended so, and said nothing but that another program has the image."""
    status, out, err = ended
    if command.name in PRINT_REFUSALS:
        return status == 3 and err == "" and "IN USE" in "".join(out)
    return (status, out, err) == (3, [], "IN USE")


class Ends:
    def __init__(self, program, folder):
        self.program, self.folder = program, folder
        self.image = folder / "shop.d64"

    def fresh(self):
        sure(self.program, "format", self.image, "--tills", 4)

    def serve(self, *words, **more):
        return Served(self.program, self.image, *words, **more)

    def served(self, stdin, *words, **more):
        return run(self.program, "serve", self.image, *words, stdin=stdin, **more)

    def other(self, command):
        """How a command ends that comes beside what has the image."""
        return run(self.program, *command.over(self.folder), stdin=b"1,2,S,1,9\n")

    def show(self):
        return sure(self.program, "show", self.image)

    def answered(self, line, reply):
        """A `serve` from here on answers the line so, and ends well."""
        want(self.served(f"{line}\n".encode()) == (0, [reply], ""), f"{line} isn't answered {reply}")

    # --- lines
    # ---------------------------------------------------------------------------------------------------------

    def reply_while_open(self):
        """Each reply comes while the input stays open, and nothing comes before its line has ended."""
        self.fresh()
        served = self.serve()
        for line, reply in [("1,1,S,7,5", "1,1,DONE,5"), ("1,1,S,7,5", "1,1,DONE,5"), ("", SYNTAX)]:
            served.process.stdin.write(line.encode())
            served.process.stdin.flush()
            want(served.silent(0.05), "a reply comes before its line has ended")
            served.send([""])
            want(not served.silent(10), "no reply comes while the input stays open")
            want(served.reply() == reply, f"{line} isn't answered {reply}")
        want(served.finish() == (0, [], ""), "the end isn't quiet")

    def in_order(self):
        """Lines that come all at once, and a byte at a time."""
        lines = [f"{till},{number},R,3,1" for number in range(1, 50) for till in (1, 2, 3)]
        replies = sure(self.program, "dry", script(self.folder, lines))
        text = "".join(line + "\n" for line in lines).encode()
        self.fresh()
        want(self.served(text) == (0, replies, ""), "lines that come at once are answered otherwise")
        self.fresh()
        served = self.serve()
        for byte in text:
            os.write(served.process.stdin.fileno(), bytes([byte]))
        want(served.finish() == (0, replies, ""), "lines that come by the byte are answered otherwise")

    def unfinished(self):
        """What stands behind the last LF is no line: a message that broke off isn't handled as it stands."""
        self.fresh()
        want(self.served(b"1,1,S,42,10\n1,2,I,42,1") == (0, ["1,1,DONE,10"], ""), "an unfinished line is answered")
        want("CARD 42,10" in self.show(), "an unfinished line is handled")
        self.answered("1,2,I,42,10", "1,2,DONE,0")
        want(self.served(b"") == (0, [], ""), "an empty input isn't quiet")

    def odd_lines(self):
        """Lines outside the grammar have one reply each and change nothing."""
        self.fresh()
        longest = b"64,999999999,M,65535,999999999,65534"
        odd = [b"", b"@0 1,1,S,1,1", b"@3/2 1,1,S,1,1", b"@", b"hello", b"1,1,S,1,1 ", b" 1,1,S,1,1", b"\xff\x00\xfe"]
        odd += [b"1,1,S,1,1\r\r", longest + b"0", b"1,1,S,1,1," + b"0" * 31]
        odd += [b"7" * length for length in (40, 41, 42, 64, 8191, 8192, 8193)]
        before = self.show()
        replies = self.served(b"\n".join(odd) + b"\n")
        want(replies == (0, [SYNTAX] * len(odd), ""), "lines outside the grammar are answered otherwise")
        want(self.show() == before, "a line outside the grammar has changed the shop")
        want(self.served(longest + b"\r\n") == (0, ["64,999999999,NO TILL"], ""), "the longest message isn't read")
        want(self.served(b"1,1,S,1,1\r\n") == (0, ["1,1,DONE,1"], ""), "CR LF isn't the end of a line")

    def long_line(self):
        """A line of ten megabytes takes no memory."""
        self.fresh()
        served = self.serve()
        want(served.ask("1,1,S,1,1") == "1,1,DONE,1", "1,1,S,1,1 isn't answered")
        before = peak(served.process.pid)
        want(served.ask("1" * 10_000_000) == SYNTAX, "a long line isn't answered")
        want(served.ask("1,2,S,1,2") == "1,2,DONE,2", "the line behind a long one isn't answered")
        grown = peak(served.process.pid) - before
        want(grown < 100, f"a line of ten megabytes takes {grown} kB")
        want(served.finish() == (0, [], ""), "the end isn't quiet")

    # --- the lock
    # ------------------------------------------------------------------------------------------------------

    def readers(self):
        """Beside one that reads, the words that only read run and those that write are refused; beside one that
        writes, all are."""
        scene(self.program, self.folder, 4)
        for mode, refused in [(fcntl.LOCK_SH, False), (fcntl.LOCK_EX, True)]:
            with open(self.image, "rb") as other:
                fcntl.flock(other, mode)
                beside = "a writer" if refused else "a reader"
                for command in OTHERS:
                    got = self.other(command)
                    if refused or command.does in (CHANGES, MAKES):
                        want(is_in_use(command, got), f"{command.name} beside {beside}: {got}")
                    else:
                        want(got[0::2] == (0, ""), f"{command.name} beside {beside}: {got}")
                    command.forget(self.folder)

    # --- files
    # ---------------------------------------------------------------------------------------------------------

    def output_fails(self):
        """An output that is full, or that nobody reads: `FILE`; the line stands, and its repeat is answered."""
        self.fresh()
        with open("/dev/full", "w") as full:
            served = self.serve(stdout=full)
        served.send(["1,1,S,1,5"])
        told = served.process.wait(10), served.process.stderr.read()
        want(told == (3, b"FILE\n"), f"an output that is full: {told}")
        self.answered("1,1,S,1,5", "1,1,DONE,5")
        served = self.serve()
        want(served.ask("1,2,R,1,1") == "1,2,DONE,6", "1,2,R,1,1 isn't answered")
        served.process.stdout.close()
        served.send(["1,3,R,1,1"])
        want(served.process.wait(10) in (3, -13), "it serves on though nobody reads")
        self.answered("1,3,R,1,1", "1,3,DONE,7")

    def input_fails(self):
        """An input that is a folder."""
        self.fresh()
        folder = os.open(self.folder, os.O_RDONLY)
        served = self.serve(stdin=folder)
        os.close(folder)
        want(served.process.wait(10) == 3, "an input that is a folder doesn't end in status 3")
        told = served.process.stderr.read().decode().strip()
        want(told == "FILE", f"an input that is a folder: {told}")
        self.answered("1,1,S,1,1", "1,1,DONE,1")

    def input_waits_not(self):
        """A pipe that is set not to wait (O_NONBLOCK): `NOT READY`, and a person reads what to do."""
        self.fresh()
        held = self.image.read_bytes()
        for words in (["serve", self.image], ["play", self.image, "/dev/stdin"]):
            out, into = os.pipe()
            os.set_blocking(out, False)
            done = subprocess.run([self.program, *map(str, words), "--explain"], stdin=out, capture_output=True, timeout=60)
            os.close(out)
            os.close(into)
            told = done.stderr.decode().splitlines()
            want((done.returncode, told[0]) == (3, "NOT READY") and "O_NONBLOCK" in told[1], f"{words[0]}: an input that doesn't wait: {told}")
        want(self.image.read_bytes() == held, "an input that doesn't wait has changed the image")

    def limited(self):
        """A limit on a file's length, whose signal is ignored: `FILE`, and the image is as it was."""
        self.fresh()
        held = self.image.read_bytes()
        # this program ignores the signal, and hands that on
        limits = {"restore_signals": False, "preexec_fn": lambda: resource.setrlimit(resource.RLIMIT_FSIZE, (200000, 200000))}
        got = self.served(b"1,1,S,1,5\n", **limits)
        want(got == (3, [], "FILE"), f"a limit on a file's length: {got}")
        want(self.image.read_bytes() == held, "a limit on a file's length has changed the image")
        self.answered("1,1,S,1,5", "1,1,DONE,5")

    def long_names(self):
        """Names of up to 255 bytes: words that read take each; those that need a log say that the name is too long for one."""
        self.fresh()
        held = self.image.read_bytes()
        for length in (247, 248, 251, 252, 255):
            named = self.folder / ("n" * (length - 4) + ".d64")
            named.write_bytes(held)
            for word in ("show", "check", "list", "map", "free"):
                status, _, told = run(self.program, word, named)
                want((status, told) == (0, ""), f"{word} of a name of {length} bytes: {status}, {told}")
            status, replies, told = run(self.program, "serve", named, "--explain", stdin=b"1,1,S,1,5\n")
            if length == 247:
                want((status, replies, told) == (0, ["1,1,DONE,5"], ""), f"serve of a name of {length} bytes: {status}, {told}")
            else:
                too_long = told.startswith("FILE\n") and "beside" in told and "File name too long" in told
                want((status, replies) == (3, []) and too_long, f"serve of a name of {length} bytes: {status}, {told}")
                want(named.read_bytes() == held, f"serve has changed an image with a name of {length} bytes")
            named.unlink()

    def no_image(self):
        """Images that are none: told as `play` tells them, and nothing is read or changed."""
        self.fresh()
        whole = self.image.read_bytes()
        # the first block of STOCK links to a track that there isn't
        broken = bytearray(whole)
        broken[256 * 336] = 40
        size, broken_link = "IMAGE SIZE", "LAYOUT BADLINK 17/0"
        for held, fault in [(whole[:-1], size), (whole + b"\0", size), (b"", size), (bytes(broken), broken_link)]:
            self.image.write_bytes(held)
            by_play = run(self.program, "play", self.image, script(self.folder, []))
            by_serve = self.served(b"1,1,S,1,1\n")
            want(by_serve == by_play == (1, [], fault), f"{fault} is told as {by_serve}, and by play as {by_play}")
            want(self.image.read_bytes() == held, "an image that is refused has changed")
        for path in [self.folder / "none.d64", self.folder]:
            got = run(self.program, "serve", path, stdin=b"1,1,S,1,1\n")
            want(got == (3, [], "FILE"), f"serve {path}: {got}")
        want(not (self.folder / "none.d64").exists(), "an image that isn't there was made")

    # --- a medium that fails
    # -------------------------------------------------------------------------------------------

    def log_fails(self):
        """The sync of a commit fails once."""
        self.fresh()
        served = Served(self.program, self.image, before=injecting("fdatasync", 1))
        want(served.ask(GROWS) is None, "a reply is told though the log isn't on the disk")
        want(served.finish() == (3, [], "DEVICE"), "a log that isn't on the disk doesn't end with DEVICE")
        self.answered(GROWS, "1,1,DONE,7")
        want(sure(self.program, "check", self.image) == ["OK"], "check isn't OK after it")


def injecting(call, times):
    inject = f"inject={call}:error=EIO:when={times}"
    return ["strace", "-f", "-qq", "-o", os.devnull, "-e", f"trace={call}", "-e", inject]


def peak(process):
    """The most memory in kB that a process has had."""
    status = Path(f"/proc/{process}/status").read_text()
    return int(status.split("VmHWM:")[1].split()[0])


def try_device(ends):
    if not shutil.which("strace"):
        print("writes and syncs that fail: not tried, there is no strace (Debian's package strace)")
        return
    ends.log_fails()
    print(f"log_fails: {ends.log_fails.__doc__}")


def main(given):
    with tempfile.TemporaryDirectory() as folder:
        ends = Ends(given.program, Path(folder))
        lines = [ends.reply_while_open, ends.in_order, ends.unfinished, ends.odd_lines, ends.long_line]
        everywhere = [*lines, ends.output_fails, ends.input_fails, ends.input_waits_not, ends.limited, ends.long_names]
        for tried in [*everywhere, ends.no_image, ends.readers]:
            tried()
            print(f"{tried.__name__}: {' '.join(tried.__doc__.split())}", flush=True)
            passed()
        try_device(ends)
    passed()


if __name__ == "__main__":
    conduct(main)
