#!/usr/bin/env python3
"""Refuses the built program each piece of memory in turn, and looks at what it does:

    tests/hostile/refused_memory.py PROGRAM

PROGRAM is what `tools/program` prints. Each of its words is run over and over: the first request for memory is refused, then the
second, and so on, until a run has none left to refuse. Each time
- it ends with status 3 and `NO MEMORY`, with nothing printed and no image changed; `serve` and `play --sync` may have printed all
  replies, if they were refused the memory to land the log, which stays;
- or, where it can do without, it does and prints what it does with all its memory.
A small library that is loaded before the program refuses the memory; it is made with `cc`. It prints how much was tried. The
status is 1 at the first difference."""

import os
import subprocess
import sys
import tempfile
from pathlib import Path

sys.dont_write_bytecode = True
sys.path.insert(0, str(Path(__file__).resolve().parents[1] / "lib"))
from commands import CHANGES, COMMANDS, COPY, IMAGE, LOOKS, PRINT_REFUSALS, command, scene
from trial import conduct, need

LIBRARY = r"""
#include <fcntl.h>
#include <stddef.h>
#include <stdlib.h>

void *__libc_malloc(size_t size);
void *__libc_realloc(void *old, size_t size);

static long left = -1;

__attribute__((constructor)) static void begin(void) {
    const char *word = getenv("REFUSED");
    left = word ? atol(word) : -1;
}

/* counts a request, and leaves a file behind where it is the one that is refused */
static int refused(void) {
    if (left < 0 || left-- > 0) return 0;
    open(getenv("REFUSED_MARK"), O_CREAT | O_WRONLY, 0600);
    return 1;
}

void *malloc(size_t size) { return refused() ? NULL : __libc_malloc(size); }
void *realloc(void *old, size_t size) { return refused() ? NULL : __libc_realloc(old, size); }
"""

DAY = b"1,1,S,15,7\n1,1,S,15,7\n@3 1,2,S,30,4\n1,2,S,30,4\n2,1,M,15,3,30\n2,2,I,15,9\nhello\n"
LINES = DAY.replace(b"@3 ", b"")
# records of a file NOTES: one that is there, one behind three blocks of growth, and one as a spreadsheet writes it
RECORDS = b"1,\"MILK\\0d\"\n30,\"\\ffx\"\n2,EGGS\r\n"
MOST = 5000
TAG = b"LOG AWAY"


class Trial:
    def __init__(self, folder):
        self.folder = folder
        self.library = folder / "refused.so"
        self.mark = folder / "mark"
        self.tried = 0
        source = folder / "refused.c"
        source.write_text(LIBRARY)
        subprocess.run(["cc", "-O2", "-shared", "-fPIC", "-o", self.library, source], check=True)

    def run(self, words, number=None, given=b""):
        """The status and both outputs, with this on standard input; and whether the request with this number was refused."""
        self.mark.unlink(missing_ok=True)
        environment = dict(os.environ)
        if number is not None:
            environment |= {"LD_PRELOAD": str(self.library), "REFUSED": str(number), "REFUSED_MARK": str(self.mark)}
        done = subprocess.run(words, cwd=self.folder, env=environment, input=given, capture_output=True, timeout=120)
        return (done.returncode, done.stdout, done.stderr), self.mark.exists()

    def files(self):
        """The images, each without the tag that says that its log stands beside it, if it does."""
        found = {path.name: path.read_bytes() for path in self.folder.glob("*.d64")}
        logged = {path.name.removesuffix("-log") for path in self.folder.glob("*.d64-log")}
        return {name: held.replace(TAG, bytes(8)) if name in logged else held for name, held in found.items()}

    def each(self, words, begin, wanted, status=0, given=b""):
        """Runs the words with each request refused in turn, each time on the files that `begin` makes; with all memory they
        end with the status. `wanted` judges what the run said and left, beside what it says and leaves with all its memory."""
        begin()
        before = self.files()
        whole, _ = self.run(words, given=given)
        if whole[0] != status:
            print(f"{words}: {whole} in place of status {status}")
            sys.exit(1)
        after = self.files()
        for number in range(MOST):
            begin()
            said, hit = self.run(words, number, given)
            if not hit:
                return number
            self.tried += 1
            left = self.files()
            if (said, left) != (whole, after) and not wanted(said, left == before):
                print(f"{words}, request {number} refused: {said}, files {'as before' if left == before else 'changed'}")
                sys.exit(1)
        print(f"{words}: more than {MOST} requests for memory")
        sys.exit(1)

    def sure(self, *words):
        """Runs words that have to end with status 0."""
        said, _ = self.run(words)
        if said[0] != 0:
            print(f"{words}: {said}")
            sys.exit(1)


def no_memory(said, same):
    return said == (3, b"", b"NO MEMORY\n") and same


def no_memory_printed(said, same):
    """The refusal stands in the output of a command that prints it."""
    status, out, err = said
    return same and status == 3 and (no_memory(said, same) or (err == b"" and b"NO MEMORY" in out))


def no_memory_or_unlanded(replies):
    """The same, but the replies may have been printed."""
    return lambda said, same: no_memory((said[0], b"" if said[1] == replies else said[1], said[2]), same)


class Disks:
    """The files on which the commands are run; each image is made once."""

    def __init__(self, trial, program):
        self.trial, self.program, self.made = trial, program, {}

    def put(self, name, make):
        """The image of this name, made where it wasn't yet, with no log beside it and nothing that a command made."""
        image = self.trial.folder / IMAGE
        for log in self.trial.folder.glob(IMAGE + "-log*"):
            log.unlink()
        if name not in self.made:
            make()
            self.made[name] = image.read_bytes()
        image.write_bytes(self.made[name])

    def scene(self):
        """A shop for two tills, with an empty file NOTES."""
        self.put("scene", lambda: None)

    def played(self):
        """The shop after a short day."""
        self.put("played", lambda: (self.scene(), self.trial.sure(self.program, "play", IMAGE, "day")))

    def wrong(self):
        """The shop after the day, with wrong counts of free sectors and of a file's blocks."""
        self.played()
        image = self.trial.folder / IMAGE
        held = bytearray(image.read_bytes())
        for at in (MAP + 4, DIRECTORY + 30):
            held[at] ^= 1
        image.write_bytes(held)


# where 18/0 and 18/1 begin
MAP, DIRECTORY = 357 * 256, 358 * 256


def lines_of(disks):
    """Each command, the files on which it is run, and its status; then some over a shop after a day, and over a wrong map."""
    for each in COMMANDS:
        yield each, disks.scene, 0
    for words in (f"check {IMAGE}", f"list {IMAGE}", f"show {IMAGE}", f"records {IMAGE} STOCK", f"copy {IMAGE} {COPY}"):
        yield command(LOOKS, words, f"{words.split()[0]} of a played shop"), disks.played, 0
    yield command(CHANGES, f"store {IMAGE} NOTES grown", "store of a file that grows"), disks.scene, 0
    yield command(CHANGES, f"play {IMAGE} day", "play, a day with resets"), disks.scene, 0
    yield command(CHANGES, f"repair {IMAGE}", "repair of a wrong map"), disks.wrong, 0
    yield command(LOOKS, f"map {IMAGE}", "map of a wrong map"), disks.wrong, 1
    yield command(LOOKS, f"picture {IMAGE}", "picture of a wrong map"), disks.wrong, 1


def main(given):
    program = Path(given.program)
    need("cc")
    with tempfile.TemporaryDirectory() as name:
        scene(program, Path(name), script=LINES)
        trial = Trial(Path(name))
        for file, text in (("day", DAY), ("grown", RECORDS)):
            (trial.folder / file).write_bytes(text)
        disks = Disks(trial, program)
        for command, begin, status in lines_of(disks):
            words, given = [program, *command.over()], command.given
            wanted = no_memory_printed if command.name in PRINT_REFUSALS else no_memory

            def anew():
                begin()
                command.forget(trial.folder)

            if command.words[0] == "serve" or "--sync" in command.words:
                given = LINES if command.given else b""
                anew()
                wanted = no_memory_or_unlanded(trial.run(words, given=given)[0][1])
            count = trial.each(words, anew, wanted, status, given)
            print(f"{command.name}: {count} requests for memory refused in turn", flush=True)
        print(f"{trial.tried} refusals, no difference")
    return trial.tried


if __name__ == "__main__":
    conduct(main)
