#!/usr/bin/env python3
"""Tries the completions of the package, in the shells that they are for:

    tests/package/completions.py NAME BASH ZSH FISH

NAME is the command, the others are its completions' files. bash and zsh run at a terminal of their own, where lines are typed with
the tabulator key in them; a stand-in for the command prints the words that it gets. fish is asked what it would complete. Files'
names have blanks and quotation marks. All is done again under the short name `ledger`, once what KEEPERS says for each shell was done.
Wants Debian's packages bash, zsh and fish. The status is 1 where a shell says something else."""

import os
import pty
import select
import subprocess
import sys
import tempfile
import time
from pathlib import Path

sys.dont_write_bytecode = True
sys.path.insert(0, str(Path(__file__).resolve().parents[1] / "lib"))
from served import differs, want

FILES = ("a shop.d64", "it's.d64", "b.d64", "--odd.d64")
# what is typed behind the command's name, and the words that it then gets
LINES = (
    ("ch\t", ["check"]),
    ("pic\t", ["picture"]),
    ("--ver\t", ["--version"]),
    ("help rec\t", ["help", "records"]),
    ("check a\t", ["check", "a shop.d64"]),
    ("check it\t", ["check", "it's.d64"]),
    ("check ./b\t", ["check", "./b.d64"]),
    ("format --ti\t4 b\t", ["format", "--tills", "4", "b.d64"]),
    # a number is completed by nothing, and neither is the name of a file within an image
    ("format --tills b\tx", ["format", "--tills", "bx"]),
    ("records b\t", ["records", "b.d64"]),
    ("records b.d64 b\tx", ["records", "b.d64", "bx"]),
    ("make --length 9 b\t", ["make", "--length", "9", "b.d64"]),
    # neither of a file's two names is that of a file in the folder
    ("rename b.d64 A b\tx", ["rename", "b.d64", "A", "bx"]),
    ("copy b.d64 a\t", ["copy", "b.d64", "a shop.d64"]),
    ("put b.d64 N a\t", ["put", "b.d64", "N", "a shop.d64"]),
    ("store b.d64 N a\t", ["store", "b.d64", "N", "a shop.d64"]),
    ("serve --acc\tb.d64", ["serve", "--accept-loss", "b.d64"]),
)
STAND_IN = """#!/bin/sh
printf '<<'
for word in "$@"; do printf '[%s]' "$word"; done
printf '>>\\n'
"""


class Terminal:
    """A shell at a terminal of its own."""

    def __init__(self, words, folder, path):
        self.child, self.end = pty.fork()
        if not self.child:
            os.chdir(folder)
            os.execvpe(words[0], words, {"PATH": f"{path}:/usr/bin:/bin", "HOME": str(folder), "TERM": "dumb", "LC_ALL": "C.UTF-8"})
        self.heard = b""

    def type(self, text):
        os.write(self.end, text.encode())

    def hears(self, mark, seconds=20):
        """What came up to this mark."""
        until = time.monotonic() + seconds
        while mark not in self.heard:
            left = until - time.monotonic()
            if left <= 0 or not select.select([self.end], [], [], left)[0]:
                differs(f"the shell is silent behind {self.heard[-300:]!r}")
            self.heard += os.read(self.end, 65536)
        part, _, self.heard = self.heard.partition(mark)
        return part

    def gets(self, line):
        """The words that the command gets from a line."""
        *parts, last = line.split("\t")
        for part in parts:
            self.type(part + "\t")
            time.sleep(0.2)
        self.type(last + "\n")
        self.hears(b"<<")
        return self.hears(b">>").decode()

    def leave(self):
        os.close(self.end)
        os.waitpid(self.child, 0)


def see(shell, name, terminal, first):
    """Types each line; gives how many there were."""
    for line in first:
        terminal.type(line + "\n")
    terminal.type("printf 'rea%s\\n' dy\n")
    terminal.hears(b"ready\r\n")
    for typed, words in LINES:
        got = terminal.gets(f"{name} {typed}")
        wanted = "".join(f"[{word}]" for word in words)
        want(got == wanted, f"{shell}: {typed!r} gives {got}, not {wanted}")
    terminal.leave()
    return len(LINES)


def see_fish(name, first, folder, path):
    """Asks fish what it would complete at the end of each line that ends with a tabulator key; gives how many there were."""
    asked = [(typed.removesuffix("\t"), words[-1]) for typed, words in LINES if typed.count("\t") == 1 and typed.endswith("\t")]
    for typed, wanted in asked:
        done = subprocess.run(["fish", "--no-config", "-c", f"{first}; complete -C $argv[1]", f"{name} {typed}"], cwd=folder,
                              stdout=subprocess.PIPE, check=True, text=True, env={"PATH": f"{path}:/usr/bin:/bin", "HOME": str(folder)})
        found = [row.split("\t")[0].replace("\\", "") for row in done.stdout.splitlines()]
        want(any(it.endswith(wanted.removeprefix("./")) for it in found), f"fish: {typed!r} gives {found}, not {wanted}")
    return len(asked)


def main(name, bash, zsh, fish):
    with tempfile.TemporaryDirectory() as room:
        folder, path, functions = (Path(room) / it for it in ("disks", "bin", "functions"))
        for it in (folder, path, functions):
            it.mkdir()
        for it in FILES:
            (folder / it).touch()
        (path / name).write_text(STAND_IN)
        (path / name).chmod(0o755)
        (functions / f"_{name}").write_bytes(Path(zsh).read_bytes())
        (path / "ledger").symlink_to(name)
        tried = 0
        for typed, for_zsh, for_fish in ((name, (), ""), ("ledger", (f"compdef _{name} ledger",), f"; complete -c ledger -w {name}")):
            tried += see("bash", typed, Terminal(["bash", "--norc", "--noprofile", "-i"], folder, path), (
                "bind 'set enable-bracketed-paste off'", f"source {Path(bash).resolve()}"))
            tried += see("zsh", typed, Terminal(["zsh", "-f", "-i"], folder, path), (
                f"fpath=({functions} $fpath); unset zle_bracketed_paste; autoload -Uz compinit; compinit -u -D", *for_zsh))
            tried += see_fish(typed, f"source {Path(fish).resolve()}{for_fish}", folder, path)
    print(f"completions: {tried} lines completed by bash, zsh and fish: no difference")


if __name__ == "__main__":
    if len(sys.argv) != 5:
        sys.exit(__doc__)
    main(*sys.argv[1:])
