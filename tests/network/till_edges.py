#!/usr/bin/env python3
"""A till's own part at its edges, without a broker:

    tests/network/till_edges.py PROGRAM

- Replies that aren't wholly an answer to the open wish: ignored, and the book doesn't change.
- Two tills with one book: the second one ends with status 4 and asks nothing.
- Books that are damaged, or no book at all: a line that says which line it is, status 4, and the file is unchanged. Books
  that broke off at each byte of the last line, with NUL bytes after it: the till goes on.
- A typing error: asked again on a terminal, skipped with status 1 on a pipe, the end with status 1 in a file.
- An account from a file, from systemd's credential, from the environment, in that order; one that others can read, or
  that is no line USER:PASSWORD, and places of brokers with a password or without TLS: refused.
- Without python3-pika: a till with a pipe works, one with a broker ends with status 4 and a word.
- A broker that isn't there, and a command that doesn't answer: the till says so after some seconds, and asks on."""

import os
import pty
import shlex
import socket
import subprocess
import sys
import tempfile
import time
from pathlib import Path

sys.dont_write_bytecode = True
sys.path.insert(0, str(Path(__file__).resolve().parents[1] / "lib"))
from served import sure, want
from shop_paths import PYTHON, SHOP, command
from trial import conduct

from ledger_shop import account, wishes

# what is no answer to `3,5,R,1,5`, `3,5,S,1,5` or `3,5,M,1,5,2`
FORGED = {
    "R,1,5": ["", "3,5,", "3,5,DONE", "3,5,DONE,", "3,5,DONE,5\n", "3,5,DONE,5\n= 999999999,DONE,1", "3,5,DONE,5\r"],
    "S,1,5": ["3,5,DONE,05", "3,5,DONE,5,6", "3,5,DONE,+5", "3,5,DONE, 5", "3,5,DONE,1000000000", "3,5,NO CARD"],
    "M,1,5,2": ["3,5,DONE,5", "3,5,DONE,5,6,7", "3,5,done,5,6", "3,5,DONE,5,\x1b[2J6", "3,4,DONE,5,6", "13,5,DONE,5,6"],
    "I,1,5": ["3,5,OVER,5", "3,5,SHORT", "3,5,SHORT,\u0663", "3,5,NO CARD ", "3,50,DONE,5", "30,SYNTAX ERROR,00,00"],
}
GOOD = ["? 1,S,1,10", "= 1,DONE,10", "? 2,I,1,3", "= 2,DONE,7"]
# books whose last line doesn't count, and what isn't a book
DAMAGED = [
    b"x\n",
    b"\n",
    b"\xff\xfe\n",
    b"? 1,garbage\n",
    b"= -5,x\n",
    b"= 1,DONE,10\n= 999999999,DONE,1\n",
    b"? 1,S,1,10\n= 1,DONE,10\n? 3,R,1,1\n",
    b"? 1,S,1,10\n? 1,S,1,10\n",
    b"? 1,S,1,10\n= 1,DONE,10\n\n",
    b"? 1,S,1,10\x00\n",
    b"a letter that nobody wants to lose, without an end of its line",
    bytes(range(1, 256)),
]


class Pipes:
    """A shop behind a bridge that each till starts anew."""

    def __init__(self, program, folder):
        self.folder, self.image = folder, folder / "shop.d64"
        sure(program, "format", self.image, "--tills", 64)
        bridge = f"'{SHOP / 'ledger-shop'}' bridge '{self.image}' --pipes --program '{program}'"
        self.words = ["--pipe", f"{PYTHON} {bridge}"]

    def till(self, number, book, typed=None, **more):
        """A till's run: its status, and what it printed."""
        asked = command("till", number, "--book", book, *self.words)
        done = subprocess.run([*map(str, asked)], input=typed, capture_output=True, text=True, timeout=120, **more)
        return done.returncode, done.stdout.splitlines(), done.stderr

    def start(self, *words):
        pipes = {"stdin": subprocess.PIPE, "stdout": subprocess.PIPE, "stderr": subprocess.PIPE, "text": True}
        return subprocess.Popen([*map(str, command(*words))], **pipes)


def forged(folder):
    count = 0
    for number, (wish, replies) in enumerate(FORGED.items()):
        path = folder / f"forged{number}"
        path.write_text("= 4,lost\n")
        till = wishes.Till(3, wishes.Book(path))
        till.wish(wish)
        before = path.read_bytes()
        for reply in replies:
            want(till.hear(reply) is None and till.open == wish, f"{reply!r} is heard as an answer to {wish}")
            want(path.read_bytes() == before, f"{reply!r} changes the book")
            count += 1
    return count


def one_book(shop):
    book = shop.folder / "shared"
    first = shop.start("till", 1, "--book", book, *shop.words)
    first.stdin.write("S,1,5\n")
    first.stdin.flush()
    want(first.stdout.readline() == "1 S,1,5 DONE,5\n", "the first till isn't answered")
    status, out, err = shop.till(1, book, "R,1,5\n")
    want((status, out) == (wishes.LOOK, []) and "in use" in err, f"a second till with one book: {status} {out} {err}")
    first.stdin.write("R,1,5\n")
    first.stdin.close()
    want(first.stdout.read() == "2 R,1,5 DONE,10\n", "the first till isn't answered any more")
    first.wait(60)


def books(shop):
    count = 0
    for number, text in enumerate(DAMAGED):
        book = shop.folder / f"damaged{number}"
        book.write_bytes(text)
        status, out, err = shop.till(2, book, "S,2,1\n")
        want((status, out) == (wishes.LOOK, []), f"a book {text!r}: status {status}, {out}")
        want(err.startswith("till 2: ") and len(err.splitlines()) == 1 and str(book) in err, f"a book {text!r}: {err}")
        want(book.read_bytes() == text, f"a book {text!r} is changed")
        # what the message says to do, if it is a book
        if text.endswith(b"\n"):
            book.write_bytes(text + b"= 17,lost\n")
            want(wishes.Till(2, wishes.Book(book)).last == 17, f"a book {text!r} isn't begun again")
        count += 1
    return count


def broken_off(folder):
    """A book that ends with a part of its last line."""
    text = "".join(line + "\n" for line in GOOD).encode()
    start = text.rindex(b"\n", 0, -1) + 1
    for end in range(start, len(text)):
        for tail in (b"", bytes(40)):
            book = folder / f"broken{end}{len(tail)}"
            book.write_bytes(text[:end] + tail)
            till = wishes.Till(2, wishes.Book(book))
            want((till.last, till.open) == (1, "I,1,3"), f"a book cut at {end}: {till.last} {till.open}")
            want(book.read_bytes() == text[:start], f"a book cut at {end} isn't cut to its lines")
    earlier = folder / "earlier"
    earlier.write_bytes(b"\xff\x00\n" + text)
    want(wishes.Till(2, wishes.Book(earlier)).last == 2, "damage in an older line")
    return 2 * (len(text) - start) + 1


def typed(shop):
    """The same wrong line on a terminal, a pipe and in a file."""
    lines = "S,3,1\nS,3\nR,3,1\n"
    answers = ["1 S,3,1 DONE,1", "2 R,3,1 DONE,2"]
    status, out, err = shop.till(3, shop.folder / "typed", lines)
    want((status, out) == (1, answers) and "'S,3' is no wish" in err, f"a pipe: {status} {out} {err}")
    (shop.folder / "wishes").write_text(lines)
    words = ["--wishes", shop.folder / "wishes"]
    asked = command("till", 4, "--book", shop.folder / "filed", *words, *shop.words)
    done = subprocess.run([*map(str, asked)], capture_output=True, text=True, timeout=120)
    want((done.returncode, done.stdout) == (1, "1 S,3,1 DONE,1\n"), f"a file: {done.returncode} {done.stdout}")
    ours, theirs = pty.openpty()
    asked = command("till", 5, "--book", shop.folder / "terminal", *shop.words)
    pipes = {"stdout": subprocess.PIPE, "stderr": subprocess.PIPE, "text": True}
    till = subprocess.Popen([*map(str, asked)], stdin=theirs, **pipes)
    os.close(theirs)
    os.write(ours, lines.encode() + b"\x04")
    out, err = till.communicate(timeout=120)
    os.close(ours)
    want((till.returncode, out.splitlines()) == (0, answers), f"a terminal: {till.returncode} {out} {err}")
    want("'S,3' is no wish" in err and "till 5, wish 3: " in err, f"a terminal: {err}")
    return 3


def without_pika(shop):
    """A Python that has no pika."""
    folder = shop.folder / "bare"
    folder.mkdir()
    (folder / "pika.py").write_text("raise ModuleNotFoundError('no pika', name='pika')\n")
    bare = {"env": {**os.environ, "PYTHONPATH": str(folder)}}
    status, out, err = shop.till(7, shop.folder / "bare.book", "S,7,1\n", **bare)
    want((status, out) == (0, ["1 S,7,1 DONE,1"]), f"without pika: {status} {out} {err}")
    asked = command("till", 7, "--book", shop.folder / "bare2.book")
    done = subprocess.run([*map(str, asked)], input="S,7,1\n", capture_output=True, text=True, timeout=60, **bare)
    want(done.returncode == wishes.LOOK and "python3-pika" in done.stderr and "Traceback" not in done.stderr, f"without pika: {done.stderr}")
    return 2


def accounts(folder):
    """Where an account comes from, and what is refused."""
    given, guarded = folder / "till.account", folder / "credentials"
    guarded.mkdir()
    (guarded / "account").write_text("till-1-2:of systemd\n")
    given.write_text("till-1-1:of:a file\n")
    given.chmod(0o600)
    here, systemd = {"LEDGER_ACCOUNT": "till-1-3:of the environment"}, {"CREDENTIALS_DIRECTORY": str(guarded)}
    found = [
        (account.account_of(given, {**here, **systemd}), ("till-1-1", "of:a file")),
        (account.account_of(None, {**here, **systemd}), ("till-1-2", "of systemd")),
        (account.account_of(None, here), ("till-1-3", "of the environment")),
        (account.account_of(None, {}), None),
    ]
    for is_so, wanted in found:
        want(is_so == wanted, f"an account {is_so}, not {wanted}")
    refused = 0
    for mode, text in [
        (0o640, "a:b\n"),
        (0o604, "a:b\n"),
        (0o600, "a\n"),
        (0o600, ""),
        (0o600, "a:b\nc:d\n"),
        (0o600, ":b\n"),
    ]:
        given.write_text(text)
        given.chmod(mode)
        refused += is_unfit(lambda: account.account_of(given, {}))
    for place in [
        "amqps://u:p@127.0.0.1/",
        "amqps://u@127.0.0.1/",
        "amqp://shop.example/",
        "http://127.0.0.1/",
        "amqps://h:x/",
        "",
    ]:
        refused += is_unfit(lambda: account.Place(place, "amqp"))
    want(refused == 12, f"{refused} unfit accounts and places are refused, not 12")
    for place, kind in [
        ("amqp://localhost/", "amqp"),
        ("mqtts://shop.example", "mqtt"),
        ("[::1]:1883", "mqtt"),
        ("127.0.0.1", "mqtt"),
    ]:
        account.Place(place, kind)
    account.Place("amqp://shop.example/", "amqp", plain=True)
    return len(found) + refused + 5


def is_unfit(act):
    try:
        act()
        return False
    except account.Unfit:
        return True


def silent(shop):
    """What a till says that waits."""
    with socket.create_server(("127.0.0.1", 0)) as held:
        port = held.getsockname()[1]
    standing = shop.folder / "standing"
    standing.write_text("#!/bin/sh\nexec sleep 60\n")
    standing.chmod(0o755)
    waits = [
        ("till", ["--broker", f"amqp://127.0.0.1:{port}/"], f"no broker at 127.0.0.1:{port}"),
        ("till-mqtt", ["--broker", f"mqtt://127.0.0.1:{port}"], f"no broker at 127.0.0.1:{port}"),
        ("till", ["--broker", f"amqps://127.0.0.1:{port}/"], f"no broker at 127.0.0.1:{port}"),
        ("till", ["--pipe", standing], "the command gives no answer"),
        ("till", ["--pipe", "true"], "the command ends"),
    ]
    tills = []
    for number, (script, words, text) in enumerate(waits):
        till = shop.start(script, 6, "--book", shop.folder / f"silent{number}", *words)
        till.stdin.write("S,6,1\n")
        till.stdin.flush()
        tills.append((till, text, words))
    began = time.monotonic()
    for till, text, words in tills:
        line = till.stderr.readline()
        want(text in line and "asks on" in line, f"{words}: {line}")
        want(till.poll() is None, f"{words}: the till ends")
    seconds = time.monotonic() - began
    want(seconds < 20, f"a till says what it waits for after {seconds:.0f} s")
    for till, _, _ in tills:
        till.kill()
        till.communicate()
    return len(waits)


def over_pipes(program, folder):
    """A till and a bridge over pipes, without a broker: its three wishes are answered, and the status says that one of them was refused."""
    (folder / "three").write_text("S,1,10\nI,1,3\nI,1,8\n")
    sure(program, "format", folder / "pipes.d64", "--tills", 4)
    bridge = shlex.join(map(str, [*command("bridge", folder / "pipes.d64"), "--pipes", "--program", program]))
    words = command("till", 2, "--book", folder / "pipes.book", "--wishes", folder / "three", "--pipe", bridge)
    done = subprocess.run([*map(str, words)], capture_output=True, text=True, timeout=60)
    told = done.stdout.splitlines()
    want(told == ["1 S,1,10 DONE,10", "2 I,1,3 DONE,7", "3 I,1,8 SHORT,7"], f"over pipes: {told}")
    want(done.returncode == 3, f"over pipes: status {done.returncode}, though a wish was refused")
    return 3


def main(given):
    program = given.program
    with tempfile.TemporaryDirectory() as folder:
        folder = Path(folder)
        piped = over_pipes(program, folder)
        shop = Pipes(program, folder)
        counts = [forged(folder), books(shop), broken_off(folder), typed(shop), accounts(folder), silent(shop), without_pika(shop)]
        one_book(shop)
    told = "{} forged replies, {} damaged books, {} that broke off, {} typing errors, {} accounts, {} silences, {} without pika".format(
        *counts
    )
    print(f"a till: {told}, two tills with one book: no difference")
    return piped + sum(counts) + 1


if __name__ == "__main__":
    conduct(main)
