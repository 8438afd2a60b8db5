#!/usr/bin/env python3
"""A shop in SQLite that serves lines as `serve` does, for bench/serve.sh to time beside it:

    bench/serve_sqlite.py DATABASE wal|delete [together]

One table has what is on hand, one the last two requests of each till with their answers; a request that is kept is
one transaction, which is on the disk before its reply is printed: with the write-ahead log and synchronous=FULL, or
with the rollback journal that SQLite has by itself. With `together` the requests at hand are one transaction."""

import os
import sqlite3
import sys
from pathlib import Path

sys.path.insert(0, str(Path(__file__).resolve().parent.parent / "tests" / "lib"))
from shop_rule import Shop

TABLES = """
create table if not exists stock (item integer primary key, quantity integer not null);
create table if not exists kept (till integer, number integer, kind text, item integer, quantity integer, there integer,
    answer text, primary key (till, number)) without rowid;
"""


class Database(Shop):
    """A shop in the two tables."""

    def __init__(self, path, journal):
        super().__init__()
        self.base = sqlite3.connect(path, isolation_level=None)
        self.base.execute(f"pragma journal_mode={journal}")
        self.base.execute("pragma synchronous=FULL")
        self.base.executescript(TABLES)

    def on_hand(self, item):
        row = self.base.execute("select quantity from stock where item = ?", (item,)).fetchone()
        return row and row[0]

    def last_two(self, till):
        rows = self.base.execute("select * from kept where till = ? order by number desc", (till,))
        return [(number, tuple(body), answer) for _, number, *body, answer in rows]

    def keep(self, till, number, body, answer, changes):
        alone = not self.base.in_transaction
        if alone:
            self.base.execute("begin immediate")
        self.base.execute("delete from kept where till = ? and number < ?", (till, number - 1))
        self.base.execute("insert into kept values (?, ?, ?, ?, ?, ?, ?)", (till, number, *body, answer))
        self.base.executemany("insert or replace into stock values (?, ?)", changes.items())
        if alone:
            self.base.execute("commit")

    def replies(self, lines):
        """The replies to these lines, of one transaction."""
        self.base.execute("begin immediate")
        told = [self.reply(line.removesuffix("\r")) for line in lines]
        self.base.execute("commit")
        return told


def at_hand():
    """The lines that each read gives."""
    held = b""
    while read := os.read(0, 65536):
        *lines, held = (held + read).split(b"\n")
        yield [line.decode("latin-1") for line in lines]


def main():
    if len(sys.argv) not in (3, 4) or sys.argv[2] not in ("wal", "delete") or sys.argv[3:] not in ([], ["together"]):
        sys.exit(__doc__)
    shop = Database(*sys.argv[1:3])
    if sys.argv[3:]:
        for lines in at_hand():
            sys.stdout.write("".join(f"{reply}\n" for reply in shop.replies(lines)))
            sys.stdout.flush()
        return
    for line in sys.stdin:
        print(shop.reply(line.removesuffix("\n").removesuffix("\r")), flush=True)


main()
