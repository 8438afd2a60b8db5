#!/usr/bin/python3
"""Whether the tests of the pages' modules see a wrong page:

    tests/network/page_mutants.py

Each mutant is one edit that changes what a module promises; `node --test` has to fail on it. The last line is
`N seen, M not seen`, and the status is 1 if one wasn't seen. It wants Debian's nodejs."""

import os
import shutil
import subprocess
import sys
import tempfile
from pathlib import Path

sys.dont_write_bytecode = True
sys.path.insert(0, str(Path(__file__).resolve().parents[1] / "lib"))
from trial import conduct

PAGES = Path(__file__).resolve().parents[2] / "shop" / "pages"
# file, what stands there, what stands there in its place, what would be wrong then
MUTANTS = [
    ("queue.js", "{ last: number, open, isSent: false, more, unseen } };", "{ last: number, open, isSent: true, more, unseen } };", "a wish counts as asked before its number is taken"),
    ("queue.js", "[open = null, ...more] = book.more;", "[open = null, ...more] = [...book.more].reverse();", "wishes are sent in another order"),
    ("queue.js", "isDone(answer) ? book.unseen", "true ? book.unseen", "a SHORT isn't shown until it is seen"),
    ("queue.js", "[...book.more, wish] };", "[wish] };", "a wish that waits is forgotten"),
    ("queue.js", 'const NEVER_DONE = ["AHEAD", "CLASH"];', 'const NEVER_DONE = ["AHEAD", "CLASH", "STALE"];', "a wish that may count is sent again"),
    ("queue.js", "? book.more : waiting(book)", "? waiting(book).map((one) => one.wish) : waiting(book)", "a wish that may have been asked is sent again"),
    ("queue.js", "isKept ? undone(book, word) : []", "undone(book, word)", "what a person dropped is sent"),
    ("queue.js", "book.open !== null && kept.isSent !== false", "book.open !== null && kept.isSent === true", "an old book's open wish counts as never asked"),
    ("queue.js", "count >= MOST_WAITING", "count > MOST_WAITING", "one wish too many waits"),
    ("marks.js", "if (lastUsed(0, taken) > number) return taken;", "", "an older number erases those of others"),
    ("marks.js", "taken.has(next) ? taken.get(next) === mark : book.isSent === true", "true", "a device asks with another one's number"),
    ("marks.js", "if (lastUsed(shop, taken) < next) return true;", "return true;", "numbers aren't compared"),
    ("session.js", "if (!(await this.keep(queue.sent(this.book)))) return;", "this.book = queue.sent(this.book);", "a wish is asked before the book says so"),
    ("session.js", "if (isOther || !this.fits(this.book)) return this.ask(isOther);", "if (isOther) return this.ask(isOther);", "a used number isn't asked about"),
    ("session.js", "filter(([other]) => other > number)", "filter(() => false)", "a lost device's number isn't free"),
    ("session.js", "!this.isLikely(typed)", "false", "a number that can't be the shop's is taken"),
    ("session.js", 'else if (topic === this.topics.replies && !isRetained)', 'else if (topic === this.topics.replies)', "a retained reply is heard"),
    ("session.js", "this.halt !== null || !this.holds ? null :", "", "a reply is heard over a connection that isn't the till's"),
    ("rules.js", "2 * Math.abs(after - before) > before", "2 * (before - after) > before", "more than half more isn't asked about"),
    ("rules.js", "2 * Math.abs(after - before) > before", "Math.abs(after - before) > before", "only more than all is asked about"),
    ("sign.js", "if (known.shop !== shop)", "if (false)", "another shop's code signs in"),
    ("sign.js", 'code: given.get("code") }', 'code: given.get("code") ?? given.get("password") }', "an address's password is taken"),
    ("sign.js", "answer.status === 404 && known.fault ?", "answer.status === 404 ?", "a missing service looks like a used code"),
    ("worker.js", '"queue.js", ', "", "a page without net lacks a file"),
]


def sees(folder: Path) -> bool:
    done = subprocess.run(["node", "--test", "tests/"], cwd=folder, capture_output=True, text=True, env={**os.environ, "WORLDS": "400"})
    return done.returncode != 0


def main(given):
    seen, unseen = 0, 0
    with tempfile.TemporaryDirectory() as name:
        folder = Path(name) / "pages"
        shutil.copytree(PAGES, folder)
        if sees(folder):
            sys.exit("page_mutants: the tests fail on the pages as they are")
        for file, there, instead, wrong in MUTANTS:
            path = folder / "till" / file
            text = path.read_text()
            if text.count(there) != 1:
                sys.exit(f"page_mutants: {file} has {text.count(there)} times {there}")
            path.write_text(text.replace(there, instead))
            is_seen = sees(folder)
            path.write_text(text)
            seen, unseen = seen + is_seen, unseen + (not is_seen)
            print(f"{'seen' if is_seen else 'NOT SEEN'}: {file}: {wrong}", flush=True)
    return seen, unseen


if __name__ == "__main__":
    conduct(main, wants_program=False)
