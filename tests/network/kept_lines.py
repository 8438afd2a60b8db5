#!/usr/bin/env python3
"""A bridge's journal, without a broker:

    tests/network/kept_lines.py PROGRAM

- Two bridges over one image and one journal, where `serve` is killed beneath the first, and it goes on to hand a message
  over before it has seen that: the journal has the requests that were taken, in their order.
- A journal that breaks off at each third byte of its last lines, with and without NUL bytes after it, or with zeros in their midst:
  no cut request is handed over, the shop goes on, and the journal has each request once. The same for requests that were
  handed over together, and for journals of version 0.2.7. `tests/power/shop_power.py` tries journal, image and log together.
- A journal with a flipped bit in any fifth byte: the bridge serves, no request is lost that has a line of its own left, and the
  file as it was has another name.
- Messages that are handed over together, as a broker may deliver them: each has the reply that it has alone, of each till
  in its order, and the journal makes the same image.
- An image that is older than its journal, or another shop's: refused, and neither file is changed. One that was served
  without its journal meanwhile: served, and the journal says so. A file that is no journal: refused and unchanged. What
  follows the last whole line, of whatever kind: set aside.
- A journal in many files: each backup of the day and the files make the image that there is (`ledger-shop rebuild`); without one
  of the files, with another shop's backup, or over a file that is there, it refuses.
- What the bridge takes for a request is what `serve` takes for one, over many lines that nearly are."""

import random
import sys
import tempfile
import threading
from pathlib import Path

sys.dont_write_bytecode = True
sys.path.insert(0, str(Path(__file__).resolve().parents[1] / "lib"))
from served import Served, run, sure, want
from shop_paths import command
from shop_rule import SYNTAX, Shop
from trial import conduct

from ledger_shop import journal, service, wishes

REBUILD = command("rebuild")
DAY, LINES = 120, 3000
# how many messages are handed over together, in all
MANY = 2000


class Place:
    """A folder with an image and its journal."""

    def __init__(self, program, folder, name, tills=4):
        self.program, self.folder = program, folder
        self.image, self.kept = folder / f"{name}.d64", folder / f"{name}.lines"
        sure(program, "format", self.image, "--tills", tills)

    def serve(self, size=journal.SIZE):
        return service.Serve(self.program, str(self.image), journal.Journal(self.kept, size))

    def served(self, *requests, size=journal.SIZE):
        """A bridge that takes these; their replies."""
        serve = self.serve(size)
        serve.start()
        replies = [serve.hand(request.encode()).decode() for request in requests]
        serve.end()
        return replies

    def together(self, messages, wanted):
        """A bridge that takes these at once; `wanted` are their replies, or None."""
        serve = self.serve()
        serve.start()
        replies = serve.hand_all([(message, None) for message in messages])
        want(wanted in (None, replies), f"{messages} get {replies}")
        want(all(b",DONE," in reply for reply in replies) or wanted, f"{messages} get {replies}")
        serve.end()

    def refused(self, status):
        """The exit status of a bridge that doesn't serve, and leaves image and journal as they are."""
        before = self.image.read_bytes(), self.kept.read_bytes()
        serve = self.serve()
        try:
            serve.start()
            want(False, "it is served")
        except service.Gone as gone:
            want(gone.exit_status() == status, f"the bridge ends with {gone.exit_status()}, {gone}")
            want(not serve.is_open(), "serve goes on")
            want((self.image.read_bytes(), self.kept.read_bytes()) == before, "image or journal changed")
            return str(gone)

    def shown(self):
        return sure(self.program, "show", self.image)

    def fresh(self, image, kept):
        """This image with this journal, and nothing else."""
        for path in journal.files_of(self.kept):
            Path(path).unlink()
        self.image.write_bytes(image)
        self.kept.write_bytes(kept)

    def requests(self):
        """The requests that count, as the journal has them in all its files."""
        answers = journal.answers_in(journal.files_of(self.kept))
        return [one.request for one in answers if one.reply is None or journal.counts(one.request, one.reply)]


def two_bridges(place):
    first, second = place.serve(), place.serve()
    first.start()
    want(first.hand(b"1,1,S,7,1") == b"1,1,DONE,1", "the first request isn't answered")
    first.process.kill()
    other = threading.Thread(target=second.start)
    other.start()
    other.join(2)
    try:
        first.hand(b"1,2,S,8,5")
        want(False, "a serve that was killed answers")
    except service.Gone as gone:
        want(gone.exit_status() == service.AGAIN, f"the first bridge ends with {gone.exit_status()}")
    other.join()
    # what the first bridge kept last is taken by now; then a request whose answer hangs on that, and the repeat
    for line, reply in [(b"2,1,I,8,2", b"2,1,DONE,3"), (b"1,2,S,8,5", b"1,2,DONE,5")]:
        want(second.hand(line) == reply, f"{line} doesn't get {reply}")
    second.end()
    sure(
        *REBUILD, place.folder / "new.d64", place.kept, "--tills", 4, "--image", place.image, "--program", place.program
    )


def torn(text, synced, step):
    """What a power cut can leave of a journal whose first bytes are synced: cut at each step after that, with zeros behind it
    or without, or with a hole of 30 zeros there."""
    for number, end in enumerate(range(synced, len(text) + 1, step)):
        yield text[:end] + bytes(512 * (number % 2))
        yield text[:end] + bytes(min(30, len(text) - end)) + text[end + 30 :]


def broken_off(place, form):
    """A request that is alone: each journal that a power cut can leave of its `takes` line, before it was handed over, and of
    its reply and the next `takes` line, after."""
    place.served("1,1,S,5,10", "2,1,I,5,3")
    before = place.image.read_bytes()
    place.served("1,2,S,6,11")
    whole, text = place.image.read_bytes(), form(place.kept.read_bytes())
    taken, told = sized(form, place.kept.read_bytes(), 3, False), sized(form, place.kept.read_bytes(), 3, True)
    more = form(place.kept.read_bytes() + journal.checked("# 2026-11-26T19:05:13.000Z takes 3,1,R,5,1"))
    cuts = 0
    for synced, most, images in ((told, taken, (before,)), (taken, len(more), (before, whole))):
        for kept in torn(more[:most], synced, 3):
            is_told = kept.startswith(text)
            for image in images[is_told:]:
                place.fresh(image, kept)
                got = place.served("1,2,S,6,11", "2,2,I,6,1")
                want(got == ["1,2,DONE,11", "2,2,DONE,10"], f"{kept[told:]}: replies {got}")
                requests = [request for request in place.requests() if not request.startswith("3,")]
                want(requests == ["1,1,S,5,10", "2,1,I,5,3", "1,2,S,6,11", "2,2,I,6,1"], f"{kept[told:]}: {requests}")
                cuts += 1
    return cuts


def sized(form, kept, count, is_before):
    """How many bytes a journal has with so many requests taken, up to the last of them or without it."""
    at = -1
    for _ in range(count):
        at = kept.index(b" takes ", at + 1)
    end = kept.rindex(b"\n", 0, at) + 1 if is_before else kept.index(b"\n", at) + 1
    return len(form(kept[:end]))


def present(kept):
    """A journal's bytes as this version writes them."""
    return kept


def earlier(kept):
    """A journal as version 0.2.7 wrote it: no checks, and one line for a request that is alone."""
    lines, out = [line.rpartition(b" =")[0] for line in kept.splitlines()], b""
    for number, line in enumerate(lines):
        alone = line.split(b" takes ")[1] if b" takes " in line and line.count(b" ") == 3 else None
        if alone:
            out += line.split(b" ")[1] + b" " + alone + b" -> "
            if number + 1 < len(lines):
                out += lines[number + 1].split(b" -> ")[1] + b"\n"
        elif not (b" -> " in line and lines[number - 1].count(b" ") == 3 and b" takes " in lines[number - 1]):
            out += line + b"\n"
    return out


def taken_together(place, form):
    """Three requests that were handed over together: each journal that a power cut can leave, before image and after."""
    place.served("1,1,S,5,10", "2,1,I,5,3")
    before = place.image.read_bytes()
    asked = [b"1,2,S,6,11", b"2,2,I,5,1", b"2,1,I,5,3", b"3,1,R,5,4", b"hello"]
    wanted = [b"1,2,DONE,11", b"2,2,DONE,6", b"2,1,DONE,7", b"3,1,DONE,10", service.SYNTAX]
    place.together(asked, wanted)
    kept, whole = place.kept.read_bytes(), place.image.read_bytes()
    text, told, taken = form(kept), sized(form, kept, 3, True), sized(form, kept, 3, False)
    want(b"Z takes 1,2,S,6,11 2,2,I,5,1 3,1,R,5,4" in text[told:taken], f"the journal has {text[told:taken]}")
    tried = 0
    for synced, most, images in ((told, taken, (before,)), (taken, len(text), (before, whole))):
        for kept in torn(text[:most], synced, 7):
            is_told = any(line in kept[taken:] for line in text[taken:].splitlines(keepends=True))
            for image in images[is_told:]:
                tried += 1
                place.fresh(image, kept)
                place.together([b"2,2,I,5,1", b"1,2,S,6,11", b"3,1,R,5,4", b"2,3,I,6,1"], None)
                requests = place.requests()
                want(len(requests) == 6 == len(set(requests)), f"{kept[told:]}: {requests}")
                stock = sorted(line for line in place.shown() if line.startswith("CARD "))
                want(stock == ["CARD 5,10", "CARD 6,10"], f"{kept[told:]}: {stock}")
    return tried


def flipped(place, draw):
    """A bit that is flipped at any place of a journal: what has a line left is played again."""
    asked = ["1,1,S,5,10", "2,1,I,5,3", "1,2,S,6,11", "2,2,I,6,1", "3,1,R,5,4", "1,3,M,5,2,6"]
    place.served(*asked)
    text, whole = place.kept.read_bytes(), place.image.read_bytes()
    for at in range(0, len(text), 5):
        kept = bytearray(text)
        kept[at] ^= 1 << draw.randrange(8)
        place.fresh(whole, bytes(kept))
        want(place.served("4,1,R,5,1") == ["4,1,DONE,10"], f"bit at {at}: another reply")
        files = journal.files_of(place.kept)
        want(len(files) == 2 and Path(files[0]).read_bytes() == bytes(kept), f"bit at {at}: {files}")
        want(place.requests() == [*asked, "4,1,R,5,1"], f"bit at {at}: {place.requests()}")
    return len(text) // 5


def handed_together(place, draw):
    """A day of messages, handed over some at a time."""
    rule, numbers, sizes = Shop(4), {till: 0 for till in range(1, 7)}, []
    serve = place.serve(6000)
    serve.start()
    while sum(sizes) < MANY:
        lines = []
        for _ in range(draw.randint(1, 64)):
            till = draw.randint(1, 6)
            number = max(1, numbers[till] + draw.choice([-2, -1, 0, 0, 1, 1, 1, 2]))
            numbers[till] += number == numbers[till] + 1
            lines.append(f"{till},{number},{draw.choice('RIS')},{draw.randint(1, 3)},{draw.randint(0, 50)}")
            lines += draw.choice([[], [], [lines[-1]], ["hello"]])
        replies = serve.hand_all([(line.encode(), None) for line in lines])
        wanted = [rule.reply(line) for line in lines]
        want([one.decode() for one in replies] == wanted, f"{lines} together get {replies}, not {wanted}")
        sizes.append(len(lines))
    serve.end()
    words = [place.kept, "--tills", 4, "--image", place.image, "--program", place.program]
    sure(*REBUILD, place.folder / "anew.d64", *words)
    return sum(sizes)


def requests_in(path):
    return [one.request for one in journal.answers_in([path])]


def other_images(place, other):
    """An older image, another shop's, one that went on alone, and files that are no journal."""
    place.served("1,1,S,5,10", "2,1,I,5,3")
    backup = place.image.read_bytes()
    place.served("3,1,I,5,4", "2,2,I,5,1")
    image = place.image.read_bytes()
    place.image.write_bytes(backup)
    told = place.refused(service.NO_SHOP)
    want("older than its journal" in told and "ledger-shop rebuild" in told, f"an older image: {told}")
    other.served("1,1,S,5,10", "2,1,I,5,3", "2,2,I,5,2", "3,1,I,5,4")
    place.image.write_bytes(other.image.read_bytes())
    want("isn't its journal's" in place.refused(service.NO_SHOP), "another shop's image")
    place.image.write_bytes(image)
    want(place.served("1,2,R,5,1") == ["1,2,DONE,3"], "the image itself")
    alone = Served(place.program, place.image)
    want(alone.ask("4,1,S,9,9") == "4,1,DONE,9", "serve alone")
    alone.finish()
    want(place.served("4,2,I,9,1") == ["4,2,DONE,8"], "an image that went on alone")
    begins = [line for line in place.kept.read_text().splitlines() if " begins" in line]
    want(len(begins) == 2 and " begins 1:2 2:2 3:1 4:1 =" in begins[1], f"the journal has {begins}")
    kept = place.kept.read_bytes()
    for text in (b"1,1,S,5,10\n", b"a letter\n" * 100, bytes(range(256)), b"x" * 6000, bytes(9000) + b"x"):
        place.kept.write_bytes(text)
        place.refused(service.NO_SHOP)
    last, number = kept.splitlines(keepends=True)[-2:], 3
    for rest in (b"x" * 6000, b"a letter\n" * 100, bytes(range(256)), bytes(9000), last[0], b"".join(last), b"\xff\xfe\n" + last[0]):
        place.kept.write_bytes(kept + rest)
        want(place.served(f"4,{number},R,9,1") == [f"4,{number},DONE,{5 + number + 1}"], f"{rest[:40]} behind the last line")
        aside = journal.files_of(place.kept)[-2]
        want(Path(aside).read_bytes() == kept + rest, f"{rest[:40]} behind the last line isn't set aside")
        kept, number = place.kept.read_bytes(), number + 1
        last = kept.splitlines(keepends=True)[-2:]
    return 15


def many_files(place, other, draw):
    """A day in files of some lines, with backups; each backup leads to the same shop."""
    rule, numbers, backups = Shop(4), {till: 0 for till in range(1, 5)}, []
    serve = place.serve(600)
    serve.start()
    for turn in range(DAY):
        till = draw.randint(1, 4)
        numbers[till] += 1
        line = f"{till},{numbers[till]},{draw.choice('RIS')},{draw.randint(1, 3)},{draw.randint(0, 50)}"
        want(serve.hand(line.encode()).decode() == rule.reply(line), f"{line} gets another reply")
        # what changes nothing isn't kept
        for junk in (line, "x", f"{till},{numbers[till] + 2},S,1,1", f"{till},1,S,1,1", f"{till % 4 + 1},1,S,1,1\n2"):
            serve.hand(junk.encode())
        if turn % 20 == 0:
            backups.append(place.folder / f"backup{turn}.d64")
            sure(place.program, "copy", place.image, backups[-1])
    serve.end()
    files = [Path(one) for one in journal.files_of(place.kept)]
    want(len(files) > 5, f"the journal has {len(files)} files")
    count = sum(len(requests_in(path)) for path in files)
    want(count == DAY, f"the journal has {count} requests, not {DAY}")
    program = ["--program", place.program]
    fresh = [place.kept, "--tills", "4", "--image", place.image, *program]
    new = place.folder / "again.d64"
    sure(*REBUILD, new, *fresh)
    for backup in backups:
        new.unlink()
        sure(*REBUILD, new, place.kept, "--from", backup, "--image", place.image, *program)
    refused = [
        ([new, *fresh], None, "over a file that is there"),
        ([place.folder / "1.d64", *fresh], files[0], "without the first file"),
        ([place.folder / "2.d64", *fresh], files[2], "without the third file"),
        ([place.folder / "3.d64", place.kept, "--from", other.image, *program], None, "from another shop's backup"),
    ]
    kept = new.read_bytes()
    away = place.folder / "away"
    for words, missing, what in refused:
        if missing:
            missing.rename(away)
        status, _, text = run(*REBUILD, *words)
        if missing:
            away.rename(missing)
        want(status == 1 and text.startswith("rebuild: ") and len(text.splitlines()) == 1, f"{what}: {status} {text}")
    want(new.read_bytes() == kept, "rebuild wrote over a file that is there")
    want(not list(place.folder.glob("[123].d64")), "rebuild leaves an image that it refused")
    return len(files), len(backups), len(refused)


def grammar(program, folder, draw):
    """The lines that the bridge hands over are those that `serve` doesn't answer with a syntax error."""
    image = folder / "grammar.d64"
    sure(program, "format", image, "--tills", 64)
    served = Served(program, image)
    numbers = [
        "0",
        "1",
        "64",
        "65",
        "7",
        "007",
        "65535",
        "65536",
        "999999999",
        "1000000000",
        "",
        " 1",
        "1 ",
        "-1",
        "+1",
        "1.0",
        "٣",
    ]
    good = 0
    for _ in range(LINES):
        fields = [draw.choice(numbers[:12] if draw.random() < 0.4 else ["1", "2", "64", "999"]) for _ in range(2)]
        fields.append(draw.choice("RISMRISMrx") if draw.random() < 0.95 else draw.choice(["", "RI"]))
        fields += [
            draw.choice(numbers if draw.random() < 0.3 else ["1", "2", "65535"])
            for _ in range(draw.choice([2, 2, 2, 3, 3, 1, 4]))
        ]
        line = ",".join(fields)
        reply = served.ask(line)
        is_request = wishes.request_of(line) is not None
        want(is_request == (reply != SYNTAX), f"{line!r} gets {reply}, and the bridge takes it for {is_request}")
        good += is_request
    served.kill()
    return good


def main(given):
    program, draw = given.program, random.Random(given.seed)
    with tempfile.TemporaryDirectory() as folder:
        folder = Path(folder)
        two_bridges(Place(program, folder, "two"))
        cuts, together = 0, 0
        for form in (present, earlier):
            cuts += broken_off(Place(program, folder, f"cut{form.__name__}"), form)
            together += taken_together(Place(program, folder, f"together{form.__name__}"), form)
        bits = flipped(Place(program, folder, "bits"), draw)
        messages = handed_together(Place(program, folder, "at_once"), draw)
        images = other_images(Place(program, folder, "own"), Place(program, folder, "other"))
        files, backups, refused = many_files(Place(program, folder, "many"), Place(program, folder, "third", 2), draw)
        good = grammar(program, folder, draw)
    told = f"{cuts} cuts, {together} of requests together, {bits} flipped bits, {messages} messages together, {images} other images and files, {files} files and {backups} backups, {refused} refusals"
    print(
        f"a journal, with two bridges and a serve killed beneath one: {told}; {LINES} lines, {good} requests: no difference"
    )
    return cuts + together + bits + messages + images + backups + refused


if __name__ == "__main__":
    conduct(main)
