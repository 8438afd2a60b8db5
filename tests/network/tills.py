#!/usr/bin/python3
"""Tills over a real broker, where everything dies now and then:

    tests/network/tills.py PROGRAM [--over rabbit|mqtt] [--tills N] [--amount WISHES] [--every LINES] [--seed N] [--folder FOLDER]

A cluster of three RabbitMQ nodes, or one mosquitto, is started on the loopback address, with two bridges and so many
tills of the folder shop, each with its own list of so many wishes. At random moments one is killed with SIGKILL: a
till, a bridge, the `serve` behind it, a node of the cluster (which is started again some seconds later). Meanwhile
old messages are sent once more, and messages that are no request, that are too long, with LF within, of another till
than their key says, and of tills that there aren't. The brokers run the configuration of shop/deploy, so each till and
each bridge comes over TLS and with an account of its own. Then
- each till has heard the answer to each of its wishes, once and in order, and never heard `CLASH` or `AHEAD`;
- these are the answers of docs/MESSAGES.md (tests/lib/shop_rule.py) over the requests of the journal, which are all that
  counted, each once and with its reply; and `show` prints what comes of them;
- what is on hand of all items is what came in and didn't go out, reckoned from what the tills heard alone;
- `format` and `play` make the same shop of the journal (`ledger-shop rebuild`).
At last nothing is killed, and the time from wish to answer is taken, through the broker and through a plain pipe."""

import os
import random
import shutil
import signal
import subprocess
import sys
import tempfile
import threading
import time
from collections import Counter
from pathlib import Path

sys.dont_write_bytecode = True
sys.path.insert(0, str(Path(__file__).resolve().parents[1] / "lib"))
import brokers
from served import sure, want
from shop_paths import command
from shop_rule import Shop, request_of
from trial import conduct

from ledger_shop import account, journal, wishes

# exit statuses with which a till or a bridge is to be started again: killed, or `serve` was killed beneath it
AGAIN = (-9, 75)
# and those of a till that did all its wishes, also if some were refused
DONE = (0, wishes.REFUSED)
STOCK = 1000
# the seconds between two kills, at most, and the mean bytes of a journal's line
LONGEST, LENGTH = 5, 55
# bytes after which a bridge begins a new journal
TURN = 5000


def wishes_of(draw, till, tills, count):
    """A till's wishes: it sets its own item, and then receives, issues and moves of any till's."""
    lines = [f"S,{till},{STOCK}"]
    while len(lines) < count:
        kind, item = draw.choice("RIM"), draw.randint(1, tills)
        quantity = draw.choice([draw.randint(0, 30), draw.randint(0, 30), draw.randint(0, 3000)])
        to = f",{item % tills + 1}" if kind == "M" else ""
        lines.append(f"{kind},{item},{quantity}{to}")
    return lines


class Supervised:
    """A process that is started again when it was killed, as a supervisor does."""

    AGAIN = AGAIN

    def __init__(self, name, command, log):
        self.name, self.command, self.log = name, command, log
        self.done, self.process = False, None
        self.start()

    def start(self):
        with open(self.log, "ab") as log:
            command = list(map(str, self.command))
            self.process = subprocess.Popen(command, stdin=subprocess.DEVNULL, stdout=log, stderr=log)

    def tend(self):
        status = self.process.poll()
        if status is None or self.done:
            return
        self.done = status in DONE
        if not self.done:
            want(status in self.AGAIN, f"{self.name} ended with status {status}: {Path(self.log).read_text()[-500:]}")
            self.start()

    def kill(self):
        if self.process.poll() is None:
            self.process.kill()
            self.process.wait()
            return True
        return False

    def children(self):
        try:
            return brokers.children(self.process.pid)
        except OSError:
            return []


def ended(process):
    """Kills a process; False where it has ended meanwhile, as a `serve` that is told `IN USE`."""
    try:
        os.kill(process, signal.SIGKILL)
        return True
    except ProcessLookupError:
        return False


class Rabbit:
    """A cluster, one node of which is away now and then."""

    def __init__(self, folder, **more):
        self.cluster = brokers.Rabbit(folder, **more)
        self.away, self.back = None, 0
        self.words = self.cluster.words
        self.till, self.bridge = "till", "bridge"
        self.start, self.stop = self.cluster.start, self.cluster.stop

    def strike(self, draw):
        """Kills a node where all are there; says whether it did."""
        if self.away is not None:
            return False
        self.away, self.back = draw.randrange(3), time.monotonic() + draw.uniform(1, 6)
        self.cluster.kill_node(self.away)
        return True

    def tend(self):
        if self.away is None:
            return
        if self.back and time.monotonic() > self.back:
            self.cluster.start_node(self.away)
            self.back = 0
        elif not self.back and self.cluster.listens(self.away):
            self.away = None

    def link(self, till, user=None):
        return self.link_as(till, account.account_of(self.cluster.accounts.file(user or f"till-1-{till}")))

    def link_as(self, till, user):
        from ledger_shop import till as over_rabbit

        places = [account.Place(text, "amqp") for text in self.cluster.places]
        return over_rabbit.Broker(places, "1", till, user, self.cluster.ca)

    def readdress(self, link, till):
        """The link's next message goes out as this till's."""
        link.key = str(till)


class Mqtt:
    """A mosquitto that is killed and started again at once."""

    def __init__(self, folder, **more):
        self.broker = brokers.Mosquitto(folder, **more)
        self.words = self.broker.words
        self.till, self.bridge = "till-mqtt", "bridge-mqtt"
        self.start, self.stop = self.broker.start, self.broker.stop

    def strike(self, _draw):
        self.broker.kill()
        self.broker.start()
        return True

    def tend(self):
        pass

    def link(self, till, user=None):
        return self.link_as(till, account.account_of(self.broker.accounts.file(user or f"till-1-{till}")))

    def link_as(self, till, user):
        from ledger_shop import till_mqtt

        place = account.Place(self.broker.places[0], "mqtt")
        return till_mqtt.Broker(place, "1", till, user, self.broker.ca)

    def readdress(self, link, till):
        """The link's next message goes out as this till's."""
        link.asks = f"shops/1/asks/{till}"


class Noise(threading.Thread):
    """Sends old messages once more, and some that are no request, with an account that may write all tills' asks."""

    def __init__(self, broker, kept, tills, draw):
        super().__init__(daemon=True)
        self.broker, self.kept, self.tills, self.draw = broker, kept, tills, draw
        self.link = broker.link(tills, brokers.TRIAL)
        self.old = self.bad = 0
        self.ended = threading.Event()

    def message(self):
        """A till's key, and what goes out by it."""
        if self.draw.random() < 0.1:
            self.bad += 1
            large = "7" * 10_000 if self.draw.random() < 0.05 else "hello"
            past, other = f"{self.tills + 1},1,S,1,1", f"{self.tills},1,S,1,1"
            bad = [large, "", "@3 1,1,S,1,1", "1,1,S,1,1\n2,1,S,1,1", other, "no request", "\n"]
            return self.draw.choice([*((1, one) for one in bad), (self.tills + 1, past)])
        lines = [request for request, _ in requests_in(self.kept)[-200:]]
        self.old += bool(lines)
        recent = self.draw.randint(1, 30) if self.draw.random() < 0.6 else self.draw.randint(1, max(len(lines), 1))
        line = lines[-min(recent, len(lines))] if lines else "hello"
        return (request_of(line) or (1,))[0], line

    def run(self):
        while not self.ended.wait(self.draw.uniform(0, 0.1)):
            try:
                till, message = self.message()
                self.broker.readdress(self.link, till)
                self.link.send(message)
                self.link.reply(0.001)
            except wishes.Away:
                self.ended.wait(0.5)
        self.link.close()


def journals(path):
    """A journal's files, in their order."""
    return [Path(one) for one in journal.files_of(path)]


def requests_in(path):
    """The requests of a journal's file with their replies."""
    return [(one.request, one.reply) for one in journal.answers_in([path])] if path.exists() else []


class Trial:
    def __init__(self, given, folder):
        self.given, self.folder = given, folder
        self.program = given.program
        self.draw = random.Random(given.seed)
        self.image, self.kept = folder / "shop.d64", folder / "kept.txt"
        self.broker = self.broker_in(folder)
        self.struck = Counter()

    def broker_in(self, folder):
        return BROKERS[self.given.over](folder)

    def start(self):
        sure(self.program, "format", self.image, "--tills", self.given.tills)
        self.broker.start()
        self.bridges = [self.bridge(name) for name in "AB"]
        self.tills = [self.till(till) for till in range(1, self.given.tills + 1)]
        draw = random.Random(self.given.seed + 1)
        self.noise = Noise(self.broker, self.kept, self.given.tills, draw)
        self.noise.start()

    def bridge(self, name):
        words = [self.image, "--program", self.program, "--keep", self.kept, "--keep-size", TURN]
        asked = command(self.broker.bridge, *words, *self.broker.words("bridge-1"))
        return Supervised(f"bridge {name}", asked, self.folder / f"bridge{name}.log")

    def till(self, till):
        lines = wishes_of(self.draw, till, self.given.tills, self.given.wishes)
        path = self.folder / f"wishes{till}"
        path.write_text("".join(line + "\n" for line in lines))
        words = [till, "--book", self.book(till), "--wishes", path, *self.broker.words(f"till-1-{till}")]
        asked = command(self.broker.till, *words)
        return Supervised(f"till {till}", asked, self.folder / f"till{till}.log")

    def book(self, till):
        return self.folder / f"book{till}"

    def pause(self):
        """Waits until `serve` has taken some more lines, or is held up."""
        enough = self.taken() + self.draw.randint(1, 2 * self.given.every)
        end = time.monotonic() + LONGEST
        while self.taken() < enough and time.monotonic() < end and not all(till.done for till in self.tills):
            time.sleep(0.05)
            self.tend()

    def taken(self):
        """How many requests were kept, by the mean length of a line."""
        return sum(path.stat().st_size for path in journals(self.kept) if path.exists()) // LENGTH

    def strike(self):
        """Kills one thing."""
        kind = self.draw.choices(["till", "bridge", "serve", "node"], [5, 2, 4, 1])[0]
        if kind == "node":
            struck = self.broker.strike(self.draw)
        elif kind == "serve":
            served = [child for bridge in self.bridges for child in bridge.children()]
            struck = any([ended(child) for child in served])
        else:
            some = self.tills if kind == "till" else self.bridges
            some = [one for one in some if not one.done]
            struck = bool(some) and self.draw.choice(some).kill()
        self.struck[kind] += struck

    def tend(self):
        for one in [*self.bridges, *self.tills, self.broker]:
            one.tend()

    def run(self):
        """Kills until each till is done."""
        end = time.monotonic() + self.given.longest
        while not all(till.done for till in self.tills):
            self.pause()
            self.strike()
            self.tend()
            left = sum(not till.done for till in self.tills)
            want(time.monotonic() < end, f"after {self.given.longest} s {left} tills aren't done")
        self.noise.ended.set()
        self.noise.join()
        self.end_bridges()

    def end_bridges(self):
        """Ends the bridges; the image is free when the `serve` behind them has seen the end of its input."""
        for bridge in self.bridges:
            bridge.kill()
        for _ in range(100):
            if subprocess.run([self.program, "show", self.image], capture_output=True).returncode == 0:
                return
            time.sleep(0.05)

    def heard(self, till):
        """The wishes and answers of a till's book, each wish opened once and answered once, in order."""
        lines = self.book(till).read_text().splitlines()
        given = (self.folder / f"wishes{till}").read_text().splitlines()
        want(len(lines) == 2 * len(given), f"till {till} has {len(lines)} lines in its book for {len(given)} wishes")
        answers = []
        for number, (wish, opened, heard) in enumerate(zip(given, lines[::2], lines[1::2]), 1):
            want(opened == f"? {number},{wish}" and heard.startswith(f"= {number},"), f"till {till}: {opened}, {heard}")
            answers.append(heard.partition(",")[2])
        return list(zip(given, answers))

    def fold(self):
        """The shop over the journal's requests, and the answer to each that counted. Each was the next of its till, and
        has the reply of the rule, but that of a till past the shop's."""
        shop, answers = Shop(self.given.tills), {}
        for path in journals(self.kept):
            for line, kept in requests_in(path):
                request, reply = request_of(line), shop.reply(line)
                want(request and reply == kept, f"{line} has the reply {kept} in the journal, not {reply}")
                word = reply.split(",", 2)[2]
                want(request[0] <= self.given.tills or word == "NO TILL", f"{line} has the reply {word}")
                if word != "NO TILL":
                    want(request[:2] not in answers and word not in wishes.REFUSALS, f"{line} is in the journal twice")
                    answers[request[:2]] = word
        return shop, answers

    def judge(self):
        shop, answers = self.fold()
        came = 0
        for till in range(1, self.given.tills + 1):
            for number, (wish, answer) in enumerate(self.heard(till), 1):
                want(answers.get((till, number)) == answer, f"till {till} heard {answer} to {number},{wish}")
                kind, _, quantity = wish.split(",")[:3]
                if answer.startswith("DONE,") and kind != "M":
                    came += int(quantity) * (-1 if kind == "I" else 1)
        shown = sure(self.program, "show", self.image)
        want(shown[1:] == told(shop), "show doesn't print what comes of the lines that were taken")
        on_hand = sum(int(line.split(",")[1]) for line in shown if line.startswith("CARD "))
        want(on_hand == came, f"{on_hand} are on hand, and {came} came in and didn't go out")
        want(sure(self.program, "check", self.image) == ["OK"], "check isn't OK")
        words = [self.folder / "new.d64", self.kept, "--tills", self.given.tills, "--image", self.image]
        sure(*command("rebuild", *words, "--program", self.program))
        return len(answers)

    def together(self):
        """How many requests a bridge handed over with others."""
        notes = (line.note for path in journals(self.kept) for line in journal.lines_in(path.read_bytes())[0])
        counts = (len(one.requests) for one in notes if isinstance(one, journal.Takes))
        return sum(count for count in counts if count > 1)

    def report(self, seconds):
        counted = self.judge()
        files = len(journals(self.kept))
        struck = ", ".join(f"{self.struck[kind]} of {name}" for kind, name in KINDS[self.given.over])
        noise = f"{self.noise.old} old messages sent again, {self.noise.bad} that are no request"
        answered = f"{counted} wishes answered in {seconds:.0f} s, {self.together()} of them handed over with others"
        answered = f"{answered}, in {files} files of the journal"
        print(f"{self.given.over}: {self.given.tills} tills, {answered}")
        print(f"  killed: {struck}; {noise}: no difference", flush=True)
        return counted

    def measure(self):
        """The time from wish to answer, while nothing is killed."""
        for name in ("broker", "pipe"):
            for tills in (1, 8) if name == "broker" else (1,):
                image = self.folder / f"timed_{name}{tills}.d64"
                shutil.copy(self.folder / "blank.d64", image)
                self.timed(name, tills, image)

    def timed(self, name, tills, image):
        command = f"'{self.program}' serve '{image}'"
        bridge = None
        if name == "broker":
            self.image, self.kept = image, self.folder / f"kept{tills}.txt"
            bridge = self.bridge("T")
        times = []
        links = [self.broker.link(till) if bridge else wishes.Pipe(command) for till in range(1, tills + 1)]
        each = self.given.timed // tills
        workers = [threading.Thread(target=turns, args=(till, link, each, times)) for till, link in enumerate(links, 1)]
        for worker in workers:
            worker.start()
        for worker in workers:
            worker.join()
        if bridge:
            bridge.kill()
        tell_times(f"{self.given.over if bridge else 'a pipe'}, {tills} at a time", times)


BROKERS = {"rabbit": Rabbit, "mqtt": Mqtt}
KINDS = {
    "rabbit": [("till", "a till"), ("bridge", "a bridge"), ("serve", "serve"), ("node", "a node of three")],
    "mqtt": [("till", "a till"), ("bridge", "a bridge"), ("serve", "serve"), ("node", "the broker")],
}


def told(shop):
    """What `show` prints of a shop, behind TOP."""
    lines = [f"CARD {item},{quantity}" for item, quantity in sorted(shop.stock.items())]
    for till, kept in sorted(shop.kept.items()):
        for word, (number, (kind, item, quantity, to), answer) in zip(("TILL", "PRIOR"), kept):
            body = f"{kind},{item},{quantity}" + (f",{to}" if kind == "M" else "")
            lines.append(f"{word} {till},{number},{body},{answer}")
    return lines


def turns(number, link, count, times):
    """One till's wishes, the first of which isn't timed."""
    till = wishes.Till(number)
    for turn in range(count + 1):
        till.wish(f"S,{number},{turn}")
        started = time.monotonic()
        wishes.answer_to(till, link)
        if turn:
            times.append((time.monotonic(), 1000 * (time.monotonic() - started)))
    link.close()


def tell_times(how, times):
    """Prints what the times of some turns, each with the moment of its end, come to."""
    ends = [end for end, _ in times]
    waits = sorted(wait for _, wait in times)
    count = len(times)
    rate = count / (max(ends) - min(ends) + 1e-9)
    median, late = waits[count // 2], waits[count * 99 // 100]
    wait = f"median {median:.2f} ms, 99th percentile {late:.2f} ms"
    print(f"through {how}: {rate:.0f} requests a second, {wait}", flush=True)


def more(parser):
    parser.add_argument("--over", choices=["rabbit", "mqtt"], default="rabbit")
    parser.add_argument("--tills", type=int, default=8)
    parser.add_argument("--every", type=int, default=8, help="lines taken between two kills, in the mean")
    parser.add_argument("--longest", type=float, default=1800, help="seconds after which it gives up")
    parser.add_argument("--timed", type=int, default=400, help="wishes that are timed")
    parser.add_argument("--folder", help="a folder on the disk that is asked about")


def main(given):
    given.wishes = given.amount
    with tempfile.TemporaryDirectory(dir=given.folder) as folder:
        trial = Trial(given, Path(folder))
        try:
            trial.start()
            started = time.monotonic()
            trial.run()
            counted = trial.report(time.monotonic() - started)
            sure(trial.program, "format", trial.folder / "blank.d64", "--tills", 8)
            trial.measure()
        finally:
            for one in [*getattr(trial, "bridges", []), *getattr(trial, "tills", [])]:
                one.kill()
            trial.broker.stop()
    return counted


if __name__ == "__main__":
    conduct(main, more)
