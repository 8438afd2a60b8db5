#!/usr/bin/python3
"""Messages that are no request, over a real broker, and what a till says that isn't answered:

    tests/network/bad_messages.py PROGRAM [--over rabbit|mqtt] [--folder FOLDER]

One RabbitMQ node, or one mosquitto, is started on the loopback address, with one bridge of the folder shop. Each message
has the reply of docs/MESSAGES.md under the key of its till, or under `refused` if it is no request, and the bridge that
took it lives on; one that is longer than the broker takes doesn't come. What the broker delivers together is handed over
together, and each till hears its answer. Then the broker is killed: a till that asks
meanwhile hears its answer when it is back, and once. A till says that the broker knows no such shop, that there is no
bridge, and that its account is refused."""

import os
import signal
import sys
import tempfile
import threading
import time
from pathlib import Path

sys.dont_write_bytecode = True
sys.path.insert(0, str(Path(__file__).resolve().parents[1] / "lib"))
import brokers
import tills
from served import sure, want
from shop_paths import command
from shop_rule import SYNTAX
from trial import conduct

from ledger_shop import journal, wishes

TILLS = 8
# seconds in which a reply has to come, and in which no second one may
LONGEST, SILENT = 60, 0.5
REFUSED = {
    "no request": "no request",
    "an empty message": "",
    "an LF alone": "\n",
    "200 bytes": "7" * 200,
    "200 bytes that begin as a request": "1,1,S,1,1" + " " * 191,
    "two requests with an LF between": "1,1,S,1,1\n2,1,S,1,1",
    "a request behind an LF": "\n1,1,S,1,1",
    "a power cut": "@3 1,1,S,1,1",
    "each code up to 159": "".join(map(chr, range(160))),
    "a till past all": "65,1,S,1,1",
    "another till's request": "2,1,S,1,1",
}
# tills that ask while the bridge stands still
TOGETHER = (3, 4, 5, 6)
LARGE = "1,1,S,1,1" + " " * 10_000_000
NAMED = {
    "a till past the shop's": (TILLS + 1, "1,S,1,1", "1,NO TILL"),
    "a request": (1, "1,S,1,5", "1,DONE,5"),
    "a request with its LF": (1, "2,R,1,2\n", "2,DONE,7"),
    "a request with CR and LF": (1, "3,I,1,3\r\n", "3,DONE,4"),
}


def connects(link):
    """Whether a link over RabbitMQ has its queue now."""
    from pika.adapters.utils.connection_workflow import AMQPConnectorException
    from pika.exceptions import AMQPError

    try:
        link.connect()
        return True
    except (AMQPError, AMQPConnectorException, OSError):
        return False


class Trial(tills.Trial):
    """A shop, one bridge, and the keys under which replies come."""

    def start(self):
        sure(self.program, "format", self.image, "--tills", TILLS)
        self.broker.start()
        self.says(5, None, "the broker knows no shop 1")
        self.says(5, ("till-1-5", "wrong"), "refuses the account")
        self.bridges = [self.bridge("A")]
        self.first = self.bridges[0].process.pid
        self.until(self.is_heard, "a first reply")
        self.refused = self.listening("refused")
        self.broker.readdress(self.refused, 1)

    def says(self, till, user, text):
        """What a till says that has no answer."""
        link = self.broker.link(till) if user is None else self.broker.link_as(till, user)

        def told():
            self.heard_from(link, f"{till},1,S,1,1")
            return text in link.trouble()

        end = time.monotonic() + LONGEST
        while not told():
            want(time.monotonic() < end, f"a till says {link.trouble()!r}, not {text!r}")
        link.close()

    def is_heard(self):
        """Whether till 3 hears of a request before its time: then the bridge has its asks."""
        link = self.listening(3)
        reply = self.heard_from(link, "3,9,S,1,1")
        link.close()
        return reply == "3,9,AHEAD"

    def listening(self, till):
        """A till's link, that listens by the time that it sends."""
        link = self.broker.link(till, brokers.TRIAL if till == "refused" else None)
        if self.given.over == "mqtt":
            self.until(link.client.is_connected, "a connection")
            time.sleep(1)
        else:
            self.until(lambda: connects(link), "a connection")
        return link

    def broker_in(self, folder):
        return tills.Rabbit(folder, count=1) if self.given.over == "rabbit" else super().broker_in(folder)

    def until(self, holds, what):
        end = time.monotonic() + LONGEST
        while not holds():
            want(time.monotonic() < end, f"{what} didn't come; {Path(self.bridges[0].log).read_text()[-500:]}")
            self.bridges[0].tend()
            time.sleep(0.1)

    def heard_from(self, link, message=None):
        """The reply to this message, or the next one, or None."""
        try:
            if message is not None:
                link.send(message)
            return link.reply(SILENT)
        except wishes.Away:
            return None

    def told(self, link, message, reply, what):
        """Sends a message, which has this one reply."""
        link.send(message)
        replies = []
        self.until(lambda: replies.append(self.heard_from(link)) or replies[-1], f"a reply to {what}")
        want(replies[-1] == reply, f"{what} is told {replies[-1]}, and not {reply}")
        second = self.heard_from(link)
        want(second is None, f"{what} is told {second} besides")
        lives = self.bridges[0].process
        want(lives.poll() is None and lives.pid == self.first, f"the bridge didn't outlive {what}")

    def messages(self):
        for what, message in REFUSED.items():
            self.told(self.refused, message, SYNTAX, what)
        for what, (till, message, reply) in NAMED.items():
            link = self.listening(till)
            self.told(link, f"{till},{message}", f"{till},{reply}", what)
            link.close()
        large = self.listening(1)
        self.heard_from(large, LARGE)
        self.heard_from(large)
        large.close()
        self.told(self.refused, "hello", SYNTAX, "a message after one of 10 MB")

    def together(self):
        """Tills ask while the bridge stands still. It hands all over together, and each hears."""
        links = {till: self.listening(till) for till in TOGETHER}
        os.kill(self.first, signal.SIGSTOP)
        for till, link in links.items():
            link.send(f"{till},1,S,{till},{till}")
        links[3].send("3,1,S,3,3")
        time.sleep(1)
        os.kill(self.first, signal.SIGCONT)
        for till, link in links.items():
            replies = []
            self.until(lambda: replies.append(self.heard_from(link)) or replies[-1], f"a reply to till {till}")
            want(replies[-1] == f"{till},1,DONE,{till}", f"till {till} is told {replies[-1]}")
            link.close()
        notes = (one.note for one in journal.lines_in(self.kept.read_bytes())[0])
        taken = [set(one.requests) for one in notes if isinstance(one, journal.Takes) and len(one.requests) > 1]
        want(taken == [{f"{till},1,S,{till},{till}" for till in TOGETHER}], f"together were taken {taken}")

    def away(self, seconds=5):
        """A till asks while the broker is away, and hears when it is back."""
        self.broker.stop()
        till, link, heard = wishes.Till(2), self.broker.link(2), []
        till.wish("S,2,9")
        asks = threading.Thread(target=lambda: heard.append(wishes.answer_to(till, link)), daemon=True)
        asks.start()
        time.sleep(seconds)
        want(not heard, f"a till hears {heard} while the broker is away")
        self.broker.start()
        self.until(lambda: heard, "an answer when the broker is back")
        link.close()
        want(heard == ["DONE,9"], f"a till hears {heard} when the broker is back")

    def judge(self):
        self.end_bridges()
        shown = sure(self.program, "show", self.image)[1:]
        cards = ["CARD 1,4", "CARD 2,9", *(f"CARD {till},{till}" for till in TOGETHER)]
        cards += ["TILL 1,3,I,1,3,DONE,4", "PRIOR 1,2,R,1,2,DONE,7", "TILL 2,1,S,2,9,DONE,9"]
        cards += [f"TILL {till},1,S,{till},{till},DONE,{till}" for till in TOGETHER]
        want(shown == cards, f"show prints {shown}")
        words = [self.folder / "new.d64", self.kept, "--tills", TILLS, "--image", self.image]
        sure(*command("rebuild", *words, "--program", self.program))
        self.says(5, None, "no bridge of shop 1 is at the broker")


def main(given):
    with tempfile.TemporaryDirectory(dir=given.folder) as folder:
        trial = Trial(given, Path(folder))
        try:
            trial.start()
            trial.messages()
            trial.together()
            trial.away()
            trial.judge()
        finally:
            for bridge in getattr(trial, "bridges", []):
                bridge.kill()
            trial.broker.stop()
    told = f"{len(REFUSED) + len(NAMED) + 1} messages, the bridge outlived each; {len(TOGETHER)} requests together"
    print(f"{given.over}: {told}; 3 complaints of a till; a till over a broker that was away: no difference")
    return len(REFUSED) + len(NAMED) + 1 + len(TOGETHER) + 4


def more(parser):
    parser.add_argument("--over", choices=sorted(tills.BROKERS), default="rabbit")
    parser.add_argument("--folder", help="a folder on the disk that is asked about")


if __name__ == "__main__":
    conduct(main, more)
