#!/usr/bin/python3
"""Serves many shops at once over a RabbitMQ cluster of three nodes on the loopback address:

    bench/many_shops.py [--shops 100] [--tills 2] [--wishes 10] [--program ledger] [--folder FOLDER]

Each shop has an image, a queue, a bridge and a `serve` of its own; they share nothing but the cluster. One process is
all the tills. At the end each shop's `show` has what its own tills were told, and nothing else. It prints what it
took. It wants Debian's packages rabbitmq-server, python3-pika and openssl."""

import argparse
import signal
import subprocess
import sys
import tempfile
import time
from pathlib import Path

import pika

for part in ("lib", "network"):
    sys.path.insert(0, str(Path(__file__).resolve().parent.parent / "tests" / part))

import brokers
from shop_paths import command

from ledger_shop import account, bridge, wishes
from ledger_shop import till as over_rabbit


class Desk:
    """One till of one shop, which asks again when nothing was heard for a while."""

    def __init__(self, shop, number, count):
        self.shop, self.till, self.left, self.next = shop, wishes.Till(number), count, 0.0
        self.answers = []

    def due(self, now):
        """The message that is to be sent now, or None."""
        if not self.till.open and self.left:
            self.left -= 1
            self.till.wish(f"S,{self.till.till},{1000 * self.shop + self.till.last}")
            self.next = now
        if not self.till.open or now < self.next:
            return None
        self.next = now + 5
        return self.till.ask()

    def hear(self, reply):
        answer = self.till.hear(reply)
        if answer:
            self.answers.append(answer)

    def done(self):
        return not self.left and not self.till.open


class Town:
    """All shops, with a bridge each, and all their tills."""

    def __init__(self, given, folder):
        self.given, self.folder = given, folder
        self.bridges = []
        self.cluster = brokers.Rabbit(folder, shops={str(shop): given.tills for shop in range(1, given.shops + 1)})
        self.shops, self.numbers = range(1, given.shops + 1), range(1, given.tills + 1)
        self.desks = {(shop, till): Desk(shop, till, given.wishes) for shop in self.shops for till in self.numbers}

    def image(self, shop):
        return self.folder / f"shop{shop}.d64"

    def start(self):
        self.cluster.start()
        for shop in self.shops:
            words = [self.given.program, "format", "--new", self.image(shop), "--tills", self.given.tills]
            subprocess.run(list(map(str, words)), check=True, stdout=subprocess.DEVNULL)
            words = self.cluster.words(f"bridge-{shop}", shop % self.cluster.count)
            asked = command("bridge", self.image(shop), "--shop", shop, "--program", self.given.program, *words)
            self.bridges.append(brokers.Child(asked, self.folder / f"bridge{shop}.log"))

    def connect(self):
        """One queue of replies for all the tills; the shops' queues are there before the first ask. The account is the
        trial's, which may do everything."""
        place = account.Place(self.cluster.places[0], "amqp")
        user = account.account_of(self.cluster.accounts.file(brokers.TRIAL))
        context = account.context_of(self.cluster.ca)
        self.connection = pika.BlockingConnection(over_rabbit.parameters([place], user, context))
        self.channel = self.connection.channel()
        mine = self.channel.queue_declare("", exclusive=True).method.queue
        for shop in self.shops:
            bridge.declare(self.channel, str(shop))
        for shop, till in self.desks:
            self.channel.queue_bind(mine, f"shop.{shop}.replies", str(till))
        self.channel.basic_consume(mine, self.on_reply, auto_ack=True)

    def on_reply(self, _channel, method, _properties, reply):
        shop, till = int(method.exchange.split(".")[1]), int(method.routing_key)
        self.desks[shop, till].hear(reply.decode("ascii", "replace"))

    def serve(self):
        """Asks until each till is done."""
        end = time.monotonic() + self.given.longest
        while left := sum(not desk.done() for desk in self.desks.values()):
            now = time.monotonic()
            if now > end:
                sys.exit(f"many_shops: after {self.given.longest} s {left} tills aren't done")
            for (shop, till), desk in self.desks.items():
                message = desk.due(now)
                if message:
                    self.channel.basic_publish(f"shop.{shop}.asks", str(till), message.encode())
            self.connection.process_data_events(time_limit=0.01)

    def memory(self):
        """The mean memory in kB, shared pages by share, of a bridge and of a serve."""
        bridges = [one.process.pid for one in self.bridges]
        serves = [child for one in bridges for child in brokers.children(one)]
        return [sum(map(own, some)) // max(len(some), 1) for some in (bridges, serves)]

    def judge(self):
        """Each shop holds what its own tills were told."""
        for shop in self.shops:
            desks = [self.desks[shop, till] for till in self.numbers]
            wanted = [f"CARD {desk.till.till},{1000 * shop + desk.till.last - 1}" for desk in desks]
            words = [self.given.program, "show", self.image(shop)]
            shown = subprocess.run(words, capture_output=True, text=True).stdout.splitlines()
            cards = [line for line in shown if line.startswith("CARD ")]
            last = [line.split(",")[1] for line in shown if line.startswith("TILL ")]
            if cards != wanted or last != [str(self.given.wishes)] * len(desks):
                sys.exit(f"many_shops: shop {shop} holds {cards} behind {last} requests, and not {wanted}")

    def stop(self):
        for one in self.bridges:
            one.end()
        self.cluster.stop()


def own(process):
    """A process's memory in kB, shared pages by share."""
    for line in Path(f"/proc/{process}/smaps_rollup").read_text().splitlines():
        if line.startswith("Pss:"):
            return int(line.split()[1])
    return 0


def words():
    parser = argparse.ArgumentParser(description=__doc__.splitlines()[0])
    parser.add_argument("--shops", type=int, default=100)
    parser.add_argument("--tills", type=int, default=2, help="of each shop")
    parser.add_argument("--wishes", type=int, default=10, help="of each till")
    parser.add_argument("--program", default="ledger", help="the program that has the word serve")
    parser.add_argument("--folder", default="/var/tmp", help="a folder on the disk that is asked about")
    parser.add_argument("--longest", type=float, default=900, help="seconds after which it gives up")
    return parser.parse_args()


def main():
    absent = brokers.missing("rabbitmq-server", "python3-pika", "openssl")
    if absent:
        sys.exit(f"many_shops: not tried, for want of Debian's {', '.join(absent)}")
    given = words()
    signal.signal(signal.SIGTERM, lambda *_: sys.exit("many_shops: ended"))
    with tempfile.TemporaryDirectory(dir=given.folder) as folder:
        town = Town(given, Path(folder))
        try:
            town.start()
            town.connect()
            started = time.monotonic()
            town.serve()
            seconds = time.monotonic() - started
            by_bridge, by_serve = town.memory()
        finally:
            town.stop()
        time.sleep(1)
        town.judge()
    count = given.shops * given.tills * given.wishes
    rate = f"{count} wishes in {seconds:.1f} s, {count / seconds:.0f} a second"
    print(f"{given.shops} shops: {rate}; a serve has {by_serve} kB, a bridge {by_bridge} kB; no difference")


main()
