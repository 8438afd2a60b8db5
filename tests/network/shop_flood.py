#!/usr/bin/python3
"""How long an honest till waits for its answers while another till's account floods its shop, over both brokers:

    tests/network/shop_flood.py PROGRAM [--over rabbit|mqtt] [--amount WISHES]

One RabbitMQ node and one mosquitto are started on the loopback address, each with one bridge. While two connections of till 8's
account send as many messages as they can (lines that are no request, and repeats of one request), till 7 has its wishes done,
one after the other. Each has to be answered within two seconds. It wants Debian's rabbitmq-server, mosquitto, python3-pika,
python3-paho-mqtt and openssl. The last line is `N passed, M failed`."""

import statistics
import sys
import tempfile
import time
from pathlib import Path

sys.dont_write_bytecode = True
sys.path.insert(0, str(Path(__file__).resolve().parents[1] / "lib"))
import brokers
import tills
from served import sure, want
from shop_paths import PYTHON, command
from trial import conduct

from ledger_shop import account, wishes

HONEST, INSIDER = 7, 8
WITHIN = 2.0
FLOODS = {"no requests": "x" * 64, "repeats of a request": f"{INSIDER},1,S,8,8"}


def flood(over, place, ca, kept, text):
    """Sends this text until it is ended."""
    user, context = account.account_of(kept), account.context_of(ca)
    if over == "rabbit":
        import pika

        from ledger_shop import till as over_rabbit

        channel = pika.BlockingConnection(over_rabbit.parameters([account.Place(place, "amqp")], user, context)).channel()
        while True:
            channel.basic_publish("shop.1.asks", str(INSIDER), text)
    from ledger_shop import till_mqtt

    client = till_mqtt.client_of("flood", account.Place(place, "mqtt"), user, context)
    client.connect(account.Place(place, "mqtt").host, account.Place(place, "mqtt").port)
    client.loop_start()
    while True:
        client.publish(f"shops/1/asks/{INSIDER}", text, qos=1).wait_for_publish(0.01)


class Scene:
    """A shop behind a broker."""

    def __init__(self, program, folder, over):
        self.program, self.folder, self.over = program, folder, over
        self.broker = tills.BROKERS[over](folder, shops={"1": 8}, **({"count": 1} if over == "rabbit" else {}))
        self.own = self.broker.cluster if over == "rabbit" else self.broker.broker
        self.children = []

    def start(self):
        image = self.folder / "shop.d64"
        sure(self.program, "format", image, "--tills", 8)
        self.broker.start()
        words = command(self.broker.bridge, image, "--program", self.program, "--keep", self.folder / "shop.lines")
        self.bridge = brokers.Child([*words, *self.own.words("bridge-1")], self.folder / "bridge.log")
        self.till, self.link = wishes.Till(HONEST), self.broker.link(HONEST)
        self.ask("S,1,1000")

    def ask(self, wish):
        """The seconds until the answer."""
        began = time.monotonic()
        wishes.wait_for(self.till, self.link)
        want(self.till.wish(wish), "a wish is open")
        wishes.answer_to(self.till, self.link)
        return time.monotonic() - began

    def flooded(self, text, count):
        words = ["--flood", self.over, self.own.places[0], self.own.ca, self.own.accounts.file(f"till-1-{INSIDER}"), text]
        floods = [brokers.Child([PYTHON, __file__, *words], self.folder / "flood.log") for _ in range(2)]
        # over MQTT an account has one connection: the second takes it from the first, and both come again
        time.sleep(3)
        try:
            return [self.ask("I,1,1") for _ in range(count)]
        finally:
            for one in floods:
                one.end()

    def stop(self):
        self.bridge.end()
        self.link.close()
        self.broker.stop()


def main(given):
    passed = failed = 0
    for over in given.over or ("mqtt", "rabbit"):
        with tempfile.TemporaryDirectory(dir=given.folder) as folder:
            scene = Scene(given.program, Path(folder), over)
            try:
                scene.start()
                for what, text in FLOODS.items():
                    waits = scene.flooded(text, given.amount)
                    late = sum(one >= WITHIN for one in waits)
                    passed, failed = passed + len(waits) - late, failed + late
                    figures = f"median {statistics.median(waits):.2f} s, longest {max(waits):.2f} s"
                    print(f"{over}, a flood of {what}: {len(waits)} answers, {figures}", flush=True)
            finally:
                scene.stop()
    return passed, failed


def more(parser):
    parser.add_argument("--over", choices=("mqtt", "rabbit"), action="append")
    parser.add_argument("--folder", help="a folder on the disk that is asked about")


if __name__ == "__main__":
    if sys.argv[1:2] == ["--flood"]:
        flood(*sys.argv[2:])
    else:
        conduct(main, more)
