"""Carries a shop's messages between an MQTT broker and `serve` (Debian's package python3-paho-mqtt).

    ledger-shop bridge-mqtt shop1.d64 --shop 1 --keep shop1.lines --account bridge-1.account --ca ca.crt \\
        --broker mqtts://shop.example

It subscribes to `shops/1/asks/+` with QoS 1 and a session that the broker keeps. What the broker has delivered is handed
to `serve` together, in its order. Replies go out on `shops/1/replies/TILL`, and each before the acknowledgement (PUBACK)
of its message, over the same connection: so a broker that has the acknowledgement has the reply. Of several bridges the
one that has the image has the session: each seeks the image only while it reaches the broker, and takes the session only
when it has the image. A bridge that loses its connection ends, and `serve` with it: so the image is free for one that can
reach the broker. A supervisor starts it again. The retained topic `shops/1/bridge` says whether a bridge serves. With --screen it publishes the stock, the tills and
the last answers too (`board.py`), with --metrics figures for a monitor (`metrics.py`).

Exit status: 74 if the image or the journal couldn't be written (a keeper has to look), 75 if it is to be started again,
78 if the image is no shop, or isn't the journal's, or an argument is unfit."""

from __future__ import annotations

import ssl
from typing import Any, NoReturn
import argparse
import os
import select
import time

import paho.mqtt.client as mqtt

from ledger_shop import account, service, watched
from ledger_shop.till_mqtt import SERVING, client_of

AWAY = b"away"


class Client(mqtt.Client):
    """A client that acknowledges a message when it is told to. Debian's paho 1.6 does that as soon as on_message returns."""

    def _send_puback(self, mid: int) -> Any:
        return mqtt.MQTT_ERR_SUCCESS

    def acknowledge(self, message: Any) -> None:
        if message.qos == 1:
            super()._send_puback(message.mid)

    def has_more(self) -> bool:
        """Whether something was received that isn't read yet."""
        socket = self.socket()
        has_pending = getattr(socket, "pending", lambda: 0)
        return socket is not None and bool(has_pending() or select.select([socket], [], [], 0)[0])


class Bridge:
    """A subscriber to one shop's asks, which publishes the replies."""

    def __init__(
        self, place: account.Place, user: account.Account | None, context: ssl.SSLContext, name: str, serve: Any, silence: int
    ) -> None:
        self.place, self.context, self.name, self.serve, self.silence = place, context, name, serve, silence
        self.topic, self.title = f"shops/{name}", f"shop {name}"
        self.client = client_of(f"bridge-{name}", place, user, context, clean=False, kind=Client)
        self.client.will_set(f"{self.topic}/bridge", AWAY, qos=1, retain=True)
        # no reply waits for the acknowledgement of another: each has to go out before that of its own message
        self.client.max_inflight_messages_set(0)
        self.client.on_disconnect = lambda *_: self.ended("the connection is lost")
        self.client.on_connect = self.on_connect
        self.client.on_message = lambda _client, _data, message: self.held.append(message)
        self.held: list[Any] = []

    # seconds after which the figures and the screen are tended, if no message comes; how many are handed over together
    TURN, TOGETHER = 0.25, 64

    def publish(self, topic: str, text: str, is_retained: bool) -> None:
        self.client.publish(f"{self.topic}/{topic}", text, qos=1, retain=is_retained)

    def ended(self, why: object, status: int = service.AGAIN) -> NoReturn:
        """Ends this process at once, whatever it is doing; `serve` ends with its input."""
        service.say(f"{self.title}: {why}")
        os._exit(status)

    def on_connect(self, client: Any, _data: object, _flags: object, refused: int) -> None:
        if refused:
            self.ended(f"the broker at {self.place} refuses the account ({mqtt.connack_string(refused)})")
        client.subscribe(f"{self.topic}/asks/+", qos=1)
        # a till that sees `serving` sees the shop's last number of it
        self.serve.tick(self.publish)
        client.publish(f"{self.topic}/bridge", SERVING, qos=1, retain=True)
        for topic in self.serve.topics(self.topic):
            client.subscribe(topic, qos=1)

    def listen(self) -> bool:
        """Waits for messages, and takes all that were received; whether the connection stands."""
        code = self.client.loop(self.TURN)
        while code == mqtt.MQTT_ERR_SUCCESS and 0 < len(self.held) < self.TOGETHER and self.client.has_more():
            code = self.client.loop(0)
        return code == mqtt.MQTT_ERR_SUCCESS

    def answer(self) -> None:
        """Answers the messages that are held. What isn't acknowledged when this ends the broker keeps."""
        held, self.held = self.held, []
        asks = [one for one in held if one.topic.startswith(f"{self.topic}/asks/")]
        try:
            replies = self.serve.hand_all([(one.payload, service.till_of(one.topic.rpartition("/")[2])) for one in asks])
        except service.Gone as gone:
            self.ended(gone, gone.exit_status())
        for one in held:
            if asks and one is asks[0]:
                asks, reply = asks[1:], replies.pop(0)
                self.client.publish(f"{self.topic}/replies/{service.place_of(reply)}", reply, qos=1)
            else:
                self.serve.hear(one.topic.removeprefix(f"{self.topic}/"), one.payload)
            self.client.acknowledge(one)

    def reach(self) -> None:
        """Waits until the broker can be reached."""
        told = None
        while fault := account.fault_at(self.place, self.context):
            self.serve.stand_by(fault)
            if fault != told:
                service.say(f"{self.title}: {fault}")
            told = fault
            time.sleep(1)

    def run(self) -> None:
        self.reach()
        service.say(f"{self.title}: stands by")
        self.serve.start(self.serve.wait)
        service.say(f"{self.title}: serving")
        try:
            # a broker that is silent for up to twice so long is taken for gone
            self.client.connect(self.place.host, self.place.port, self.silence)
            while self.listen():
                self.answer()
                self.serve.tick(self.publish)
            self.ended("the connection is lost")
        except OSError as fault:
            self.ended(f"the broker is away ({type(fault).__name__})")


def over_broker(given: argparse.Namespace, serve: Any) -> None:
    place = account.Place(given.broker, "mqtt", given.plain)
    user, context = account.account_of(given.account), account.context_of(given.ca)
    Bridge(place, user, context, given.shop, serve, given.silence).run()


def main() -> None:
    parser = service.words(argparse.ArgumentParser(description=__doc__.splitlines()[0]))
    parser.add_argument("--broker", default="127.0.0.1:1883", help="mqtts://HOST:PORT of the MQTT broker")
    parser.add_argument("--silence", type=int, default=10, help="seconds without a word from the broker (default 10)")
    given = watched.words(parser).parse_args()
    service.served(given, lambda serve: over_broker(given, serve), watched.kind_of(given))


if __name__ == "__main__":
    main()
