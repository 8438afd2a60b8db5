"""A till over MQTT: takes wishes as lines and prints their answers (Debian's package python3-paho-mqtt).

    ledger-shop till-mqtt 7 --shop 1 --book till7.book --broker mqtts://shop.example --account till-1-7.account --ca ca.crt

It asks on the topic `shops/1/asks/7`, the replies to it come on `shops/1/replies/7`, both with QoS 1. The topic
`shops/1/bridge` says whether a bridge serves. Before each new wish it compares its book with the numbers that the shop and
other devices have (`marks.py`)."""

from __future__ import annotations

import argparse
import ssl
from typing import Any
import queue
import socket
import threading
import time

import paho.mqtt.client as mqtt

from ledger_shop import account, marks, wishes

# MQTT's codes of a refused account
DENIED = (4, 5)
SERVING = b"serving"


def at_once(_client: object, _data: object, link: Any) -> None:
    """Each message goes out at once, and doesn't wait for the acknowledgement of the one before."""
    link.setsockopt(socket.IPPROTO_TCP, socket.TCP_NODELAY, 1)


class Client(mqtt.Client):
    """A client that connects again also when TLS ends in a way that paho raises as a fault."""

    is_closed = False

    def loop_forever(self, *words: Any, **more: Any) -> Any:
        while not self.is_closed:
            try:
                return super().loop_forever(*words, **more)
            except OSError:
                self.return_to_broker()
        return mqtt.MQTT_ERR_SUCCESS

    def return_to_broker(self) -> None:
        while not self.is_closed:
            time.sleep(1)
            try:
                self.reconnect()
                return
            except OSError:
                pass

    def reconnect(self) -> Any:
        """Connects again; what was on its way over the connection before never goes out over this one."""
        with self._out_message_mutex:
            self._out_messages.clear()
        return super().reconnect()

    def disconnect(self, *words: Any, **more: Any) -> Any:
        self.is_closed = True
        return super().disconnect(*words, **more)


def client_of(
    name: str,
    place: account.Place,
    user: account.Account | None,
    context: ssl.SSLContext,
    clean: bool = True,
    kind: type[mqtt.Client] = Client,
) -> Any:
    """A client with this account. If a broker lets clients choose their identifier, it is the account's name too."""
    client = kind(user[0] if user else name, clean_session=clean)
    client.on_socket_open = at_once
    if user:
        client.username_pw_set(*user)
    if place.is_secure:
        client.tls_set_context(context)
    return client


class Broker(wishes.Carrier):
    """Carries messages over a broker, to which it connects again by itself. With a mark it compares numbers; without one it
    is a till that doesn't know marks."""

    def __init__(
        self,
        place: account.Place,
        shop: str,
        till: int,
        user: account.Account | None = None,
        ca: account.StrPath | None = None,
        mark: str | None = None,
    ) -> None:
        self.place, self.context, self.shop, self.till = place, account.context_of(ca), shop, till
        topics = ("asks", "replies", "tills", "marks")
        self.asks, self.replies, self.tills, self.marks = (f"shops/{shop}/{topic}/{till}" for topic in topics)
        self.bridge, self.serving = f"shops/{shop}/bridge", None
        self.heard: queue.Queue[str] = queue.Queue()
        self.refused = 0
        self.numbers, self.known = marks.Numbers(mark) if mark else None, threading.Event()
        self.client = client_of(f"till-{shop}-{till}", place, user, self.context)
        self.client.reconnect_delay_set(1, 4)
        self.client.on_connect = self.on_connect
        self.client.on_message = self.on_message
        self.client.connect_async(place.host, place.port)
        self.client.loop_start()

    def on_connect(self, client: Any, _data: object, _flags: object, refused: int) -> None:
        """Subscribes. The bridge's word comes last: a broker hands over what it keeps in the order in which it is asked."""
        self.refused, self.serving = refused, None
        self.known.clear()
        if self.numbers:
            self.numbers.forget()
        if not refused:
            topics = (self.tills, self.marks, self.replies, self.bridge)
            client.subscribe([(topic, 1) for topic in topics if self.numbers or topic not in (self.tills, self.marks)])

    def on_message(self, _client: object, _data: object, message: Any) -> None:
        """A reply is never retained: one that is may be old, or nobody's."""
        text = message.payload.decode("ascii", "replace")
        if message.topic == self.bridge:
            self.serving = message.payload
            self.known.set()
        elif self.numbers and message.topic == self.tills:
            self.numbers.shows(text)
        elif self.numbers and message.topic == self.marks:
            self.numbers.notes(text, message.retain)
        elif not message.retain:
            self.heard.put(text)

    def is_ready(self, last: int) -> bool:
        """Whether a till may take a new wish after this number; raises Taken if another device has used the next one. It
        isn't while the numbers aren't known."""
        if not (self.numbers and self.client.is_connected() and self.known.is_set()):
            return not self.numbers
        self.numbers.compare(self.till, last, None)
        return True

    def send(self, text: str) -> None:
        if not self.client.is_connected():
            raise wishes.Away
        if self.numbers:
            if not self.known.is_set():
                raise wishes.Away
            self.take(text)
        self.client.publish(self.asks, text, qos=1)

    def free(self) -> None:
        if self.numbers and self.numbers.is_here:
            self.client.publish(self.marks, self.numbers.mark, qos=1, retain=True).wait_for_publish(1)
            self.numbers.taken = {}

    def shop_number(self, last: int) -> int | None:
        return self.numbers.below(last) if self.numbers else None

    def take(self, text: str) -> None:
        """Takes the number of this ask for this device, before it is asked."""
        assert self.numbers
        number = int(text.split(",")[1])
        self.numbers.compare(self.till, number - 1, text)
        if told := self.numbers.take(number):
            self.client.publish(self.marks, told, qos=1, retain=True)

    def reply(self, seconds: float) -> str | None:
        try:
            return self.heard.get(timeout=seconds)
        except queue.Empty:
            return None

    def trouble(self) -> str:
        """What a till waits for, in words."""
        if self.refused in DENIED:
            return f"the broker at {self.place} refuses the account"
        if not self.client.is_connected():
            return account.fault_at(self.place, self.context) or f"the connection to {self.place} is lost"
        if self.serving is None:
            return f"the broker knows no shop {self.shop} for this account: its bridge hasn't been there"
        if self.serving != SERVING:
            return f"no bridge of shop {self.shop} is at the broker"
        return "no answer yet from the bridge"

    def close(self) -> None:
        try:
            self.client.disconnect()
        except OSError:
            pass
        self.client.loop_stop()


def connected(given: argparse.Namespace) -> Broker:
    place = account.Place(given.broker, "mqtt", given.plain)
    user = account.account_of(given.account)
    return Broker(place, given.shop, given.till, user, given.ca, marks.mark_of(given.book))


def main() -> None:
    parser = wishes.words(__doc__.splitlines()[0])
    parser.add_argument("--broker", default="127.0.0.1:1883", help="mqtts://HOST:PORT of the MQTT broker")
    parser.add_argument("--go-on", action="store_true", help="if another device used this till, go on after its number")
    wishes.run(parser.parse_args(), connected)


if __name__ == "__main__":
    main()
