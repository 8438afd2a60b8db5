"""A till over RabbitMQ: takes wishes as lines and prints their answers (Debian's package python3-pika).

    ledger-shop till 7 --shop 1 --book till7.book --broker amqps://shop.example/ --account till-1-7.account --ca ca.crt

It asks through the exchange `shop.1.asks`, and the replies to it come through the exchange `shop.1.replies`, both with
its number as key. Its own queue falls with its connection: a reply that finds none is lost, and the till asks again."""

from __future__ import annotations

import argparse
import ssl
from typing import Any, NoReturn
import secrets
from collections import deque

from ledger_shop import account, wishes

try:
    import pika
    from pika.adapters.utils.connection_workflow import AMQPConnectorException
    from pika.exceptions import AMQPError, ChannelClosedByBroker, NackError, ProbableAuthenticationError

    # what pika raises if a broker isn't there, or is slow to answer
    FAULTS = (AMQPError, AMQPConnectorException, OSError)
except ModuleNotFoundError:
    # a till with --pipe does without
    pika = None

# AMQP's codes of what isn't allowed, and of what isn't there
DENIED, ABSENT = 403, 404
# how many replies wait for a till
MOST = 100


def parameters(places: list[account.Place], user: account.Account | None, context: ssl.SSLContext) -> list[Any]:
    """What pika connects with, for each of these places."""
    each = [pika.URLParameters(place.text) for place in places]
    for one, place in zip(each, places):
        one.ssl_options = pika.SSLOptions(context, place.host) if place.is_secure else None
        if user:
            one.credentials = pika.PlainCredentials(*user)
    return each


class Broker(wishes.Carrier):
    """Carries messages over whichever of the brokers is there."""

    def __init__(
        self,
        places: list[account.Place],
        shop: str,
        till: int | str,
        user: account.Account | None = None,
        ca: account.StrPath | None = None,
    ) -> None:
        self.places, self.context = places, account.context_of(ca)
        self.parameters = parameters(places, user, self.context)
        self.shop, self.key = shop, str(till)
        self.asks, self.replies, self.queue = (f"shop.{shop}.{name}" for name in ("asks", "replies", "bridge"))
        self.heard: deque[str] = deque()
        self.connection: Any = None
        self.fault: Exception | None = None

    def connect(self) -> None:
        self.connection = pika.BlockingConnection(self.parameters)
        self.channel = self.connection.channel()
        self.channel.exchange_declare(self.replies, passive=True)
        mine = f"till.{self.shop}.{self.key}.{secrets.token_hex(8)}"
        self.channel.queue_declare(mine, exclusive=True, arguments={"x-max-length": MOST})
        self.channel.queue_bind(mine, self.replies, self.key)
        self.channel.basic_consume(mine, self.on_reply, auto_ack=True)
        # a full queue says so, and the ask is sent again at once
        self.channel.confirm_delivery()

    def on_reply(self, _channel: object, _method: object, _properties: object, reply: bytes) -> None:
        self.heard.append(reply.decode("ascii", "replace"))

    def send(self, text: str) -> None:
        try:
            if not self.connection:
                self.connect()
            self.channel.basic_publish(self.asks, self.key, text.encode(), pika.BasicProperties(delivery_mode=2))
        except NackError as full:
            raise wishes.Full from full
        except FAULTS as fault:
            self.lost(fault)

    def reply(self, seconds: float) -> str | None:
        if not (self.heard or self.connection):
            raise wishes.Away
        try:
            if not self.heard:
                self.connection.process_data_events(time_limit=seconds)
        except FAULTS as fault:
            self.lost(fault)
        return self.heard.popleft() if self.heard else None

    def lost(self, fault: Exception) -> NoReturn:
        self.close()
        self.fault = fault
        raise wishes.Away from fault

    def trouble(self) -> str:
        """What a till waits for, in words."""
        if self.connection:
            return self.without_answer()
        if isinstance(self.fault, ProbableAuthenticationError):
            return f"the broker at {self.places[0]} refuses the account"
        if isinstance(self.fault, ChannelClosedByBroker) and self.fault.reply_code == ABSENT:
            return f"the broker knows no shop {self.shop}: its bridge hasn't been there"
        if isinstance(self.fault, ChannelClosedByBroker) and self.fault.reply_code == DENIED:
            return f"the account isn't till {self.key}'s of shop {self.shop}"
        faults = [account.fault_at(place, self.context) for place in self.places]
        return next((fault for fault in faults if fault), f"the connection to {self.places[0]} is lost")

    def without_answer(self) -> str:
        """Whether a bridge is at the broker."""
        try:
            channel = self.connection.channel()
            bridges = channel.queue_declare(self.queue, passive=True).method.consumer_count
            channel.close()
        except FAULTS as fault:
            # a node that died while it was asked has closed the connection, and nothing may be awaited on that any more
            if not self.connection.is_open:
                self.close()
                self.fault = fault
            return "no answer yet"
        return "no answer yet from the bridge" if bridges else f"no bridge of shop {self.shop} is at the broker"

    def close(self) -> None:
        try:
            if self.connection and self.connection.is_open:
                self.connection.close()
        except FAULTS:
            pass
        self.connection = None


def connected(given: argparse.Namespace) -> Broker:
    if not pika:
        raise account.Unfit("without --pipe it wants Debian's python3-pika, which isn't there")
    places = [account.Place(text, "amqp", given.plain) for text in given.broker or ["amqp://127.0.0.1/"]]
    return Broker(places, given.shop, given.till, account.account_of(given.account), given.ca)


def main() -> None:
    parser = wishes.words(__doc__.splitlines()[0])
    several = "amqps://HOST:PORT; more than once for the nodes of a cluster"
    parser.add_argument("--broker", action="append", help=several)
    wishes.run(parser.parse_args(), connected)


if __name__ == "__main__":
    main()
