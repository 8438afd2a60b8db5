"""Carries a shop's messages between RabbitMQ and `serve` (Debian's package python3-pika).

    ledger-shop bridge shop1.d64 --shop 1 --keep shop1.lines --account bridge-1.account --ca ca.crt \\
        --broker amqps://one.example/ --broker amqps://two.example/

Tills ask through the exchange `shop.1.asks`, each with its number as key. The asks lie in the quorum queue
`shop.1.bridge`, which has a single active consumer: of several bridges one serves, and the others stand by. What the
broker has delivered is handed to `serve` together, in its order. These messages are acknowledged when the broker has taken all
their replies, in one transaction; a bridge that dies before leaves them to the next, whose repeat has no second effect. Replies go out
through the exchange `shop.1.replies`, with the till's number as key.

If the connection is lost, `serve` is ended before another is sought: another bridge may be the active one by then. How
soon that is noticed is said by the broker's place (`?heartbeat=10`). If no message comes for some seconds `serve` is
ended too, and started again by the next: when nodes of a cluster lose each other for a moment, another bridge may become
the active one, and the one before isn't told.

With --pipes it takes messages as lines of standard input and prints their replies, without a broker.

Exit status: 74 if the image or the journal couldn't be written (a keeper has to look), 75 if it is to be started again,
78 if the image is no shop, or isn't the journal's, or an argument is unfit."""

from __future__ import annotations

from collections.abc import Callable
from typing import Any
import argparse
import sys
import time

from ledger_shop import account, service

# how many asks wait at the broker: a till whose ask is refused asks again
MOST = 1000
QUEUE = {
    "x-queue-type": "quorum",
    "x-single-active-consumer": True,
    "x-max-length": MOST,
    "x-overflow": "reject-publish",
}


def declare(channel: Any, name: str) -> tuple[str, str]:
    """A shop's queue, of which one consumer is served at a time, how asks come to it, and how replies go out. Returns
    the names of the queue and of the replies' exchange."""
    asks, replies, queue = (f"shop.{name}.{what}" for what in ("asks", "replies", "bridge"))
    channel.exchange_declare(asks, "topic", durable=True)
    channel.exchange_declare(replies, "topic", durable=True)
    channel.queue_declare(queue, durable=True, arguments=QUEUE)
    channel.queue_bind(queue, asks, "*")
    return queue, replies


class Bridge:
    """A consumer of one shop's asks."""

    # how many messages are handed over together, how many are on their way to a bridge at a time, and seconds without one
    # until it lets the image go
    TOGETHER, AHEAD, IDLE = 64, 256, 10

    def __init__(self, parameters: list[Any], name: str, serve: service.Serve) -> None:
        self.parameters, self.name, self.serve = parameters, name, serve
        self.title = f"shop {name}"

    def run(self) -> None:
        """Serves over one connection after another."""
        from pika.adapters.utils.connection_workflow import AMQPConnectorException
        from pika.exceptions import AMQPError

        while True:
            try:
                self.connected()
            except (AMQPError, AMQPConnectorException, OSError) as fault:
                service.say(f"{self.title}: the broker is away ({type(fault).__name__} {fault})".rstrip())
            self.let_go()
            time.sleep(1)

    def idle(self) -> None:
        if self.serve.is_open():
            self.let_go()
            service.say(f"{self.title}: stands by")

    def let_go(self) -> None:
        """Ends `serve`, so that another bridge may have the image."""
        gone = self.serve.end()
        if gone.status != 0:
            raise gone

    def replies_to(self, asks: list[tuple[Any, bytes]], wait: Callable[[float], None]) -> list[bytes]:
        """The replies to messages. Only a request opens the image."""
        lines = [self.serve.request(message, service.till_of(method.routing_key)) for method, message in asks]
        if any(lines) and not self.serve.is_open():
            self.serve.start(wait)
            service.say(f"{self.title}: serving")
        return self.serve.answers(lines)

    def delivered(self, channel: Any, messages: Any, first: tuple[Any, bytes]) -> list[tuple[Any, bytes]]:
        """A message, and those that the broker has delivered after it."""
        asks = [first]
        channel.connection.process_data_events(0)
        while len(asks) < self.TOGETHER and channel.get_waiting_message_count():
            method, _, message = next(messages)
            asks.append((method, message))
        return asks

    def connected(self) -> None:
        """Serves over one connection, until it breaks."""
        import pika

        connection = pika.BlockingConnection(self.parameters)
        try:
            channel, out = connection.channel(), connection.channel()
            queue, replies = declare(channel, self.name)
            out.tx_select()
            channel.basic_qos(prefetch_count=self.AHEAD)
            service.say(f"{self.title}: stands by")
            messages = channel.consume(queue, inactivity_timeout=self.IDLE)
            for method, _, message in messages:
                if method is None:
                    self.idle()
                    continue
                asks = self.delivered(channel, messages, (method, message))
                # a reply goes out once, however often it was asked for meanwhile: a flood of one message costs one reply
                for reply in dict.fromkeys(self.replies_to(asks, connection.sleep)):
                    out.basic_publish(replies, service.place_of(reply), reply)
                # the broker has all these replies, before it forgets any of the messages
                out.tx_commit()
                channel.basic_ack(asks[-1][0].delivery_tag, multiple=True)
        finally:
            if connection.is_open:
                connection.close()


def over_pipes(serve: service.Serve) -> None:
    """Messages are lines of standard input."""
    serve.start()
    for message in sys.stdin.buffer:
        sys.stdout.buffer.write(serve.hand(message) + b"\n")
        sys.stdout.buffer.flush()
    serve.end()


def over_broker(given: argparse.Namespace, serve: service.Serve) -> None:
    """Over RabbitMQ, with the account and at the places that are given."""
    from ledger_shop import till

    places = [account.Place(text, "amqp", given.plain) for text in given.broker or ["amqp://127.0.0.1/"]]
    parameters = till.parameters(places, account.account_of(given.account), account.context_of(given.ca))
    Bridge(parameters, given.shop, serve).run()


def main() -> None:
    parser = service.words(argparse.ArgumentParser(description=__doc__.splitlines()[0]))
    several = "amqps://HOST:PORT; more than once for the nodes of a cluster"
    parser.add_argument("--broker", action="append", help=several)
    parser.add_argument("--pipes", action="store_true", help="take messages from standard input, without a broker")
    given = parser.parse_args()
    service.served(given, over_pipes if given.pipes else lambda serve: over_broker(given, serve), service.Serve)


if __name__ == "__main__":
    main()
