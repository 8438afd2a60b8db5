"""A till over RabbitMQ goes on waiting after a node died while the till asked why there is no answer (no broker is wanted)."""

from collections import deque

import pytest

pytest.importorskip("pika")

from pika.exceptions import ConnectionClosedByBroker

from ledger_shop import till, wishes


class DeadConnection:
    """A connection whose node died: pika has closed it, with its loop, and a call that waits on that loop is a ValueError."""

    is_open = False

    def channel(self):
        raise ConnectionClosedByBroker(320, "the node is stopped")

    def process_data_events(self, time_limit):
        raise ValueError("Timeout closed before call")


def test_a_till_whose_node_died_is_away():
    broker = till.Broker.__new__(till.Broker)
    broker.connection, broker.heard, broker.fault, broker.queue = DeadConnection(), deque(), None, "asks.1"
    assert broker.trouble() == "no answer yet"
    with pytest.raises(wishes.Away):
        broker.reply(1)
