"""A bridge's figures for a monitor, on the loopback address (Debian's python3-prometheus-client).

`/metrics` has them in Prometheus' form. `/health` answers 200 with `serving` or `stands by: WHY`, and 503 if the bridge
hasn't stirred for 30 s. Whoever holds a connection open keeps nobody else waiting, and loses it after 5 s. docs/OPERATIONS.md says which figure means what."""

from __future__ import annotations

from typing import Any
import glob
import socket
import sys
import threading
import time
from pathlib import Path
from wsgiref.simple_server import WSGIRequestHandler, WSGIServer, make_server

from ledger_shop.board import Board
from ledger_shop import service


# seconds after which a bridge that doesn't stir counts as hung
HUNG = 30.0
# connections at a time, and the seconds that each has
MOST, PATIENCE = 8, 5.0
STORED, RETAINED = "$SYS/broker/store/messages/count", "$SYS/broker/retained messages/count"
WORDS = ("DONE", "SHORT", "OVER", "NO CARD", "72", "52", "NO TILL", "CLASH", "STALE", "AHEAD", "30")
LOOPBACK = "127.0.0.1"


class Nothing:
    """Figures that nobody asks for."""

    topics: tuple[str, ...] = ()

    def stands_by(self, why: str) -> None:
        pass

    def serves(self, board: Board) -> None:
        pass

    def answered(self, reply: bytes) -> None:
        pass

    def turned(self, seconds: float) -> None:
        pass

    def hear(self, topic: str, payload: bytes) -> None:
        pass

    def ticks(self) -> None:
        pass


def word_of(reply: bytes) -> str:
    """The word by which a reply is counted."""
    text = reply.decode("latin-1")
    word = "30" if text.startswith("30,") else text.split(",", 2)[2].split(",")[0]
    return word if word in WORDS else "other"


def last_backup(folder: str | None, name: str) -> float | None:
    """When the last copy of the shop of this name in a folder of ledger-shop backup was made, by its number and not by its time;
    None if there is none."""
    form = f"{glob.escape(name)}-[0-9][0-9][0-9][0-9][0-9][0-9].d64"
    copies = sorted(Path(folder).glob(form)) if folder else []
    return max(copies, key=lambda path: path.stem[-6:]).stat().st_mtime if copies else None


class Figures(Nothing):
    """Counted by prometheus_client."""

    topics = (STORED, RETAINED)

    def __init__(self, client: Any, backups: str | None, name: str) -> None:
        self.registry = client.CollectorRegistry()
        here = {"registry": self.registry}
        self.backups, self.name, self.state, self.ticked = backups, name, "starts", time.monotonic()
        self.lines = client.Counter("ledger_lines", "Messages that the bridge took", **here)
        self.replies = client.Counter("ledger_replies", "Replies, by their word", ["word"], **here)
        edges = (0.001, 0.003, 0.01, 0.03, 0.1, 0.3, 1, 3, 10)
        text = "Seconds from a request to its reply, syncs included"
        self.turns = client.Histogram("ledger_turn_seconds", text, buckets=edges, **here)
        self.waiting = client.Gauge("ledger_waiting_messages", "Messages that wait at the broker, of all its shops", **here)
        self.cards = client.Gauge("ledger_cards", "Items that have a card", **here)
        self.top = client.Gauge("ledger_top", "The greatest item that the disk has room for", **here)
        self.free = client.Gauge("ledger_free_cards", "Items up to the top that have no card", **here)
        self.serving = client.Gauge("ledger_serving", "1 if the bridge serves, 0 if it stands by", **here)
        text = "Unix time of the last backup, 0 if there is none"
        self.backup = client.Gauge("ledger_backup_timestamp_seconds", text, **here)
        text = "Seconds since the last backup; negative if the clock went back; NaN if there is none"
        self.age = client.Gauge("ledger_backup_age_seconds", text, **here)
        self.counts: dict[str, int] = {}

    def stands_by(self, why: str) -> None:
        self.state = f"stands by: {why}"
        self.serving.set(0)
        self.ticks()

    def serves(self, board: Board) -> None:
        self.state = "serving"
        self.serving.set(1)
        self.cards.set(len(board.stock))
        self.top.set(board.top)
        self.free.set(sum(item not in board.stock for item in range(1, board.top + 1)))
        self.ticks()

    def answered(self, reply: bytes) -> None:
        self.lines.inc()
        self.replies.labels(word_of(reply)).inc()

    def turned(self, seconds: float) -> None:
        self.turns.observe(seconds)

    def hear(self, topic: str, payload: bytes) -> None:
        if topic in self.topics and payload.isdigit():
            self.counts[topic] = int(payload)
            self.waiting.set(max(self.counts.get(STORED, 0) - self.counts.get(RETAINED, 0), 0))

    def ticks(self) -> None:
        self.ticked = time.monotonic()

    def refresh(self) -> None:
        """Looks for the last backup, whenever the figures are asked for."""
        try:
            made = last_backup(self.backups, self.name)
        except OSError:
            made = None
        self.backup.set(made or 0)
        self.age.set(float("nan") if made is None else time.time() - made)

    def health(self) -> tuple[str, str]:
        """Status and text of /health."""
        silent = time.monotonic() - self.ticked
        if silent > HUNG:
            return "503 Service Unavailable", f"hangs for {silent:.0f} s ({self.state})\n"
        return "200 OK", f"{self.state}\n"


class Silent(WSGIRequestHandler):
    def log_message(self, *_words: object) -> None:
        pass


def server_of(port: int, answer: Any) -> WSGIServer:
    """A server for `answer` on the loopback, which whoever holds a connection open doesn't stop. Each connection has a thread of
    its own and so many seconds, and if there are too many the oldest gives way."""
    from prometheus_client.exposition import ThreadingWSGIServer

    class Server(ThreadingWSGIServer):
        request_queue_size = 64

        def __init__(self, *words: Any) -> None:
            self.held: dict[Any, float] = {}
            self.lock = threading.Lock()
            super().__init__(*words)

        def process_request(self, request: Any, client_address: Any) -> None:
            with self.lock:
                for old in list(self.held)[: max(len(self.held) - MOST + 1, 0)]:
                    cut(old)
                    del self.held[old]
                self.held[request] = time.monotonic()
            super().process_request(request, client_address)

        def service_actions(self) -> None:
            """Called twice a second."""
            with self.lock:
                for request, began in self.held.items():
                    if time.monotonic() > began + PATIENCE:
                        cut(request)

        def shutdown_request(self, request: Any) -> None:
            with self.lock:
                self.held.pop(request, None)
            super().shutdown_request(request)

        def handle_error(self, request: Any, client_address: Any) -> None:
            """A connection that was cut is no news."""

    return make_server(LOOPBACK, port, answer, Server, Silent)


def cut(request: socket.socket) -> None:
    """Ends a connection: the thread that waits for it goes on."""
    try:
        request.shutdown(socket.SHUT_RDWR)
    except OSError:
        pass


def figures_of(port: int | None, backups: str | None, image: str) -> Nothing:
    """The figures of the shop of an image, which are served on the loopback if a port is given. Ends the bridge if that can't be."""
    if not port:
        return Nothing()
    try:
        import prometheus_client
    except ImportError:
        service.say("bridge: --metrics wants Debian's python3-prometheus-client")
        sys.exit(service.NO_SHOP)
    figures = Figures(prometheus_client, backups, Path(image).stem)
    whole = prometheus_client.make_wsgi_app(figures.registry)

    def answer(environment: Any, start: Any) -> Any:
        if environment["PATH_INFO"] == "/health":
            status, text = figures.health()
            start(status, [("Content-Type", "text/plain; charset=utf-8")])
            return [text.encode()]
        figures.refresh()
        return whole(environment, start)

    try:
        server = server_of(port, answer)
    except OSError as fault:
        service.say(f"bridge: port {port} of {LOOPBACK} can't be had: {fault.strerror}")
        sys.exit(service.NO_SHOP)
    threading.Thread(target=server.serve_forever, daemon=True).start()
    return figures
