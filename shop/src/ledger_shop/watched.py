"""A `serve` that is watched: a bridge's screen (--screen), its figures (--metrics), and what systemd is told."""

from __future__ import annotations

import argparse
from collections.abc import Callable
from typing import Any
import os
import sys
import time

from ledger_shop import journal, movements, service
from ledger_shop.account import Unfit
from ledger_shop.board import Board

# seconds between two messages of one kind to the screen, to systemd's watchdog, and of two looks at the disk's room
SCREEN, WATCH, ROOM = 0.3, 10.0, 30.0


# publishes a topic's text, retained or not
Publish = Callable[[str, str, bool], None]


class Unwatched(service.Serve):
    """A `serve` of a bridge that shows nothing."""

    wait = staticmethod(time.sleep)

    def topics(self, _topic: str) -> list[str]:
        return []

    def stand_by(self, _why: str) -> None:
        pass

    def hear(self, _topic: str, _payload: bytes) -> None:
        pass

    def tick(self, _publish: Publish) -> None:
        pass


class Systemd:
    """What systemd is told of a unit with Type=notify (Debian's python3-sdnotify)."""

    def __init__(self) -> None:
        self.notifier, self.told = None, 0.0
        if "NOTIFY_SOCKET" in os.environ:
            try:
                import sdnotify
            except ImportError:
                service.say("bridge: systemd waits for word of this unit: install Debian's python3-sdnotify")
                sys.exit(service.NO_SHOP)
            self.notifier = sdnotify.SystemdNotifier()
            self.notifier.notify("READY=1")

    def say(self, text: str) -> None:
        if self.notifier:
            self.notifier.notify(f"STATUS={text}")

    def live(self) -> None:
        if self.notifier and time.monotonic() >= self.told + WATCH:
            self.told = time.monotonic()
            self.notifier.notify("WATCHDOG=1")


class Watched(service.Serve):
    """A `serve` whose requests are counted and shown."""

    def __init__(self, figures: Any, screen: bool, *words: Any) -> None:
        super().__init__(*words)
        self.figures, self.has_screen, self.systemd = figures, screen, Systemd()
        self.board: Board | None = None
        self.asked: list[bytes] = []
        self.shown_at = self.looked_at = 0.0
        self.is_short = False
        self.stand_by("starts")

    def stand_by(self, why: str) -> None:
        self.figures.stands_by(why)
        self.systemd.say(f"stands by: {why}")
        self.systemd.live()

    def wait(self, seconds: float) -> None:
        self.stand_by("another bridge has the image")
        time.sleep(seconds)

    def start(self, wait: Callable[[float], None] = time.sleep) -> None:
        super().start(wait)
        self.board = Board(self.show(), self.before())
        self.figures.serves(self.board)
        self.systemd.say("serving")

    def before(self) -> list[movements.Movement]:
        """The journal's last movements, for the screen. Without them it shows less; the shop is served all the same."""
        try:
            return list(movements.in_journal(self.journal.path, last=2)) if self.journal else []
        except (Unfit, OSError) as fault:
            service.say(f"the screen has no history: {fault}")
            return []

    def topics(self, topic: str) -> list[str]:
        asks = [f"{topic}/history/asks"] if self.has_screen else []
        return [*asks, *self.figures.topics]

    def hear(self, topic: str, payload: bytes) -> None:
        """Takes a message that is no ask."""
        if topic == "history/asks":
            self.asked.append(payload)
        else:
            self.figures.hear(topic, payload)

    def answers(self, lines: list[str | None]) -> list[bytes]:
        replies = super().answers(lines)
        for reply in replies:
            self.figures.answered(reply)
        return replies

    def take(self, lines: list[str]) -> list[bytes]:
        began = time.monotonic()
        replies = super().take(lines)
        seconds = time.monotonic() - began
        for line, reply in zip(lines, replies):
            self.figures.turned(seconds)
            text = reply.decode("latin-1")
            if self.board and self.board.is_new(*journal.key_of(line)) and journal.counts(line, text):
                self.is_short |= self.board.took(journal.now(), line, text)
        return replies

    def tick(self, publish: Publish) -> None:
        """Between two messages: feeds the screen, the figures and the watchdog."""
        now = time.monotonic()
        self.systemd.live()
        self.figures.ticks()
        if not self.board:
            return
        if self.is_short and now >= self.looked_at + ROOM:
            self.looked_at, self.is_short = now, False
            self.board.read(self.show())
            self.board.dirty.add("top")
            self.figures.serves(self.board)
        if not self.has_screen:
            return
        asked, self.asked = self.asked[:20], []
        for found in filter(None, map(self.board.history_of, asked)):
            publish(*found, False)
        if self.board.dirty and now >= self.shown_at + SCREEN:
            self.shown_at = now
            for topic, text in self.board.changed():
                publish(topic, text, True)


def words(parser: argparse.ArgumentParser) -> argparse.ArgumentParser:
    """The arguments for what watches a bridge."""
    parser.add_argument("--screen", action="store_true", help="publish stock, tills and last answers for the stock page")
    parser.add_argument("--metrics", type=int, metavar="PORT", help="serve /metrics and /health on this port of the loopback")
    parser.add_argument("--backups", metavar="FOLDER", help="the folder of ledger-shop backup, whose last copy's age is a figure")
    return parser


def kind_of(given: argparse.Namespace) -> Callable[..., Any]:
    """What makes the `serve` of these arguments."""
    if not (given.screen or given.metrics or "NOTIFY_SOCKET" in os.environ):
        return Unwatched
    from ledger_shop import metrics

    figures = metrics.figures_of(given.metrics, given.backups, given.image)
    return lambda *words: Watched(figures, given.screen, *words)
