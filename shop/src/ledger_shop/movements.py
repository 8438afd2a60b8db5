"""What a shop's journal says of goods: each request that counted, with its time, its answer, and what was left then."""

from __future__ import annotations

from collections.abc import Callable, Iterator
from datetime import datetime
from typing import NamedTuple

from ledger_shop.account import StrPath
from ledger_shop import journal
from ledger_shop.wishes import MOST

# the name of an item
Namer = Callable[[int], str]


class Movement(NamedTuple):
    """A request that counted, and its answer; `to` is the item that a move goes to."""

    time: str
    till: int
    number: int
    kind: str
    item: int
    quantity: int
    to: int | None
    answer: str


# why nothing was done, by the first word of an answer, as the day's report has it
REASONS = {
    "SHORT": "fewer are there",
    "OVER": f"more than {MOST} can't be",
    "NO CARD": "no card",
    "72": "the disk has no room",
    "52": "an item's number can't be so large",
}


def movement_of(time: str, request: str, reply: str) -> Movement:
    """A movement, of a request's line and its reply."""
    till, number, kind, item, quantity, *to = request.split(",")
    whole = (int(till), int(number), kind, int(item), int(quantity), int(to[0]) if to else None)
    return Movement(time, *whole, journal.answer_of(reply))


def wish_words(one: Movement, name: Namer) -> str:
    """A wish in words, as the pages have them. `name` gives the name of an item."""
    if one.kind == "R" and one.quantity == 0:
        return f"Look at {name(one.item)}"
    return {
        "R": f"Receive {one.quantity} of {name(one.item)}",
        "I": f"Sell {one.quantity} of {name(one.item)}",
        "S": f"Set {name(one.item)} to {one.quantity}",
        "M": f"Move {one.quantity} from {name(one.item)} to {name(one.to or one.item)}",
    }[one.kind]


def refusal_words(one: Movement, name: Namer) -> str:
    """Why nothing was done, as the pages have it."""
    word, _, count = one.answer.partition(",")
    goods = "one of these goods" if one.kind == "M" else name(one.item)
    return (
        "Nothing was done: "
        + {
            "NO CARD": f"{goods} has no card. Set it first.",
            "SHORT": f"only {count} of {name(one.item)} are there.",
            "OVER": f"{count} of {name(one.to or one.item)} are there, and more than {MOST} can't be.",
            "72": f"the disk has no room for item {one.item}.",
            "52": "an item's number can't be so large.",
        }[word]
    )


def words_of(one: Movement, name: Namer) -> str:
    """A request and its answer in a line of words, as the stock page has them."""
    counts = left(one)
    if not counts:
        return f"{wish_words(one, name)}. {refusal_words(one, name)}"
    return f"{wish_words(one, name)}: {' and '.join(map(str, counts.values()))} left"


def left(movement: Movement) -> dict[int, int]:
    """What is on hand after a movement: a quantity for each item that it changed; nothing if it was refused."""
    word, *counts = movement.answer.split(",")
    if word != "DONE":
        return {}
    items = [movement.item] if movement.to is None else [movement.item, movement.to]
    return dict(zip(items, map(int, counts)))


def in_journal(path: StrPath, last: int | None = None) -> Iterator[Movement]:
    """The movements of a journal, oldest first; only of its `last` files if a number is given. A request without a reply isn't
    one: it counts later, or its reply was lost."""
    files = journal.files_of(path)
    for one in journal.answers_in(files[-last:] if last else files):
        if one.reply and journal.counts(one.request, one.reply):
            yield movement_of(one.time, one.request, one.reply)


def local(time: str) -> datetime:
    """A journal's time as this machine's zone has it."""
    return datetime.fromisoformat(time.replace("Z", "+00:00")).astimezone()


def turns_back(movements: list[Movement]) -> int:
    """How often the clock went back from one line to the next."""
    times = [one.time for one in movements]
    return sum(later < earlier for earlier, later in zip(times, times[1:]))
