"""What a bridge shows of its shop on a screen: stock, tills and last answers, as short retained messages.

    shops/1/stock/3     lines ITEM,QUANTITY for the items 120 to 159: 40 to a message, the item divided by 40
    shops/1/tills/7     TIME NUMBER,KIND,ITEM,QUANTITY[,TO],ANSWER: the till's last request
    shops/1/last        the last answers, newest last: TIME TILL,NUMBER,KIND,ITEM,QUANTITY[,TO],ANSWER
    shops/1/top         TOP,CARDS: the greatest item that the disk has room for, and how many cards there are
    shops/1/history/asks  the screen asks for the history of an item, by its number
    shops/1/history/42    the answer, not retained: the item's last movements, lines as in shops/1/last

Each fits into the 1,000 bytes that mosquitto.conf allows. TIME is `-` for what was before the journal."""

from __future__ import annotations

from collections.abc import Iterable
from collections import deque

from ledger_shop.movements import Movement
from ledger_shop import journal, movements

# items in a message of the stock, answers that are shown, movements of an item that are kept
PAGE, LAST, HISTORY = 40, 10, 10
PAGES, TILLS = 10160 // PAGE + 1, 64
UNKNOWN = "-"


def line_of(time: str, request: str, answer: str) -> str:
    return f"{time} {request},{answer}"


class Board:
    """The shop as a screen shows it. `show` is what `show` prints of it, `before` the journal's movements so far."""

    def __init__(self, show: list[str], before: Iterable[Movement] = ()) -> None:
        self.top = 0
        self.stock: dict[int, int] = {}
        self.tills: dict[int, str] = {}
        self.numbers: dict[int, int] = {}
        self.last: deque[str] = deque(maxlen=LAST)
        self.history: dict[int, deque[str]] = {}
        for one in before:
            self.note(one)
        times = {(one.till, one.number): one.time for one in before}
        self.read(show)
        for line in (line.removeprefix("TILL ") for line in show if line.startswith("TILL ")):
            till, number, rest = line.split(",", 2)
            self.numbers[int(till)] = int(number)
            self.tills[int(till)] = f"{times.get((int(till), int(number)), UNKNOWN)} {number},{rest}"
        # what an earlier bridge left at the broker is replaced or taken away
        self.dirty = {f"stock/{page}" for page in range(PAGES)} | {f"tills/{till}" for till in range(1, TILLS + 1)}
        self.dirty |= {"last", "top"}

    def read(self, show: list[str]) -> None:
        """Takes top and cards of what `show` prints."""
        for line in show:
            word, _, rest = line.partition(" ")
            if word == "TOP":
                self.top = int(rest)
            elif word == "CARD":
                item, quantity = map(int, rest.split(","))
                self.stock[item] = quantity

    def note(self, movement: Movement) -> None:
        """Keeps a movement for its items' history and the last answers."""
        one = movement
        wish = f"{one.kind},{one.item},{one.quantity}" + (f",{one.to}" if one.to else "")
        line = line_of(one.time, f"{one.till},{one.number},{wish}", one.answer)
        self.last.append(line)
        for item in filter(None, (one.item, one.to)):
            self.history.setdefault(item, deque(maxlen=HISTORY)).append(line)

    def is_new(self, till: int, number: int) -> bool:
        return number == self.numbers.get(till, 0) + 1

    def took(self, time: str, request: str, reply: str) -> bool:
        """Takes a request that counts, once; returns whether it made a new card."""
        till, number = journal.key_of(request)
        movement = movements.movement_of(time, request, reply)
        self.numbers[till] = number
        self.tills[till] = f"{time} {request.split(',', 1)[1]},{movement.answer}"
        self.note(movement)
        changed = movements.left(movement)
        made = any(item not in self.stock for item in changed)
        self.stock.update(changed)
        self.dirty |= {"last", f"tills/{till}"} | {f"stock/{item // PAGE}" for item in changed}
        return made

    def text(self, topic: str) -> str:
        """What a topic's message says now; an empty one takes it away from the broker."""
        kind, _, place = topic.partition("/")
        if kind == "stock":
            items = range(int(place) * PAGE, (int(place) + 1) * PAGE)
            return "\n".join(f"{item},{self.stock[item]}" for item in items if item in self.stock)
        if kind == "tills":
            return self.tills.get(int(place), "")
        return "\n".join(self.last) if kind == "last" else f"{self.top},{len(self.stock)}"

    def changed(self) -> list[tuple[str, str]]:
        """Topics and texts that have changed since they were asked for."""
        topics, self.dirty = sorted(self.dirty), set()
        return [(topic, self.text(topic)) for topic in topics]

    def history_of(self, payload: bytes) -> tuple[str, str] | None:
        """Topic and text of an item's history, or None if no item is asked for."""
        if not (payload.isdigit() and len(payload) <= 5):
            return None
        item = int(payload)
        return f"history/{item}", "\n".join(self.history.get(item, []))
