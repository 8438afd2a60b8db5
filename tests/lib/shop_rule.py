"""The rules of docs/MESSAGES.md once more, in plain Python: what scripts compare the program with."""

import re

MOST = 999_999_999
LARGEST_FILE = 10160
SYNTAX = "30,SYNTAX ERROR,00,00"
COUNT, NUMBER = "([1-9][0-9]{0,8})", "(0|[1-9][0-9]{0,8})"
MESSAGE = re.compile(f"{COUNT},{COUNT},(?:([RIS]),{COUNT},{NUMBER}|(M),{COUNT},{NUMBER},{COUNT})", re.ASCII)


def request_of(line):
    """The till, the number and the body (kind, item, quantity, to) of a message, or None outside the grammar."""
    found = MESSAGE.fullmatch(line)
    if not found:
        return None
    till, number, *rest = found.groups()
    kind, item, quantity = rest[:3] if rest[0] else rest[3:6]
    till, number, body = int(till), int(number), (kind, int(item), int(quantity), int(rest[6] or 0))
    right = till <= 64 and body[1] <= 65535 and body[3] <= 65535 and body[1] != body[3]
    return (till, number, body) if right else None


def trade(body, on, there, top):
    """The answer to a request and the quantities that it changes, where so many are on hand (None: no card)."""
    kind, item, quantity, to = body
    if kind == "S":
        if on is None and item > top:
            return ("72,DISK FULL" if item <= LARGEST_FILE else "52,FILE TOO LARGE"), {}
        return f"DONE,{quantity}", {item: quantity}
    if on is None or (kind == "M" and there is None):
        return "NO CARD", {}
    if kind == "R":
        return (f"DONE,{on + quantity}", {item: on + quantity}) if on + quantity <= MOST else (f"OVER,{on}", {})
    if quantity > on:
        return f"SHORT,{on}", {}
    if kind == "I":
        return f"DONE,{on - quantity}", {item: on - quantity}
    if there + quantity > MOST:
        return f"OVER,{there}", {}
    return f"DONE,{on - quantity},{there + quantity}", {item: on - quantity, to: there + quantity}


class Shop:
    """A ledger in memory: what is on hand, and the last two requests of each till with their answers, newest first."""

    def __init__(self, tills=64, top=8819):
        self.tills, self.top = tills, top
        self.stock, self.kept = {}, {}

    def on_hand(self, item):
        return self.stock.get(item)

    def last_two(self, till):
        return self.kept.get(till, [])

    def keep(self, till, number, body, answer, changes):
        """One transaction: the answer is kept, and the quantities change."""
        self.kept[till] = [(number, body, answer), *self.last_two(till)[:1]]
        self.stock.update(changes)

    def word(self, till, number, body):
        """What the reply says behind till and number."""
        if till > self.tills:
            return "NO TILL"
        kept = self.last_two(till)
        last = kept[0][0] if kept else 0
        if number == last + 1:
            answer, changes = trade(body, self.on_hand(body[1]), self.on_hand(body[3]), self.top)
            self.keep(till, number, body, answer, changes)
            return answer
        if number > last:
            return "AHEAD"
        same = [(old, answer) for n, old, answer in kept if n == number]
        if not same:
            return "STALE"
        return same[0][1] if same[0][0] == body else "CLASH"

    def reply(self, line):
        request = request_of(line)
        return f"{request[0]},{request[1]},{self.word(*request)}" if request else SYNTAX

    def shown(self):
        """What `show` prints, without its first line."""
        lines = [f"CARD {item},{on}" for item, on in sorted(self.stock.items())]
        for till, kept in sorted(self.kept.items()):
            for word, (number, (kind, item, quantity, to), answer) in zip((f"TILL {till}", f"PRIOR {till}"), kept):
                to = f",{to}" if kind == "M" else ""
                lines.append(f"{word},{number},{kind},{item},{quantity}{to},{answer}")
        return lines
