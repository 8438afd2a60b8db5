"""Turns a list into requests: a shop's first stock, or a supplier's list as wishes of a till, after a preview.

    ledger-shop import list.csv --stock stock.txt
    ledger-shop import list.csv --goods goods.csv --item Article --quantity Pieces              prints a preview
    ledger-shop import list.csv --goods goods.csv --item Article --quantity Pieces --image shop1.d64 --add-to wishes5

--stock: the list's lines are an item's number, and how many there are (`101,40`), with a heading or without. Each becomes
a request of till 1, which sets it, in the new file stock.txt for `ledger play`.

Otherwise the list is a CSV file (UTF-8) whose first line names its columns; `--delimiter ';'` for lists with semicolons. --item names
the column with the item's number, or --name the one with its name as in goods.csv. Each line becomes `R,ITEM,QUANTITY`
(it comes in), or with --set `S,ITEM,QUANTITY` (there are so many). One line that is unfit, and nothing is written.

--image names the shop's image, which may be served. Goods that can't come in, since the shop has no card of them yet, are named
then, and nothing is added; with --new the line of such goods becomes `S,ITEM,QUANTITY`, which makes the card.

--add-to adds them to the wishes of a till that only does imports. Line n of its file is the till's wish n, so the till
does each once, however often it is started or killed:

    ledger-shop till-mqtt 5 --wishes wishes5 --book till5.book ..

A list that was added already is refused; --again adds it once more. Status 1: a line is unfit, the list was added already,
or the file of --stock is there. 3: goods have no card in the shop."""

from __future__ import annotations

import argparse
import fcntl
import hashlib
import os
import sys

from ledger_shop import PROGRAM, copies
from ledger_shop import goods as shop_goods
from ledger_shop.goods import Faults

# the exit status if goods have no card
NO_CARD = 3
# the line of a list, the item and the quantity
Wish = tuple[int, int, int]


def column_of(head: list[str], name: str, path: str) -> int:
    if head.count(name) != 1:
        raise Faults(f"{path}: {head.count(name)} columns {name!r}; it has {', '.join(head)}")
    return head.index(name)


def item_of(text: str, goods: dict[int, shop_goods.Goods] | None, is_name: bool) -> int | str:
    """The item that a field names, or what is wrong with it."""
    text = text.strip()
    if is_name:
        items = [one.item for one in (goods or {}).values() if one.name == text]
        return items[0] if len(items) == 1 else f"{len(items)} goods have the name {text[:40]!r}"
    number = shop_goods.number_of(text, 1, shop_goods.MOST_ITEM)
    if number is None:
        return f"item {text[:20]!r} is no number"
    return number if goods is None or number in goods else f"item {number} isn't in the goods"


class List:
    """A list: its wishes, and what is unfit in it."""

    def __init__(self, given: argparse.Namespace, goods: dict[int, shop_goods.Goods] | None) -> None:
        self.kind, self.goods = "S" if given.set or given.stock else "R", goods
        self.wishes: list[Wish] = []
        self.faults: list[str] = []
        self.cards, self.is_new = cards_of(given), given.new
        rows = shop_goods.rows_of(given.list, given.delimiter)
        if not rows:
            raise Faults(f"{given.list} is empty")
        head = [field.strip() for field in rows[0][1]]
        if given.stock:
            # a heading has no number
            for line, row in rows[0 if any(map(str.isdigit, "".join(head))) else 1 :]:
                self.take(line, row, 0, 1, False)
            return
        what = column_of(head, given.name or given.item, given.list)
        count = column_of(head, given.quantity, given.list)
        for line, row in rows[1:]:
            self.take(line, row, what, count, bool(given.name))

    def take(self, line: int, row: list[str], what: int, count: int, is_name: bool) -> None:
        if len(row) <= max(what, count):
            self.faults.append(f"line {line}: only {len(row)} fields; another --delimiter?")
            return
        item, text = item_of(row[what], self.goods, is_name), row[count].strip()
        quantity = shop_goods.number_of(text, 0, shop_goods.MOST)
        if isinstance(item, str):
            self.faults.append(f"line {line}: {item}")
        elif quantity is None:
            self.faults.append(f"line {line}: quantity {text[:20]!r} is no whole number up to {shop_goods.MOST}")
        elif self.kind == "S" and any(item == other for _, other, _ in self.wishes):
            self.faults.append(f"line {line}: item {item} is set twice")
        else:
            self.wishes.append((line, item, quantity))

    def without_card(self) -> list[Wish]:
        """The lines of goods that can't come in, since the shop has no card of them: one that an earlier line makes is there."""
        if self.kind == "S" or self.cards is None:
            return []
        return [one for one in self.wishes if one[1] not in self.cards]

    def first_of(self, item: int) -> int:
        """The line that makes a card, if cards may be made."""
        return next(line for line, other, _ in self.wishes if other == item)

    def kind_of(self, line: int, item: int) -> str:
        makes = self.is_new and self.cards is not None and item not in self.cards and line == self.first_of(item)
        return "S" if makes else self.kind

    def lines(self) -> list[str]:
        return [f"{self.kind_of(line, item)},{item},{quantity}" for line, item, quantity in self.wishes]

    def preview(self) -> None:
        for line, item, quantity in self.wishes:
            does = "there are" if self.kind == "S" else "come in"
            if self.kind_of(line, item) != self.kind:
                does = "come in, and the card is new"
            elif (line, item, quantity) in self.without_card() and not self.is_new:
                does = "CAN'T come in: the shop has no card of it"
            print(f"line {line}: {quantity} of {shop_goods.named(self.goods or {}, item)} {does}")


def cards_of(given: argparse.Namespace) -> set[int] | None:
    """The items of which the shop has a card, or None if no image is named."""
    if not given.image:
        return None
    lines = copies.run(given.program, "show", given.image).splitlines()
    return {int(line.removeprefix("CARD ").split(",")[0]) for line in lines if line.startswith("CARD ")}


def add(path: str, lines: list[str], digest: str, is_again: bool) -> int:
    """Adds lines to a till's wishes, and before that notes the list's digest in a file beside them. Returns the number of
    the first."""
    with open(path, "a+b", opener=lambda name, flags: os.open(name, flags, 0o600)) as file:
        fcntl.flock(file, fcntl.LOCK_EX)
        file.seek(0)
        text = file.read()
        if text and not text.endswith(b"\n"):
            raise Faults(f"{path}: its last line has no end; it may be another program's")
        notes = f"{path}.lists"
        known = open(notes, encoding="ascii").read().split() if os.path.exists(notes) else []
        if digest in known and not is_again:
            raise Faults(f"this list was added already (see {path}): --again adds it once more")
        # the note first: a list during which power fails is never added twice unasked
        with open(notes, "a", encoding="ascii") as file_of_notes:
            file_of_notes.write(digest + "\n")
            file_of_notes.flush()
            os.fsync(file_of_notes.fileno())
        file.write("".join(line + "\n" for line in lines).encode())
        file.flush()
        os.fsync(file.fileno())
        return text.count(b"\n") + 1


def put_stock(path: str, lines: list[str]) -> None:
    """Writes requests of till 1 into a new file."""
    with open(path, "x", encoding="ascii") as file:
        file.write("".join(f"1,{number},{line}\n" for number, line in enumerate(lines, 1)))


def words() -> argparse.Namespace:
    parser = argparse.ArgumentParser(description=__doc__.splitlines()[0])
    parser.add_argument("list", help="the list, a CSV file")
    parser.add_argument("--stock", metavar="FILE", help="the first stock: write till 1's requests into this new file")
    parser.add_argument("--goods", metavar="FILE", help="the shop's goods.csv")
    which = parser.add_mutually_exclusive_group()
    which.add_argument("--item", metavar="COLUMN", help="the column with the item's number")
    which.add_argument("--name", metavar="COLUMN", help="the column with the item's name")
    parser.add_argument("--quantity", metavar="COLUMN", help="the column with the quantity")
    parser.add_argument("--set", action="store_true", help="set the stock, and don't receive")
    parser.add_argument("--delimiter", default=",", help="what stands between two fields (default: a comma)")
    parser.add_argument("--image", metavar="FILE", help="the shop's image: name the goods that have no card in it")
    parser.add_argument("--new", action="store_true", help="with --image: set goods that have no card, which makes one")
    parser.add_argument("--program", default=PROGRAM)
    parser.add_argument("--add-to", metavar="FILE", help="add the wishes to this file; without it only a preview")
    parser.add_argument("--again", action="store_true", help="add a list that was added already")
    given = parser.parse_args()
    if not given.stock and not (given.goods and given.quantity and (given.item or given.name)):
        parser.error("without --stock it wants --goods, --quantity, and --item or --name")
    if given.new and not given.image:
        parser.error("--new wants --image")
    return given


def main() -> None:
    given = words()
    try:
        found = List(given, shop_goods.goods_of(given.goods) if given.goods else None)
        if found.faults:
            raise Faults("\n".join(f"{given.list}, {fault}" for fault in found.faults) + "\nNothing was written.")
        if given.stock:
            put_stock(given.stock, found.lines())
            print(f"{given.list}: {len(found.wishes)} requests of till 1 in {given.stock}")
            return
        found.preview()
        missing = [] if given.new else found.without_card()
        if missing:
            print(f"{given.list}: {len(missing)} of {len(found.wishes)} lines have goods without a card: nothing was added.")
            print("With --new such goods are set, which makes the card.")
            sys.exit(NO_CARD)
        if not given.add_to:
            print(f"{given.list}: {len(found.wishes)} wishes, a preview: nothing was added")
            return
        with open(given.list, "rb") as file:
            digest = hashlib.sha256(file.read() + found.kind.encode()).hexdigest()
        first = add(given.add_to, found.lines(), digest, given.again)
        print(f"{given.list}: {len(found.wishes)} wishes added to {given.add_to}, from number {first} on")
    except (Faults, copies.Stopped, OSError) as fault:
        sys.exit(str(fault))


if __name__ == "__main__":
    main()
