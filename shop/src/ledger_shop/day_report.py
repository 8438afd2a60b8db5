"""A day's report of a shop, from its journal: what came in, went out and was left, by item.

    ledger-shop day-report shop1.lines [--day 2026-11-26] [--goods goods.csv] [--csv report.csv]

The day is this machine's, today if none is named. It prints a table for people, and with --csv writes the same for a
spreadsheet into a new file. A journal is read in its order: if the clock went back, a line counts on the day that it
names, and the report says how often that was. Status 1: the journal or the goods can't be read, or the file is there."""

from __future__ import annotations

from collections.abc import Iterator
import argparse
import csv
import sys
from collections import Counter
from datetime import date, datetime

from ledger_shop import goods as shop_goods, movements
from ledger_shop.account import Unfit

HEAD = ["item", "name", "received", "sold", "moved in", "moved out", "counted", "left"]


class Row:
    """An item's day. `counted` is what setting it changed, as far as the journal says what was there before."""

    def __init__(self) -> None:
        self.received = self.sold = self.moved_in = self.moved_out = self.counted = 0
        self.left: int | None = None

    def fields(self) -> list[int | None]:
        return [self.received, self.sold, self.moved_in, self.moved_out, self.counted, self.left]


class Report:
    """The requests of a day, item by item and till by till."""

    def __init__(self, all_movements: list[movements.Movement], day: date) -> None:
        self.rows: dict[int, Row] = {}
        self.tills: Counter[int] = Counter()
        self.refused: Counter[str] = Counter()
        self.count = 0
        self.turns = movements.turns_back(all_movements)
        known: dict[int, int] = {}
        for one in all_movements:
            left = movements.left(one)
            if movements.local(one.time).date() == day:
                self.take(one, left, known)
            known.update(left)

    def take(self, one: movements.Movement, left: dict[int, int], known: dict[int, int]) -> None:
        self.count += 1
        self.tills[one.till] += 1
        if not left:
            self.refused[movements.REASONS[one.answer.split(",")[0]]] += 1
            return
        for item, count in left.items():
            self.rows.setdefault(item, Row()).left = count
        row = self.rows[one.item]
        if one.kind == "R":
            row.received += one.quantity
        elif one.kind == "I":
            row.sold += one.quantity
        elif one.kind == "S":
            row.counted += one.quantity - known.get(one.item, 0)
        else:
            row.moved_out += one.quantity
            self.rows[one.to or one.item].moved_in += one.quantity

    def table(self, goods: dict[int, shop_goods.Goods]) -> Iterator[str]:
        """Lines of columns, the names cut to 32 characters."""
        rows = [
            [str(item), goods[item].name[:32] if item in goods else "", *map(str, row.fields())]
            for item, row in sorted(self.rows.items())
        ]
        widths = [max(map(len, column)) for column in zip(HEAD, *rows)]
        left = (0, 1)
        for row in [HEAD, *rows]:
            cells = [cell.ljust(width) if n in left else cell.rjust(width) for n, (cell, width) in enumerate(zip(row, widths))]
            yield "  ".join(cells).rstrip()

    def write(self, path: str, goods: dict[int, shop_goods.Goods]) -> None:
        with open(path, "x", encoding="utf-8", newline="") as file:
            out = csv.writer(file)
            out.writerow(HEAD)
            for item, row in sorted(self.rows.items()):
                out.writerow([item, shop_goods.safe(goods[item].name) if item in goods else "", *row.fields()])


def main() -> None:
    parser = argparse.ArgumentParser(description=__doc__.splitlines()[0])
    parser.add_argument("journal")
    parser.add_argument("--day", type=date.fromisoformat, default=datetime.now().date(), help="YYYY-MM-DD, default today")
    parser.add_argument("--goods", metavar="FILE", help="the shop's goods.csv, for names")
    parser.add_argument("--csv", metavar="FILE", help="write the table into this new file too")
    given = parser.parse_args()
    try:
        goods = shop_goods.goods_of(given.goods) if given.goods else {}
        report = Report(list(movements.in_journal(given.journal)), given.day)
        print(*report.table(goods), sep="\n")
        print("tills: " + ", ".join(f"{till} asked {count}" for till, count in sorted(report.tills.items())))
        if report.refused:
            print("nothing was done: " + ", ".join(f"{count} ({why})" for why, count in sorted(report.refused.items())))
        if report.turns:
            print(f"times that the clock went back in this journal: {report.turns}; lines may count on another day")
        if given.csv:
            report.write(given.csv, goods)
        print(f"{given.journal}: {report.count} requests on {given.day}, {len(report.rows)} items")
    except FileExistsError:
        sys.exit(f"day_report: {given.csv} is there already: name a new file")
    except (Unfit, shop_goods.Faults, OSError) as fault:
        sys.exit(f"day_report: {fault}")


if __name__ == "__main__":
    main()
