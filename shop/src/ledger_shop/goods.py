"""The goods of a shop: checks goods.csv, and puts names to what `ledger show` prints.

    ledger-shop goods goods.csv                          prints each fault by its line, or that there is none
    ledger show shop1.d64 | ledger-shop goods goods.csv --show

goods.csv is UTF-8 text. Its first line is `item,name,unit,least`, and each other line one of the goods: its item, 1 to
65535; its name, 1 to 80 characters; its unit, or nothing; and its least stock, below which it is low. A field with a comma
or a quote is in quotes, as spreadsheets write it. Status 1: there are faults, or what `show` prints can't be read."""

from __future__ import annotations

from collections.abc import Iterable, Mapping
import argparse
import csv
import re
import sys
from pathlib import Path
from typing import NamedTuple
from ledger_shop.account import StrPath

HEAD = ["item", "name", "unit", "least"]
MOST_ITEM, MOST, LONGEST = 65535, 999_999_999, 80
NUMBER = re.compile("0|[1-9][0-9]{0,8}", re.ASCII)
# what a name can't have: control characters, and those that turn the direction of text
BAD = re.compile("[\x00-\x1f\x7f-\x9f\u2028-\u202e\u2066-\u2069]")
# what a spreadsheet takes for the begin of a formula
FORMULA = ("=", "+", "-", "@")


class Goods(NamedTuple):
    """One of the goods, as goods.csv has it."""

    item: int
    name: str
    unit: str
    least: int


class Faults(Exception):
    """What is wrong with a list, by its lines."""


def number_of(text: str, least: int, most: int) -> int | None:
    return int(text) if NUMBER.fullmatch(text) and least <= int(text) <= most else None


def fault_in(row: list[str], known: Mapping[int, Goods]) -> str | None:
    """What is wrong with a row of goods.csv, or None."""
    if len(row) != len(HEAD):
        return f"{len(row)} fields, not {len(HEAD)}"
    item, name, unit, least = row
    if number_of(item, 1, MOST_ITEM) is None:
        return f"item {item[:20]!r} is no number from 1 to {MOST_ITEM}"
    if int(item) in known:
        return f"item {item} is listed twice"
    if not name.strip() or BAD.search(name + unit) or max(len(name), len(unit)) > LONGEST:
        return f"the name or unit of item {item} is empty, too long (more than {LONGEST}), or has control characters"
    if number_of(least, 0, MOST) is None:
        return f"the least stock of item {item} is no number from 0 to {MOST}"
    return None


def rows_of(path: StrPath, delimiter: str = ",") -> list[tuple[int, list[str]]]:
    """The rows of a CSV file with their line numbers. Raises Faults if it isn't UTF-8 or no CSV."""
    try:
        with open(path, encoding="utf-8-sig", newline="") as file:
            reader = csv.reader(file, strict=True, delimiter=delimiter)
            return [(reader.line_num, row) for row in reader if row]
    except UnicodeDecodeError as fault:
        raise Faults(f"{path} isn't UTF-8 text: byte {fault.start}") from fault
    except csv.Error as fault:
        raise Faults(f"{path}: {fault}") from fault


def goods_of(path: StrPath) -> dict[int, Goods]:
    """The goods by their item. Raises Faults, a line for each."""
    rows, faults = rows_of(path), []
    goods: dict[int, Goods] = {}
    if not rows or rows[0][1] != HEAD:
        raise Faults(f"{path}, line 1: the first line isn't {','.join(HEAD)}")
    for line, row in rows[1:]:
        fault = fault_in(row, goods)
        if fault:
            faults.append(f"{path}, line {line}: {fault}")
        else:
            goods[int(row[0])] = Goods(int(row[0]), row[1], row[2], int(row[3]))
    if faults:
        raise Faults("\n".join(faults))
    return goods


def named(goods: Mapping[int, Goods], item: int) -> str:
    """An item's name with its number, as the pages have it."""
    return f"{goods[item].name} ({item})" if item in goods else f"item {item}"


def safe(text: str) -> str:
    """Text that a spreadsheet doesn't take for a formula."""
    return f"'{text}" if text.startswith(FORMULA) else text


def put_names(goods: Mapping[int, Goods], lines: Iterable[str]) -> None:
    """Prints the lines of `show` with names, and what is low."""
    for line in lines:
        word, _, rest = line.rstrip("\n").partition(" ")
        if word != "CARD":
            print(line.rstrip("\n"))
            continue
        item, _, quantity = rest.partition(",")
        if number_of(item, 1, MOST_ITEM) is None or number_of(quantity, 0, MOST) is None:
            raise Faults(f"this is no line of show: {line[:60]!r}")
        one = goods.get(int(item))
        more = f" {one.name}, {one.unit}".rstrip(", ") if one else ""
        low = f" (low: least {one.least})" if one and int(quantity) < one.least else ""
        print(f"CARD {item},{quantity}{more}{low}")


def main() -> None:
    parser = argparse.ArgumentParser(description=__doc__.splitlines()[0])
    parser.add_argument("goods", type=Path)
    parser.add_argument("--show", action="store_true", help="put names to what `ledger show` prints, from standard input")
    given = parser.parse_args()
    try:
        goods = goods_of(given.goods)
        if given.show:
            put_names(goods, sys.stdin)
        else:
            print(f"{given.goods}: {len(goods)} goods, 0 faults")
    except (Faults, OSError) as fault:
        sys.exit(str(fault))


if __name__ == "__main__":
    main()
