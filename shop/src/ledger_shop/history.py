"""Prints the history of an item, from a shop's journal.

    ledger-shop history shop1.lines 101 [--goods goods.csv]

A line for each request that names the item: time, till, what was asked, and what was left, or why nothing was done. It
reads the journal's older files too. Status 1: the journal or the goods can't be read."""

from __future__ import annotations

import argparse
import sys
from functools import partial

from ledger_shop import goods as shop_goods, movements
from ledger_shop.account import Unfit


def main() -> None:
    parser = argparse.ArgumentParser(description=__doc__.splitlines()[0])
    parser.add_argument("journal")
    parser.add_argument("item", type=int)
    parser.add_argument("--goods", metavar="FILE", help="the shop's goods.csv, for names")
    given = parser.parse_args()
    try:
        goods = shop_goods.goods_of(given.goods) if given.goods else {}
        name, count = partial(shop_goods.named, goods), 0
        for one in movements.in_journal(given.journal):
            if given.item in (one.item, one.to):
                count += 1
                time = movements.local(one.time).isoformat(" ", "seconds")
                print(f"{time} till {one.till}, request {one.number}: {movements.words_of(one, name)}")
        print(f"{given.journal}: {count} requests for {name(given.item)}")
    except (Unfit, shop_goods.Faults, OSError) as fault:
        sys.exit(f"history: {fault}")


if __name__ == "__main__":
    main()
