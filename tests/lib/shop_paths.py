"""Where the shop's package is (the folder `shop`), for tests that run its commands or import its modules."""

import sys
from pathlib import Path

TOP = Path(__file__).resolve().parents[2]
SHOP = TOP / "shop"
DEPLOY = SHOP / "deploy"
PYTHON = "/usr/bin/python3"
sys.path.insert(0, str(SHOP / "src"))


def command(name, *words):
    """A command of the shop, as a clone runs it."""
    return [PYTHON, SHOP / "ledger-shop", name, *words]
