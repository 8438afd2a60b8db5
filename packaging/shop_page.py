#!/usr/bin/env python3
"""Prints the man page of the shop's commands, which are those of `ledger_shop.commands`:

    packaging/shop_page.py NAME VERSION

NAME is the package's name, VERSION what the page says of its version."""

import re
import sys
from pathlib import Path

sys.path.insert(0, str(Path(__file__).resolve().parent.parent / "shop/src"))
sys.dont_write_bytecode = True

from ledger_shop import commands


DESCRIPTION = (
    "The tills of a shop send their requests through a message broker, MQTT or RabbitMQ, to one `serve` of the shop's image. These "
    "commands run beside it: they carry the messages, make the accounts, print reports, and back the shop up.",
    "`ledger-shop` COMMAND `--help` describes the words of a command.",
)
# pages of the package, and what each is for
PAGES = (
    ("shop/QUICK_START.md", "sets up a shop"),
    ("shop/README.md", "says more of each command"),
    ("docs/OPERATIONS.md", "says how to keep a shop running, and what to do if something is wrong"),
)


def escaped(text):
    """Text as roff takes it, with what stands between backticks in bold letters."""
    text = text.replace("\\", "\\e").replace("-", "\\-").replace("'", "\\(aq")
    return re.sub(r"`([^`]*)`", r"\\fB\1\\fP", text)


def main():
    if len(sys.argv) != 3:
        sys.exit(__doc__)
    name, version = sys.argv[1:]
    lines = [f'.TH {commands.NAME.upper()} 1 "" "{name} {version}" "User Commands"', ".SH NAME",
             f"{escaped(commands.NAME)} \\- run a shop of {escaped(name)} on a message broker", ".SH SYNOPSIS",
             f".B {escaped(commands.NAME)}", ".I COMMAND", "\\&..", ".SH DESCRIPTION"]
    lines += [it for text in DESCRIPTION for it in (".PP", escaped(text))][1:]
    lines.append(".SH COMMANDS")
    for command, (_, does) in commands.COMMANDS.items():
        lines += [".TP", f".B {escaped(command)}", escaped(does[0].upper() + does[1:]) + "."]
    lines.append(".SH FILES")
    for page, does in PAGES:
        lines += [".TP", f".I /usr/share/doc/{escaped(name)}/{escaped(page)}", f"{escaped(does)}."]
    lines += [".SH SEE ALSO", f".BR {escaped(name)} (1)"]
    print("\n".join(lines))


main()
