"""The commands of a shop: `ledger-shop COMMAND ..` runs one, and `ledger-shop COMMAND --help` says more of it."""

import importlib
import sys
from pathlib import Path

NAME = "ledger-shop"
# each command: the module whose `main` it runs, and what it does
COMMANDS = {
    "bridge": ("bridge", "carries a shop's messages between RabbitMQ and `serve`"),
    "bridge-mqtt": ("bridge_mqtt", "the same for an MQTT broker"),
    "till": ("till", "takes wishes and prints their answers, over RabbitMQ or a pipe"),
    "till-mqtt": ("till_mqtt", "the same over MQTT"),
    "accounts": ("accounts", "makes the accounts of a shop and the broker's files of them"),
    "sign-in": ("sign_in", "takes the codes with which tablets sign in"),
    "goods": ("goods", "checks goods.csv, and puts names to what `show` prints"),
    "import": ("imports", "turns a list into requests: a first stock, or a supplier's list"),
    "history": ("history", "prints what happened to an item"),
    "day-report": ("day_report", "prints what came in, went out and was left on a day"),
    "backup": ("backup", "copies the shop's image, and rotates copies and journal"),
    "restore": ("restore", "puts a shop back from its copies and its journal"),
    "rebuild": ("rebuild", "makes an image anew from a backup and the journal"),
}
# what the commands were called while each was a script of its own: units and tasks that name these go on
SCRIPTS = {
    "bridge.py": "bridge",
    "bridge_mqtt.py": "bridge-mqtt",
    "till.py": "till",
    "till_mqtt.py": "till-mqtt",
    "make_accounts.py": "accounts",
    "goods.py": "goods",
    "import_list.py": "import",
    "history.py": "history",
    "day_report.py": "day-report",
    "backup.py": "backup",
    "restore.py": "restore",
    "rebuild.py": "rebuild",
}


def usage() -> str:
    """What --help prints."""
    widest = max(map(len, COMMANDS))
    lines = [f"  {name:{widest}}  {does}" for name, (_, does) in COMMANDS.items()]
    return "\n".join([f"usage: {NAME} COMMAND ..", "", *lines, "", f"`{NAME} COMMAND --help` says more."])


def run(name: str, words: list[str]) -> None:
    """Runs a command with these words."""
    sys.argv = [f"{NAME} {name}", *words]
    importlib.import_module(f"ledger_shop.{COMMANDS[name][0]}").main()


def main() -> None:
    called, *words = sys.argv
    script = Path(called).name
    if script in SCRIPTS:
        run(SCRIPTS[script], words)
    elif words and words[0] in COMMANDS:
        run(words[0], words[1:])
    elif words == ["--scripts"]:
        print(*SCRIPTS, sep="\n")
    elif words in (["--help"], ["-h"]):
        print(usage())
    else:
        print(usage(), file=sys.stderr)
        sys.exit(2)
