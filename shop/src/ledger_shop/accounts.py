"""Makes the accounts of a shop at a broker, and the broker's files that give each account its rights.

    ledger-shop accounts FOLDER --shop 1 --tills 4
    ledger-shop accounts FOLDER                        the broker's files anew, as this version has them
    ledger-shop accounts FOLDER --qr till-1-3 --page https://shop.example/till_page/

FOLDER gets a file `bridge-1.account` and, for each till and each screen, `till-1-N.account` and `screen-1-N.account`: one
line USER:PASSWORD, mode 600.
A file that is there already is kept. From all accounts in FOLDER it writes, for mosquitto, `ledger.passwords` and
`ledger.acl`, and for RabbitMQ `ledger.definitions.json`. These hold no password, only hashes. Run it again with another
shop or more tills, and give the broker the new files. SECURITY.md says who gets which file.

--qr prints a code with which a tablet signs in as a till: it works once, within ten minutes, by a camera or typed (Debian's
package qrencode, and the service `ledger-sign-in`). No address and no history has the password."""

from __future__ import annotations

from collections.abc import Mapping
from typing import Any
import argparse
import base64
import hashlib
import json
import os
import re
import secrets
import subprocess
import sys
from pathlib import Path

from ledger_shop import sign_in

SHOP = "([A-Za-z0-9_]+)"
NAME = re.compile(f"bridge-{SHOP}|till-{SHOP}-([1-9]|[1-5][0-9]|6[0-4])|screen-{SHOP}-[1-9][0-9]?", re.ASCII)
# what a bridge may read of mosquitto's own figures: how many messages it holds
FIGURES = ("$SYS/broker/store/messages/count", "$SYS/broker/retained messages/count")
# how often mosquitto's hash is taken
TURNS = 101
TILLS = "([1-9]|[1-5][0-9]|6[0-4])"


def add_account(path: Path) -> None:
    """Makes the file, readable by its owner alone, unless it is there."""
    try:
        file = os.open(path, os.O_WRONLY | os.O_CREAT | os.O_EXCL, 0o600)
    except FileExistsError:
        return
    with open(file, "w", encoding="ascii") as out:
        out.write(f"{path.name.removesuffix('.account')}:{secrets.token_urlsafe(24)}\n")


def accounts_in(folder: Path) -> dict[str, str]:
    """User and password of each account in the folder, by user."""
    accounts = {}
    for path in sorted(folder.glob("*.account")):
        user, _, password = path.read_text(encoding="ascii").strip().partition(":")
        if not NAME.fullmatch(user) or user != path.name.removesuffix(".account") or not password:
            sys.exit(f"ledger-shop accounts: {path} isn't one line USER:PASSWORD of the user that its name has")
        accounts[user] = password
    return accounts


def shop_and_till(user: str) -> tuple[str, str | None]:
    """The shop of an account, and its till, or None for a bridge and a screen."""
    found = NAME.fullmatch(user)
    assert found
    bridge, shop, till, screen = found.groups()
    return bridge or shop or screen, till


def mosquitto_line(user: str, password: str) -> str:
    salt = os.urandom(12)
    hashed = hashlib.pbkdf2_hmac("sha512", password.encode(), salt, TURNS)
    parts = (base64.b64encode(part).decode() for part in (salt, hashed))
    return f"{user}:$7${TURNS}${'$'.join(parts)}\n"


def mosquitto_rights(user: str) -> str:
    """A bridge reads what all tills of its shop ask, and writes replies and what the screen shows. A till writes its own
    asks, reads its own replies, its last request and the stock, and says which device takes its numbers. All see whether the
    bridge is there."""
    shop, till = shop_and_till(user)
    screen = [f"shops/{shop}/{topic}" for topic in ("stock/+", "tills/+", "last", "top", "history/+")]
    if user.startswith("screen-"):
        rights = [f"read {topic}" for topic in [*screen, f"shops/{shop}/bridge"]] + [f"write shops/{shop}/history/asks"]
    elif till is None:
        rights = [f"read shops/{shop}/asks/+", f"write shops/{shop}/replies/+", f"write shops/{shop}/bridge"]
        rights += [f"write {topic}" for topic in screen] + [f"read shops/{shop}/history/asks"]
        rights += [f"read {topic}" for topic in FIGURES]
    else:
        rights = [f"write shops/{shop}/asks/{till}", f"readwrite shops/{shop}/marks/{till}"]
        rights += [f"read shops/{shop}/{topic}" for topic in (f"replies/{till}", f"tills/{till}", "bridge", "top", "stock/+")]
    return f"user {user}\n" + "".join(f"topic {right}\n" for right in rights) + "\n"


def rabbit_user(user: str, password: str) -> dict[str, Any]:
    salt = os.urandom(4)
    hashed = base64.b64encode(salt + hashlib.sha256(salt + password.encode()).digest()).decode()
    limits = {"max-connections": 8 if user.startswith("bridge-") else 4, "max-channels": 8}
    how = "rabbit_password_hashing_sha256"
    return {"name": user, "password_hash": hashed, "hashing_algorithm": how, "tags": [], "limits": limits}


def rabbit_rights(user: str) -> tuple[dict[str, str], list[dict[str, str]]]:
    """What the account may configure, write and read, and with which routing keys."""
    shop, till = shop_and_till(user)
    asks, replies, queue = (rf"shop\.{shop}\.{name}" for name in ("asks", "replies", "bridge"))
    if till is None:
        rights = f"^({asks}|{replies}|{queue})$", f"^({replies}|{queue})$", f"^({asks}|{queue})$"
        keys = {"asks": ("^$", r"^\*$"), "replies": (f"^({TILLS}|refused)$", "^$")}
    else:
        mine = rf"till\.{shop}\.{till}\.[A-Za-z0-9_-]+"
        rights = f"^{mine}$", f"^({mine}|{asks})$", f"^({mine}|{replies})$"
        keys = {"asks": (f"^{till}$", "^$"), "replies": ("^$", f"^{till}$")}
    here = {"user": user, "vhost": "/"}
    whole = {**here, **dict(zip(("configure", "write", "read"), rights))}
    by_key = [{**here, "exchange": f"shop.{shop}.{name}", "write": w, "read": r} for name, (w, r) in keys.items()]
    return whole, by_key


def definitions(accounts: dict[str, str]) -> dict[str, Any]:
    """RabbitMQ's; a screen's account is mosquitto's alone."""
    accounts = {user: password for user, password in accounts.items() if not user.startswith("screen-")}
    rights = [rabbit_rights(user) for user in accounts]
    return {
        "vhosts": [{"name": "/"}],
        "users": [rabbit_user(user, password) for user, password in accounts.items()],
        "permissions": [whole for whole, _ in rights],
        "topic_permissions": [key for _, keys in rights for key in keys],
    }


def write(path: Path, text: str) -> None:
    """Replaces a file of this script's own, which only its owner may read until it is installed."""
    new = path.with_name(path.name + ".new")
    with open(os.open(new, os.O_WRONLY | os.O_CREAT | os.O_TRUNC, 0o600), "w", encoding="ascii") as out:
        out.write(text)
    os.replace(new, path)


def make(folder: Path, shops: Mapping[str, int], screens: int = 1) -> dict[str, str]:
    """Adds the accounts of each of these shops, by name, with so many tills and screens, and writes the brokers' files
    anew."""
    folder.mkdir(mode=0o700, parents=True, exist_ok=True)
    for shop, tills in shops.items():
        counted = [("till", tills), ("screen", screens)]
        own = [f"{kind}-{shop}-{number}" for kind, count in counted for number in range(1, count + 1)]
        for user in [f"bridge-{shop}", *own]:
            add_account(folder / f"{user}.account")
    accounts = accounts_in(folder)
    write(folder / "ledger.passwords", "".join(mosquitto_line(*account) for account in accounts.items()))
    write(folder / "ledger.acl", "".join(mosquitto_rights(user) for user in accounts))
    write(folder / "ledger.definitions.json", json.dumps(definitions(accounts), indent=1) + "\n")
    return accounts


def print_code(folder: Path, user: str, page: str, codes: Path) -> None:
    """Prints a code with which a tablet signs in once as the till of this account."""
    shop, till = shop_and_till(user)
    try:
        password = (folder / f"{user}.account").read_text(encoding="ascii").strip().partition(":")[2]
        sign_in.show(codes, user, shop, int(till or 0), password, page)
    except FileNotFoundError as fault:
        sys.exit(f"accounts: there is no {fault.filename}" + (" (Debian's qrencode)" if fault.filename == "qrencode" else ""))
    except (OSError, sign_in.NoCode, subprocess.CalledProcessError) as fault:
        sys.exit(f"accounts: {fault}")


def main() -> None:
    parser = argparse.ArgumentParser(description=__doc__.splitlines()[0])
    parser.add_argument("folder", type=Path)
    parser.add_argument("--shop", help="the shop's name: letters, digits and _")
    parser.add_argument("--tills", type=int, choices=range(1, 65), metavar="TILLS", help="1 to 64")
    parser.add_argument("--screens", type=int, default=1, choices=range(100), metavar="SCREENS", help="0 to 99, default 1")
    parser.add_argument("--qr", metavar="TILL", help="print the code of this account, such as till-1-3")
    parser.add_argument("--page", help="with --qr: the address of the till's page")
    parser.add_argument("--codes", type=Path, default=sign_in.FOLDER, help="with --qr: the folder of ledger-shop sign-in")
    given = parser.parse_args()
    if given.qr:
        if not (NAME.fullmatch(given.qr) and given.qr.startswith("till-") and given.page):
            parser.error("--qr is a till's account, such as till-1-3, and wants --page")
        return print_code(given.folder, given.qr, given.page, given.codes)
    if bool(given.shop) != bool(given.tills):
        parser.error("--shop wants --tills, and --tills wants --shop")
    if given.shop and not NAME.fullmatch(f"bridge-{given.shop}"):
        parser.error("a shop's name has letters, digits and _ only")
    if not (given.shop or given.folder.is_dir()):
        parser.error(f"there are no accounts in {given.folder}: --shop and --tills make some")
    accounts = make(given.folder, {given.shop: given.tills} if given.shop else {}, given.screens)
    print(f"ledger-shop accounts: {len(accounts)} accounts in {given.folder}")


if __name__ == "__main__":
    main()
