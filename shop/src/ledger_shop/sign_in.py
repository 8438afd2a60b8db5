"""Lets a tablet sign in with a code that works once, within ten minutes, so that no address ever has its password.

    ledger-shop accounts /etc/ledger/accounts --qr till-1-3 --page https://shop.example/till_page/     prints a code
    ledger-shop sign-in                                                                                takes codes

The web server hands `/sign_in` to this service on the loopback address (`nginx.conf`). A page posts a code to it, and gets shop,
till and password as JSON, or status 404 if the code was never given, was used, or is too old. A code that is open is a file in
FOLDER, which only this service and root can read: its name is the code's hash, and it ends with the machine, or when the code is
used or too old. Whoever sees an open code can use it; afterwards it is worth nothing."""

import argparse
import hashlib
import json
import os
import secrets
import subprocess
import sys
import time
from http.server import BaseHTTPRequestHandler, ThreadingHTTPServer
from pathlib import Path

FOLDER, PORT, LOOPBACK = Path("/run/ledger-sign-in"), 9640, "127.0.0.1"
# letters and digits that nobody takes for each other, after Douglas Crockford; twelve of them are 60 bits
ALPHABET = "0123456789ABCDEFGHJKMNPQRSTVWXYZ"
MEANT = str.maketrans({"O": "0", "I": "1", "L": "1"})
LENGTH, GROUP = 12, 4
# seconds for which a code works, between two looks for old ones, and until a silent client is let go; bytes of a code as it is typed
LIVES, SWEEPS, PATIENCE, LONGEST = 600, 5, 10, 64
TAKEN = ".taken"


class NoCode(Exception):
    """There is no code that could be given: why, and what to do."""


def plain(typed: str) -> str:
    """A code as somebody types it, without blanks and dashes, in the letters that are meant."""
    return "".join(one for one in typed.upper() if one not in " -\t").translate(MEANT)


def now() -> float:
    """Seconds since the machine was started: no hand and no time server changes them."""
    return time.clock_gettime(time.CLOCK_BOOTTIME)


def path_of(folder: Path, code: str) -> Path:
    return folder / hashlib.sha256(code.encode("utf-8", "replace")).hexdigest()


def offer(folder: Path, shop: str, till: int, password: str, lives: float = LIVES) -> str:
    """Opens a new code for a till's account, and returns it. Raises NoCode if the service's folder isn't there."""
    code = "".join(secrets.choice(ALPHABET) for _ in range(LENGTH))
    path = path_of(folder, code)
    text = json.dumps({"shop": shop, "till": till, "password": password, "until": now() + lives})
    try:
        owner = folder.stat()
        # complete when its name is there
        new = path.with_suffix(".new")
        with open(os.open(new, os.O_WRONLY | os.O_CREAT | os.O_EXCL | os.O_NOFOLLOW, 0o600), "w", encoding="ascii") as out:
            out.write(text)
        if os.geteuid() == 0:
            os.chown(new, owner.st_uid, owner.st_gid)
        os.rename(new, path)
    except OSError as fault:
        raise NoCode(f"{folder}: {fault.strerror}. Start the service: systemctl start ledger-sign-in") from fault
    return code


def take(folder: Path, typed: str) -> dict[str, object] | None:
    """What an open code gives, once; None if it gives nothing."""
    path = path_of(folder, plain(typed))
    taken = path.with_suffix(TAKEN)
    try:
        # of two that come at the same moment one finds no file
        os.rename(path, taken)
        known = json.loads(taken.read_text(encoding="ascii"))
        os.unlink(taken)
    except (OSError, ValueError):
        return None
    return {name: known[name] for name in ("shop", "till", "password")} if now() <= known["until"] else None


def sweep(folder: Path) -> None:
    """Removes codes that are too old, and what one that was killed has left."""
    for path in folder.iterdir():
        try:
            if path.suffix:
                is_old = abs(time.time() - path.stat().st_ctime) > PATIENCE
            else:
                is_old = json.loads(path.read_text(encoding="ascii"))["until"] < now()
        except (OSError, ValueError, KeyError, TypeError):
            continue
        if is_old:
            path.unlink(missing_ok=True)


class Handler(BaseHTTPRequestHandler):
    """A code is posted, and its account is the answer."""

    timeout, protocol_version, server_version, sys_version = PATIENCE, "HTTP/1.0", "ledger", ""
    server: "Server"

    def do_POST(self) -> None:
        length = self.headers.get("Content-Length", "")
        if self.path != "/sign_in" or not length.isdigit() or int(length) > LONGEST:
            return self.answer(400, {"fault": "a code is posted to /sign_in"})
        given = take(self.server.folder, self.rfile.read(int(length)).decode("utf-8", "replace"))
        self.answer(404 if given is None else 200, given or {"fault": "no such code"})

    def answer(self, status: int, known: dict[str, object]) -> None:
        text = json.dumps(known).encode()
        self.send_response(status)
        self.send_header("Content-Type", "application/json")
        self.send_header("Content-Length", str(len(text)))
        self.send_header("Cache-Control", "no-store")
        self.send_header("X-Content-Type-Options", "nosniff")
        self.end_headers()
        self.wfile.write(text)

    def log_message(self, format: str, *words: object) -> None:
        """Nothing: a log isn't to have codes."""


class Server(ThreadingHTTPServer):
    """Has a thread for each connection, so that one that is silent holds up no other."""

    def __init__(self, folder: Path, port: int):
        super().__init__((LOOPBACK, port), Handler)
        self.folder, self.swept = folder, 0.0

    def service_actions(self) -> None:
        if now() > self.swept + SWEEPS:
            sweep(self.folder)
            self.swept = now()

    def handle_error(self, request: object, client_address: object) -> None:
        """Nothing: a client that goes away is no fault of this service."""


def serve(folder: Path, port: int) -> None:
    """Takes codes until it is ended."""
    folder.mkdir(mode=0o700, parents=True, exist_ok=True)
    with Server(folder, port) as server:
        server.serve_forever()


def print_code(text: str) -> None:
    """Prints a code that a camera reads (Debian's qrencode). The text goes by a pipe: no process shows it in its words."""
    subprocess.run(["qrencode", "-t", "ANSIUTF8"], input=text, text=True, check=True)


def show(folder: Path, user: str, shop: str, till: int, password: str, page: str) -> None:
    """Prints a new code of this account, for a camera and for a person."""
    code = offer(folder, shop, till, password)
    print_code(f"{page}#code={code}")
    groups = "-".join(code[at : at + GROUP] for at in range(0, LENGTH, GROUP))
    print(f"{user}: {groups}, once, within {LIVES // 60} minutes, at {page}")


def main() -> None:
    parser = argparse.ArgumentParser(description=__doc__.splitlines()[0])
    parser.add_argument("--codes", type=Path, default=FOLDER, metavar="FOLDER", help=f"the open codes (default {FOLDER})")
    parser.add_argument("--port", type=int, default=PORT, help=f"on the loopback address (default {PORT})")
    given = parser.parse_args()
    try:
        serve(given.codes, given.port)
    except OSError as fault:
        sys.exit(f"sign-in: {fault}")
    except KeyboardInterrupt:
        pass
