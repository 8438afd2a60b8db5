"""Which account a bridge or a till has at its broker, and how it reaches that broker.

An account is one line `USER:PASSWORD`. It comes from a file that nobody else may read, or from the environment. It never
comes from the command line, which every user of the machine can read. To another machine it travels only over TLS."""

from __future__ import annotations

from collections.abc import Mapping
import argparse
import ipaddress
import os
import socket
import ssl
import stat
from urllib.parse import urlsplit

# the name of systemd's credential (`LoadCredential=account:FILE`), and the variable of the environment
CREDENTIAL, VARIABLE = "account", "LEDGER_ACCOUNT"
SECURE = ("amqps", "mqtts")
PORTS = {"amqp": 5672, "amqps": 5671, "mqtt": 1883, "mqtts": 8883}


StrPath = str | os.PathLike[str]
# user and password
Account = tuple[str, str]


class Unfit(Exception):
    """The arguments or the account can't be used; the text says why and what to do."""


def words(parser: argparse.ArgumentParser) -> argparse.ArgumentParser:
    """The arguments that name an account and a broker's certificate."""
    parser.add_argument("--account", metavar="FILE", help="a file with USER:PASSWORD that only you can read (mode 600)")
    parser.add_argument("--ca", metavar="FILE", help="the certificates that sign the broker's; default: the system's")
    parser.add_argument("--plain", action="store_true", help="allow a connection without TLS to another machine")
    return parser


def account_of(path: StrPath | None = None, environment: Mapping[str, str] = os.environ) -> Account | None:
    """User and password, or None. The first of these counts: the file of `--account`, systemd's credential, the variable
    LEDGER_ACCOUNT. Raises Unfit if a file can't be read, or if others may read it."""
    systemd = os.path.join(environment.get("CREDENTIALS_DIRECTORY", "/nowhere"), CREDENTIAL)
    if path:
        return parted(text_of(path), path)
    if os.path.exists(systemd):
        # in a folder that systemd opens to this unit alone
        return parted(text_of(systemd, is_guarded=True), systemd)
    if VARIABLE in environment:
        return parted(environment[VARIABLE], VARIABLE)
    return None


def text_of(path: StrPath, is_guarded: bool = False) -> str:
    """What the file has, which others may not read, unless its folder is guarded."""
    try:
        with open(path, encoding="utf-8") as file:
            mode = stat.S_IMODE(os.fstat(file.fileno()).st_mode)
            if mode & 0o077 and not is_guarded:
                raise Unfit(f"{path} can be read by others (mode {mode:o}): chmod 600 {path}")
            return file.read()
    except (OSError, UnicodeDecodeError) as fault:
        raise Unfit(f"the account can't be read: {fault}") from fault


def parted(text: str, whence: StrPath) -> Account:
    user, colon, password = text.removesuffix("\n").partition(":")
    if not (user and colon and password) or "\n" in password:
        raise Unfit(f"{whence} isn't one line USER:PASSWORD")
    return user, password


class Place:
    """A broker's place: `amqps://HOST[:PORT][/VHOST][?heartbeat=..]`, `mqtts://HOST[:PORT]`, the same without the `s` for
    no TLS, or HOST[:PORT] alone. Raises Unfit for a password within, and for no TLS to another machine."""

    def __init__(self, text: str, kind: str, plain: bool = False) -> None:
        self.text = text if "://" in text else f"{kind}://{text}"
        try:
            parts = urlsplit(self.text)
            port = parts.port
        except ValueError as fault:
            raise Unfit(f"{text} is no place of a broker: {fault}") from fault
        if parts.username is not None or parts.password is not None:
            raise Unfit("an account doesn't belong on the command line, which every user can read: use --account FILE")
        if parts.scheme not in (kind, kind + "s") or not parts.hostname:
            raise Unfit(f"{text} is no place of a broker: {kind}s://HOST:PORT")
        self.host, self.port = parts.hostname, port or PORTS[parts.scheme]
        self.is_secure = parts.scheme in SECURE
        if not (self.is_secure or plain or is_here(self.host)):
            raise Unfit(f"{self.host} is another machine: use {kind}s://, or --plain if you trust the net between")

    def __str__(self) -> str:
        return f"{self.host}:{self.port}"


def is_here(host: str) -> bool:
    """Whether this name or address is this machine's own."""
    try:
        return host == "localhost" or ipaddress.ip_address(host).is_loopback
    except ValueError:
        return False


def context_of(ca: StrPath | None = None) -> ssl.SSLContext:
    """What TLS needs: the broker's certificate has to be signed by one of `ca`, or of the system's, and name its host."""
    try:
        context = ssl.create_default_context(cafile=ca)
    except (OSError, ssl.SSLError) as fault:
        raise Unfit(f"the certificates {ca} can't be read: {fault}") from fault
    context.minimum_version = ssl.TLSVersion.TLSv1_2
    return context


def fault_at(place: Place, context: ssl.SSLContext, seconds: float = 3) -> str | None:
    """Why no connection to this place comes about, in words, or None if one does."""
    try:
        with socket.create_connection((place.host, place.port), seconds) as link:
            if place.is_secure:
                context.wrap_socket(link, server_hostname=place.host).close()
    except ssl.SSLError as fault:
        return f"no trusted broker at {place} ({getattr(fault, 'verify_message', '') or fault.reason})"
    except OSError as fault:
        return f"no broker at {place} ({fault.strerror or type(fault).__name__})"
    return None
