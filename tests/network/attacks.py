#!/usr/bin/python3
"""Attacks on a shop behind a real broker that runs the configuration of shop/deploy:

    tests/network/attacks.py PROGRAM [--over rabbit|mqtt] [--folder FOLDER] [--told]

A mosquitto and a RabbitMQ node are started on the loopback address, each with a bridge for shop 1. The attackers are a
stranger without an account, till 8 of shop 1 with an account of its own, and the bridge of another shop with its account.
After each attack an honest till hears its answer, the bridge is the process that it was, and the shop holds what honest
tills asked for and nothing else. It wants Debian's packages mosquitto, rabbitmq-server, python3-pika,
python3-paho-mqtt, openssl and erlang-base, ends by itself, and prints one line with the number of attacks. The status is
1 at the first that succeeds."""

import os
import signal
import socket
import ssl
import subprocess
import sys
import tempfile
import time
from pathlib import Path

sys.dont_write_bytecode = True
sys.path.insert(0, str(Path(__file__).resolve().parents[1] / "lib"))
import brokers
import tills
from attack_names import BRIDGE, HONEST, INSIDER, LONGEST, PATIENT, SHOPS, SILENT
from attacks_mqtt import OverMqtt
from attacks_rabbit import OverRabbit
from served import sure, want
from shop_paths import command
from trial import conduct

from ledger_shop import wishes


class Scene:
    """A shop behind a broker, and an honest till."""

    def __init__(self, program, folder, over, is_told):
        self.program, self.folder, self.over = program, folder, over
        self.image, self.kept, self.log = folder / "shop.d64", folder / "shop.lines", folder / "bridge.log"
        self.broker = tills.BROKERS[over](folder, shops=SHOPS, **({"count": 1} if over == "rabbit" else {}))
        self.own = self.broker.cluster if over == "rabbit" else self.broker.broker
        self.count, self.process, self.is_told = 0, None, is_told
        self.honest, self.wanted = wishes.Till(HONEST), {}

    def start(self):
        sure(self.program, "format", self.image, "--tills", SHOPS["1"])
        self.broker.start()
        self.open_bridge()
        self.link = self.broker.link(HONEST)
        self.ask("S,1,100")

    def stop(self):
        if self.process:
            self.process.kill()
            self.process.wait()
        self.broker.stop()

    def open_bridge(self):
        words = [self.image, "--program", self.program, "--keep", self.kept, *self.own.words(BRIDGE)]
        asked = command(self.broker.bridge, *words)
        with open(self.log, "ab") as log:
            asked = list(map(str, asked))
            self.process = subprocess.Popen(asked, stdin=subprocess.DEVNULL, stdout=log, stderr=log)

    def close_bridge(self):
        self.process.kill()
        self.process.wait()

    def ask(self, wish):
        """The honest till's wish, which is answered; the shop's last known state is taken after it."""
        self.honest.wish(wish)
        answer = answer_within(self.honest, self.link, PATIENT)
        want(answer, f"an honest till has no answer; the bridge: {self.log.read_text()[-500:]}")
        self.wanted[HONEST] = f"{HONEST},{self.honest.last},{wish},{answer}"
        return answer

    def shown(self):
        """What `show` prints beside the bridge's `serve`."""
        return sure(self.program, "show", self.image)

    def judge(self, what):
        """The bridge lives, the honest till has its answer, and each till's last request is one that it made."""
        want(self.process.poll() is None, f"{what}: the bridge ended; {self.log.read_text()[-500:]}")
        want(self.ask("R,1,0") == "DONE,100", f"{what}: the honest till's item changed")
        lines = [line.removeprefix("TILL ") for line in self.shown() if line.startswith("TILL ")]
        want(sorted(lines) == sorted(self.wanted.values()), f"{what}: the shop has {lines}, not {self.wanted}")
        self.count += 1

    def attack(self, what, act):
        if self.is_told:
            print(f"{self.over}: {what}", file=sys.stderr, flush=True)
        try:
            act()
        except (SystemExit, KeyboardInterrupt):
            raise
        except Exception as fault:
            want(False, f"{what}: {type(fault).__name__} {fault}")
        self.judge(what)

    def victim(self, till, lines):
        """A till's process, with a book and a list of wishes."""
        (self.folder / f"wishes{till}").write_text("".join(line + "\n" for line in lines))
        words = [till, "--book", self.book(till), "--wishes", self.folder / f"wishes{till}"]
        asked = command(self.broker.till, *words, *self.own.words(f"till-1-{till}"))
        pipes = {"stdout": subprocess.PIPE, "stderr": subprocess.PIPE, "text": True}
        return subprocess.Popen(list(map(str, asked)), **pipes)

    def book(self, till):
        return self.folder / f"book{till}"

    def heard(self, process, till, line):
        """The victim ends with this line alone."""
        out, err = process.communicate(timeout=LONGEST)
        want(out == line + "\n", f"till {till} printed {out!r}, not {line!r}; {err}")
        number, wish, answer = line.split(" ", 2)
        self.wanted[till] = f"{till},{number},{wish},{answer}"

    def forged(self, till, wish, answer, forge):
        """A till asks while the bridge stands still, and a reply is forged: it hears the bridge's alone."""
        os.kill(self.process.pid, signal.SIGSTOP)
        try:
            process = self.victim(till, [wish])
            self.until(lambda: self.book(till).exists() and self.book(till).stat().st_size, "a victim's wish")
            time.sleep(SILENT)
            forge()
            time.sleep(SILENT)
            want(process.poll() is None, f"till {till} heard a forged reply: {process.poll()}")
        finally:
            os.kill(self.process.pid, signal.SIGCONT)
        self.heard(process, till, f"1 {wish} {answer}")

    def until(self, holds, what, seconds=LONGEST):
        end = time.monotonic() + seconds
        while not holds():
            want(time.monotonic() < end, f"{what} didn't come; {self.log.read_text()[-500:]}")
            time.sleep(0.05)

    def entries(self):
        return self.kept.read_bytes().count(b" -> ")

    def not_kept(self, flood):
        """An honest till is answered in a flood, of which the journal has nothing."""
        before = self.entries()
        flood()
        began = time.monotonic()
        self.ask("R,1,0")
        self.flooded = max(getattr(self, "flooded", 0), time.monotonic() - began)
        want(self.entries() == before + 1, f"the journal has {self.entries() - before - 1} lines of a flood")

    # attacks that don't hang on the broker's kind

    def passwords_in_sight(self):
        """No process shows a password in its arguments, nor in its environment."""
        for pid in [self.process.pid, *brokers.children(self.process.pid)]:
            seen = Path(f"/proc/{pid}/cmdline").read_bytes() + Path(f"/proc/{pid}/environ").read_bytes()
            for user, password in self.own.accounts.passwords.items():
                want(password.encode() not in seen, f"the password of {user} can be seen")

    def refused_arguments(self):
        """A password on the command line, an account that others can read, and no TLS to another machine."""
        kind = "amqp" if self.over == "rabbit" else "mqtt"
        loose = self.folder / "loose.account"
        loose.write_text("till-1-8:password\n")
        loose.chmod(0o644)
        here = f"{kind}s://127.0.0.1:1"
        given = [
            ["--broker", f"{kind}s://till-1-8:password@127.0.0.1:1"],
            ["--broker", here, "--account", loose],
            ["--broker", f"{kind}://shop.example"],
        ]
        for number, words in enumerate(given):
            words = command(self.broker.till, 8, "--book", self.folder / f"loose{number}", *words)
            done = subprocess.run([*map(str, words)], input="S,1,1\n", capture_output=True, text=True)
            want(done.returncode == wishes.LOOK, f"{words[-2:]}: status {done.returncode} {done.stderr}")

    def impostor(self):
        """A broker whose certificate another authority signed: a till doesn't give it its password."""
        with socket.create_server(("127.0.0.1", 0)) as server:
            server.settimeout(LONGEST)
            folder = self.folder / "impostor"
            folder.mkdir()
            brokers.certify(folder, "127.0.0.1")
            context = ssl.SSLContext(ssl.PROTOCOL_TLS_SERVER)
            context.load_cert_chain(folder / "broker.crt", folder / "broker.key")
            kind = "amqps" if self.over == "rabbit" else "mqtts"
            words = ["--broker", f"{kind}://127.0.0.1:{server.getsockname()[1]}", *self.own.words(INSIDER)[-4:]]
            words = command(self.broker.till, 8, "--book", self.folder / "impostor.book", *words)
            pipes = {"stdin": subprocess.PIPE, "stdout": subprocess.PIPE, "stderr": subprocess.PIPE}
            till = subprocess.Popen([*map(str, words)], **pipes)
            till.stdin.write(b"S,1,1\n")
            till.stdin.flush()
            try:
                link, _ = server.accept()
                link.settimeout(LONGEST)
                try:
                    told = context.wrap_socket(link, server_side=True).recv(4096)
                except (ssl.SSLError, ConnectionError):
                    told = b""
                want(told == b"", f"a till believes a broker that its authority didn't sign, and sends {told[:40]!r}")
            finally:
                till.kill()
                till.communicate()

    def open_ports(self):
        """The broker's processes listen on the loopback address alone."""
        mine = {self.own.child.process.pid} if self.over == "mqtt" else set(self.erlang())
        told = subprocess.run(["ss", "-Hltnp"], capture_output=True, text=True, check=True).stdout.splitlines()
        told = [line.split() for line in told if any(f"pid={pid}," in line for pid in mine)]
        want(told, "no port of the broker's is seen")
        for line in told:
            want(line[3].startswith(("127.0.0.1:", "[::1]:")), f"the broker listens on {line[3]}")

    def erlang(self):
        """The processes of the node and of its mapper of ports."""
        found, left = [], [self.own.nodes[0].process.pid, self.own.epmd.process.pid]
        while left:
            found.append(left.pop())
            left += brokers.children(found[-1])
        return found


def answer_within(till, link, seconds):
    """The answer to the open wish, which is asked for every two seconds, or None."""
    end, again = time.monotonic() + seconds, 0.0
    while time.monotonic() < end:
        try:
            if time.monotonic() > again:
                link.send(till.ask())
                again = time.monotonic() + 2
            reply = link.reply(0.2)
            answer = till.hear(reply) if reply else None
            if answer:
                return answer
        except wishes.Full:
            again = 0.0
            time.sleep(wishes.SOON)
        except wishes.Away:
            time.sleep(0.5)
    return None


KINDS = {"mqtt": OverMqtt, "rabbit": OverRabbit}


def attacks_of(scene):
    yield from KINDS[scene.over](scene).attacks()
    yield "passwords in sight", scene.passwords_in_sight
    yield "arguments that would leak", scene.refused_arguments
    yield "an impostor", scene.impostor
    yield "open ports", scene.open_ports


def tried(given, program, over):
    """How many attacks were made, and the longest wait of an honest till behind a flood."""
    with tempfile.TemporaryDirectory(dir=given.folder) as place:
        scene = Scene(program, Path(place), over, given.told)
        try:
            scene.start()
            for what, act in attacks_of(scene):
                scene.attack(what, act)
            return scene.count, scene.flooded
        finally:
            scene.stop()


def main(given):
    absent = brokers.missing("rabbitmq-server", "mosquitto", "python3-pika", "python3-paho-mqtt", "openssl")
    want(not absent, f"Debian's {', '.join(absent)} aren't there")
    made, told = 0, []
    for over in given.over or sorted(KINDS):
        count, seconds = tried(given, given.program, over)
        made += count
        told.append(f"{count} over {over} (an answer in a flood after {seconds:.1f} s)")
    print(f"attacks: {', '.join(told)}: none succeeded")
    return made


def more(parser):
    parser.add_argument("--over", choices=sorted(KINDS), action="append")
    parser.add_argument("--folder", help="a folder on the disk that is asked about")
    parser.add_argument("--told", action="store_true", help="print each attack as it is made")


if __name__ == "__main__":
    conduct(main, more)
