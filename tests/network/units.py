"""Starts, stops and kills the units of shop/deploy, as the first process's own child: `tests/network/units.sh` runs it in a
container. Each unit is verified; a till asks through the bridge while the bridge is killed, its `serve` is killed, it is
stopped and started, and its broker goes away and comes back; what a keeper has to look at isn't started again, and the
alarm's unit says so. The brokers run the configuration of shop/deploy, and the units get their accounts as
credentials."""

import os
import shutil
import signal
import subprocess
import sys
import tempfile
import time
from pathlib import Path

sys.dont_write_bytecode = True
sys.path.insert(0, str(Path(__file__).resolve().parents[1] / "lib"))
import brokers
from served import sure, want
from trial import conduct

UNITS, OWN = Path("/etc/systemd/system"), Path("/etc/ledger")
ALARM = Path("/var/lib/ledger/alarms")
SHOPS, SMALL = Path("/var/lib/ledger"), Path("/small")
# of a machine on which much else runs; what holds sooner is seen sooner
LONGEST = 300


def systemctl(*words):
    """What it prints, and its status."""
    done = subprocess.run(["systemctl", *words], capture_output=True, text=True)
    return done.stdout.strip(), done.returncode


def shown(unit, *names):
    told = systemctl("show", unit, *(f"--property={name}" for name in names))[0]
    values = dict(line.split("=", 1) for line in told.splitlines())
    return [values[name] for name in names]


def until(holds, what):
    end = time.monotonic() + LONGEST
    while not holds():
        want(time.monotonic() < end, f"{what} didn't come; {systemctl('--no-pager', 'status', 'ledger-*')[0]}")
        time.sleep(0.05)


def wish(number):
    """A till's wish of this number: each has an item of its own, which lies in another block of the disk."""
    return f"S,{20 * number},{number}"


class Shop:
    """One shop, its bridge's unit, and one till's."""

    def __init__(self, name, bridge, till):
        self.bridge, self.till = f"{bridge}@{name}", f"ledger-till@{till}"
        self.image = SHOPS / f"shop{name}.d64"
        self.number, self.book, self.wishes = till, SHOPS / f"till{till}.book", SHOPS / f"till{till}.wishes"
        self.count = 0
        sure("/usr/bin/ledger", "format", self.image, "--tills", 64)
        shutil.chown(self.image, "ledger", "ledger")
        self.kills = self.alarms = 0

    def main(self):
        return int(shown(self.bridge, "MainPID")[0])

    def restarts(self):
        return int(shown(self.bridge, "NRestarts")[0])

    def serves(self):
        main = self.main()
        return brokers.children(main) if main else []

    def ask(self, count=3):
        """The till's unit is started with so many wishes more."""
        self.count += count
        self.wishes.write_text("".join(f"{wish(number)}\n" for number in range(1, self.count + 1)))
        want(systemctl("start", self.till)[1] == 0, f"{self.till} isn't started")

    def heard(self):
        """The till's unit ends well when each wish is answered."""
        until(lambda: shown(self.till, "ActiveState")[0] == "inactive", f"the end of {self.till}")
        want(shown(self.till, "Result")[0] == "success", f"{self.till} ended badly")
        lines = self.book.read_text().splitlines()
        wanted = [line for n in range(1, self.count + 1) for line in (f"? {n},{wish(n)}", f"= {n},DONE,{n}")]
        want(lines == wanted, f"the book of till {self.number} has {lines[-4:]}")

    def started(self):
        want(systemctl("enable", "--now", self.bridge)[1] == 0, f"{self.bridge} isn't started")
        want(systemctl("is-enabled", self.bridge)[0] == "enabled", f"{self.bridge} isn't enabled")
        self.ask()
        self.heard()
        owner = Path(f"/proc/{self.serves()[0]}").stat().st_uid
        want(owner == SHOPS.stat().st_uid, f"{self.bridge} has a serve of user {owner}")

    def killed(self, processes):
        """Systemd starts it again, and the till hears."""
        before = self.restarts()
        for process in processes:
            os.kill(process, signal.SIGKILL)
        self.ask()
        self.heard()
        until(lambda: self.restarts() == before + 1, f"one start again of {self.bridge}")
        self.kills += 1

    def stopped(self):
        """`serve` ends with it, the image is copied with its log, and what is asked meanwhile waits."""
        self.ask(30)
        want(systemctl("stop", self.bridge)[1] == 0, f"{self.bridge} isn't stopped")
        want(shown(self.bridge, "ActiveState", "Result") == ["inactive", "success"], f"{self.bridge} isn't inactive")
        want(sure("/usr/bin/ledger", "check", self.image) == ["OK"], f"{self.image} isn't OK")
        Path("/var/lib/backup.d64").unlink(missing_ok=True)
        sure("/usr/bin/ledger", "copy", self.image, "/var/lib/backup.d64")
        time.sleep(2)
        want(systemctl("start", self.bridge)[1] == 0, f"{self.bridge} isn't started again")
        self.heard()

    def away(self, broker):
        """The broker goes away and comes back."""
        broker.strike()
        self.ask()
        time.sleep(3)
        want(shown(self.till, "ActiveState")[0] == "active", f"{self.till} doesn't wait for its broker")
        broker.back()
        self.heard()

    def left(self, status, what):
        """A keeper has to look: it isn't started again."""
        until(lambda: shown(self.bridge, "ActiveState")[0] == "failed", f"{self.bridge} that failed, with {what}")
        time.sleep(3)
        told = shown(self.bridge, "ActiveState", "ExecMainStatus")
        want(told == ["failed", str(status)], f"{self.bridge} with {what}: {told}")
        self.alarms += 1
        wanted = f"{self.bridge}.service {status}"
        told = ALARM.read_text().splitlines() if ALARM.exists() else []
        want(told[self.alarms - 1 :] == [wanted], f"the alarm with {what}: {told}, not {wanted}")
        systemctl("reset-failed", self.bridge)


class Mqtt:
    """A mosquitto."""

    def __init__(self, folder, number):
        self.broker = brokers.Mosquitto(folder)
        configure(self.broker, "bridge-mqtt.env", "till-mqtt", number)
        self.start = self.back = self.broker.start
        self.strike = self.stop = self.broker.stop


class Rabbit:
    """A RabbitMQ node."""

    def __init__(self, folder, number):
        self.broker = brokers.Rabbit(folder, 1)
        configure(self.broker, "bridge.env", "till", number)
        self.start, self.stop = self.broker.start, self.broker.stop

    def strike(self):
        self.broker.kill_node(0)

    def back(self):
        self.broker.start_node(0)


def configure(broker, bridge, till, number):
    """The files in /etc/ledger, as the units' first lines say. Only root can read the accounts."""
    shutil.copy(broker.ca, OWN / "ca.crt")
    for name, user in [("bridge-1", "bridge-1"), (f"till-{number}", f"till-1-{number}")]:
        shutil.copy(broker.accounts.file(user), OWN / f"{name}.account")
        (OWN / f"{name}.account").chmod(0o600)
    brokers = f'BROKERS="--broker {broker.places[0]} --ca {OWN}/ca.crt"\n'
    (OWN / bridge).write_text(brokers)
    (OWN / "till.env").write_text(f"TILL=\"/usr/bin/ledger-shop {till}\"\nSHOP=1\n{brokers}")


def verified(unit):
    """`systemd-analyze verify` finds nothing."""
    done = subprocess.run(["systemd-analyze", "verify", unit], capture_output=True, text=True)
    want((done.returncode, done.stdout + done.stderr) == (0, ""), f"{unit}: {done.stdout}{done.stderr}")


def trial(kind, bridge, till):
    with tempfile.TemporaryDirectory() as folder:
        broker = kind(Path(folder), till)
        for unit in (bridge, "ledger-till", "ledger-alarm"):
            verified(UNITS / f"{unit}@.service")
        broker.start()
        shop = Shop("1", bridge, till)
        shop.started()
        for _ in range(3):
            shop.killed([shop.main()])
            shop.killed(shop.serves())
        shop.stopped()
        shop.away(broker)
        print(
            f"{bridge}@.service, ledger-till@.service: verified, started, {shop.kills} times killed and started again"
        )
        print(f"  by systemd, stopped and started, its broker away and back; {shop.count} wishes answered once")
        systemctl("stop", shop.bridge)
        unfit(shop)
        broker.stop()
        for path in SHOPS.iterdir():
            path.unlink()


def unfit(shop):
    """What a keeper has to look at: an image that is no shop, and full disks."""
    kept = SHOPS / "shop1.lines"
    image, moved = shop.image, SHOPS / "moved"
    image.rename(moved)
    image.write_bytes(bytes(moved.stat().st_size))
    shutil.chown(image, "ledger", "ledger")
    systemctl("start", shop.bridge)
    shop.ask(340)
    shop.left(78, "an image that is no shop")
    moved.rename(image)
    older(shop, Path("/var/lib/backup.d64"))
    # an image whose log isn't landed may not be moved alone
    subprocess.run(["/usr/bin/ledger", "serve", image], stdin=subprocess.DEVNULL, check=True)
    for path, what in [(image, "its image"), (kept, "its lines")]:
        path.rename(moved)
        fill(path, moved)
        systemctl("start", shop.bridge)
        shop.left(74, f"a full disk for {what}")
        path.unlink()
        subprocess.run(["cp", SMALL / path.name, path], check=True)
        shutil.chown(path, "ledger", "ledger")
        subprocess.run(["umount", SMALL], check=True)
        moved.unlink()
    systemctl("start", shop.bridge)
    shop.heard()
    systemctl("stop", shop.bridge)
    print(
        "  status 78 (no shop, or older than its journal) and 74 (the disk of the image or of the journal is full): not"
    )
    print("  started again, an alarm, and served when a keeper had looked", flush=True)


def older(shop, backup):
    """A backup in the image's place is refused, as one that is older than its journal."""
    moved, log = SHOPS / "moved", shop.image.with_name(f"{shop.image.name}-log")
    shop.image.rename(moved)
    if log.exists():
        log.rename(SHOPS / "moved-log")
    shutil.copy(backup, shop.image)
    shutil.chown(shop.image, "ledger", "ledger")
    systemctl("start", shop.bridge)
    shop.left(78, "an image that is older than its journal")
    shop.image.unlink()
    log.unlink(missing_ok=True)
    moved.rename(shop.image)
    if (SHOPS / "moved-log").exists():
        (SHOPS / "moved-log").rename(log)


def fill(path, file):
    """The file is on a small disk now, and where it has holes there is no room to fill them."""
    subprocess.run(["mount", "-t", "tmpfs", "-o", "size=1m,mode=777", "tmpfs", SMALL], check=True)
    subprocess.run(["cp", "--sparse=always", "--preserve=ownership", file, SMALL / path.name], check=True)
    path.symlink_to(SMALL / path.name)
    with open(SMALL / "full", "wb", 0) as full:
        try:
            while True:
                full.write(bytes(4096))
        except OSError:
            pass


def prepare():
    """A keeper's own alarm, and an image and a journal that may lie on another disk."""
    (OWN / "alarm").write_text(f'#!/bin/sh\necho "$1 $MONITOR_EXIT_STATUS" >>{ALARM}\n')
    (OWN / "alarm").chmod(0o755)
    SMALL.mkdir()
    for unit in ("ledger-bridge", "ledger-bridge-mqtt"):
        folder = UNITS / f"{unit}@.service.d"
        folder.mkdir()
        (folder / "small.conf").write_text(f"[Service]\nReadWritePaths={SMALL}\n")
    systemctl("daemon-reload")


def main(given):
    prepare()
    trial(Mqtt, "ledger-bridge-mqtt", 7)
    trial(Rabbit, "ledger-bridge", 8)
    return 2


if __name__ == "__main__":
    conduct(main, wants_program=False)
