"""Brokers of one's own, for trials: on the loopback address or another of this machine, started as child processes, and
stopped by their ids. They run the configuration files of shop/deploy, with accounts and certificates of their own. Beside
the shops' accounts there is `trial`, which may do everything, and whose password is as random as the others'."""

import getpass
import importlib.util
import json
import os
import secrets
import shutil
import signal
import socket
import subprocess
import time
from pathlib import Path

from shop_paths import DEPLOY

from ledger_shop import accounts

RABBIT = "/usr/lib/rabbitmq/bin/rabbitmq-server"
RABBIT_CONTROL = "/usr/lib/rabbitmq/bin/rabbitmqctl"
MOSQUITTO = "/usr/sbin/mosquitto"
LOOPBACK = "127.0.0.1"
TRIAL = "trial"


def missing(*packages):
    """Which of these Debian packages aren't installed."""
    there = {"rabbitmq-server": os.path.exists(RABBIT), "mosquitto": os.path.exists(MOSQUITTO)}
    there["openssl"] = shutil.which("openssl") is not None
    for package, module in [("python3-pika", "pika"), ("python3-paho-mqtt", "paho.mqtt.client")]:
        there[package] = importlib.util.find_spec(module.partition(".")[0]) is not None
    return [package for package in packages if not there[package]]


def free_ports(count):
    """So many ports that nobody listens on."""
    sockets = [socket.create_server((LOOPBACK, 0)) for _ in range(count)]
    ports = [one.getsockname()[1] for one in sockets]
    for one in sockets:
        one.close()
    return ports


def listens(port, address=LOOPBACK):
    try:
        socket.create_connection((address, port), 1).close()
        return True
    except OSError:
        return False


def until(holds, seconds, what):
    """Waits until it holds."""
    end = time.monotonic() + seconds
    while not holds():
        if time.monotonic() > end:
            raise SystemExit(f"brokers: after {seconds} s {what}")
        time.sleep(0.2)


def children(process):
    """The processes that this one has started."""
    return [int(child) for child in Path(f"/proc/{process}/task/{process}/children").read_text().split()]


class Child:
    """A process with its children, in a group of its own."""

    def __init__(self, command, log, **more):
        with open(log, "ab") as out:
            pipes = {"stdin": subprocess.DEVNULL, "stdout": out, "stderr": out}
            self.process = subprocess.Popen(list(map(str, command)), start_new_session=True, **pipes, **more)

    def end(self, how=signal.SIGKILL):
        if self.process.poll() is None:
            os.killpg(self.process.pid, how)
            self.process.wait()


def set_in(text, joint, **settings):
    """A configuration file's text with other values for some of its settings, each of which it has."""
    lines = text.splitlines()
    for name, value in settings.items():
        name = name.replace("__", ".")
        found = [index for index, line in enumerate(lines) if line.split(joint)[0] == name]
        if len(found) != 1:
            raise SystemExit(f"brokers: {len(found)} settings {name}")
        lines[found[0]] = f"{name}{joint}{value}"
    return "\n".join(lines) + "\n"


def kept_secret(path, text):
    """A file that only its owner can read, from its first byte on."""
    with open(os.open(path, os.O_WRONLY | os.O_CREAT | os.O_EXCL, 0o600), "w", encoding="ascii") as out:
        out.write(text)


def certify(folder, address):
    """A certificate for this address and the loopback, signed by an authority of the folder's own."""

    def openssl(*words):
        subprocess.run(["openssl", *words], cwd=folder, check=True, capture_output=True)

    (folder / "openssl.conf").write_text(
        "[req]\ndistinguished_name=name\n[name]\n[ca]\nbasicConstraints=critical,CA:TRUE\n"
    )
    key = ["-newkey", "ec", "-pkeyopt", "ec_paramgen_curve:prime256v1", "-nodes"]
    made = ["-config", "openssl.conf"]
    authority = ["-x509", "-extensions", "ca", "-days", "2", "-subj", "/CN=trial of ledger"]
    openssl("req", *made, *authority, *key, "-keyout", "ca.key", "-out", "ca.crt")
    openssl("req", *made, *key, "-keyout", "broker.key", "-out", "broker.csr", "-subj", "/CN=broker")
    (folder / "names").write_text(f"subjectAltName=DNS:localhost,IP:{LOOPBACK},IP:{address}\n")
    signed = ["-CA", "ca.crt", "-CAkey", "ca.key", "-CAcreateserial", "-days", "2", "-extfile", "names"]
    openssl("x509", "-req", "-in", "broker.csr", "-out", "broker.crt", *signed)


class Accounts:
    """The accounts of some shops, each with so many tills, and that of the trial itself."""

    def __init__(self, folder, shops):
        self.folder = folder / "accounts"
        self.passwords = accounts.make(self.folder, shops)
        self.passwords[TRIAL] = secrets.token_urlsafe(24)
        kept_secret(self.file(TRIAL), f"{TRIAL}:{self.passwords[TRIAL]}\n")
        with open(self.folder / "ledger.passwords", "a", encoding="ascii") as file:
            file.write(accounts.mosquitto_line(TRIAL, self.passwords[TRIAL]))
        with open(self.folder / "ledger.acl", "a", encoding="ascii") as file:
            file.write(f"user {TRIAL}\ntopic readwrite #\n")
        definitions = self.folder / "ledger.definitions.json"
        known = json.loads(definitions.read_text())
        known["users"].append({**accounts.rabbit_user(TRIAL, self.passwords[TRIAL]), "limits": {}})
        every = {name: ".*" for name in ("configure", "write", "read")}
        known["permissions"].append({"user": TRIAL, "vhost": "/", **every})
        definitions.write_text(json.dumps(known))

    def file(self, user):
        return self.folder / f"{user}.account"


class Secure:
    """What both kinds of broker have: accounts, certificates, and the arguments with which a client comes in."""

    def __init__(self, folder, address, shops):
        self.folder, self.address = folder, address
        self.accounts = Accounts(folder, shops or {"1": 64})
        certify(folder, address)
        self.ca = folder / "ca.crt"

    def words(self, user, first=0):
        """The arguments of a bridge or a till with this account, which takes the `first` broker first."""
        places = self.places[first:] + self.places[:first]
        brokers = [word for place in places for word in ("--broker", place)]
        return [*brokers, "--ca", self.ca, "--account", self.accounts.file(user)]


class Rabbit(Secure):
    """A RabbitMQ cluster of so many nodes, which takes a client for gone that is silent for some heartbeats. `parted`
    is what nodes do that lose each other."""

    def __init__(self, folder, count=3, address=LOOPBACK, heartbeat=10, parted="pause_minority", shops=None):
        super().__init__(folder, address, shops)
        self.count, self.parted = count, parted
        names, ports = free_ports(count), free_ports(2 * count + 1)
        self.names = [f"ledger{name}@localhost" for name in names]
        self.ports, self.between, self.mapper = ports[:count], ports[count:-1], ports[-1]
        limits = f"heartbeat={heartbeat}&blocked_connection_timeout=30"
        self.places = [f"amqps://{address}:{port}/?{limits}" for port in self.ports]
        self.nodes, self.epmd = [None] * count, None
        self.prepare()

    def prepare(self):
        kept_secret(self.folder / ".erlang.cookie", secrets.token_hex(20))
        (self.folder / "plugins").write_text("[].\n")
        environment = (DEPLOY / "rabbitmq-env.conf").read_text()
        # one scheduler a node, which sleeps when it has nothing to do
        environment += 'SERVER_ADDITIONAL_ERL_ARGS="$SERVER_ADDITIONAL_ERL_ARGS +S 1:1 +sbwt none"\n'
        (self.folder / "rabbitmq-env.conf").write_text(environment)
        more = [
            "cluster_formation.peer_discovery_backend = classic_config",
            "cluster_formation.discovery_retry_limit = 2",
            "vm_memory_high_watermark.absolute = 800MB",
            "log.file.level = warning",
        ]
        more += [f"cluster_formation.classic_config.nodes.{n} = {name}" for n, name in enumerate(self.names, 1)]
        for index, port in enumerate(self.ports):
            settings = set_in(
                (DEPLOY / "rabbitmq.conf").read_text(),
                " = ",
                listeners__ssl__default=f"{self.address}:{port}",
                ssl_options__cacertfile=self.ca,
                ssl_options__certfile=self.folder / "broker.crt",
                ssl_options__keyfile=self.folder / "broker.key",
                load_definitions=self.accounts.folder / "ledger.definitions.json",
                cluster_partition_handling=self.parted,
            )
            (self.folder / f"rabbitmq{index}.conf").write_text(settings + "\n".join(more) + "\n")

    def environment(self, index=0):
        set_here = {
            "HOME": str(self.folder),
            "ERL_EPMD_PORT": str(self.mapper),
            "ERL_EPMD_ADDRESS": LOOPBACK,
            "RABBITMQ_NODENAME": self.names[index],
            "RABBITMQ_DIST_PORT": str(self.between[index]),
            "RABBITMQ_MNESIA_BASE": str(self.folder / "mnesia"),
            "RABBITMQ_LOG_BASE": str(self.folder / "log"),
            "RABBITMQ_CONFIG_FILE": str(self.folder / f"rabbitmq{index}.conf"),
            "RABBITMQ_CONF_ENV_FILE": str(self.folder / "rabbitmq-env.conf"),
            "RABBITMQ_ENABLED_PLUGINS_FILE": str(self.folder / "plugins"),
            "RABBITMQ_PID_FILE": str(self.folder / f"{index}.pid"),
        }
        return {**os.environ, **set_here}

    def control(self, *words, index=0):
        command = [RABBIT_CONTROL, "-n", self.names[index], *words]
        return subprocess.run(command, env=self.environment(), capture_output=True, text=True).stdout.strip()

    def start(self):
        """Starts the nodes one after another, until they are one cluster."""
        command = ["epmd", "-address", LOOPBACK, "-port", str(self.mapper)]
        self.epmd = Child(command, self.folder / "epmd.log")
        for index in range(self.count):
            self.start_node(index)
            until(lambda: self.listens(index), 120, "a node doesn't listen")
        others = str(self.count - 1)
        until(lambda: self.control("eval", "length(nodes()).") == others, 120, "the nodes aren't one cluster")

    def start_node(self, index):
        self.nodes[index] = Child([RABBIT], self.folder / f"node{index}.log", env=self.environment(index))

    def listens(self, index):
        return listens(self.ports[index], self.address)

    def kill_node(self, index):
        self.nodes[index].end()

    def stop(self):
        for child in filter(None, [*self.nodes, self.epmd]):
            child.end()


class Mosquitto(Secure):
    """An MQTT broker that keeps its sessions on the disk."""

    def __init__(self, folder, address=LOOPBACK, shops=None):
        super().__init__(folder, address, shops)
        self.port, self.child = free_ports(1)[0], None
        self.places = [f"mqtts://{address}:{self.port}"]
        (folder / "conf.d").mkdir()
        settings = set_in(
            (DEPLOY / "mosquitto.conf").read_text(),
            " ",
            listener=f"{self.port} {address}",
            certfile=folder / "broker.crt",
            keyfile=folder / "broker.key",
            password_file=self.accounts.folder / "ledger.passwords",
            acl_file=self.accounts.folder / "ledger.acl",
        )
        (folder / "conf.d" / "ledger.conf").write_text(settings)
        # what Debian's own file has
        main = [
            "persistence true",
            f"persistence_location {folder}/",
            f"user {getpass.getuser()}",
            f"include_dir {folder}/conf.d",
        ]
        (folder / "mosquitto.conf").write_text("\n".join(main) + "\n")

    def start(self):
        command = [MOSQUITTO, "-c", str(self.folder / "mosquitto.conf")]
        self.child = Child(command, self.folder / "mosquitto.log")
        until(lambda: listens(self.port, self.address), 30, "mosquitto doesn't listen")

    def kill(self):
        if self.child:
            self.child.end()

    stop = kill
