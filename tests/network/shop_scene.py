"""What the tests of the pages have: a mosquitto with the listener for pages, a web server with the pages, a bridge, and
browsers (Debian's chromium, chromium-driver and python3-selenium). Everything is on the loopback address."""

import http.server
import json
import os
import shutil
import subprocess
import threading
import time
from functools import partial
from pathlib import Path

import brokers
from served import sure, want
from shop_paths import DEPLOY, TOP, command

PAGES = TOP / "shop" / "pages"
SHOP = "1"


def missing():
    """Which of Debian's packages aren't installed."""
    files = {
        "mosquitto": "/usr/sbin/mosquitto",
        "chromium": "/usr/bin/chromium",
        "chromium-driver": "/usr/bin/chromedriver",
        "esbuild": "/usr/bin/esbuild",
        "node-mqtt": "/usr/share/nodejs/mqtt",
        "node-buffer": "/usr/share/nodejs/buffer",
        "node-process": "/usr/share/nodejs/process",
        "node-url": "/usr/share/nodejs/url",
        "node-readable-stream": "/usr/share/nodejs/readable-stream",
        "openssl": "/usr/bin/openssl",
        "qrencode": "/usr/bin/qrencode",
        "zbar-tools": "/usr/bin/zbarimg",
        "curl": "/usr/bin/curl",
        "libnss3-tools": "/usr/bin/certutil",
        "nginx-light": "/usr/sbin/nginx",
        "firefox-esr": "/usr/bin/firefox-esr",
    }
    return [package for package, path in files.items() if not os.path.exists(path)]


class Broker(brokers.Mosquitto):
    """A mosquitto with a websockets listener too, as mosquitto_pages.conf has it."""

    def __init__(self, folder, **more):
        super().__init__(folder, **more)
        self.pages = brokers.free_ports(1)[0]
        text = (DEPLOY / "mosquitto_pages.conf").read_text()
        where = {"certfile": folder / "broker.crt", "keyfile": folder / "broker.key"}
        listener = f"{self.pages} {self.address}"
        (folder / "conf.d" / "ledger_pages.conf").write_text(brokers.set_in(text, " ", listener=listener, **where))

    def password(self, user):
        return self.accounts.passwords[user]


class Quiet(http.server.SimpleHTTPRequestHandler):
    extensions_map = {**http.server.SimpleHTTPRequestHandler.extensions_map, ".js": "text/javascript", ".mjs": "text/javascript"}

    def log_message(self, *words):
        pass


def lay_pages(root, broker, goods=None, pages=PAGES):
    """Lays the pages into a folder as set_up.sh does, with the place of their broker and the goods."""
    for page in ("till", "stock"):
        name = f"{page}_page"
        shutil.copytree(pages / page if (pages / page).exists() else pages / name, root / name)
    here = root / "till_page"
    (root / "till").symlink_to("till_page")
    if broker:
        (here / "config.json").write_text(json.dumps({"broker": broker, "shop": SHOP}))
    if goods:
        (here / "goods.csv").write_text(goods, encoding="utf-8")
    subprocess.run([PAGES / "make_mqtt.sh", here], check=True, capture_output=True)


class Pages:
    """A web server with the pages, on localhost, which browsers take for a secure place."""

    def __init__(self, folder, broker, goods=None, pages=None):
        self.root = folder / "www"
        lay_pages(self.root, f"wss://localhost:{broker.pages}", goods, pages or PAGES)
        self.port = 0
        self.open()

    def open(self):
        self.server = http.server.ThreadingHTTPServer(("127.0.0.1", self.port), partial(Quiet, directory=self.root))
        self.port = self.server.server_address[1]
        threading.Thread(target=self.server.serve_forever, daemon=True).start()

    def url(self, page, more=""):
        return f"http://localhost:{self.port}/{page}/{more}"

    def close(self):
        self.server.shutdown()
        self.server.server_close()


def trusting(home, authority):
    """A home folder in which Chromium finds that an authority is trusted (Debian's package libnss3-tools)."""
    store = home / ".pki" / "nssdb"
    if not store.exists():
        store.mkdir(parents=True)
        database = ["-d", f"sql:{store}"]
        subprocess.run(["certutil", "-N", "--empty-password", *database], check=True)
        subprocess.run(["certutil", "-A", "-n", "shop", "-t", "C,,", "-i", authority, *database], check=True)
    return {**os.environ, "HOME": str(home)}


def browser(folder, size=(1100, 800), authority=None):
    """A browser whose store lies in a folder, and stays there when it is killed. With an authority it trusts that one, and
    otherwise every certificate."""
    from selenium import webdriver
    from selenium.webdriver.chrome.service import Service

    options = webdriver.ChromeOptions()
    options.binary_location = "/usr/bin/chromium"
    words = ["--headless=new", "--no-sandbox", "--disable-dev-shm-usage", "--disable-gpu", "--no-first-run"]
    words += [f"--user-data-dir={folder}", "--window-size={},{}".format(*size)]
    words += [] if authority else ["--ignore-certificate-errors"]
    words += ["--disable-background-timer-throttling", "--disable-renderer-backgrounding", "--disable-component-update"]
    words += ["--disable-backgrounding-occluded-windows", "--disable-sync", "--disable-background-networking"]
    for word in words:
        options.add_argument(word)
    options.set_capability("goog:loggingPrefs", {"browser": "ALL"})
    home = trusting(Path(f"{folder}.home"), authority) if authority else None
    return webdriver.Chrome(service=Service("/usr/bin/chromedriver", env=home), options=options)


def bridge_words(program, image, kept, broker, *more):
    """The command of a bridge."""
    words = command("bridge-mqtt", image, "--shop", SHOP, "--program", program, "--keep", kept)
    return [*map(str, [*words, *broker.words(f"bridge-{SHOP}"), *more])]


def shop_image(program, path, tills=4):
    sure(program, "format", "--new", path, "--tills", tills)
    return path


def fresh(holds):
    """What it gives; nothing while a page is being loaded anew."""
    try:
        return holds()
    except Exception as fault:
        if type(fault).__name__ not in ("StaleElementReferenceException", "NoSuchElementException"):
            raise
        return None


def until(holds, what, seconds=60):
    """Waits until it holds, and returns what that gave."""
    end = time.monotonic() + seconds
    while not (found := fresh(holds)):
        want(time.monotonic() < end, f"{what} didn't come in {seconds} s")
        time.sleep(0.05)
    return found


class TillPage:
    """A till's page in a browser, used as a person does."""

    def __init__(self, driver, pages, till):
        self.driver, self.pages, self.till = driver, pages, till

    def at(self, name):
        return self.driver.find_element("css selector", f"#{name}")

    def open(self):
        self.driver.get(self.pages.url("till_page", f"#till={self.till}"))

    def sign_in(self, password):
        self.open()
        until(lambda: self.at("password").is_displayed(), "the form to sign in")
        self.at("password").send_keys(password)
        self.at("sign").find_element("css selector", "button").click()

    def state(self):
        return self.at("state").text

    def ready(self, seconds=60):
        until(lambda: self.state() == "Ready", f"till {self.till} ready", seconds)

    def fill(self, kind, item, quantity=1, to=None):
        until(lambda: self.at("send").get_attribute("aria-disabled") != "true", f"till {self.till} can ask")
        self.driver.find_element("css selector", f"input[value={kind}]").click()
        for name, value in [("item", item), ("to", to), ("quantity", None if kind == "L" else quantity)]:
            if value is not None:
                field = self.at(name)
                field.clear()
                field.send_keys(str(value))
                if name != "quantity":
                    field.send_keys("\ue00c")

    def send(self):
        self.at("send").click()

    def answers(self):
        """Numbers and answers that the page shows, newest first."""
        script = "return [...document.querySelectorAll('#answers li')].map((e) => [Number(e.dataset.number), e.dataset.answer])"
        return [tuple(one) for one in self.driver.execute_script(script)]

    def ask(self, kind, item, quantity=1, to=None, seconds=60):
        """The answer to a request, which is shown once and above the others."""
        before = self.answers()
        self.fill(kind, item, quantity, to)
        self.send()
        until(lambda: len(self.answers()) > len(before), f"an answer of till {self.till}", seconds)
        after = self.answers()
        want(after[1:] == before, f"till {self.till} shows {after[:3]} after {before[:2]}")
        return after[0][1]


def book(driver, place):
    """A till's book and all its answers, as the browser's store has them."""
    script = """
      const [place, done] = arguments, request = indexedDB.open("ledger-till", 1);
      request.onsuccess = () => {
        const store = request.result, transaction = store.transaction(["books", "answers"]);
        const one = transaction.objectStore("books").get(place);
        const all = transaction.objectStore("answers").getAll(IDBKeyRange.bound([place, 0], [place, Infinity]));
        transaction.oncomplete = () => { store.close(); done([one.result ?? null, all.result]); };
      };"""
    return driver.execute_async_script(script, place)


class TendedBridge:
    """A bridge that a supervisor keeps. Whoever inherits has `program`, `image`, `kept` and `broker`."""

    bridge = None

    def open_bridge(self):
        words = bridge_words(self.program, self.image, self.kept, self.broker, "--screen")
        self.bridge = subprocess.Popen(words, stderr=subprocess.DEVNULL)

    def end_bridge(self):
        self.bridge.kill()
        self.bridge.wait()

    def tend(self):
        """The bridge ends with its broker; a supervisor starts it again."""
        if self.bridge.poll() is not None:
            self.open_bridge()
