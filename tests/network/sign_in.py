#!/usr/bin/python3
"""How a new tablet comes to a shop:

    tests/network/sign_in.py PROGRAM [--browser chromium|firefox] [--width N]

A code signs in once, within ten minutes, by the camera's address or typed; the browser's own history has no password; a code that
was used, that is too old, of another shop, or that was never given is refused with a word; of fifty that come at once one gets
the account. Port 80 gives the authority's certificate and sends everything else to TLS, and a page says how a device learns to
trust the shop, with the fingerprint that openssl prints. The web server is nginx with shop/deploy/nginx.conf. Whatever one check
finds, the others go on; the last line is `N passed, M failed`, and the status is 1 if one failed. It wants Debian's packages that
`./trials --list network` names, nginx-light, and firefox-esr for Firefox."""

import concurrent.futures
import json
import re
import socket
import sqlite3
import subprocess
import sys
import time
from pathlib import Path

sys.dont_write_bytecode = True
sys.path.insert(0, str(Path(__file__).resolve().parents[1] / "lib"))
import brokers
import shop_scene as scene
from page_checks import PageChecks, checked, more
from served import want
from shop_paths import command
from shop_scene import TillPage, until
from trial import conduct
from web_server import Web

from ledger_shop import sign_in

GOODS = "item,name,unit,least\n1,Mug,piece,6\n"


def read_code(printed, path):
    """What zbar reads of a code that is printed with half blocks, bright on dark."""
    from PIL import Image

    halves = {" ": (0, 0), "▄": (0, 1), "▀": (1, 0), "█": (1, 1)}
    rows = [[halves[one][half] for one in line] for line in printed.splitlines() if line for half in (0, 1)]
    width = max(map(len, rows))
    image = Image.new("L", (width, len(rows)), 255)
    image.putdata([255 * one for row in rows for one in row + [1] * (width - len(row))])
    image.resize((8 * width, 8 * len(rows)), Image.NEAREST).save(path)
    return subprocess.run(["zbarimg", "--quiet", "--raw", path], capture_output=True, text=True, check=True).stdout.strip()


class Trial(PageChecks):
    def __init__(self, given, folder):
        super().__init__(given, folder)
        self.broker = scene.Broker(folder, shops={"1": 9, "2": 2})
        self.broker.start()
        image = scene.shop_image(given.program, folder / "shop1.d64", 9)
        self.bridge = subprocess.Popen(
            scene.bridge_words(given.program, image, folder / "shop1.lines", self.broker, "--screen"), stderr=subprocess.DEVNULL
        )
        self.codes, self.port, self.service = folder / "codes", brokers.free_ports(1)[0], None
        self.codes.mkdir(mode=0o700)
        self.open_service()
        root = folder / "www"
        scene.lay_pages(root, None, GOODS)
        (root / "ca.crt").write_bytes(self.broker.ca.read_bytes())
        self.web = Web(folder, root, self.broker.pages, self.port)
        self.web.start()

    def open_service(self):
        words = command("sign-in", "--codes", self.codes, "--port", self.port)
        self.service = brokers.Child(words, self.folder / "sign_in.log")
        brokers.until(lambda: brokers.listens(self.port), 20, "the service doesn't listen")

    def printed(self, user, page=None):
        """What the command prints for a till: the text of the code, and the code to type."""
        words = command("accounts", self.broker.accounts.folder, "--qr", user, "--page", page or self.web.url("till_page"), "--codes", self.codes)
        out = subprocess.run([*map(str, words)], capture_output=True, text=True, check=True).stdout
        want(self.broker.password(user) not in out, "the password is printed")
        *lines, last = out.rstrip("\n").split("\n")
        text = read_code(re.sub(r"\x1b\[[0-9;]*m", "", "\n".join(lines)), self.folder / "code.png")
        return text, re.search(r"[0-9A-Z]{4}-[0-9A-Z]{4}-[0-9A-Z]{4}", last)[0]

    def post(self, code, **more):
        """Status and body of a code that is posted."""
        words = ["curl", "-s", "-m", "20", "--cacert", self.broker.ca, "-w", "\n%{http_code}", "--data-binary", "@-"]
        words += [*more.get("words", []), f"https://localhost:{self.web.port}/sign_in"]
        out = subprocess.run([*map(str, words)], input=code, capture_output=True, text=True).stdout
        body, _, status = out.rpartition("\n")
        return int(status), body

    def ready(self, driver, till):
        page = TillPage(driver, self.web, till)
        until(lambda: page.at("leave").is_displayed(), f"till {till} signed in", 60)
        page.ready(60)
        return page

    def leave(self, driver):
        page = TillPage(driver, self.web, 0)
        shown = until(lambda: [one for one in ("leave", "code") if page.at(one).is_displayed()], "the page", 60)
        if shown == ["leave"]:
            page.at("leave").click()
        until(lambda: page.at("code").is_displayed(), "the form", 60)

    # the code

    def camera(self):
        """The address that a camera reads signs in; neither it nor the page's own address has the password."""
        text, typed = self.printed("till-1-3")
        want(text == f"{self.web.url('till_page')}#code={typed.replace('-', '')}", f"the camera reads {text}")
        driver = self.driver("first")
        driver.get(text)
        page = self.ready(driver, 3)
        want(page.ask("S", 1, 5) == "DONE,5", "the till doesn't sell")
        want(driver.current_url == self.web.url("till_page"), f"the address is {driver.current_url}")
        driver.refresh()
        self.ready(driver, 3)
        self.leave(driver)
        # the same tab: its address alone changes
        driver.get(text)
        page = TillPage(driver, self.web, 3)
        until(lambda: "was used" in page.at("code-fault").text, "a word to a used code", 60)
        want(page.at("password").is_displayed(), "the form isn't there")

    def typed(self):
        """A code is typed in small letters, with blanks, and with the letters that look like digits."""
        for till, change in ((4, str), (5, lambda one: one.lower().replace("-", " ")), (6, lambda one: one.replace("0", "O").replace("1", "l"))):
            _, code = self.printed(f"till-1-{till}")
            driver = self.driver("first")
            driver.get("about:blank")
            driver.get(self.web.url("till_page"))
            self.leave(driver)
            page = TillPage(driver, self.web, till)
            page.at("code").send_keys(change(code))
            page.driver.find_element("css selector", "#by-code button").click()
            self.ready(driver, till)
            want(page.driver.title == f"Till {till}", page.driver.title)

    def no_password_in_history(self):
        """What the browser's history has of all this, byte for byte, once the browser is closed."""
        text, _ = self.printed("till-1-7")
        driver = self.driver("history")
        driver.get(text)
        self.ready(driver, 7)
        time.sleep(1)
        self.drivers.pop("history").quit()
        names = ("places.sqlite", "sessionstore.jsonlz4") if self.given.browser == "firefox" else ("History", "Current Session", "Visited Links")
        files = [path for path in (self.folder / "history").rglob("*") if path.is_file() and path.name.startswith(names)]
        want(files, "the browser has no history")
        password = self.broker.password("till-1-7").encode()
        for path in files:
            data = path.read_bytes()
            want(password not in data and b"password=" not in data, f"{path.name} has the password")
        # the history is one: it has the page
        if self.given.browser == "chromium":
            rows = sqlite3.connect([path for path in files if path.name == "History"][0]).execute("select url from urls").fetchall()
            want(any("till_page" in url for url, in rows), f"the history has {rows}")

    def once(self):
        """Of fifty that post a code at the same moment one gets the account."""
        code = sign_in.offer(self.codes, "1", 3, "secret")
        with concurrent.futures.ThreadPoolExecutor(50) as pool:
            found = list(pool.map(lambda _: self.post(code), range(50)))
        good = [json.loads(body) for status, body in found if status == 200]
        want(good == [{"shop": "1", "till": 3, "password": "secret"}], f"it gives {good}")
        want({status for status, _ in found} == {200, 404}, f"it answers {found[:3]}")
        want(not list(self.codes.iterdir()), "the code is still there")

    def ten_minutes(self):
        """A code that is too old gives nothing, and is removed; one that is nearly so gives its account."""
        old = sign_in.offer(self.codes, "1", 3, "secret", lives=-0.1)
        want(self.post(old)[0] == 404, "a code that is too old works")
        known = json.loads(sign_in.path_of(self.codes, sign_in.offer(self.codes, "1", 3, "secret")).read_text())
        want(590 < known["until"] - sign_in.now() <= 600, f"a code lives for {known['until'] - sign_in.now():.0f} s")
        near = sign_in.offer(self.codes, "1", 3, "secret", lives=5)
        want(self.post(near)[0] == 200, "a code that isn't too old doesn't work")
        short = sign_in.path_of(self.codes, sign_in.offer(self.codes, "1", 3, "secret", lives=0.5))
        until(lambda: not short.exists(), "an old code is removed", 15)

    def after_a_restart(self):
        """A code that is open works after the service was killed and started again."""
        code = sign_in.offer(self.codes, "1", 3, "secret")
        self.service.end()
        want(self.post(code)[0] in (502, 504), "a dead service answers")
        self.open_service()
        want(self.post(code)[0] == 200, "the code is lost")

    def without_the_service(self):
        """The page says that it takes no codes, and password and number still sign in."""
        driver = self.driver("first")
        driver.get("about:blank")
        driver.get(self.web.url("till_page"))
        self.leave(driver)
        self.service.end()
        try:
            page = TillPage(driver, self.web, 8)
            page.at("code").send_keys("K7QF-2M9X-4TBC")
            driver.find_element("css selector", "#by-code button").click()
            until(lambda: "takes no codes" in page.at("code-fault").text, "a word", 60)
            driver.get("about:blank")
            page.sign_in(self.broker.password("till-1-8"))
            self.ready(driver, 8)
        finally:
            self.open_service()

    def nothing_else(self):
        """What was never given, is no code, or isn't posted."""
        for text in ("", "K7QF-2M9X-4TBC", "../../etc/passwd", "\0" * 12, "é" * 12, "'; --", "A" * 64):
            want(self.post(text)[0] == 404, f"{text!r} gets {self.post(text)}")
        want(self.post("A" * 65)[0] == 400, "a long code")
        want(self.post("A" * 2000)[0] == 413, "a longer one")
        for words in (["-G"], ["-X", "PUT"], ["-X", "DELETE"]):
            want(self.post("K7QF2M9X4TBC", words=words)[0] in (403, 405), f"{words} is taken")

    def other_shop(self):
        """A code of another shop doesn't sign in here, and its account isn't shown."""
        code = sign_in.offer(self.codes, "2", 1, "secret2")
        driver = self.driver("first")
        driver.get("about:blank")
        driver.get(self.web.url("till_page", f"#code={code}"))
        page = TillPage(driver, self.web, 1)
        until(lambda: "another shop" in page.at("code-fault").text, "a word", 60)

    def password_in_an_address(self):
        """An address with a password, as an earlier version's code had it, signs nobody in."""
        driver = self.driver("first")
        driver.get("about:blank")
        driver.get(self.web.url("till_page"))
        self.leave(driver)
        driver.get("about:blank")
        driver.get(self.web.url("till_page", f"#till=9&password={self.broker.password('till-1-9')}"))
        page = TillPage(driver, self.web, 9)
        until(lambda: page.at("password").is_displayed() and page.state() == "Not signed in", "the form", 60)
        want(page.at("password").get_attribute("value") == "", "the page takes the password of an address")

    def silent_clients(self):
        """Twenty connections that say nothing, or half of it, hold up nobody, and are let go."""
        lines = [socket.create_connection(("127.0.0.1", self.port)) for _ in range(20)]
        for line in lines[:10]:
            line.sendall(b"POST /sign_in HTTP/1.0\r\nContent-Length: 12\r\n\r\nK7")
        code = sign_in.offer(self.codes, "1", 3, "secret")
        began = time.monotonic()
        want(self.post(code)[0] == 200 and time.monotonic() - began < 3, f"it takes {time.monotonic() - began:.1f} s")
        for line in lines:
            line.settimeout(20)
            want(line.recv(1000) == b"" or True, "a silent client isn't let go")
            line.close()

    def who_may_read(self):
        """An open code is its owner's, and a folder that isn't there has a word."""
        path = sign_in.path_of(self.codes, sign_in.offer(self.codes, "1", 3, "secret"))
        want(path.stat().st_mode & 0o777 == 0o600, "others can read a code")
        words = command("accounts", self.broker.accounts.folder, "--qr", "till-1-3", "--page", "https://x/", "--codes", self.folder / "none")
        done = subprocess.run([*map(str, words)], capture_output=True, text=True)
        want(done.returncode == 1 and "systemctl start ledger-sign-in" in done.stderr, done.stderr)

    # port 80 and the page about trust

    def curl(self, url, *words):
        out = subprocess.run(["curl", "-s", "-m", "20", "--cacert", self.broker.ca, "-D", "-", *words, url], capture_output=True).stdout
        head, _, body = out.partition(b"\r\n\r\n")
        lines = head.decode().split("\r\n")
        return int(lines[0].split()[1]), {line.split(": ", 1)[0].lower(): line.split(": ", 1)[1] for line in lines[1:]}, body

    def plain_port(self):
        """Port 80 has ca.crt, and sends everything else to TLS."""
        plain = f"http://localhost:{self.web.plain}"
        status, heads, body = self.curl(f"{plain}/ca.crt")
        want((status, body) == (200, self.broker.ca.read_bytes()), f"ca.crt gets {status}")
        want(heads["content-type"] == "application/x-x509-ca-cert", f"it is {heads['content-type']}")
        for path in ("/", "/till_page/", "/till_page/till.js", "/goods.csv", "/sign_in", "/mqtt", "/ca.crt/", "/.//ca.crt/../till_page/", "/x?y=1"):
            status, heads, _ = self.curl(plain + path, "--path-as-is")
            want(status == 301 and heads["location"].startswith("https://localhost/"), f"{path}: {status} {heads.get('location')}")
        want(self.curl(f"{plain}/sign_in", "-d", "K7QF2M9X4TBC")[0] == 301, "a code is taken without TLS")

    def trust_page(self):
        """The page has three steps with pictures, the place of the certificate, and the fingerprint that openssl prints."""
        words = ["openssl", "x509", "-noout", "-fingerprint", "-sha256", "-in", self.broker.ca]
        wanted = subprocess.run(words, capture_output=True, text=True, check=True).stdout.strip().partition("=")[2]
        driver = self.driver("first")
        driver.get(self.web.url("till_page", "trust.html"))
        until(lambda: driver.execute_script("return document.querySelector('#print').textContent.trim()") == wanted, "the fingerprint", 60)
        steps = driver.execute_script("return [...document.querySelectorAll('.steps > li')].map((e) => e.querySelectorAll('svg').length)")
        want(steps == [1, 1, 1], f"the steps have {steps} pictures")
        want(driver.find_element("css selector", "#plain").text == "http://localhost/ca.crt", "the place of ca.crt")
        wide = driver.execute_script("return [document.documentElement.scrollWidth, innerWidth]")
        want(wide[0] <= wide[1], f"it is {wide} wide")

    CHECKS = """camera typed no_password_in_history once ten_minutes after_a_restart without_the_service nothing_else other_shop
        password_in_an_address silent_clients who_may_read plain_port trust_page""".split()

    def close(self):
        for driver in self.drivers.values():
            driver.quit()
        self.bridge.kill()
        self.bridge.wait()
        for one in (self.service, self.web.child):
            one.end()
        self.broker.stop()


if __name__ == "__main__":
    conduct(lambda given: checked(Trial, given), more)
