"""What tests/network/shop.py has beside its trial: two network namespaces with a cable between, the broker beyond it, and a till's
page in a browser that may be killed at any moment."""

import os
import subprocess
import threading
import time
from pathlib import Path

import brokers
import shop_scene as scene
from served import want
from shop_scene import TillPage
from tills import ended

COUNT, SHOWN, HERE, THERE = 4, 50, "10.214.0.1", "10.214.0.2"


class Nets:
    """Two network namespaces with a cable between, one of which this process moves to."""

    def __init__(self):
        self.here, self.there = f"shop{os.getpid()}a", f"shop{os.getpid()}b"
        for net in (self.here, self.there):
            self.ip("netns", "add", net)
            self.ip("-n", net, "link", "set", "lo", "up")
        self.ip("-n", self.here, "link", "add", "cable", "type", "veth", "peer", "name", "cable", "netns", self.there)
        for net, address in ((self.here, HERE), (self.there, THERE)):
            self.ip("-n", net, "addr", "add", f"{address}/30", "dev", "cable")
            self.ip("-n", net, "link", "set", "cable", "up")

    def ip(self, *words):
        subprocess.run(["ip", *words], check=True)

    def cable(self, is_in):
        self.ip("-n", self.there, "link", "set", "cable", "up" if is_in else "down")

    def beyond(self, command):
        """A command that runs in the other namespace."""
        return ["ip", "netns", "exec", self.there, *map(str, command)]

    def remove(self):
        for net in (self.here, self.there):
            subprocess.run(["ip", "netns", "del", net], check=False)


class Broker(scene.Broker):
    """The broker, in the other namespace."""

    def __init__(self, folder, nets):
        super().__init__(folder, address=THERE, shops={scene.SHOP: COUNT})
        self.nets = nets

    def start(self):
        command = self.nets.beyond([brokers.MOSQUITTO, "-c", self.folder / "mosquitto.conf"])
        self.child = brokers.Child(command, self.folder / "mosquitto.log")


class Till(threading.Thread):
    """One till's page, whose browser may be killed at any moment."""

    def __init__(self, trial, number, wishes):
        super().__init__(daemon=True)
        self.trial, self.number, self.wishes, self.place = trial, number, wishes, f"1/{number}"
        self.driver, self.fault, self.shown, self.is_done, self.starts = None, None, [], False, 0
        self.loads = threading.Event()

    def run(self):
        from selenium.common.exceptions import WebDriverException
        from urllib3.exceptions import HTTPError

        try:
            while not self.is_done:
                try:
                    self.open()
                    while not self.is_done:
                        self.work()
                except (WebDriverException, HTTPError, ConnectionError, OSError):
                    # the browser was killed, or the page can't be had while the cable is out
                    time.sleep(0.5)
        except BaseException as fault:
            self.fault = fault

    def open(self):
        if self.driver is None or not self.is_alive_browser():
            self.close()
            self.driver = scene.browser(self.trial.folder / f"browser{self.number}")
            self.driver.set_page_load_timeout(30)
            self.driver.set_script_timeout(20)
            self.starts += 1
        self.page = TillPage(self.driver, self.trial, self.number)
        self.page.open()
        end = time.monotonic() + 20
        while not self.page.at("work").is_displayed() and time.monotonic() < end:
            if self.page.at("password").is_displayed():
                self.page.at("password").send_keys(self.trial.broker.password(f"till-1-{self.number}"))
                self.page.at("sign").find_element("css selector", "button").click()
            time.sleep(0.2)

    def is_alive_browser(self):
        try:
            return bool(self.driver.current_window_handle)
        except Exception:
            return False

    def close(self):
        driver, self.driver = self.driver, None
        if driver is None:
            return
        try:
            driver.service.process.kill()
            driver.service.process.wait()
        except (AttributeError, OSError):
            pass
        for pid in browsers_of(self.trial.folder / f"browser{self.number}"):
            ended(pid)

    def work(self):
        """Sees what the page shows, and hands it the next request if none is open."""
        if self.loads.is_set():
            self.loads.clear()
            self.page.open()
            return
        text = self.page.at("stop").text
        want("refuses" not in text, f"till {self.number}: {text}")
        seen = self.page.answers()
        numbers = [number for number, _ in seen]
        last = numbers[0] if numbers else 0
        want(numbers == list(range(last, max(last - SHOWN, 0), -1)), f"till {self.number} shows {numbers}")
        for number, answer in reversed(seen):
            if number == len(self.shown) + 1:
                self.shown.append(answer)
            want(self.shown[number - 1] == answer, f"till {self.number} shows {number} {answer} after {self.shown[number - 1]}")
        if last == len(self.wishes):
            self.is_done = True
        elif self.driver.execute_script("return document.getElementById('sure').open"):
            # a count is set while nobody knows how many are there
            self.page.at("yes").click()
        elif not self.page.at("waits").is_displayed():
            self.ask(self.wishes[last], last)
        else:
            time.sleep(0.03)

    def ask(self, wish, last):
        """Hands a wish to the page, if that still shows this last answer and waits for none."""
        kind, item, quantity, *to = wish.split(",")
        script = """
          const [kind, values, last] = arguments, at = (id) => document.getElementById(id);
          if (Number(document.querySelector("#answers li")?.dataset.number ?? 0) !== last) return false;
          if (!at("waits").hidden || at("send").getAttribute("aria-disabled") === "true") return false;
          document.querySelector(`input[value=${kind}]`).click();
          for (const [id, value] of Object.entries(values)) at(id).value = value;
          at("send").click();
          return true;"""
        values = {"item": item, "quantity": quantity, "to": to[0] if to else ""}
        if self.driver.execute_script(script, kind, values, last):
            until_kept = time.monotonic() + 5
            while not self.page.at("waits").is_displayed() and time.monotonic() < until_kept:
                if any(number > last for number, _ in self.page.answers()[:1]):
                    return

    def store(self):
        """The book and the answers of the browser's store."""
        return scene.book(self.driver, self.place)


def browsers_of(folder):
    """The processes of the browser with this folder."""
    found = []
    for path in Path("/proc").glob("[0-9]*/cmdline"):
        try:
            words = path.read_bytes().split(b"\0")
        except OSError:
            continue
        if f"--user-data-dir={folder}".encode() in words:
            found.append(int(path.parent.name))
    return found
