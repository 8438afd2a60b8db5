"""A headless Firefox (Debian's package `firefox-esr`) that a script drives by Marionette, Firefox's own protocol: Debian has no
geckodriver. It has the part of selenium's driver that the tests of the pages use. Everything is on the loopback address."""

import json
import os
import signal
import socket
import subprocess
import time
from pathlib import Path

ELEMENT = "element-6066-11e4-a52e-4f735466cecf"
# what the browser would do by itself, and what a trial on one machine needs
PREFERENCES = {
    "app.update.enabled": False,
    "app.normandy.enabled": False,
    "browser.shell.checkDefaultBrowser": False,
    "browser.startup.homepage_override.mstone": "ignore",
    "browser.startup.page": 0,
    "browser.aboutwelcome.enabled": False,
    "datareporting.policy.dataSubmissionEnabled": False,
    "dom.push.enabled": False,
    "extensions.getAddons.cache.enabled": False,
    "extensions.update.enabled": False,
    "network.captive-portal-service.enabled": False,
    "network.connectivity-service.enabled": False,
    "network.proxy.allow_hijacking_localhost": False,
    "network.websocket.delay-failed-reconnects": False,
    "privacy.sanitize.sanitizeOnShutdown": False,
    "services.settings.server": "http://127.0.0.1:9",
    "toolkit.telemetry.enabled": False,
    "places.history.enabled": True,
}


class StaleElementReferenceException(Exception):
    """The page was loaded anew."""


class NoSuchElementException(Exception):
    """There is no such element now."""


FAULTS = {"stale element reference": StaleElementReferenceException, "no such element": NoSuchElementException}
FAULTS |= {"no such window": StaleElementReferenceException}


class Element:
    def __init__(self, driver, name):
        self.driver, self.name = driver, name

    def ask(self, command, **more):
        return self.driver.ask(f"WebDriver:{command}", id=self.name, **more)

    def find_element(self, _how, selector):
        return self.driver.found(self.ask("FindElement", element=self.name, using="css selector", value=selector))

    def click(self):
        self.ask("ElementClick")

    def clear(self):
        self.ask("ElementClear")

    def send_keys(self, *words):
        self.ask("ElementSendKeys", text="".join(words))

    def is_displayed(self):
        return self.ask("IsElementDisplayed")

    @property
    def text(self):
        return self.ask("GetElementText")

    def get_attribute(self, name):
        """The property of this name, as selenium has it, or the attribute."""
        known = self.ask("GetElementProperty", name=name)
        return self.ask("GetElementAttribute", name=name) if known is None else known


class SwitchTo:
    def __init__(self, driver):
        self.driver = driver

    def new_window(self, kind):
        self.window(self.driver.ask("WebDriver:NewWindow", type=kind, focus=True)["handle"])

    def window(self, handle):
        self.driver.ask("WebDriver:SwitchToWindow", handle=handle, focus=True)


class Firefox:
    """A browser whose store lies in a folder, and stays there when it is killed. It trusts an authority whose file is given."""

    def __init__(self, folder, size=(1100, 800), authority=None, **preferences):
        self.folder = Path(folder)
        self.folder.mkdir(parents=True, exist_ok=True)
        with socket.create_server(("127.0.0.1", 0)) as free:
            port = free.getsockname()[1]
        chosen = {**PREFERENCES, **preferences, "marionette.port": port}
        lines = [f"user_pref({json.dumps(name)}, {json.dumps(value)});" for name, value in chosen.items()]
        (self.folder / "user.js").write_text("\n".join(lines) + "\n")
        if authority:
            self.trust(authority)
        words = ["/usr/bin/firefox-esr", "--headless", "--marionette", "--remote-allow-system-access", "--no-remote", "--profile", str(self.folder)]
        words += ["--window-size", "{},{}".format(*size)]
        quiet = {"stdin": subprocess.DEVNULL, "stdout": subprocess.DEVNULL, "stderr": subprocess.DEVNULL}
        environment = {**os.environ, "HOME": str(self.folder), "MOZ_DISABLE_CONTENT_SANDBOX": "1"}
        self.process = subprocess.Popen(words, env=environment, start_new_session=True, **quiet)
        try:
            self.link, self.number, self.switch_to, self.heard = self.connected(port), 0, SwitchTo(self), b""
            self.message()
            self.ask("WebDriver:NewSession", capabilities={"alwaysMatch": {"acceptInsecureCerts": True}})
            self.size(*size)
        except BaseException:
            self.kill()
            raise

    def trust(self, authority):
        """What a person does in the settings (Debian's package libnss3-tools)."""
        database = ["-d", f"sql:{self.folder}"]
        if not (self.folder / "cert9.db").exists():
            subprocess.run(["certutil", "-N", "--empty-password", *database], check=True)
        subprocess.run(["certutil", "-A", "-n", "shop", "-t", "C,,", "-i", authority, *database], check=True)

    def connected(self, port):
        end = time.monotonic() + 240
        while True:
            try:
                return socket.create_connection(("127.0.0.1", port), 300)
            except OSError:
                if time.monotonic() > end or self.process.poll() is not None:
                    raise
                time.sleep(0.1)

    def message(self):
        """The next message: its length, a colon, and JSON."""
        while b":" not in self.heard:
            self.more()
        length, _, self.heard = self.heard.partition(b":")
        while len(self.heard) < int(length):
            self.more()
        text, self.heard = self.heard[: int(length)], self.heard[int(length) :]
        return json.loads(text)

    def more(self):
        data = self.link.recv(1 << 16)
        if not data:
            raise EOFError("the browser ended")
        self.heard += data

    def ask(self, command, **words):
        """What a command gives."""
        self.number += 1
        text = json.dumps([0, self.number, command, words])
        self.link.sendall(f"{len(text.encode())}:{text}".encode())
        _, _, fault, given = self.message()
        if fault:
            raise FAULTS.get(fault["error"], RuntimeError)(f"{command}: {fault['error']}: {fault['message']}")
        return given.get("value", given) if isinstance(given, dict) and set(given) == {"value"} else given

    def found(self, one):
        return Element(self, one[ELEMENT])

    def find_element(self, how, selector):
        selector = f"#{selector}" if how == "id" else selector
        return self.found(self.ask("WebDriver:FindElement", using="css selector", value=selector))

    def find_elements(self, _how, selector):
        return [self.found(one) for one in self.ask("WebDriver:FindElements", using="css selector", value=selector)]

    def script(self, kind, text, words):
        words = [{ELEMENT: one.name} if isinstance(one, Element) else one for one in words]
        return self.ask(f"WebDriver:{kind}", script=text, args=words, scriptTimeout=30000)

    def execute_script(self, text, *words):
        return self.script("ExecuteScript", text, words)

    def execute_async_script(self, text, *words):
        return self.script("ExecuteAsyncScript", text, words)

    def get(self, url):
        self.ask("WebDriver:Navigate", url=url)

    def refresh(self):
        self.ask("WebDriver:Refresh")

    def size(self, width, height):
        """Gives the page this size. A window can't be so narrow as a phone, but what it shows of a page can."""
        self.ask("WebDriver:SetWindowRect", width=max(width, 500), height=height + 90)
        self.ask("Marionette:SetContext", value="chrome")
        script = "const { style } = gBrowser.selectedBrowser; style.maxWidth = `${arguments[0]}px`; style.maxHeight = `${arguments[1]}px`;"
        self.execute_script(script, width, height)
        self.ask("Marionette:SetContext", value="content")

    def keys(self, *keys):
        """Presses keys one after another, wherever the focus is."""
        actions = [{"type": kind, "value": key} for key in keys for kind in ("keyDown", "keyUp")]
        self.ask("WebDriver:PerformActions", actions=[{"type": "key", "id": "keys", "actions": actions}])

    @property
    def current_url(self):
        return self.ask("WebDriver:GetCurrentURL")

    @property
    def title(self):
        return self.ask("WebDriver:GetTitle")

    @property
    def current_window_handle(self):
        return self.ask("WebDriver:GetWindowHandle")

    def close(self):
        self.ask("WebDriver:CloseWindow")

    def save_screenshot(self, path):
        import base64

        Path(path).write_bytes(base64.b64decode(self.ask("WebDriver:TakeScreenshot", full=False)))

    def get_log(self, _kind):
        return []

    def quit(self):
        """Ends the browser as a person does, so that its store is whole; if it doesn't end, it is killed."""
        try:
            self.ask("Marionette:Quit", flags=["eForceQuit"])
        except (OSError, EOFError, RuntimeError):
            pass
        try:
            self.process.wait(20)
        except subprocess.TimeoutExpired:
            pass
        self.kill()
        self.link.close()

    def kill(self):
        """Ends what is left of the browser."""
        try:
            os.killpg(self.process.pid, signal.SIGKILL)
        except ProcessLookupError:
            pass
        self.process.wait()
