"""A headless Chromium (Debian's package `chromium`) that a script drives over pipes by its DevTools protocol."""

import base64
import io
import json
import os
import select
import socket
import subprocess
import threading
import time

from PIL import Image

WIDTH, HEIGHT = 1300, 1000
# What the browser would do by itself goes nowhere: port 9 of the loopback answers nobody.
QUIET = """--headless=new --no-sandbox --disable-gpu --hide-scrollbars --no-first-run --disable-background-networking
    --disable-component-update --disable-default-apps --disable-extensions --disable-sync --disable-domain-reliability
    --disable-client-side-phishing-detection --metrics-recording-only --no-pings --no-default-browser-check
    --proxy-server=127.0.0.1:9 --proxy-bypass-list=<-loopback> --force-color-profile=srgb
    --remote-debugging-pipe""".split()


class Proxy:
    """A proxy on the loopback that counts who comes, and answers nobody."""

    def __init__(self):
        self.listening = socket.create_server(("127.0.0.1", 0))
        self.address = "127.0.0.1:%d" % self.listening.getsockname()[1]
        self.asked = []
        threading.Thread(target=self._count, daemon=True).start()

    def _count(self):
        while True:
            try:
                caller, _ = self.listening.accept()
            except OSError:
                return
            with caller:
                caller.settimeout(1)
                try:
                    self.asked.append(caller.recv(2000).split(b"\r\n")[0].decode("latin-1"))
                except OSError:
                    self.asked.append("?")

    def close(self):
        self.listening.close()


class Browser:
    """One page of one Chromium. Whatever the page asks for outside its files would come to the proxy."""

    def __init__(self, folder, proxy):
        to_browser, commands = os.pipe()
        answers, from_browser = os.pipe()
        # the browser reads its file 3 and writes its file 4
        words = ["sh", "-c", f'exec chromium "$@" 3<&{to_browser} 4>&{from_browser}', "chromium", *QUIET,
                 f"--user-data-dir={folder}", f"--window-size={WIDTH},{HEIGHT}"]
        quiet = {**os.environ, "HOME": str(folder)}
        self.running = subprocess.Popen(words, pass_fds=(to_browser, from_browser), stdin=subprocess.DEVNULL,
                                        stdout=subprocess.DEVNULL, stderr=subprocess.DEVNULL, env=quiet)
        os.close(to_browser)
        os.close(from_browser)
        self.commands, self.answers, self.held = commands, answers, b""
        self.number, self.events, self.session = 0, [], None
        context = self.ask("Target.createBrowserContext", proxyServer=proxy.address, proxyBypassList="<-loopback>")
        target = self.ask("Target.createTarget", url="about:blank", **context)["targetId"]
        self.session = self.ask("Target.attachToTarget", targetId=target, flatten=True)["sessionId"]
        for domain in ("Page", "Network", "Runtime", "Log"):
            self.ask(domain + ".enable")

    def _message(self, seconds):
        """The next message, or None after so many seconds."""
        until = time.monotonic() + seconds
        while b"\0" not in self.held:
            ready, _, _ = select.select([self.answers], [], [], max(0, until - time.monotonic()))
            if not ready:
                return None
            data = os.read(self.answers, 1 << 20)
            if not data:
                raise EOFError("the browser ended")
            self.held += data
        message, _, self.held = self.held.partition(b"\0")
        return json.loads(message)

    def ask(self, method, **parameters):
        """The answer to a command; events that come before it are kept."""
        self.number += 1
        command = {"id": self.number, "method": method, "params": parameters}
        if self.session:
            command["sessionId"] = self.session
        os.write(self.commands, json.dumps(command).encode() + b"\0")
        while True:
            message = self._message(60)
            if message is None:
                raise TimeoutError(method)
            if message.get("id") == self.number:
                if "error" in message:
                    raise RuntimeError(f"{method}: {message['error']}")
                return message["result"]
            self.events.append(message)

    def wait(self, name):
        """Waits for an event."""
        while not any(event.get("method") == name for event in self.events):
            message = self._message(60)
            if message is None:
                raise TimeoutError(name)
            self.events.append(message)

    def scale(self, dots):
        """So many dots of the screen for a pixel of the page."""
        self.ask("Emulation.setDeviceMetricsOverride", width=WIDTH, height=HEIGHT, deviceScaleFactor=dots, mobile=False)

    def open(self, url):
        """Opens a page, and waits until it is loaded."""
        self.events = []
        self.ask("Page.navigate", url=url)
        self.wait("Page.loadEventFired")

    def requests(self):
        """What the page asked for since it was opened, itself among it."""
        return [event["params"]["request"]["url"] for event in self.events
                if event.get("method") == "Network.requestWillBeSent"]

    def complaints(self):
        """What the browser logged and the scripts that ran."""
        return [event["params"] for event in self.events
                if event.get("method") in ("Log.entryAdded", "Runtime.consoleAPICalled", "Runtime.exceptionThrown")]

    def value(self, expression):
        """The value of an expression in the page, or what it promises."""
        answer = self.ask("Runtime.evaluate", expression=expression, returnByValue=True, awaitPromise=True)
        if "exceptionDetails" in answer:
            raise RuntimeError(str(answer["exceptionDetails"]))
        return answer["result"].get("value")

    def shot(self, *clip):
        """What is seen, or a part of it: left, top, width, height."""
        more = {"clip": {**dict(zip(("x", "y", "width", "height"), clip)), "scale": 1}} if clip else {}
        answer = self.ask("Page.captureScreenshot", format="png", **more)
        return Image.open(io.BytesIO(base64.b64decode(answer["data"]))).convert("RGB")

    def close(self):
        try:
            self.session = None
            self.ask("Browser.close")
        except (EOFError, OSError, TimeoutError):
            pass
        try:
            self.running.wait(10)
        except subprocess.TimeoutExpired:
            self.running.kill()
            self.running.wait()
        os.close(self.commands)
        os.close(self.answers)
