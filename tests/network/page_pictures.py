#!/usr/bin/python3
"""Pictures of the till's page and the stock page, of a shop that this plays:

    tests/network/page_pictures.py PROGRAM [--folder FOLDER] [--all]

FOLDER gets till_390.png, till_1280.png, stock_390.png and stock_1280.png, which the README shows (docs/pictures). With --all it
gets each page also dark and in forced colours, with what waits, what is unseen, a question, another device, the forms to sign in,
and the page about trust. It wants the Debian packages that `./trials --list network` names, and nginx-light. The last line is
`N pictures`."""

import subprocess
import sys
import tempfile
import time
from pathlib import Path

sys.dont_write_bytecode = True
sys.path.insert(0, str(Path(__file__).resolve().parents[1] / "lib"))
import shop_scene as scene
from shop_paths import command
from shop_scene import TillPage, until
from trial import at, conduct
from web_server import Web

WIDTHS, HEIGHT = (390, 1280), 844
GOODS = """item,name,unit,least
101,Postcard: the tower,piece,20
102,Postcard: the harbour,piece,20
103,Mug with the tower,piece,6
104,Guide in English,piece,10
105,Guide in German,piece,10
106,Bag of cotton,piece,12
107,Map of the old town,piece,15
108,Pencil,piece,30
109,Puzzle of 500 pieces,piece,3
110,Umbrella,piece,5
"""
FIRST = "S,101,140\nS,102,95\nS,103,24\nS,104,31\nS,105,9\nS,106,40\nS,107,18\nS,108,210\nS,109,2\nS,110,7\nI,110,4\n"
DAY = [("I", "101", 3), ("I", "104", 1), ("I", "106", 2), ("R", "103", 12), ("I", "109", 3), ("I", "108", 5)]
LOOKS = {
    "": [],
    "dark": [{"name": "prefers-color-scheme", "value": "dark"}],
    "forced": [{"name": "forced-colors", "value": "active"}],
}


class Scene:
    def __init__(self, given, folder):
        self.given, self.folder, self.count = given, folder, 0
        self.broker = scene.Broker(folder, shops={"1": 6})
        self.broker.start()
        self.image = scene.shop_image(given.program, folder / "shop1.d64", 6)
        self.open_bridge()
        scene.lay_pages(folder / "www", None, GOODS)
        (folder / "www" / "ca.crt").write_bytes(self.broker.ca.read_bytes())
        self.web = Web(folder, folder / "www", self.broker.pages)
        self.web.start()
        words = command("till-mqtt", 1, "--book", folder / "till1.book", *self.broker.words("till-1-1"))
        subprocess.run([*map(str, words)], input=FIRST, text=True, check=True, capture_output=True)
        self.driver = scene.browser(folder / "browser", (1300, 1000), self.broker.ca)
        self.driver.execute_cdp_cmd("Emulation.setScrollbarsHidden", {"hidden": True})

    def open_bridge(self):
        words = scene.bridge_words(self.given.program, self.image, self.folder / "shop1.lines", self.broker, "--screen")
        self.bridge = subprocess.Popen(words, stderr=subprocess.DEVNULL)

    def picture(self, name, looks=("",)):
        """Pictures of what is seen, at each width."""
        self.driver.execute_script("scrollTo(0, 0)")
        for width in WIDTHS:
            metrics = {"width": width, "height": HEIGHT, "deviceScaleFactor": 1, "mobile": False}
            self.driver.execute_cdp_cmd("Emulation.setDeviceMetricsOverride", metrics)
            for look in looks:
                self.driver.execute_cdp_cmd("Emulation.setEmulatedMedia", {"features": LOOKS[look]})
                time.sleep(1)
                self.driver.save_screenshot(str(self.given.folder / "_".join(filter(None, (name, str(width), look)))) + ".png")
                self.count += 1
        self.driver.execute_cdp_cmd("Emulation.setEmulatedMedia", {"features": []})

    @property
    def looks(self):
        return tuple(LOOKS) if self.given.all else ("",)

    def till(self):
        page = TillPage(self.driver, self.web, 3)
        page.open()
        until(lambda: page.at("password").is_displayed(), "the form")
        if self.given.all:
            self.picture("sign", self.looks)
        page.at("password").send_keys(self.broker.password("till-1-3"))
        page.at("sign").find_element("css selector", "button").click()
        page.ready()
        for row in DAY:
            page.ask(*row)
        if self.given.all:
            self.picture("unseen", self.looks)
        self.driver.find_element("css selector", "#unseen button").click()
        until(lambda: not page.at("unseen").is_displayed(), "nothing unseen")
        page.fill("I", "102", 2)
        self.driver.execute_script("document.getElementById('item').value = 'Postcard: the harbour (102)'; document.activeElement.blur()")
        self.picture("till", self.looks)
        return page

    def more(self, page):
        """What goes wrong."""
        page.fill("S", "101", 2)
        page.send()
        until(lambda: self.driver.execute_script("return document.getElementById('sure').open"), "a question")
        self.picture("question", self.looks)
        page.at("no").click()
        self.broker.stop()
        until(lambda: "No connection" in page.state(), "no net")
        for row in (("I", "101", 2), ("I", "103", 1), ("R", "108", 40)):
            page.fill(*row)
            page.send()
        until(lambda: "Waiting (3)" in page.at("waits").text, "what waits")
        self.picture("waiting", self.looks)
        self.broker.start()
        self.bridge.wait(60)
        self.open_bridge()
        until(lambda: not page.at("waits").is_displayed(), "the answers")
        other = TillPage(self.driver, self.web, 1)
        page.at("leave").click()
        until(lambda: page.at("password").is_displayed(), "the form")
        other.driver.get("about:blank")
        other.sign_in(self.broker.password("till-1-1"))
        until(lambda: other.at("stop").is_displayed(), "a question about the number")
        self.picture("number", self.looks)
        self.driver.get(self.web.url("till_page", "trust.html"))
        until(lambda: ":" in self.driver.find_element("css selector", "#print").text, "the fingerprint")
        self.picture("trust", self.looks)

    def stock(self):
        self.driver.get(self.web.url("stock_page"))
        at = lambda name: self.driver.find_element("css selector", f"#{name}")
        until(lambda: at("password").is_displayed(), "the screen's form")
        at("password").send_keys(self.broker.password("screen-1-1"))
        at("sign").find_element("css selector", "button").click()
        until(lambda: at("state").text == "Open" and "Pencil" in at("stock").text and "Till 3" in at("last").text, "the screen")
        self.picture("stock", self.looks)

    def close(self):
        self.driver.quit()
        self.bridge.kill()
        self.bridge.wait()
        self.web.close()
        self.broker.stop()


def more(parser):
    parser.add_argument("--folder", type=Path, default="pictures", help="where pictures are put (%(default)s)")
    parser.add_argument("--all", action="store_true", help="dark, in forced colours, and what goes wrong")


def main(given):
    given.folder.mkdir(parents=True, exist_ok=True)
    with tempfile.TemporaryDirectory(ignore_cleanup_errors=True) as folder:
        shown = Scene(given, Path(folder))
        try:
            page = shown.till()
            shown.stock()
            if given.all:
                page.open()
                page.ready()
                shown.more(page)
        finally:
            shown.close()
    print(f"page_pictures: {shown.count} pictures in {given.folder}")
    return shown.count


if __name__ == "__main__":
    conduct(main, more)
