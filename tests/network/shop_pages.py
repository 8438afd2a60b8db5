#!/usr/bin/python3
"""The till's page and the stock page in a browser, used as people use them:

    tests/network/shop_pages.py PROGRAM [--pictures FOLDER]

Every kind of request by mouse and by keyboard alone, goods with markup in their names, 10,000 goods, a wrong password, a
second tab, a stranger's messages, a number that another device used, a time without net, an answer for each request once;
stock, what is low, tills, last answers and an item's history on the screen; a name for each control; and pictures at
three sizes, light and dark, for a person to look at. Values are worked out by hand after docs/MESSAGES.md."""

import subprocess
import sys
import tempfile
import time
from pathlib import Path

sys.dont_write_bytecode = True
sys.path.insert(0, str(Path(__file__).resolve().parents[1] / "lib"))
import shop_scene as scene
from served import want
from shop_scene import TillPage, until

from shop_looks import Strangers
from trial import at, conduct

MARKUP = '<img src=x onerror="document.title=1">&amp;"'
NAMES = {1: "Postcard", 2: MARKUP, 3: "Café crème", 4: "Mug"}
COUNT = 10_000


def goods_text():
    """10,000 goods, the first of which have names to try."""
    rows = [f'{item},"{NAMES.get(item, f"Thing no {item}").replace(chr(34), chr(34) * 2)}",piece,{5 if item < 5 else 0}' for item in range(1, COUNT + 1)]
    return "item,name,unit,least\n" + "\n".join(rows) + "\n"


class Trial(Strangers):
    def __init__(self, given, folder):
        self.folder, self.pictures = folder, given.pictures
        self.broker = scene.Broker(folder, shops={scene.SHOP: 4})
        self.broker.start()
        self.image = scene.shop_image(given.program, folder / "shop1.d64", 3)
        self.kept = folder / "shop1.lines"
        words = scene.bridge_words(given.program, self.image, self.kept, self.broker, "--screen")
        self.bridge = subprocess.Popen(words, stderr=subprocess.DEVNULL)
        self.pages = scene.Pages(folder, self.broker, goods_text())
        self.drivers, self.checks = [], 0

    def browser(self, name, **more):
        driver = scene.browser(self.folder / name, **more)
        self.drivers.append(driver)
        return driver

    def page(self, name, till):
        page = TillPage(self.browser(name), self.pages, till)
        page.sign_in(self.broker.password(f"till-1-{till}"))
        page.ready()
        return page

    def want(self, holds, what):
        self.checks += 1
        want(holds, what)

    def close(self):
        for driver in self.drivers:
            driver.quit()
        self.bridge.kill()
        self.bridge.wait()
        self.broker.stop()
        self.pages.close()

    def kinds(self, page):
        """Each kind of request, by what docs/MESSAGES.md says to it."""
        rows = [("S", 1, 10, None, "DONE,10"), ("I", 1, 3, None, "DONE,7"), ("R", 1, 5, None, "DONE,12"), ("L", 1, 1, None, "DONE,12")]
        rows += [("I", 1, 13, None, "SHORT,12"), ("M", 1, 2, 2, "NO CARD"), ("S", 2, 1, None, "DONE,1"), ("M", 1, 2, 2, "DONE,10,3")]
        rows += [("R", 1, 999999999, None, "OVER,10"), ("I", 4, 1, None, "NO CARD"), ("S", 65535, 1, None, "52,FILE TOO LARGE")]
        for row in rows:
            answer = page.ask(*row[:4])
            self.want(answer == row[4], f"{row} gets {answer}")
        self.want(page.driver.title == "Till 1", "markup in a name was run")
        self.want(MARKUP in page.at("answers").text, "a name with markup isn't shown as it is")
        numbers = [number for number, _ in page.answers()]
        self.want(numbers == list(range(len(rows), 0, -1)), f"the answers are {numbers}")
        return len(rows)

    def faults(self, page):
        """What isn't sent: each has a word to it, and no number is used."""
        before = page.answers()
        for row, word in [(("I", "no such thing"), "Which goods"), (("M", 1, 1, 1), "the same"), (("I", 1, "1.5"), "How many"), (("I", 1, "-1"), "How many")]:
            page.fill(*row)
            page.send()
            until(lambda: word in page.at("fault").text, f"a word to {row}")
            self.checks += 1
        time.sleep(0.5)
        self.want(page.answers() == before, "a fault was sent")

    def keyboard(self, page):
        """A sale by the keyboard alone, the goods found by name."""
        from selenium.webdriver.common.action_chains import ActionChains
        from selenium.webdriver.common.keys import Keys

        page.driver.refresh()
        page.ready()
        before = len(page.answers())
        page.driver.execute_script("document.activeElement.blur(); document.querySelector('#leave').focus()")
        keys = ActionChains(page.driver)
        keys.send_keys(Keys.TAB, Keys.ARROW_RIGHT, Keys.ARROW_RIGHT, Keys.TAB, "cafe", Keys.ARROW_DOWN, Keys.ENTER)
        keys.send_keys(Keys.TAB, Keys.TAB).key_down(Keys.CONTROL).send_keys("a").key_up(Keys.CONTROL)
        keys.send_keys("4", Keys.ENTER).perform()
        until(lambda: len(page.answers()) > before, "an answer to the keyboard")
        self.want(page.answers()[0][1] == "DONE,4", f"the keyboard gets {page.answers()[0]}")
        self.want("Café crème" in page.at("answers").text, "the goods that were chosen aren't named")

    def many(self, page):
        """The goods are found while somebody types, 10,000 of them."""
        field = page.at("item")
        field.clear()
        began = time.monotonic()
        field.send_keys("thing 9999")
        until(lambda: "9999" in page.at("item-list").text, "the goods that are typed")
        took = time.monotonic() - began
        self.want(took < 3, f"ten letters take {took:.1f} s with {COUNT} goods")
        self.want(len(page.driver.find_elements("css selector", "#item-list li")) <= 20, "too many goods are listed")
        field.clear()
        return took

    def second_tab(self, page):
        """The same till in another tab of the same browser is refused."""
        first = page.driver.current_window_handle
        page.driver.switch_to.new_window("tab")
        page.open()
        until(lambda: "open in another tab" in page.at("stop").text, "a word in the second tab")
        self.want(not page.at("work").is_displayed(), "the second tab can ask")
        page.driver.close()
        page.driver.switch_to.window(first)

    def offline(self, page):
        """Without a broker the request is kept and the page says so; it goes on by itself, also over a reload."""
        self.broker.stop()
        until(lambda: page.state() in ("No connection to the shop.", "This device is offline."), "a word that nothing comes")
        before = page.answers()
        page.fill("I", 1, 1)
        page.send()
        until(lambda: page.at("waits").is_displayed(), "a word that the request waits")
        kept, _ = scene.book(page.driver, "1/1")
        self.want(kept["open"] == "I,1,1", f"the store has {kept}")
        self.pages.close()
        page.driver.refresh()
        until(lambda: page.at("waits").is_displayed(), "a word that the request waits, after a reload without a web server")
        self.pages.open()
        self.want(page.answers() == before, "an answer came of nowhere")
        page.send()
        self.broker.start()
        self.restart()
        until(lambda: len(page.answers()) == len(before) + 1, "the answer after a time without net", 60)
        self.want(page.answers()[0][1] == "DONE,9", f"after a time without net: {page.answers()[0]}")

    def restart(self):
        """The bridge ends with its broker; a supervisor starts it again."""
        self.bridge.wait(60)
        self.bridge = subprocess.Popen(self.bridge.args, stderr=subprocess.DEVNULL)

    def other_device(self):
        """A device that has lost its book gets a word, and goes on after the number that the shop has."""
        page = self.page("other", 2)
        self.want(page.ask("S", 7, 70) == "DONE,70", "till 2 asks")
        self.want(page.ask("I", 7, 1) == "DONE,69", "till 2 asks")
        page.driver.quit()
        self.drivers.remove(page.driver)
        page = TillPage(self.browser("new"), self.pages, 2)
        page.sign_in(self.broker.password("till-1-2"))
        until(lambda: "Till 2 was used on another device (request 2)" in page.at("stop").text, "a word that another device has the number")
        self.want(not page.at("number").is_displayed(), "a number is asked for")
        self.picture(page, "asked")
        page.at("go").click()
        page.ready()
        self.want(page.ask("I", 7, 5) == "DONE,64", "till 2 goes on")
        self.picture(page, "till")
        return page

    def wrong_password(self):
        page = TillPage(self.browser("wrong"), self.pages, 3)
        page.sign_in("guess")
        until(lambda: "password is wrong" in page.at("sign-fault").text, "a word to a wrong password")
        until(lambda: page.at("password").is_displayed(), "the form to sign in again")
        self.checks += 1
        self.picture(page, "sign")

    def screen(self):
        """What the stock page shows."""
        driver = self.browser("screen")
        driver.get(self.pages.url("stock_page"))
        at = lambda name: driver.find_element("css selector", f"#{name}")
        until(lambda: at("password").is_displayed(), "the form to sign in")
        at("password").send_keys(self.broker.password("screen-1-1"))
        at("sign").find_element("css selector", "button").click()
        until(lambda: at("state").text == "Open", "the screen open")
        script = "return [...document.querySelectorAll('#stock tr')].map((e) => [Number(e.dataset.item), Number(e.dataset.quantity)])"
        wanted = [[1, 9], [2, 3], [3, 4], [7, 64]]
        until(lambda: driver.execute_script(script) == wanted, f"the stock {wanted}")
        low = until(lambda: at("low").text.splitlines(), "what is low")
        self.want([line for line in low if " of " in line] == ["3 of 5", "4 of 5"], f"low is {low}")
        self.want(MARKUP in at("low").text, "a name with markup isn't shown as it is")
        self.want("Till 1, request" in at("tills").text and "Till 2, request" in at("tills").text, "the tills aren't shown")
        self.want("Sell 5 of Thing no 7 (7): 64 left" in at("last").text, f"the last answers are {at('last').text[:200]}")
        driver.find_element("css selector", "tr[data-item='7'] button").click()
        until(lambda: "70 left" in at("history").text, "the history of item 7")
        lines = [line for line in at("history").text.splitlines() if "left" in line]
        self.want([line.split(": ")[1] for line in lines] == ["64 left", "69 left", "70 left"], f"the history is {lines}")
        self.picture(TillPage(driver, self.pages, 0), "stock")
        return driver

    def run(self):
        page = self.page("first", 1)
        count = self.kinds(page)
        self.faults(page)
        self.keyboard(page)
        took = self.many(page)
        self.second_tab(page)
        self.strangers(page)
        self.offline(page)
        other = self.other_device()
        self.wrong_password()
        screen = self.screen()
        self.rights(screen)
        controls = self.names(page.driver, "till") + self.names(screen, "stock") + self.names(other.driver, "till")
        self.quiet()
        print(f"shop_pages: {self.checks} checks, {count} kinds of answers, {controls} named controls, {COUNT} goods in {took:.1f} s")


def more(parser):
    parser.add_argument("--pictures", type=Path, metavar="FOLDER", help="where pictures are put")


def main(given):
    if given.pictures:
        given.pictures.mkdir(parents=True, exist_ok=True)
    with tempfile.TemporaryDirectory() as folder:
        trial = Trial(given, Path(folder))
        try:
            trial.run()
        finally:
            trial.close()
    return trial.checks


if __name__ == "__main__":
    conduct(main, more)
