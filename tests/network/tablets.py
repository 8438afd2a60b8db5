#!/usr/bin/python3
"""Several devices with one till's number, double taps, and signing in:

    tests/network/tablets.py PROGRAM

Two tablets (Chromium) and a terminal (`ledger-shop till-mqtt`) sell as till 4 by turns, with wishes that are all the same: what the
devices call *Done* together is what the shop has counted, each once. A device that comes newly to a used number is asked, with
that number shown; one whose till was taken over says so. Wishes that were entered while the bridge was away
and before the broker was killed with SIGKILL are counted once, and shown as *Done* by the device that entered them alone. A
second tap at 0.05 to 0.6 s sells nothing, and all goods have to be chosen anew. A wrong password shows the form with a word
beside its field, and nothing of it is kept. After an old backup both go on from the shop's number."""

import os
import pty
import subprocess
import sys
import tempfile
import time
from pathlib import Path

sys.dont_write_bytecode = True
sys.path.insert(0, str(Path(__file__).resolve().parents[1] / "lib"))
import shop_scene as scene
from served import sure, want
from shop_paths import command
from shop_scene import TillPage, until
from trial import conduct

STOCK, TAPS = 1000, (0.05, 0.15, 0.3, 0.6)
GOODS = "item,name,unit,least\n1,Mug,piece,6\n2,Postcard,piece,20\n"


class Trial(scene.TendedBridge):
    def __init__(self, program, folder):
        self.program, self.folder, self.checks, self.drivers, self.done = program, folder, 0, {}, 0
        self.broker = scene.Broker(folder, shops={scene.SHOP: 6})
        self.broker.start()
        self.image, self.kept = scene.shop_image(program, folder / "shop1.d64", 6), folder / "shop1.lines"
        self.open_bridge()
        self.pages = scene.Pages(folder, self.broker, GOODS)
        want(self.terminal(6, f"S,1,{STOCK}\nS,2,{STOCK}\n")[0] == 0, "the stock isn't set")

    def close(self):
        for driver in self.drivers.values():
            driver.quit()
        self.end_bridge()
        self.broker.stop()
        self.pages.close()

    def want(self, holds, what):
        self.checks += 1
        want(holds, what)

    def words(self, till, book=None, *more):
        book = self.folder / (book or f"till{till}.book")
        return [*map(str, command("till-mqtt", till, "--book", book, *self.broker.words(f"till-1-{till}"), *more))]

    def terminal(self, till, wishes, book=None, *more):
        """A till in a terminal: its status, what it prints, and what it says."""
        done = subprocess.run(self.words(till, book, *more), input=wishes, capture_output=True, text=True, timeout=90)
        return done.returncode, done.stdout.splitlines(), done.stderr

    def tablet(self, name, till):
        """A tablet that somebody has just signed in as this till."""
        if name not in self.drivers:
            self.drivers[name] = scene.browser(self.folder / name)
        page = TillPage(self.drivers[name], self.pages, till)
        page.driver.get("about:blank")
        page.open()
        shown = until(lambda: [one for one in ("leave", "password") if page.at(one).is_displayed()], "the page")
        if shown == ["leave"]:
            page.at("leave").click()
            until(lambda: page.at("password").is_displayed(), "the form after a sign-out")
        page.sign_in(self.broker.password(f"till-1-{till}"))
        until(lambda: not page.at("sign").is_displayed(), f"{name} signed in")
        return page

    def on_hand(self, item=1):
        until(lambda: subprocess.run([self.program, "show", self.image], capture_output=True).returncode == 0, "the shop")
        cards = [line[5:].split(",") for line in sure(self.program, "show", self.image) if line.startswith("CARD ")]
        return int(dict(cards)[str(item)])

    def asked(self, page, words, number=None):
        """The page has stopped with these words, and with this number filled in; it goes on after that."""
        self.stopped(page, words)
        self.want(not page.at("number").is_displayed(), "a number is asked for")
        if number is not None:
            self.want(f"request {number}" in page.at("stop").text or f"till is {number}." in page.at("stop").text, f"{number} isn't shown")
        text = page.at("stop").text
        page.at("go").click()
        until(lambda: page.at("stop").text != text, "what comes after going on")

    def back(self, page, number):
        """A page whose till was taken over says so; it goes on after this number, which it may learn after that."""
        name = f"Another device is signed in as till {page.till}"
        self.asked(page, name)
        until(lambda: page.at("work").is_displayed() and self.is_on(page) or "request" in page.at("stop").text, "what comes next", 30)
        if page.at("stop").is_displayed():
            self.asked(page, f"Till {page.till} was used on another device (request {number})", number)

    def is_on(self, page):
        return page.state() == "Ready" or "closed" in page.state()

    def stopped(self, page, words):
        until(lambda: words in page.at("stop").text, f"the words '{words}'", 30)
        self.want(not page.at("work").is_displayed() and not page.at("waits").is_displayed(), "a page that stopped can ask")

    def sell(self, page, quantity=1):
        page.ready(30)
        answer = page.ask("I", 1, quantity, seconds=30)
        self.done += quantity * answer.startswith("DONE,")
        return answer

    def counted(self, what):
        """What the devices call *Done* is what the shop has counted."""
        self.want(self.on_hand() == STOCK - self.done, f"{what}: {self.done} are called Done, {STOCK - self.on_hand()} are counted")

    def terminal_then_tablet(self):
        """A till that was used in a terminal, and then on a tablet: the quick start's own path."""
        self.want(self.terminal(2, "I,1,1\n")[1] == [f"1 I,1,1 DONE,{STOCK - 1}"], "the terminal isn't answered")
        self.done += 1
        page = self.tablet("first", 2)
        self.asked(page, "Till 2 was used on another device (request 1)", 1)
        self.want(self.sell(page) == f"DONE,{STOCK - 2}", "the tablet's first sale isn't its own")
        self.want(page.answers()[0][0] == 2, f"the tablet's first sale is number {page.answers()[0][0]}")
        self.counted("a terminal, then a tablet")
        return page

    def tablet_then_terminal(self, page):
        """The terminal again: it is asked, and takes the till over; the tablet says so."""
        status, out, told = self.terminal(2, "I,1,1\n")
        self.want((status, out) == (4, []) and "till 2 was used on another device (request 2)" in told, f"the terminal: {status} {out} {told}")
        status, out, told = self.terminal(2, "I,1,1\nI,1,1\n", None, "--go-on")
        self.want((status, [line.split()[0] for line in out]) == (0, ["3", "4"]), f"the terminal goes on: {status} {out} {told}")
        self.done += 2
        self.back(page, 4)
        self.sell(page)
        self.counted("a terminal and a tablet")
        self.on_terminal()

    def on_terminal(self):
        """On a terminal a person is asked; no is the end, yes goes on."""
        for typed, wanted in (("I,1,1\nn\n", 4), ("I,1,1\ny\n", 0)):
            ours, theirs = pty.openpty()
            pipes = {"stdin": theirs, "stdout": subprocess.PIPE, "stderr": subprocess.PIPE, "text": True}
            till = subprocess.Popen(self.words(2), **pipes)
            os.close(theirs)
            os.write(ours, typed.encode() + (b"" if wanted else b"\x04"))
            out, told = till.communicate(timeout=60)
            os.close(ours)
            self.want(till.returncode == wanted and "Go on here? [y/N]" in told, f"a terminal: {till.returncode} {out} {told}")
            self.done += len(out.splitlines())
        self.counted("a person who is asked")

    def by_turns(self):
        """Two tablets with one number, ten sales by turns: each take-over is named, and each sale counts."""
        first, second = self.tablet("first", 4), None
        self.sell(first)
        for number in range(1, 10):
            one = second if number % 2 else first
            if one is None:
                one = second = self.tablet("second", 4)
                self.asked(one, "Till 4 was used on another device (request 1)", 1)
            else:
                self.back(one, number)
            self.sell(one)
            self.want(one.answers()[0][0] == number + 1, f"sale {number + 1} has number {one.answers()[0][0]}")
        self.counted("ten sales by turns")
        return first, second

    def away(self, first, second):
        """A wish that was asked while the bridge is away keeps its number, though another device goes on: it is done once."""
        self.back(first, 10)
        # the second one connects once more to learn that, and the first one after it
        self.stopped(second, "Another device is signed in as till 4")
        time.sleep(1.5)
        first.ready()
        self.end_bridge()
        first.fill("I", 1, 5)
        first.send()
        until(lambda: first.at("waits").is_displayed(), "a word that the request waits")
        time.sleep(0.5)
        self.back(second, 11)
        until(lambda: "closed" in second.state(), "the second tablet without a bridge")
        second.fill("I", 1, 5)
        second.send()
        self.open_bridge()
        until(lambda: second.answers() and second.answers()[0][0] == 12, "the second tablet's answer")
        self.stopped(first, "Another device is signed in as till 4")
        first.at("go").click()
        until(lambda: first.answers()[0][0] == 11, "the first tablet's own answer")
        self.done += 10
        self.want((first.answers()[0][1], second.answers()[0][1]) == (f"DONE,{STOCK - self.done + 5}", f"DONE,{STOCK - self.done}"), "answers of others")
        self.counted("a wish while the bridge is away")
        self.asked(first, "Till 4 was used on another device (request 12)", 12)

    def offline(self, first, second):
        """A wish that was entered without net, and the same one by another device: a person sends it after all, and both count."""
        first.ready()
        before = first.answers()
        self.hidden(first, True)
        self.back(second, 12)
        second.ready()
        until(lambda: "No connection" in first.state(), "a word that nothing comes")
        first.fill("I", 1, 3)
        first.send()
        until(lambda: first.at("waits").is_displayed(), "a word that the request waits")
        self.sell(second, 3)
        self.hidden(first, False)
        self.stopped(first, "Another device is signed in as till 4")
        self.want("on another device (request 13)" in first.at("stop").text, "the number isn't named")
        self.want("Never done" in first.at("stop").text and "Sell 3 of Mug" in first.at("stop").text, "what waits isn't named")
        self.want(first.answers() == before, f"another device's answer is shown: {first.answers()[:1]}")
        self.counted("a wish without net")
        self.asked(first, "on another device (request 13)", 13)
        until(lambda: first.answers()[0][0] == 14, "the answer to what waited")
        self.done += 3
        self.counted("what waited, under the next number")
        self.sell(first)

    def hidden(self, page, is_away):
        """Takes the broker out of a page's reach, and back."""
        page.driver.execute_script("""
          const [isAway] = arguments;
          window.RealSocket ??= window.WebSocket;
          window.WebSocket = isAway ? class extends window.RealSocket {
            constructor(_place, kind) { super("wss://localhost:9", kind); } } : window.RealSocket;""", is_away)

    def main_way(self):
        page = self.terminal_then_tablet()
        self.tablet_then_terminal(page)
        first, second = self.by_turns()
        self.away(first, second)
        self.offline(first, second)
        self.crashes(first)

    def crashes(self, page):
        """The broker is killed as soon as a wish is open: the device goes on by itself, and its sale counts once."""
        for turn in range(8):
            page.ready()
            before = len(page.answers())
            page.fill("I", 1, 1)
            page.send()
            time.sleep(0.02 * turn)
            self.broker.kill()
            self.broker.start()
            until(lambda: self.tend() or len(page.answers()) > before, f"an answer after the broker's death ({page.at('stop').text})", 40)
            self.done += 1
        self.counted("a broker that is killed")

    def taps(self):
        """A second tap is none, and the form is empty."""
        page = self.tablet("first", 5)
        for pause in TAPS:
            page.ready()
            before = len(page.answers())
            page.fill("I", 1, 2)
            page.driver.execute_async_script("""
              const [pause, done] = arguments, send = document.getElementById("send");
              send.click();
              setTimeout(() => { send.click(); done(); }, pause);""", 1000 * pause)
            until(lambda: len(page.answers()) > before, "an answer to a tap")
            time.sleep(1)
            self.done += 2
            self.want(len(page.answers()) == before + 1, f"a second tap after {pause} s sells")
            form = [page.at(name).get_attribute("value") for name in ("item", "to", "quantity")]
            self.want(form == ["", "", "1"], f"after an answer the form has {form}")
            self.counted(f"a second tap after {pause} s")
        page.driver.find_element("css selector", "input[value=I]").click()
        page.send()
        until(lambda: "Which goods" in page.at("fault").text, "a word that goods are missing")
        page.driver.find_element("css selector", "input[value=R]").click()
        self.want(not page.at("fault").is_displayed(), "the word stays after another kind is chosen")

    def signs(self, page):
        """Whether the browser keeps an account."""
        script = """
          const [done] = arguments, request = indexedDB.open("ledger-till", 1);
          request.onsuccess = () => {
            const one = request.result.transaction("signs").objectStore("signs").get("last");
            one.onsuccess = () => { request.result.close(); done(one.result ?? null); };
          };"""
        return page.driver.execute_async_script(script)

    def sign_in(self):
        """The form stays until the broker has agreed."""
        driver = self.drivers["sign"] = scene.browser(self.folder / "sign")
        page = TillPage(driver, self.pages, 3)
        page.sign_in("guess")
        until(lambda: "password is wrong" in page.at("sign-fault").text, "a word beside the password")
        self.want(page.at("password").is_displayed() and not page.at("work").is_displayed(), "the page looks signed in")
        self.want(self.signs(page) is None, "a wrong password is kept")
        driver.refresh()
        until(lambda: page.at("password").is_displayed(), "the form after a reload")
        self.broker.stop()
        page.at("till").clear()
        page.at("till").send_keys("3")
        page.at("password").send_keys(self.broker.password("till-1-3"))
        page.at("sign").find_element("css selector", "button").click()
        until(lambda: "No connection" in page.state(), "a word that the broker isn't there")
        time.sleep(1)
        self.want(page.at("sign").is_displayed() and self.signs(page) is None, "the page doesn't wait for the broker")
        self.broker.start()
        until(lambda: self.tend() or page.state() == "Ready", "till 3 ready")
        until(lambda: (self.signs(page) or {}).get("till") == 3, "the account that is kept")
        self.sell(page)
        driver.refresh()
        page.ready()
        self.sell(page)

    def other_till(self):
        """The tablet signs out, and in as another till."""
        page = TillPage(self.drivers["sign"], self.pages, 1)
        page.at("leave").click()
        until(lambda: page.at("password").is_displayed(), "the form")
        page.driver.get("about:blank")
        page.sign_in(self.broker.password("till-1-1"))
        page.ready()
        self.sell(page)

    def old_backup(self):
        """An older image without its journal: the tablet and the terminal say so, and go on after the shop's number."""
        page, old = TillPage(self.drivers["sign"], self.pages, 1), self.folder / "old.d64"
        self.want(self.terminal(5, "I,2,1\n", "new.book", "--go-on")[0] == 0, "the terminal as till 5")
        sure(self.program, "copy", self.image, old)
        number = page.answers()[0][0]
        self.sell(page)
        self.want(self.terminal(5, "I,2,1\n", "new.book")[0] == 0, "the terminal as till 5")
        self.end_bridge()
        self.on_hand()
        old.replace(self.image)
        for path in [*self.folder.glob("shop1.lines*"), *self.folder.glob("shop1.d64-log")]:
            path.unlink()
        self.open_bridge()
        page.ready()
        page.fill("I", 1, 1)
        page.send()
        self.want("Never done" in page.at("stop").text and "Sell 1 of Mug" in page.at("stop").text, "what the shop refused isn't named")
        self.asked(page, "(AHEAD)", number)
        page.ready()
        page.fill("R", 2, 7)
        page.send()
        until(lambda: any(line.startswith(f"TILL 1,{number + 2},R,2,7,DONE") for line in sure(self.program, "show", self.image)), "the page's request")
        until(lambda: "Receive 7 of Postcard" in page.at("answers").text, "the answer after an old backup")
        self.want([one for one, _ in page.answers()[:2]] == [number + 2, number + 1], f"after an old backup the page shows {page.answers()[:2]}")
        status, out, told = self.terminal(5, "I,2,1\n", "new.book")
        self.want(status == 4 and "AHEAD" in told, f"the terminal: {status} {out} {told}")
        last = [line.split(",")[1] for line in sure(self.program, "show", self.image) if line.startswith("TILL 5,")]
        with open(self.folder / "new.book", "a", encoding="ascii") as book:
            book.write(f"= {last[0]},lost\n")
        status, out, told = self.terminal(5, "I,2,1\n", "new.book")
        self.want(status == 0 and "DONE" in out[0], f"the terminal doesn't go on after an old backup: {status} {out} {told}")

    def run(self):
        self.main_way()
        self.taps()
        self.sign_in()
        self.other_till()
        self.counted("all")
        self.old_backup()
        print(f"tablets: {self.done} sold by 3 tablets and a terminal, {self.done} counted; {len(TAPS)} double taps, {self.checks} checks; no difference")


def main(given):
    with tempfile.TemporaryDirectory() as folder:
        trial = Trial(given.program, Path(folder))
        try:
            trial.run()
        finally:
            trial.close()
    return trial.checks


if __name__ == "__main__":
    conduct(main)
