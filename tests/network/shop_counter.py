#!/usr/bin/python3
"""A till's page at the counter, as a cashier uses it and as it goes wrong:

    tests/network/shop_counter.py PROGRAM [--browser chromium|firefox] [--over mosquitto|rabbit] [--width N] [--pages FOLDER] [--only WORDS]

Each check is one example: the form after each kind of answer, a count that is set by mistake, taps that follow each other at once,
two devices with one number, a number that a lost device took, wishes while the net is away, and what is typed wrong. Whatever one
check finds, the others go on. FOLDER has other pages (`till_page`, `stock_page`), such as an earlier release's. The last line is
`N passed, M failed`, and the status is 1 if one failed. Values are worked out by hand after docs/MESSAGES.md. Everything is on the
loopback address. It wants Debian's packages that `./trials --list network` names, and firefox-esr for Firefox."""

import subprocess
import sys
import time
from pathlib import Path

sys.dont_write_bytecode = True
sys.path.insert(0, str(Path(__file__).resolve().parents[1] / "lib"))
import shop_scene as scene
from page_checks import PageChecks, checked, more
from served import sure, want
from shop_paths import command
from shop_scene import TillPage, until
from trial import conduct
from web_server import Web

from ledger_shop import journal

# seconds; a browser on a busy machine takes its time
PATIENCE = 30
GOODS = "item,name,unit,least\n" + "".join(f"{item},Thing no {item},piece,5\n" for item in range(1, 200))
RESTS = (0.0, 0.1, 0.2, 0.4, 0.6, 0.8)
TAPS = (0.05, 0.15, 0.3, 0.6, 0.9, 1.3)
# what a person may type by mistake: kind, goods, quantity, to; and a word that the page says
WRONG = [
    ("I", "no such thing", "1", None, "Which goods"),
    ("I", "0", "1", None, "Which goods"),
    ("I", "65536", "1", None, "Which goods"),
    ("I", "1", "", None, "How many"),
    ("I", "1", "1.5", None, "How many"),
    ("I", "1", "-1", None, "How many"),
    ("I", "1", "01", None, "How many"),
    ("I", "1", "1000000000", None, "How many"),
    ("I", "1", "١", None, "How many"),
    ("I", "1", "1e3", None, "How many"),
    ("I", "", "2", None, "Which goods"),
    ("M", "1", "1", "", "To which goods"),
    ("M", "1", "1", "1", "the same"),
    ("S", "1", "two", None, "How many"),
]


class Trial(PageChecks, scene.TendedBridge):
    WINDOW = 900

    def __init__(self, given, folder):
        super().__init__(given, folder)
        self.program, self.till = given.program, 0
        if given.over == "rabbit":
            from rabbit_pages import RabbitPages

            self.broker = RabbitPages(folder, shops={scene.SHOP: 64})
        else:
            self.broker = scene.Broker(folder, shops={scene.SHOP: 64})
        self.broker.start()
        self.image, self.kept = scene.shop_image(self.program, folder / "shop1.d64", 64), folder / "shop1.lines"
        self.bridge = None
        self.open_bridge()
        if given.pages:
            self.pages = scene.Pages(folder, self.broker, GOODS, given.pages)
        else:
            scene.lay_pages(folder / "www", None, GOODS)
            self.pages = Web(folder, folder / "www", getattr(self.broker, "way", self.broker.pages))
            self.pages.open()

    # the shop

    def net(self, is_there):
        """Takes the net away, or brings it back."""
        if is_there:
            self.broker.start()
            until(lambda: self.tend() or self.bridge.poll() is None, "a bridge")
        else:
            self.broker.stop()

    def show(self):
        until(lambda: subprocess.run([self.program, "show", self.image], capture_output=True).returncode == 0, "the shop")
        return sure(self.program, "show", self.image)

    def on_hand(self, item):
        cards = dict(line[5:].split(",") for line in self.show() if line.startswith("CARD "))
        return int(cards[str(item)]) if str(item) in cards else None

    def last(self, till):
        found = [line for line in self.show() if line.startswith(f"TILL {till},")]
        return int(found[0].split(",")[1]) if found else 0

    def journal(self, till):
        """The wishes of a till that count, in their order."""
        lines = [line for path in journal.files_of(self.kept) for line in Path(path).read_text().splitlines() if " -> " in line]
        asked = [line.split(" ", 1)[1].split(" -> ")[0] for line in lines if "takes" not in line]
        return [one.split(",", 2)[2] for one in asked if one.startswith(f"{till},")]

    def terminal(self, till, wishes, *more):
        book = self.folder / f"till{till}.book"
        words = command("till-mqtt", till, "--book", book, *self.broker.words(f"till-1-{till}"), *more)
        return subprocess.run([*map(str, words)], input=wishes, capture_output=True, text=True, timeout=60)

    # tablets

    def begun(self, driver):
        metrics = {"width": self.given.width, "height": self.HEIGHT, "deviceScaleFactor": 1, "mobile": False}
        driver.execute_cdp_cmd("Emulation.setDeviceMetricsOverride", metrics)

    def tablet(self, till, name="first"):
        """A tablet that somebody has just signed in as this till."""
        page = TillPage(self.driver(name), self.pages, till)
        page.driver.get("about:blank")
        page.open()
        shown = until(lambda: [one for one in ("leave", "password") if page.at(one).is_displayed()], "the page", 60)
        if shown == ["leave"]:
            page.at("leave").click()
            until(lambda: page.at("password").is_displayed(), "the form after a sign-out")
        page.sign_in(self.broker.password(f"till-1-{till}"))
        until(lambda: not page.at("sign").is_displayed(), f"{name} signed in", 60)
        return page

    def fresh(self, name="first"):
        """A till that nobody has used yet, on a tablet, and goods of its own."""
        self.till += 1
        page = self.tablet(self.till, name)
        page.ready(60)
        return page, 100 + self.till

    def kind(self, page):
        return page.driver.execute_script("return new FormData(document.getElementById('work')).get('kind')")

    def form(self, page):
        return [page.at(name).get_attribute("value") for name in ("item", "to", "quantity")]

    def asks(self, page):
        """Whether the page asks a question."""
        return page.driver.execute_script("return document.getElementById('sure')?.open === true")

    def act(self, page, kind, item, quantity=1, to=None):
        """One request, whose answer it returns; a question is answered with yes."""
        before = len(page.answers())
        page.fill(kind, item, quantity, to)
        page.send()
        until(lambda: self.asks(page) or len(page.answers()) > before, "an answer", PATIENCE)
        if self.asks(page):
            page.at("yes").click()
        until(lambda: len(page.answers()) > before, "an answer", PATIENCE)
        return page.answers()[0][1]

    def quick(self, page, item, quantity=1, kind=None, wait=0.0):
        """Fills the form and taps, as fast as a script can, so many seconds after now."""
        page.driver.execute_async_script(
            """
            const [item, quantity, kind, wait, done] = arguments, at = (id) => document.getElementById(id);
            setTimeout(() => {
              if (kind) document.querySelector(`input[value=${kind}]`).click();
              at("item").value = item;
              at("quantity").value = quantity;
              at("send").click();
              done();
            }, 1000 * wait);""",
            str(item), str(quantity), kind, wait,
        )

    def stopped(self, page, words):
        until(lambda: words in page.at("stop").text, f"the words '{words}'", PATIENCE)

    def go(self, page, button="go"):
        text = page.at("stop").text
        page.at(button).click()
        until(lambda: page.at("stop").text != text, "what comes after going on", PATIENCE)

    def waiting(self, page):
        """The numbers of what waits."""
        return page.driver.execute_script("return [...document.querySelectorAll('#waits-list li')].map((e) => Number(e.dataset.number))")

    # the form

    def sell_after_each_answer(self):
        """The form goes back to Sell after each answer but that of Look."""
        page, item = self.fresh()
        for row in [("S", item, 10), ("R", item, 1), ("S", item + 50, 4), ("M", item, 1, item + 50), ("I", item, 1)]:
            self.act(page, *row)
            want(self.kind(page) == "I", f"after {row[0]} the form is at {self.kind(page)}")
        self.act(page, "L", item)
        want(self.kind(page) == "L", "after Look the form isn't at Look")

    def set_then_sale(self):
        """Set 130 to 500; then goods, 2, and the big button: a sale of 2."""
        page, item = self.fresh()
        self.act(page, "S", item, 500)
        before = len(page.answers())
        self.quick(page, item, 2)
        until(lambda: len(page.answers()) > before, "an answer", PATIENCE)
        want(self.on_hand(item) == 498, f"{self.on_hand(item)} are there, not 498")

    def set_asks(self):
        """A Set that changes a quantity by more than half asks first, with both figures; no is no, yes is yes."""
        page, item = self.fresh()
        self.act(page, "S", item, 500)
        for answer, left in (("no", 500), ("yes", 2)):
            page.fill("S", item, 2)
            page.send()
            until(lambda: self.asks(page), "a question", PATIENCE)
            text = page.at("sure").text
            want("500" in text and "Set" in text and " 2" in text, f"the question is {text}")
            want(self.last(self.till) == 1, "the question wasn't first")
            page.at(answer).click()
            if answer == "no":
                time.sleep(0.5)
                want(self.form(page)[2] == "2" and self.kind(page) == "S", "after no the form is another")
            until(lambda: self.on_hand(item) == left, f"{left} on hand", PATIENCE)

    def set_by_half(self):
        """A Set by half or less doesn't ask; nor does one of goods without a card."""
        page, item = self.fresh()
        for count, is_asked in [(100, False), (150, False), (75, False), (37, True), (0, True), (1, True), (1, False)]:
            before = len(page.answers())
            page.fill("S", item, count)
            page.send()
            until(lambda: self.asks(page) or len(page.answers()) > before, "an answer", PATIENCE)
            want(self.asks(page) == is_asked, f"Set to {count}: asks {self.asks(page)}")
            if is_asked:
                page.at("yes").click()
            until(lambda: len(page.answers()) > before, "an answer", PATIENCE)
            # the shop says how many are there a moment after its answer; a page that hasn't heard that asks once too often
            time.sleep(0.5)

    def set_without_net(self):
        """Without the shop nobody knows how many are there, so a Set asks."""
        page, item = self.fresh()
        self.act(page, "S", item, 100)
        self.end_bridge()
        try:
            until(lambda: "closed" in page.state(), "the shop closed", PATIENCE)
            page.fill("S", item, 90)
            page.send()
            until(lambda: self.asks(page), "a question", PATIENCE)
            want("isn't known" in page.at("sure").text and "90" in page.at("sure").text, page.at("sure").text)
            page.at("no").click()
        finally:
            self.open_bridge()
        page.ready(60)
        want(self.last(self.till) == 1, "the count was set")

    def escape_is_no(self):
        """Escape, and Enter twice, don't set a count."""
        page, item = self.fresh()
        self.act(page, "S", item, 500)
        for keys in ("\ue00c", "\ue007"):
            page.fill("S", item, 2)
            page.at("quantity").send_keys("\ue007")
            until(lambda: self.asks(page), "a question", PATIENCE)
            self.press(page, keys)
            until(lambda: not self.asks(page), "no question", PATIENCE)
        time.sleep(0.5)
        want(self.on_hand(item) == 500, f"{self.on_hand(item)} are there")

    def press(self, page, *keys):
        """Presses keys wherever the focus is."""
        if self.given.browser == "firefox":
            return page.driver.keys(*keys)
        from selenium.webdriver.common.action_chains import ActionChains

        ActionChains(page.driver).send_keys(*keys).perform()

    def empty_after_answer(self):
        """After an answer the form is empty, whatever the answer was."""
        page, item = self.fresh()
        for row in [("S", item, 10), ("I", item, 11), ("R", item, 1), ("M", item, 1, item + 50), ("L", item), ("I", 199, 1)]:
            self.act(page, *row)
            want(self.form(page) == ["", "", "1"], f"after {row} the form has {self.form(page)}")

    def taps_after_answer(self):
        """A tap on a filled form is a sale, at whatever time after the last answer."""
        page, item = self.fresh()
        self.act(page, "S", item, 100)
        sold = 0
        for rest in RESTS:
            for _ in range(2):
                self.act(page, "I", item, 1)
                before = len(page.answers())
                self.quick(page, item, 1, wait=rest)
                sold += 2
                until(lambda: len(page.answers()) > before, f"an answer to a tap {rest} s after an answer", PATIENCE)
        until(lambda: self.on_hand(item) == 100 - sold, f"{100 - sold} on hand", PATIENCE)

    def taps_in_a_row(self):
        """Filled forms that are tapped without any pause are as many sales, in their order."""
        page, item = self.fresh()
        self.act(page, "S", item, 100)
        for quantity in range(1, 8):
            self.quick(page, item, quantity)
        until(lambda: len(page.answers()) == 8, "eight answers", PATIENCE)
        want(self.journal(self.till) == [f"S,{item},100"] + [f"I,{item},{one}" for one in range(1, 8)], f"{self.journal(self.till)}")
        want(self.on_hand(item) == 72, f"{self.on_hand(item)} are there")

    def double_taps(self):
        """Two taps on one filled form are one sale."""
        page, item = self.fresh()
        self.act(page, "S", item, 100)
        for count, pause in enumerate(TAPS, 1):
            page.fill("I", item, 1)
            page.driver.execute_async_script(
                """
                const [pause, done] = arguments, send = document.getElementById("send");
                send.click();
                setTimeout(() => { send.click(); done(); }, pause);""",
                1000 * pause,
            )
            until(lambda: len(page.answers()) == 1 + count, "an answer", PATIENCE)
            time.sleep(0.5)
            want(self.on_hand(item) == 100 - count, f"a second tap after {pause} s sells")
            want(self.form(page) == ["", "", "1"], f"the form has {self.form(page)}")

    def empty_taps(self):
        """A tap on an empty form does nothing, and needs no rest after it."""
        page, item = self.fresh()
        self.act(page, "S", item, 100)
        for _ in range(3):
            page.driver.execute_script("document.getElementById('send').click()")
        want(len(page.answers()) == 1 and self.last(self.till) == 1, "an empty form is a request")
        self.quick(page, item, 1)
        until(lambda: len(page.answers()) == 2, "an answer", PATIENCE)
        want(self.on_hand(item) == 99, f"{self.on_hand(item)} are there")

    def what_is_typed_wrong(self):
        """Nothing of it is sent, and each has a word."""
        page, item = self.fresh()
        self.act(page, "S", item, 100)
        for kind, goods, quantity, to, word in WRONG:
            page.fill(kind, goods, quantity, to)
            page.send()
            until(lambda: word in page.at("fault").text, f"the word '{word}' to {kind} {goods} {quantity} {to}", PATIENCE)
        time.sleep(0.5)
        want(len(page.answers()) == 1 and self.last(self.till) == 1, "a fault was sent")

    def keyboard(self):
        """Sales and a Set with its question, by the keyboard alone."""
        page, item = self.fresh()
        self.act(page, "S", item, 100)
        page.driver.execute_script("document.getElementById('item').focus()")
        for quantity in "34":
            self.press(page, *str(item), "\ue004", "\ue004", "\ue003", quantity, "\ue007")
            until(lambda: not self.waiting(page), "no request waits", PATIENCE)
            time.sleep(0.3)
        until(lambda: self.on_hand(item) == 93, "93 on hand", PATIENCE)
        page.driver.execute_script("document.querySelector('input[name=kind]:checked').focus()")
        self.press(page, "\ue014", "\ue014", "\ue004", *str(item), "\ue004", "\ue004", "\ue003", "2", "\ue007")
        until(lambda: self.asks(page), "a question", PATIENCE)
        want("93" in page.at("sure").text, page.at("sure").text)
        # no has the focus, and yes comes next
        self.press(page, "\ue004", "\ue007")
        until(lambda: self.on_hand(item) == 2, "2 on hand", PATIENCE)

    # numbers

    def number_is_shown(self):
        """A second device sees the shop's number, isn't asked for it, and its next sale is the next one."""
        page, item = self.fresh()
        self.act(page, "S", item, 100)
        other = self.tablet(self.till, "second")
        self.stopped(other, "request 1)")
        want(not other.at("number").is_displayed(), "a number is asked for")
        self.go(other)
        other.ready(60)
        want(self.act(other, "I", item, 1) == "DONE,99" and other.answers()[0][0] == 2, f"{other.answers()}")

    def number_that_is_wrong(self):
        """No number that isn't the shop's is taken: neither from a field, nor from a script's value."""
        page, item = self.fresh()
        self.act(page, "S", item, 100)
        other = self.tablet(self.till, "second")
        self.stopped(other, "request 1)")
        other.driver.execute_script("document.getElementById('number').value = '1010'")
        self.go(other)
        other.ready(60)
        other.fill("I", item, 1)
        other.send()
        until(lambda: other.answers()[:1] == [(2, "DONE,99")] or other.at("stop").is_displayed(), "an answer", PATIENCE)
        want(other.answers()[:1] == [(2, "DONE,99")], f"a wrong number was taken: {other.at('stop').text}")
        want(self.last(self.till) == 2, f"the shop's last number is {self.last(self.till)}")

    def lost_device(self):
        """A device took a number and was lost before it asked: after one word the next device sells, under the shop's number."""
        self.till += 1
        want(self.terminal(self.till, f"S,{100 + self.till},50\n").returncode == 0, "a terminal")
        self.marks(f"{'ab' * 8} 1:{'ab' * 8} 2:{'ab' * 8}")
        page = self.tablet(self.till, "third")
        self.stopped(page, "(request 2)")
        want("last request of it is 1" in page.at("stop").text, f"the shop's number isn't shown: {page.at('stop').text}")
        self.go(page)
        page.ready(60)
        page.fill("I", 100 + self.till, 1)
        page.send()
        until(lambda: page.answers() or page.at("stop").is_displayed(), "an answer", PATIENCE)
        want(page.answers() == [(2, "DONE,49")], f"{page.answers()} {page.at('stop').text}")

    def marks(self, text):
        """What another device has said at the broker."""
        import brokers
        from ledger_shop import account, till_mqtt

        place = account.Place(self.broker.places[0], "mqtt")
        user = account.account_of(self.broker.accounts.file(brokers.TRIAL))
        client = till_mqtt.client_of("stranger", place, user, account.context_of(self.broker.ca))
        client.connect(place.host, place.port)
        client.loop_start()
        client.publish(f"shops/1/marks/{self.till}", text, qos=1, retain=True).wait_for_publish(10)
        client.disconnect()
        client.loop_stop()

    # the queue

    def queued(self, page, item, wishes, is_loaded=False):
        """Enters wishes while the net is away; they wait in their order, under their numbers."""
        last = page.answers()[0][0] if page.answers() else 0
        until(lambda: "No connection" in page.state() or "offline" in page.state(), "the net away", 60)
        for kind, quantity in wishes:
            self.quick(page, item, quantity, kind)
        numbers = list(range(last + 1, last + 1 + len(wishes)))
        until(lambda: self.waiting(page) == numbers, f"{numbers} wait, not {self.waiting(page)}", PATIENCE)
        want(f"Waiting ({len(wishes)})" in page.at("waits").text, page.at("waits").text)
        if is_loaded:
            page.driver.refresh()
            until(lambda: self.waiting(page) == numbers, "what waits, after a reload", 60)
        return numbers

    def queue_while_away(self):
        """Seven wishes while the net is away, over a reload: sent in order, each once, each with its answer."""
        page, item = self.fresh()
        self.act(page, "S", item, 10)
        self.net(False)
        wishes = [("I", 1), ("I", 2), ("I", 9), ("R", 5), ("L", 1), ("I", 3), ("I", 1)]
        try:
            numbers = self.queued(page, item, wishes, is_loaded=True)
        finally:
            self.net(True)
        until(lambda: self.tend() or len(page.answers()) == 8, "eight answers", 30)
        shown = [(8, "DONE,8"), (7, "DONE,9"), (6, "DONE,12"), (5, "DONE,12"), (4, "SHORT,7"), (3, "DONE,7"), (2, "DONE,9"), (1, "DONE,10")]
        want(page.answers() == shown and numbers[-1] == 8, f"the answers are {page.answers()}")
        asked = [f"S,{item},10", f"I,{item},1", f"I,{item},2", f"I,{item},9", f"R,{item},5", f"R,{item},0", f"I,{item},3", f"I,{item},1"]
        want(self.journal(self.till) == asked, f"the journal has {self.journal(self.till)}")
        return page

    def short_until_seen(self):
        """A SHORT among what waited is shown until somebody has seen it, over a reload."""
        page = self.queue_while_away()
        for _ in range(2):
            until(lambda: page.at("unseen").is_displayed(), "a word to the SHORT", PATIENCE)
            want("only 7" in page.at("unseen").text, page.at("unseen").text)
            page.driver.refresh()
            page.ready(60)
        page.driver.find_element("css selector", "#unseen button").click()
        until(lambda: not page.at("unseen").is_displayed(), "nothing unseen", PATIENCE)
        page.driver.refresh()
        page.ready(60)
        want(not page.at("unseen").is_displayed(), "what was seen comes again")

    def queue_and_second_tab(self):
        """A second tab can't send what waits; the first one does."""
        page, item = self.fresh()
        self.act(page, "S", item, 10)
        self.net(False)
        first = page.driver.current_window_handle
        try:
            self.queued(page, item, [("I", 1), ("I", 1)])
            page.driver.switch_to.new_window("tab")
            page.open()
            until(lambda: "open in another tab" in page.at("stop").text, "a word in the second tab", 60)
            want(not page.at("work").is_displayed(), "the second tab can ask")
        finally:
            self.net(True)
            if page.driver.current_window_handle != first:
                page.driver.close()
                page.driver.switch_to.window(first)
        until(lambda: self.tend() or len(page.answers()) == 3, "three answers", 30)
        want(self.on_hand(item) == 8, f"{self.on_hand(item)} are there")

    def queue_and_second_device(self):
        """Another device sells meanwhile: it is asked, and so is the first one, which sends what waits, or drops it."""
        page, item = self.fresh()
        self.act(page, "S", item, 100)
        for turn, button in enumerate(("go", "drop")):
            self.hidden(page, True)
            number = 1 if turn == 0 else 4
            self.queued(page, item, [("I", 10), ("I", 20)])
            other = self.tablet(self.till, "second")
            self.stopped(other, f"request {number})")
            self.go(other)
            other.ready(60)
            left = self.act(other, "I", item, 1)
            want(other.answers()[0][0] == number + 1, f"{other.answers()} {left}")
            self.hidden(page, False)
            self.stopped(page, "Another device is signed in")
            text = page.at("stop").text
            want(f"request {number + 1})" in text and "Sell 10" in text and "Sell 20" in text, text)
            self.go(page, button)
            page.ready(60)
            if button == "go":
                until(lambda: page.answers()[0][0] == 4, "the answers", PATIENCE)
                want([one for one, _ in page.answers()] == [4, 3, 1], f"{page.answers()}")
                want(self.on_hand(item) == 69, f"{self.on_hand(item)} are there")
            else:
                time.sleep(1)
                want(self.on_hand(item) == 68 and not self.waiting(page), f"{self.on_hand(item)} are there")
        want(self.journal(self.till).count(f"I,{item},10") == 1, "what was dropped is sent, or what was sent twice")

    def hidden(self, page, is_away):
        """Takes the broker out of one page's reach, and back."""
        page.driver.execute_script(
            """
            const [isAway] = arguments;
            window.RealSocket ??= window.WebSocket;
            window.Sockets ??= [];
            window.WebSocket = isAway ? class extends window.RealSocket { constructor(_place, kind) { super("wss://localhost:9", kind); } }
              : window.RealSocket;""",
            is_away,
        )
        if is_away:
            # another device with the same account ends this one's connection
            self.terminal_takes(page.till)

    def terminal_takes(self, till):
        """The broker ends the connection of a device whose account comes in anew."""
        from ledger_shop import account, till_mqtt

        place = account.Place(self.broker.places[0], "mqtt")
        user = account.account_of(self.broker.accounts.file(f"till-1-{till}"))
        client = till_mqtt.client_of(f"till-1-{till}", place, user, account.context_of(self.broker.ca))
        client.connect(place.host, place.port)
        client.loop_start()
        time.sleep(0.5)
        client.disconnect()
        client.loop_stop()

    def queue_on_a_device_that_is_lost(self):
        """What waits on a device that is lost is lost with it, and nothing else: the next device goes on."""
        page, item = self.fresh("lost")
        self.act(page, "S", item, 100)
        self.net(False)
        try:
            self.queued(page, item, [("I", 10)])
            self.drivers.pop("lost").quit()
        finally:
            self.net(True)
        self.tend()
        other = self.tablet(self.till, "second")
        self.stopped(other, "request 1)")
        self.go(other)
        other.ready(60)
        want(self.act(other, "I", item, 1) == "DONE,99", f"{other.answers()}")

    def sign_out_while_waiting(self):
        """Somebody who signs out while requests wait is asked; they are there after the next sign-in."""
        page, item = self.fresh()
        self.act(page, "S", item, 100)
        self.net(False)
        try:
            self.queued(page, item, [("I", 10)])
            page.at("leave").click()
            until(lambda: self.asks(page), "a question", PATIENCE)
            want("1 request" in page.at("sure").text, page.at("sure").text)
            page.at("yes").click()
            until(lambda: page.at("password").is_displayed(), "the form", 60)
        finally:
            self.net(True)
        self.tend()
        page = self.tablet(self.till)
        until(lambda: self.tend() or page.answers()[:1] == [(2, "DONE,90")], "the answer", 60)

    def fits_the_width(self):
        """Nothing is wider than the page: signed in, with what waits, with what is unseen, and with a question."""
        page, item = self.fresh()
        self.act(page, "S", item, 1)
        self.act(page, "I", item, 2)
        page.fill("S", item, 999999999)
        page.send()
        until(lambda: self.asks(page), "a question", PATIENCE)
        wide = page.driver.execute_script("return [document.documentElement.scrollWidth, innerWidth]")
        want(wide[0] <= wide[1] and wide[1] <= self.given.width, f"it is {wide} wide")
        page.at("no").click()

    CHECKS = """sell_after_each_answer set_then_sale set_asks set_by_half set_without_net escape_is_no empty_after_answer
        taps_after_answer taps_in_a_row double_taps empty_taps what_is_typed_wrong keyboard number_is_shown number_that_is_wrong
        lost_device queue_while_away short_until_seen queue_and_second_tab queue_and_second_device queue_on_a_device_that_is_lost
        sign_out_while_waiting fits_the_width""".split()

    def mend(self):
        """After a check that failed the others find a shop that is there, and browsers that are new."""
        import brokers

        if not brokers.listens(self.broker.port):
            self.broker.start()
        self.tend()
        for name in list(self.drivers):
            try:
                self.drivers.pop(name).quit()
            except Exception:
                pass

    def close(self):
        for driver in self.drivers.values():
            driver.quit()
        self.end_bridge()
        self.broker.stop()
        self.pages.close()


def more_here(parser):
    more(parser)
    parser.add_argument("--over", choices=("mosquitto", "rabbit"), default="mosquitto", help="the broker")
    parser.add_argument("--pages", type=Path, metavar="FOLDER", help="other pages")


if __name__ == "__main__":
    conduct(lambda given: checked(Trial, given), more_here)
