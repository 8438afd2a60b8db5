"""What tests/network/shop_pages.py has beside its trial: strangers at the broker, names of controls, and pictures."""

import time

import brokers
from served import want
from shop_scene import until

from ledger_shop import account, till_mqtt

SIZES = {"phone": (390, 800), "tablet": (820, 1180), "desk": (1280, 900)}


class Strangers:
    """What others at the broker may try, and what a person sees."""

    def strangers(self, page):
        """Retained, forged and broken replies change nothing; neither do messages to the stock."""
        place = account.Place(self.broker.places[0], "mqtt")
        user = account.account_of(self.broker.accounts.file(brokers.TRIAL))
        client = till_mqtt.client_of("stranger", place, user, account.context_of(self.broker.ca))
        client.connect(place.host, place.port)
        client.loop_start()
        before, number = page.answers(), page.answers()[0][0] + 1
        for text in (f"1,{number},DONE,1", "<script>", "1,1,DONE,10", "\x00\xff", "9" * 900, f"1,{number},CLASH"):
            for is_retained in (False, True):
                client.publish("shops/1/replies/1", text, qos=1, retain=is_retained).wait_for_publish(10)
        client.publish("shops/1/replies/1", "", qos=1, retain=True).wait_for_publish(10)
        time.sleep(0.5)
        self.want(page.answers() == before, f"a stranger's reply is shown: {page.answers()[:2]}")
        self.want(page.ask("L", 1) == "DONE,10", "the till doesn't go on")
        self.retained(page, client)
        client.disconnect()
        client.loop_stop()

    def retained(self, page, client):
        """A retained reply to the request that is open isn't heard, while no bridge is there and the page comes back."""
        before, number = page.answers(), page.answers()[0][0] + 1
        self.bridge.kill()
        page.fill("L", 1)
        page.send()
        until(lambda: page.at("waits").is_displayed(), "a word that the request waits")
        page.driver.get("about:blank")
        client.publish("shops/1/replies/1", f"1,{number},DONE,777", qos=1, retain=True).wait_for_publish(10)
        page.open()
        until(lambda: page.state() == "Connected; the shop is closed.", "the page without a bridge")
        time.sleep(1)
        self.want(page.answers() == before, f"a retained reply is shown: {page.answers()[:1]}")
        client.publish("shops/1/replies/1", "", qos=1, retain=True).wait_for_publish(10)
        self.restart()
        until(lambda: page.answers()[:1] == [(number, "DONE,10")], "the bridge's own answer")

    def rights(self, screen):
        """What a till's and a screen's account may not do: nothing on the screen changes, and nothing is heard."""
        place, shown = account.Place(self.broker.places[0], "mqtt"), screen.find_element("css selector", "main").text
        heard, clients = [], []
        for user in ("till-1-2", "screen-1-1"):
            name = account.account_of(self.broker.accounts.file(user))
            client = till_mqtt.client_of(user, place, name, account.context_of(self.broker.ca))
            client.on_message = lambda _client, _data, message: heard.append(message.topic)
            client.connect(place.host, place.port)
            client.loop_start()
            clients.append(client)
        clients[0].subscribe([(topic, 1) for topic in ("shops/1/stock/+", "shops/1/tills/+", "shops/1/marks/1", "shops/1/last", "shops/1/history/+", "$SYS/#")])
        clients[1].subscribe([("shops/1/asks/+", 1), ("shops/1/replies/+", 1)])
        for client in clients:
            for topic in ("stock/0", "tills/1", "tills/2", "marks/1", "last", "top", "history/7", "bridge", "asks/1", "replies/1"):
                client.publish(f"shops/1/{topic}", "1,999", qos=1, retain=True).wait_for_publish(10)
        time.sleep(1)
        for client in clients:
            client.disconnect()
            client.loop_stop()
        others = [topic for topic in heard if topic != "shops/1/tills/2" and not topic.startswith("shops/1/stock/")]
        want(not others, f"strangers hear {others[:3]}")
        ago = lambda text: [line for line in text.splitlines() if " ago" not in line]
        until(lambda: screen.find_element("css selector", "#state").text == "Open", "the screen again: its account was used twice")
        self.want(ago(screen.find_element("css selector", "main").text) == ago(shown), "a stranger's message is on the screen")

    def names(self, driver, what):
        """Each control has a name in the accessibility tree."""
        driver.execute_cdp_cmd("Accessibility.enable", {})
        nodes = driver.execute_cdp_cmd("Accessibility.getFullAXTree", {})["nodes"]
        roles = {"button", "textbox", "combobox", "radio", "checkbox", "searchbox", "listbox", "spinbutton"}
        controls = [node for node in nodes if not node.get("ignored") and node.get("role", {}).get("value") in roles]
        bare = [node["role"]["value"] for node in controls if not node.get("name", {}).get("value")]
        self.want(controls and not bare, f"{what}: controls without a name: {bare}")
        return len(controls)

    def picture(self, page, name):
        """Pictures of what is seen, at three sizes, light and dark; nothing is wider than the page."""
        page.driver.execute_script("scrollTo(0, 0)")
        time.sleep(0.4)
        for size, (width, height) in SIZES.items():
            metrics = {"width": width, "height": height, "deviceScaleFactor": 1, "mobile": False}
            page.driver.execute_cdp_cmd("Emulation.setDeviceMetricsOverride", metrics)
            for scheme in ("light", "dark"):
                feature = {"features": [{"name": "prefers-color-scheme", "value": scheme}]}
                page.driver.execute_cdp_cmd("Emulation.setEmulatedMedia", feature)
                wide = page.driver.execute_script("return document.documentElement.scrollWidth")
                self.want(wide <= width, f"{name} is {wide} wide on a {size} of {width}")
                if self.pictures:
                    page.driver.save_screenshot(str(self.pictures / f"{name}_{size}_{scheme}.png"))
        page.driver.execute_cdp_cmd("Emulation.clearDeviceMetricsOverride", {})

    def quiet(self):
        """No script failed, and nothing was asked of another place."""
        for driver in self.drivers:
            loud = [one["message"] for one in driver.get_log("browser") if one["level"] == "SEVERE"]
            loud = [one for one in loud if "WebSocket connection" not in one and "favicon" not in one]
            self.want(not loud, f"a browser says {loud[:2]}")
