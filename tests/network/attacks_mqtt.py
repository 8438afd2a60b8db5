"""What tests/network/attacks.py tries over MQTT."""

import time

import brokers
from attack_names import BRIDGE, FLOOD, FOREIGN, HONEST, INSIDER, LONGEST, OTHER, REPEATS, SILENT, VICTIM
from served import want

from ledger_shop import account


def attacker(name, clean):
    """A client that stays away when the broker ends its connection."""
    import paho.mqtt.client as mqtt

    class Attacker(mqtt.Client):
        def loop_forever(self, *words, **more):
            try:
                return super().loop_forever(*words, **more)
            except OSError:
                return 0

    return Attacker(name, clean_session=clean)


class OverMqtt:
    """The attacks over MQTT."""

    def __init__(self, scene):
        self.scene, self.place = scene, account.Place(scene.own.places[0], "mqtt")

    def client(self, user=INSIDER, name="attacker", clean=True, password=None, secure=True):
        """A client, and the code with which the broker took or refused it; None if it never answered."""
        client, codes, heard = attacker(name, clean), [], []
        client.on_connect = lambda _client, _data, _flags, code: codes.append(code)
        client.on_message = lambda _client, _data, message: heard.append((message.topic, message.payload))
        if user:
            client.username_pw_set(user, password or self.scene.own.accounts.passwords[user])
        if secure:
            client.tls_set_context(account.context_of(self.scene.own.ca))
        client.max_inflight_messages_set(0)
        try:
            client.connect(self.place.host, self.place.port)
            client.loop_start()
        except OSError:
            return client, None, heard
        end = time.monotonic() + (LONGEST if secure else SILENT)
        while not codes and time.monotonic() < end:
            time.sleep(0.02)
        return client, codes[0] if codes else None, heard

    def inside(self, user=INSIDER, **more):
        """A client that the broker took, and what it hears."""
        client, code, heard = self.client(user, **more)
        want(code == 0, f"{user} is refused with {code}")
        return client, heard

    def shut_out(self, **more):
        client, code, _ = self.client(**more)
        gone(client)
        want(code != 0, f"the broker takes {more}")

    def publish(self, topic, text, user=INSIDER, retain=False):
        client, _ = self.inside(user)
        client.publish(topic, text, qos=1, retain=retain).wait_for_publish(LONGEST)
        gone(client)

    def silent(self, user, *topics):
        """A client that subscribes to these hears nothing while honest tills ask."""
        client, heard = self.inside(user)
        for topic in topics:
            client.subscribe(topic, qos=1)
        time.sleep(SILENT)
        self.scene.ask("R,1,0")
        time.sleep(SILENT)
        gone(client)
        heard = [one for one in heard if not one[0].endswith("/bridge")]
        want(not heard, f"{user} hears {heard[:3]}")

    def names(self):
        """The bridge's identifier, and another till's, while both are connected."""
        for name in (BRIDGE, f"till-1-{HONEST}", "ledger-1-asks", ""):
            client, _ = self.inside(name=name)
            time.sleep(SILENT / 3)
            want(self.scene.link.client.is_connected(), f"{name}: an honest till lost its connection")
            gone(client)

    def session(self):
        """Asks wait for a bridge that is away; its identifier doesn't clear them."""
        scene = self.scene
        scene.close_bridge()
        scene.honest.wish("R,1,0")
        time.sleep(SILENT)
        scene.link.send(scene.honest.ask())
        time.sleep(SILENT)
        gone(self.inside(name=BRIDGE, clean=True)[0])
        scene.open_bridge()
        replies = []
        scene.until(lambda: replies.append(scene.link.reply(0.2)) or scene.honest.hear(replies[-1] or ""), "an answer")

    def flood(self, text, count):
        client, _ = self.inside()
        sent = [client.publish("shops/1/asks/8", text, qos=1) for _ in range(count)]
        sent[-1].wait_for_publish(LONGEST)
        gone(client)

    def insider_asks(self):
        self.flood("8,1,S,8,8", 1)
        self.scene.wanted[8] = "8,1,S,8,8,DONE,8"
        self.scene.until(lambda: any(line.startswith("TILL 8,1,") for line in self.scene.shown()), "till 8's request")

    def attacks(self):
        scene, publish, silent = self.scene, self.publish, self.silent
        ask, replies = "shops/1/asks", "shops/1/replies"
        forged = f"{VICTIM},1,DONE,999"
        yield "no account", lambda: self.shut_out(user=None)
        yield "a wrong password", lambda: self.shut_out(password="wrong")
        yield "an account that there isn't", lambda: self.shut_out(user="guest", password="guest")
        yield "no TLS", lambda: self.shut_out(secure=False)
        yield "a forged reply", lambda: scene.forged(
            VICTIM, "S,9,9", "DONE,9", lambda: publish(f"{replies}/{VICTIM}", forged)
        )
        yield "a forged reply of another shop's bridge", lambda: scene.forged(
            12, "S,12,12", "DONE,12", lambda: publish(f"{replies}/12", "12,1,DONE,999", FOREIGN)
        )
        yield "a reply with an LF, with all rights", lambda: scene.forged(
            11, "S,11,5", "DONE,5", lambda: publish(f"{replies}/11", "11,1,DONE,1\n= 999999999,DONE,1", brokers.TRIAL)
        )
        yield "a retained reply", self.retained
        yield "a request by another till's topic", lambda: publish(f"{ask}/{OTHER}", f"{OTHER},2,S,1,0")
        yield "a request of another till by one's own topic", lambda: publish(f"{ask}/8", f"{OTHER},2,S,1,0")
        yield "a request by no till's topic", lambda: publish(ask, f"{OTHER},2,S,1,0", brokers.TRIAL)
        yield "a request in another shop", lambda: publish("shops/2/asks/1", "1,1,S,1,0")
        yield "another shop's bridge asks", lambda: publish(f"{ask}/{OTHER}", f"{OTHER},2,S,1,0", FOREIGN)
        yield "all topics", lambda: silent(INSIDER, "#", "$SYS/#")
        yield "all replies", lambda: silent(INSIDER, f"{replies}/+", f"{replies}/{HONEST}")
        yield "all asks", lambda: silent(INSIDER, f"{ask}/+", f"$share/thief/{ask}/+")
        yield "all tills' numbers", lambda: silent(INSIDER, "shops/1/marks/+", "shops/1/tills/+", f"shops/1/marks/{HONEST}")
        yield "another till's number, said to be another device's", self.marked
        yield "all asks, for another shop's bridge", lambda: silent(FOREIGN, f"{ask}/+", "shops/#")
        yield "others' identifiers", self.names
        yield "the bridge's session", self.session
        yield "a bridge that is said to be away", lambda: (
            publish("shops/1/bridge", "away", retain=True),
            self.serving(),
        )
        yield "a flood of no requests", lambda: scene.not_kept(lambda: self.flood("x" * 64, FLOOD))
        yield "a request of till 8", self.insider_asks
        yield "a flood of one request", lambda: scene.not_kept(lambda: self.flood("8,1,S,8,8", REPEATS))
        yield "a message of 10 MB", self.large

    def marked(self):
        """A till, which knows marks, asks as if nobody had said anything."""
        self.publish("shops/1/marks/6", f"{'0' * 16} 1:{'0' * 16}", retain=True)
        self.publish("shops/1/tills/6", "- 5,S,1,1,DONE,1", retain=True)
        self.scene.heard(self.scene.victim(6, ["S,13,6"]), 6, "1 S,13,6 DONE,6")

    def retained(self):
        self.publish(f"shops/1/replies/{OTHER}", f"{OTHER},1,DONE,4", retain=True)
        self.publish(f"shops/1/replies/{OTHER}", f"{OTHER},1,DONE,4", brokers.TRIAL, retain=True)
        self.scene.heard(self.scene.victim(OTHER, ["S,10,6"]), OTHER, "1 S,10,6 DONE,6")
        self.publish(f"shops/1/replies/{OTHER}", "", brokers.TRIAL, retain=True)

    def serving(self):
        client, heard = self.inside(brokers.TRIAL)
        client.subscribe("shops/1/bridge", qos=1)
        time.sleep(SILENT)
        gone(client)
        want([text for _, text in heard] == [b"serving"], f"the bridge is said to be {heard}")

    def large(self):
        client, _ = self.inside()
        client.publish("shops/1/asks/8", "7" * 10_000_000, qos=1)
        time.sleep(SILENT)
        gone(client)


def gone(client):
    client.disconnect()
    client.loop_stop()
