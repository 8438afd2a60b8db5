"""What tests/network/attacks.py tries over RabbitMQ."""

import os
import subprocess
import time

import brokers
from attack_names import FLOOD, FOREIGN, INSIDER, LONGEST, OTHER, REPEATS, SILENT, VICTIM
from served import want

from ledger_shop import account

# AMQP's code of what isn't allowed
DENIED = 403


class OverRabbit:
    """The attacks over RabbitMQ."""

    def __init__(self, scene):
        self.scene = scene

    def connection(self, user=INSIDER, password=None, secure=True):
        import pika
        from ledger_shop import till as over_rabbit

        place = account.Place(self.scene.own.places[0], "amqp")
        if not secure:
            place = account.Place(self.scene.own.places[0].replace("amqps", "amqp"), "amqp")
        pair = (user, password or self.scene.own.accounts.passwords[user])
        context = account.context_of(self.scene.own.ca)
        return pika.BlockingConnection(over_rabbit.parameters([place], pair, context))

    def shut_out(self, **more):
        from ledger_shop import till as over_rabbit

        try:
            self.connection(**more).close()
        except over_rabbit.FAULTS:
            return
        want(False, f"the broker takes {more}")

    def denied(self, act, user=INSIDER):
        """The broker refuses this with ACCESS_REFUSED."""
        from pika.exceptions import ChannelClosedByBroker

        connection = self.connection(user)
        channel = connection.channel()
        channel.confirm_delivery()
        try:
            act(channel)
            want(False, "the broker allows it")
        except ChannelClosedByBroker as closed:
            want(closed.reply_code == DENIED, f"refused with {closed}")
        finally:
            connection.close()

    def publish(self, exchange, key, text, user=INSIDER):
        """With confirmation, so that a refusal is seen."""
        connection = self.connection(user)
        channel = connection.channel()
        channel.confirm_delivery()
        channel.basic_publish(exchange, key, text)
        connection.close()

    def denied_publish(self, exchange, key, text, user=INSIDER):
        self.denied(lambda channel: channel.basic_publish(exchange, key, text), user)

    def binds(self, exchange, *keys):
        """No queue of one's own is bound with any of these keys."""
        for number, key in enumerate(keys):
            name = f"till.1.8.attack{number}"

            def bind(channel):
                channel.queue_declare(name, exclusive=True)
                channel.queue_bind(name, exchange, key)

            self.denied(bind)

    def first_consumer(self):
        """While the bridge is away nobody else becomes the queue's consumer."""
        self.scene.close_bridge()
        self.denied(lambda channel: channel.basic_consume("shop.1.bridge", lambda *_: None, auto_ack=True))
        self.scene.open_bridge()

    def fed_back(self):
        """Replies to till 8 that are sent to the bridge as asks: each is refused once, and comes to an end."""
        connection = self.connection()
        channel = connection.channel()
        channel.exchange_bind("shop.1.asks", "shop.1.replies", "8")
        connection.close()
        self.publish("shop.1.asks", "8", "8,1,S,8,8")
        self.scene.wanted[8] = "8,1,S,8,8,DONE,8"
        self.scene.until(lambda: any(line.startswith("TILL 8,1,") for line in self.scene.shown()), "till 8's request")
        time.sleep(SILENT)
        lines = self.scene.own.control("list_queues", "name", "messages").splitlines()
        want("shop.1.bridge\t0" in lines, f"messages go round: {lines}")

    def flood(self, text, count):
        connection = self.connection()
        channel = connection.channel()
        for _ in range(count):
            channel.basic_publish("shop.1.asks", "8", text)
        connection.close()

    def connections(self):
        """A till's account has so many connections and no more."""
        from ledger_shop import till as over_rabbit

        opened = []
        try:
            while len(opened) < 20:
                opened.append(self.connection())
        except over_rabbit.FAULTS:
            pass
        for one in opened:
            one.close()
        want(len(opened) < 20, "an account has 20 connections")

    def fixed_cookie(self):
        """Another user of the machine runs no command in the node with a guessed cookie, and can't read the real one."""
        cookie = self.scene.folder / ".erlang.cookie"
        want(cookie.stat().st_mode & 0o077 == 0, "others can read the cookie")
        want(len(set(cookie.read_text())) > 4, "the cookie can be guessed")
        node, port = self.scene.own.names[0], self.scene.own.mapper
        call = f'io:format("~p~n",[rpc:call(\'{node}\',os,cmd,["id"])]), halt().'
        words = ["-noshell", "-sname", "probe@localhost", "-dist_listen", "false", "-start_epmd", "false"]
        words += ["-erl_epmd_port", port, "-setcookie", "A" * 20, "-eval", call]
        here = {**os.environ, "HOME": "/nonexistent"}
        done = subprocess.run(["erl", *map(str, words)], capture_output=True, text=True, timeout=LONGEST, env=here)
        want("nodedown" in done.stdout and "uid=" not in done.stdout, f"a guessed cookie: {done.stdout}{done.stderr}")

    def large(self):
        from pika.exceptions import AMQPError

        try:
            self.publish("shop.1.asks", "8", "7" * 10_000_000)
            want(False, "a message of 10 MB is taken")
        except AMQPError:
            pass

    def attacks(self):
        scene, denied, publish = self.scene, self.denied, self.denied_publish
        asks, replies, queue = "shop.1.asks", "shop.1.replies", "shop.1.bridge"
        forged, stolen = f"{VICTIM},1,DONE,999", f"{OTHER},1,S,1,0"
        yield "the default user", lambda: self.shut_out(user="guest", password="guest")
        yield "a wrong password", lambda: self.shut_out(password="wrong")
        yield "no TLS", lambda: self.shut_out(secure=False)
        yield "a forged reply", lambda: scene.forged(
            VICTIM, "S,9,9", "DONE,9", lambda: publish(replies, str(VICTIM), forged)
        )
        yield "a forged reply of another shop's bridge", lambda: scene.forged(
            12, "S,12,12", "DONE,12", lambda: publish(replies, "12", "12,1,DONE,999", FOREIGN)
        )
        yield "a reply with an LF, with all rights", lambda: scene.forged(
            11,
            "S,11,5",
            "DONE,5",
            lambda: self.publish(replies, "11", "11,1,DONE,1\n= 999999999,DONE,1", brokers.TRIAL),
        )
        yield "a reply by the default exchange", lambda: publish("", f"till.1.{VICTIM}.x", forged)
        yield "a request by the default exchange", lambda: publish("", queue, stolen)
        yield "a request by another till's key", lambda: publish(asks, str(OTHER), stolen)
        yield "a request of another till by one's own key", lambda: self.publish(asks, "8", stolen)
        yield "a request by no till's key", lambda: self.publish(asks, "x", stolen, brokers.TRIAL)
        yield "a request in another shop", lambda: publish("shop.2.asks", "1", "1,1,S,1,0")
        yield "another shop's bridge asks", lambda: publish(asks, str(OTHER), stolen, FOREIGN)
        yield "others' replies", lambda: self.binds(replies, str(VICTIM), "#", "*", "refused")
        yield "others' asks", lambda: self.binds(asks, str(OTHER), "#", "*", "8")
        yield "the queue's messages", lambda: denied(lambda channel: channel.basic_get(queue))
        yield "the queue's place", self.first_consumer
        yield "another shop's bridge takes them", lambda: denied(lambda channel: channel.basic_get(queue), FOREIGN)
        yield "the queue is emptied", lambda: denied(lambda channel: channel.queue_purge(queue))
        yield "the queue is deleted", lambda: denied(lambda channel: channel.queue_delete(queue))
        yield "the queue is cut off", lambda: denied(lambda channel: channel.queue_unbind(queue, asks, "*"))
        yield "the queue gets other messages", lambda: denied(lambda channel: channel.queue_bind(queue, replies, "8"))
        yield "the replies' exchange is deleted", lambda: denied(lambda channel: channel.exchange_delete(replies))
        yield "the asks' exchange is deleted", lambda: denied(lambda channel: channel.exchange_delete(asks))
        yield "a queue of another's name", lambda: denied(lambda channel: channel.queue_declare(f"till.1.{VICTIM}.x"))
        yield "an exchange of one's own", lambda: denied(lambda channel: channel.exchange_declare("till.x", "fanout"))
        yield "asks that go elsewhere", lambda: denied(lambda channel: channel.exchange_bind(replies, asks, "#"))
        yield "replies that come back as asks", self.fed_back
        yield "a flood of no requests", lambda: scene.not_kept(lambda: self.flood("x" * 64, FLOOD))
        yield "a flood of one request", lambda: scene.not_kept(lambda: self.flood("8,1,S,8,8", REPEATS))
        yield "a message of 10 MB", self.large
        yield "more connections", self.connections
        yield "a guessed cookie", self.fixed_cookie
