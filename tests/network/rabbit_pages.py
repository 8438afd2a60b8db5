"""A RabbitMQ that speaks MQTT (its plugins `rabbitmq_mqtt` and `rabbitmq_web_mqtt`), for trials of the pages over it: nginx hands the
pages' websockets to it. Its accounts may do everything at the exchange for MQTT: RabbitMQ has no rights by MQTT's topics in this
trial, and shop/deploy/rabbitmq.conf doesn't set such a broker up."""

import json

import brokers


class RabbitPages(brokers.Rabbit):
    def __init__(self, folder, shops=None):
        self.mqtt, self.pages = brokers.free_ports(2)
        super().__init__(folder, 1, shops=shops)
        self.places = [f"mqtts://{self.address}:{self.mqtt}"]
        (folder / "plugins").write_text("[rabbitmq_mqtt,rabbitmq_web_mqtt].\n")
        definitions = self.accounts.folder / "ledger.definitions.json"
        known = json.loads(definitions.read_text())
        every = {name: ".*" for name in ("configure", "write", "read")}
        known["permissions"] = [{"user": one["user"], "vhost": "/", **every} for one in known["permissions"]]
        known["topic_permissions"] = []
        for one in known["users"]:
            one["limits"] = {}
        definitions.write_text(json.dumps(known))
        path = folder / "rabbitmq0.conf"
        text = brokers.set_in(path.read_text(), " = ", max_message_size=1000)
        more = ["mqtt.allow_anonymous = false", "mqtt.listeners.tcp = none", f"mqtt.listeners.ssl.default = {self.address}:{self.mqtt}"]
        more += [f"web_mqtt.tcp.ip = {self.address}", f"web_mqtt.tcp.port = {self.pages}", "web_mqtt.ws_path = /ws"]
        path.write_text(text + "\n".join(more) + "\n")
        self.port, self.way = self.mqtt, f"http://{self.address}:{self.pages}/ws"

    def password(self, user):
        return self.accounts.passwords[user]

    def start(self):
        super().start()
        brokers.until(lambda: brokers.listens(self.mqtt) and brokers.listens(self.pages), 120, "RabbitMQ doesn't speak MQTT")

    kill = brokers.Rabbit.stop
