// What carries a page's messages: MQTT over websockets, by Debian's node-mqtt (`make_mqtt.sh` makes mqtt.js of it).
/* global mqtt */

const DENIED = [4, 5], PAUSE = 1000;

/** The broker's places and the shop of a page: what config.json beside this file says, or the web server's own `/mqtt`, or port
 *  8884 of its machine. (Firefox doesn't reach mosquitto's port itself: it speaks HTTP/2 there, and mosquitto doesn't.) */
export async function configured() {
  const found = await fetch(new URL("config.json", import.meta.url)).then((answer) => (answer.ok ? answer.json() : {})).catch(() => ({}));
  const brokers = found.broker ? [found.broker] : [`wss://${location.host}/mqtt`, `wss://${location.hostname}:8884`];
  return { brokers, shop: found.shop ?? "1" };
}

/** A connection with an account to one of a broker's places, which connects again by itself, unless the account is denied: at the
 *  next place, if it never stood at this one. `heard(topic, text, retained)`
 *  gets each message; `changed()` is called whenever what `trouble` returns may have changed, `connected()` before. */
export class Link {
  constructor(brokers, user, password, topics, heard, changed, connected = () => {}) {
    Object.assign(this, { brokers: [...brokers], user, password, topics, heard, changed, connected, isDenied: false, client: null, more: null });
    this.connect();
  }

  /** Each connection has a client of its own: what was on its way over one never goes out over the next. */
  connect() {
    const client = mqtt.connect(this.brokers[0], {
      clientId: this.user, username: this.user, password: this.password, clean: true, keepalive: 10, reconnectPeriod: 0,
      connectTimeout: 5000, resubscribe: false, queueQoSZero: false,
    });
    this.client = client;
    client.on("connect", () => {
      if (client !== this.client) return;
      // this place is the broker's
      this.brokers.length = 1;
      this.more = null;
      this.connected();
      client.subscribe(this.topics, { qos: 1 });
      this.changed();
    });
    client.on("error", (fault) => { this.isDenied ||= DENIED.includes(fault.code); });
    client.on("close", () => this.lost(client));
    client.on("message", (topic, bytes, packet) => {
      if (client === this.client) this.heard(topic, new TextDecoder("ascii").decode(bytes), packet.retain);
    });
  }

  lost(client) {
    if (client !== this.client) return;
    this.end();
    this.brokers.push(this.brokers.shift());
    if (!this.isDenied) this.timer = setTimeout(() => this.connect(), PAUSE);
    this.changed();
  }

  get isConnected() {
    return this.client?.connected === true;
  }

  /** Listens to one more topic, in the place of the last such; `done` is called when the broker knows it. */
  watch(topic, done) {
    if (!this.isConnected) return;
    if (this.more && this.more !== topic) this.client.unsubscribe(this.more);
    this.more = topic;
    this.client.subscribe(topic, { qos: 1 }, done);
  }

  /** Sends a message if there is a connection; who sends repeats it until its answer is heard. */
  send(topic, text, retain = false) {
    if (this.isConnected) this.client.publish(topic, text, { qos: 1, retain });
  }

  /** Why nothing comes, or null. */
  trouble() {
    if (this.isDenied) return "The number or the password is wrong.";
    if (this.isConnected) return null;
    return navigator.onLine === false ? "This device is offline." : "No connection to the shop.";
  }

  end() {
    clearTimeout(this.timer);
    const client = this.client;
    this.client = null;
    client?.end(true);
  }
}
