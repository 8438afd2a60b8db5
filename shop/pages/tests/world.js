// A world for trials of `Session` without browser and net: a clock, a broker, a bridge with its shop, and devices whose nets,
// pages and lives end at drawn moments. All tills sell the same, so that a request that is taken for another one's repeat isn't
// hidden by its words.

import * as queue from "../till/queue.js";
import { Session } from "../till/session.js";

export const TILL = 7, WISH = "I,1,1", STOCK = 1_000_000;

/** Numbers drawn by a seed (mulberry32). */
export function drawer(seed) {
  let state = seed >>> 0;
  return () => {
    state = (state + 0x6d2b79f5) >>> 0;
    let mixed = Math.imul(state ^ (state >>> 15), state | 1);
    mixed ^= mixed + Math.imul(mixed ^ (mixed >>> 7), mixed | 61);
    return ((mixed ^ (mixed >>> 14)) >>> 0) / 4294967296;
  };
}

/** A clock that goes on only as far as work is due. */
export class Clock {
  constructor() {
    Object.assign(this, { time: 0, due: [], count: 0 });
  }

  now() {
    return this.time;
  }

  set(work, after) {
    const one = { at: this.time + after, order: this.count++, work };
    this.due.push(one);
    return one;
  }

  clear(one) {
    this.due = this.due.filter((other) => other !== one);
  }

  async until(end) {
    for (;;) {
      // what promises make of it
      await new Promise(setImmediate);
      this.due.sort((a, b) => a.at - b.at || a.order - b.order);
      const [first] = this.due;
      if (!first || first.at > end) break;
      this.due.shift();
      this.time = Math.max(this.time, first.at);
      first.work();
    }
    this.time = end;
  }
}

/** A till's requests at the shop, after docs/MESSAGES.md: each number once, the last two again with the same answer. */
export class Shop {
  constructor() {
    this.requests = [];
  }

  reply(text) {
    const [till, number] = text.split(",").map(Number), wish = text.split(",").slice(2).join(","), last = this.requests.length;
    const word = () => {
      if (number > last + 1) return "AHEAD";
      if (number <= last - 2) return "STALE";
      if (number === last + 1) this.requests.push(wish);
      return this.requests[number - 1] === wish ? `DONE,${STOCK - number}` : "CLASH";
    };
    return `${till},${number},${word()}`;
  }
}

/** A broker that keeps what is retained and what waits for the bridge, and has one connection for a till's account. */
export class Broker {
  constructor(clock, draw, shop) {
    Object.assign(this, { clock, draw, shop, retained: new Map(), asks: [], client: null, isServing: false, isUp: true });
    this.publish("bridge", "away", true);
    this.serve(true);
  }

  after(work) {
    this.clock.set(work, 1 + 20 * this.draw());
  }

  publish(topic, text, isRetained) {
    if (isRetained) this.retained.set(topic, text);
    this.client?.deliver(topic, text, false);
  }

  serve(isServing) {
    this.isServing = isServing;
    if (isServing) this.shows();
    this.publish("top", "9999,1", true);
    this.publish("bridge", isServing ? "serving" : "away", true);
    this.work();
  }

  shows() {
    const last = this.shop.requests.length;
    if (last > 0) this.publish(`tills/${TILL}`, `- ${last},${this.shop.requests[last - 1]},DONE,1`, true);
  }

  asked(text) {
    this.asks.push(text);
    this.after(() => this.work());
  }

  work() {
    while (this.isServing && this.isUp && this.asks.length > 0) {
      this.publish(`replies/${TILL}`, this.shop.reply(this.asks.shift()), false);
      this.shows();
    }
  }

  /** The broker dies, and comes back with what was on its disk: what came in the last second may be lost, marks too. */
  die() {
    this.client?.close();
    if (this.draw() < 0.5) this.retained.set(`marks/${TILL}`, this.before ?? "");
  }

  connect(client) {
    this.client?.close();
    this.client = client;
  }
}

/** A connection of a device, in the form that `Session` wants. */
class Link {
  constructor(device, topics, heard, changed, connected) {
    Object.assign(this, { device, topics, heard, changed, connected, isDenied: false, isOpen: false, isEnded: false, lane: 0 });
    this.later(() => this.open());
  }

  get world() {
    return this.device.world;
  }

  /** In order, with drawn delays. */
  later(work) {
    const { clock, draw } = this.world, at = Math.max(this.lane, clock.now() + 1 + 15 * draw());
    this.lane = at;
    clock.set(work, at - clock.now());
  }

  open() {
    if (this.isEnded) return;
    if (!this.device.isOnline) return this.world.clock.set(() => this.later(() => this.open()), 1000);
    this.isOpen = true;
    this.world.broker.connect(this);
    this.connected();
    for (const topic of this.topics) {
      const name = topic.replace("shops/1/", ""), text = this.world.broker.retained.get(name);
      if (text) this.deliver(name, text, true);
    }
    this.changed();
  }

  get isConnected() {
    return this.isOpen && !this.isEnded;
  }

  deliver(topic, text, isRetained) {
    const life = this.life ?? 0;
    this.later(() => {
      if (this.isConnected && (this.life ?? 0) === life && this.topics.includes(`shops/1/${topic}`)) this.heard(`shops/1/${topic}`, text, isRetained);
    });
  }

  send(topic, text, isRetained = false) {
    const { broker } = this.world, life = this.life ?? 0, name = topic.replace("shops/1/", "");
    if (!this.isConnected) return;
    this.later(() => {
      if (broker.client !== this || (this.life ?? 0) !== life) return;
      if (name.startsWith("marks/")) broker.before = broker.retained.get(name);
      if (name.startsWith("asks/")) broker.asked(text);
      else broker.publish(name, text, isRetained);
    });
  }

  watch() {}

  /** The broker or the net ends it; it connects again by itself. */
  close() {
    if (!this.isOpen) return;
    this.isOpen = false;
    this.life = (this.life ?? 0) + 1;
    if (this.world.broker.client === this) this.world.broker.client = null;
    this.changed();
    this.world.clock.set(() => this.later(() => this.open()), 1000);
  }

  end() {
    const wasOpen = this.isOpen;
    this.isEnded = true;
    this.isOpen = false;
    if (wasOpen && this.world.broker.client === this) this.world.broker.client = null;
  }
}

/** A device with its book on its disk, whose page may be loaded anew at any moment. */
export class Device {
  constructor(world, name) {
    Object.assign(this, { world, mark: name.repeat(16), isOnline: true, disk: queue.EMPTY, answers: [], life: 0, session: null });
    Object.assign(this, { entered: 0, dropped: 0, isOpen: false, isLost: false });
  }

  open() {
    this.close();
    const life = ++this.life, { clock, draw } = this.world;
    this.isOpen = true;
    const keep = (before, book, entry) => new Promise((fulfil, fail) => {
      clock.set(() => {
        // a page that is gone may still have brought it to the disk, or not
        if (this.life !== life && draw() < 0.5) return;
        if (!queue.isSame(this.disk, before)) return fail(new Error("another book"));
        this.entered += queue.waiting(book).length - queue.waiting(before).length > 0 && !entry && book.last === before.last ? 1 : 0;
        if (book.last !== before.last && !entry) this.droppedBetween(before, book);
        this.disk = book;
        if (entry) this.answers.push(entry);
        fulfil();
      }, 10 * draw());
    });
    const screen = { changed() {}, stopped() {}, answered() {}, connected() {} };
    const connect = (...parts) => new Link(this, ...parts);
    this.session = new Session({ shop: "1", till: TILL, mark: this.mark, book: this.disk, keep, connect, screen, clock });
    this.session.connect();
  }

  /** Counts what a person let go: each is one that the shop may have. */
  droppedBetween(before, book) {
    const doubtful = book.unseen.length - before.unseen.length;
    this.dropped += queue.waiting(before).length - queue.waiting(book).length - doubtful;
  }

  get doubtful() {
    return this.disk.unseen.filter((one) => one.answer === null).length;
  }

  close() {
    this.life += 1;
    this.session?.end();
    // the session of a page that is gone does nothing any more
    if (this.session) Object.assign(this.session, { halt: { kind: "store" }, link: null });
    this.session = null;
    this.isOpen = false;
  }

  net(isOnline) {
    this.isOnline = isOnline;
    if (!isOnline) this.session?.link?.close();
  }

  enter() {
    if (this.session && (this.session.halt === null)) this.session.enter(WISH);
  }

  /** A person sees that it has stopped, and says how to go on. */
  async person(isKept) {
    const { session } = this;
    if (session?.halt && ["other", "used", "refused"].includes(session.halt.kind)) await session.goOn(isKept, this.world.shop.requests.length);
  }
}

export class World {
  constructor(seed) {
    this.draw = drawer(seed);
    this.clock = new Clock();
    this.shop = new Shop();
    this.broker = new Broker(this.clock, this.draw, this.shop);
    this.devices = ["a", "b", "c"].map((name) => new Device(this, name));
  }

  pick(list) {
    return list[Math.floor(this.draw() * list.length)];
  }

  /** One thing that happens, and some time. */
  async happen() {
    const alive = this.devices.filter((one) => !one.isLost), device = this.pick(alive), { broker } = this;
    const acts = [
      [12, () => device.isOpen && device.enter()],
      [2, () => device.net(false)],
      [4, () => device.net(true)],
      [2, () => device.open()],
      [1, () => device.close()],
      [6, () => device.person(this.draw() < 0.7)],
      [2, () => broker.serve(!broker.isServing)],
      [1, () => broker.die()],
    ];
    let at = this.draw() * acts.reduce((sum, [weight]) => sum + weight, 0);
    const [, act] = acts.find(([weight]) => (at -= weight) < 0);
    // not waited for: the clock has to go on
    Promise.resolve(act()).catch(() => {});
    await this.clock.until(this.clock.now() + 400 * this.draw() ** 2);
  }

  /** Everything is there again; each device that lives comes in by turns, until nothing waits. */
  async end() {
    this.broker.serve(true);
    for (const device of this.devices) device.close();
    await this.clock.until(this.clock.now() + 30_000);
    for (const device of this.devices.filter((one) => !one.isLost)) {
      device.isOnline = true;
      device.open();
      for (let turn = 0; turn < 60; turn++) {
        await this.clock.until(this.clock.now() + 2000);
        if (device.session.halt) device.person(true);
        else if (device.session.holds && queue.waiting(device.session.book).length === 0) break;
      }
      device.close();
    }
  }
}
