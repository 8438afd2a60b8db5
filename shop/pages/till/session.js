// One device that is a till: it compares its book with the numbers at the broker, asks for one wish after the other, and stops
// if a person has to look. It knows neither page nor browser: those who make it hand in what keeps the book, what connects,
// what shows, and a clock.

import * as marks from "./marks.js";
import * as queue from "./queue.js";
import { pause } from "./rules.js";

// items in a message of the stock (shop/src/ledger_shop/board.py)
const PAGE = 40;
// milliseconds within which a broker hands over what it keeps
const GRACE = 400;

/** How many of an item the shop has, by what the bridge shows: a count, or null if the item has no card. */
export function countIn(text, item) {
  const line = text.split("\n").find((one) => one.startsWith(`${item},`));
  return line === undefined ? null : Number(line.split(",")[1]);
}

/** The device. `shop` and `till` say which till it is, `mark` which device, `book` where it goes on.
 *  - `keep(before, book, entry)` brings a book to the disk in the place of the one before, with an answer if there is one.
 *  - `connect(topics, heard, changed, connected)` makes a connection: {isConnected, isDenied, send(topic, text, isRetained),
 *    watch(topic), end()}.
 *  - `screen` has changed(), stopped(), answered(entry) and connected().
 *  - `clock` has now(), set(work, milliseconds) and clear(timer). */
export class Session {
  constructor({ shop, till, mark, book, keep, connect, screen, clock }) {
    Object.assign(this, { till, mark, book, store: keep, connector: connect, screen, clock });
    const topic = (kind) => `shops/${shop}/${kind}`;
    this.topics = Object.fromEntries(["tills", "marks", "replies", "asks"].map((kind) => [kind, topic(`${kind}/${till}`)]));
    Object.assign(this.topics, { bridge: topic("bridge"), top: topic("top"), stock: topic("stock") });
    // why it has stopped, or null: {kind: "other" | "used" | "refused" | "store", ..}
    this.halt = null;
    this.line = Promise.resolve();
    Object.assign(this, { wasHolder: false, wentOn: false, overruled: new Map(), watched: null, link: null });
    this.forget();
  }

  /** With each connection the numbers at the broker are learnt anew. */
  forget() {
    this.clock.clear(this.timer);
    Object.assign(this, { serving: null, isKnown: false, isHolder: false, shop: 0, hasScreen: false, stock: null });
    Object.assign(this, { marked: marks.marksOf(""), times: 0, asked: null, timer: undefined });
  }

  connect() {
    this.forget();
    const { tills, marks: marked, replies, top, bridge } = this.topics;
    // the bridge's word comes last: a broker hands over what it keeps in the order in which it is asked for
    this.link = this.connector([tills, marked, top, replies, bridge], (...message) => this.message(...message),
      () => this.screen.changed(), () => this.connected());
    this.screen.changed();
  }

  connected() {
    this.forget();
    this.screen.connected();
    if (this.watched !== null) this.follow();
  }

  /** Does a piece of work that may change the book, after those before it. */
  next(work) {
    const done = this.line.then(work);
    this.line = done.catch((fault) => this.stop({ kind: "store", fault }));
    return done;
  }

  message(topic, text, isRetained) {
    if (topic === this.topics.tills) this.showsShop(text);
    else if (topic === this.topics.top) this.hasScreen = text !== "";
    else if (topic === this.topics.marks) this.showsMarks(text, isRetained);
    else if (topic === this.topics.bridge) this.showsBridge(text);
    else if (topic.startsWith(`${this.topics.stock}/`)) this.showsStock(topic, text);
    // a reply is never retained: one that is may be old, or nobody's
    else if (topic === this.topics.replies && !isRetained) this.next(() => this.hear(text));
    this.next(() => this.settle());
    this.screen.changed();
  }

  showsShop(text) {
    this.shop = marks.numberOf(text);
    const { halt } = this;
    if (halt?.kind === "refused") this.learn();
  }

  showsMarks(text, isRetained) {
    const marked = marks.marksOf(text), isOwn = marked.at === this.mark;
    // one's own come back: then the broker has them
    if (isRetained || !isOwn) this.marked = marked;
    if (isOwn) this.wasHolder = true;
  }

  showsBridge(text) {
    this.serving = text === "serving";
    this.isKnown = true;
    // the bridge is back: no need to wait for the next time
    if (this.serving) this.asked = null;
  }

  showsStock(topic, text) {
    if (this.watched !== null && topic === this.stockTopic(this.watched)) this.stock = text;
  }

  stockTopic(item) {
    return `${this.topics.stock}/${Math.floor(item / PAGE)}`;
  }

  /** Has the shop say how many of an item it has. */
  watch(item) {
    if (this.watched !== null && this.stockTopic(this.watched) === this.stockTopic(item)) return;
    this.watched = item;
    this.stock = null;
    this.follow();
  }

  /** Follows the stock around the watched item. A broker hands over what it keeps at once: if nothing comes, no item there has
   *  a card. */
  follow() {
    const { watched } = this;
    this.link?.watch(this.stockTopic(watched), () => this.clock.set(() => {
      if (this.watched === watched && this.stock === null && this.isServed) this.showsStock(this.stockTopic(watched), "");
      this.screen.changed();
    }, GRACE));
  }

  /** How many of a watched item the shop has: a count, null if it has no card, undefined if nobody knows now. */
  count(item) {
    if (!this.isServed || this.watched === null || this.stockTopic(this.watched) !== this.stockTopic(item)) return undefined;
    return this.stock === null ? undefined : countIn(this.stock, item);
  }

  /** Whether the shop is there, and shows its stock and its numbers. */
  get isServed() {
    return this.link?.isConnected === true && this.serving === true && this.hasScreen;
  }

  /** Whether this connection is the till's, and its numbers are compared. */
  get holds() {
    return this.isHolder && this.link?.isConnected === true;
  }

  /** The numbers that devices took, without those that a person has overruled. */
  get taken() {
    return new Map([...this.marked.taken].filter(([number, mark]) => this.overruled.get(number) !== mark));
  }

  fits(book) {
    return marks.fits(book, this.shop, this.taken, this.mark);
  }

  /** Keeps a book, and then has it. A store that fails stops the till. Only work of `next` calls this. */
  async keep(book, entry = null) {
    try {
      await this.store(this.book, book, entry);
      this.book = book;
      return true;
    } catch (fault) {
      this.stop({ kind: "store", fault });
      return false;
    } finally {
      this.screen.changed();
    }
  }

  /** Adds a wish to those that wait: it is kept before it is sent. Whether it is kept. */
  enter(wish) {
    return this.next(async () => {
      const book = queue.added(this.book, wish);
      if (book === null) this.stop({ kind: "full" });
      const isKept = book !== null && (await this.keep(this.isFree(book) ? queue.sent(book) : book));
      await this.settle();
      return isKept;
    });
  }

  /** Whether the open wish of a book, which was never asked, can be asked at once. */
  isFree(book) {
    return this.holds && this.halt === null && book.open !== null && this.fits({ ...book, isSent: false });
  }

  /** Compares the numbers at the broker with the book's: goes on over this connection, or asks a person. */
  async settle() {
    while (this.halt === null && this.isKnown && this.link?.isConnected) {
      const isOther = this.marked.at !== null && this.marked.at !== this.mark && this.wasHolder;
      if (isOther || !this.fits(this.book)) return this.ask(isOther);
      if (this.book.open !== null && !this.book.isSent) {
        // a wish takes its number before it is asked
        if (!(await this.keep(queue.sent(this.book)))) return;
        continue;
      }
      if (!this.isHolder) {
        this.isHolder = true;
        this.mine(this.taken);
      }
      if (this.book.open !== null && this.asked !== this.book.last + 1) this.repeat();
      return;
    }
  }

  /** Says at the broker that this device is signed in, and who has the last numbers. */
  mine(taken) {
    this.marked = { at: this.mark, taken };
    this.overruled = new Map();
    this.link.send(this.topics.marks, marks.marksText(this.mark, taken), true);
  }

  /** Asks the open wish, whose number this device takes before, and again after 2, 4 and then every 8 seconds. */
  repeat() {
    this.clock.clear(this.timer);
    if (this.book.open === null || !this.book.isSent || this.halt !== null || !this.holds) return;
    const number = this.book.last + 1;
    if (this.asked !== number) Object.assign(this, { asked: number, times: 0 });
    const taken = marks.take(this.marked.taken, number, this.mark);
    if (taken.get(number) === this.mark && this.marked.taken.get(number) !== this.mark) this.mine(taken);
    this.link.send(this.topics.asks, queue.ask(this.till, this.book));
    this.timer = this.clock.set(() => this.repeat(), 1000 * pause(this.times));
    this.times += 1;
    this.screen.changed();
  }

  async hear(reply) {
    const found = this.halt !== null || !this.holds ? null : queue.hear(this.till, this.book, reply, this.clock.now());
    if (!found) return;
    if (found.refused) return this.refuse(found.refused);
    const { book, entry } = found;
    if (!(await this.keep(this.isFree(book) ? queue.sent(book) : book, entry))) return;
    this.clock.clear(this.timer);
    Object.assign(this, { wentOn: false, asked: null, times: 0 });
    this.screen.answered(entry);
  }

  stop(halt) {
    this.halt = halt;
    this.clock.clear(this.timer);
    this.screen.stopped();
  }

  /** Stops until a person says that this device goes on: another one has the till, or has used its numbers. */
  ask(isOther) {
    const isUsed = !this.fits(this.book), number = isUsed ? marks.lastUsed(this.shop, this.taken) : null;
    const shop = this.isServed ? this.shop : null;
    this.link.end();
    this.stop({ kind: isOther ? "other" : "used", isUsed, number, shop, word: null, taken: this.marked.taken });
  }

  /** The shop has refused the open wish. After a person has gone on, `AHEAD` says that the shop never had the numbers that
   *  a device before this one took: so this one goes on after the shop's. */
  async refuse(word) {
    const halt = { kind: "refused", isUsed: word !== "NO TILL", number: null, word, taken: this.marked.taken };
    this.halt = halt;
    this.learn();
    if (word !== "AHEAD" || !this.wentOn || halt.number === null) return this.stop(halt);
    await this.renumber(halt.number, true);
  }

  /** Takes the number that the shop shows, if it fits what the shop said. */
  learn() {
    if (this.hasScreen && this.isLikely(this.shop)) this.halt.number = this.shop;
  }

  /** Whether the shop can have this as its last number, after what it said to the open wish. */
  isLikely(number) {
    const asked = this.book.last + 1;
    return this.halt.word === "AHEAD" ? number + 1 < asked : number >= asked;
  }

  /** Goes on after a person's word: with the wishes that wait, or without. `typed` is the shop's last number, and counts only
   *  if nobody but a person can know it. What is wrong with that number, or null. */
  goOn(isKept = true, typed = null) {
    return this.next(async () => {
      const { halt } = this;
      if (halt === null || halt.kind === "store") return null;
      const number = halt.number ?? typed;
      if (!halt.isUsed) await this.begin();
      else if (halt.number === null && !this.isLikely(typed)) return "The shop has another last number of this till: it says so itself.";
      else if (!(await this.renumber(number, isKept))) return "A whole number up to 999999999.";
      return null;
    });
  }

  async renumber(number, isKept) {
    const { word, taken } = this.halt, book = queue.begunAgain(this.book, number, isKept, this.clock.now(), word);
    if (book === null || !(await this.keep(book))) return false;
    // what devices took and the shop never had is free again
    this.overruled = new Map([...taken].filter(([other]) => other > number));
    this.wentOn = true;
    await this.begin();
    return true;
  }

  /** Goes on over the connection that is there, or over a new one. */
  async begin() {
    Object.assign(this, { halt: null, asked: null });
    if (this.holds) {
      this.mine(this.taken);
      await this.settle();
    } else {
      this.wasHolder = false;
      this.link.end();
      this.connect();
    }
    this.screen.changed();
  }

  /** Keeps that a person has seen an entry. */
  see(number, time) {
    return this.next(() => this.keep(queue.seen(this.book, number, time)));
  }

  end() {
    this.clock.clear(this.timer);
    this.link?.end();
  }
}
