// The page of a till: signs in, keeps the requests that wait, and shows each answer once. What a till does is in session.js.

import { Form } from "./form.js";
import { fetched, nameIn } from "./goods.js";
import { configured, Link } from "./link.js";
import * as queue from "./queue.js";
import * as rules from "./rules.js";
import { Session } from "./session.js";
import { accountOf, codeIn } from "./sign.js";
import { Books, Changed, hold } from "./store.js";

// answers that are shown; milliseconds after a tap within which another one on the empty form is the same tap, and for which a
// page waits for the shop's count of an item
const SHOWN = 50, SAME_TAP = 1500, PATIENCE = 1500;
const at = (id) => document.getElementById(id);
const show = (id, isShown) => { at(id).hidden = !isShown; };
const clock = { now: () => Date.now(), set: (work, time) => setTimeout(work, time), clear: (timer) => clearTimeout(timer) };

/** An element with text, which is never markup. */
function made(kind, text, type = "") {
  const one = document.createElement(kind);
  one.textContent = text;
  one.className = type;
  return one;
}

/** Says how things stand, at the top of the page. */
function state(text, kind) {
  if (at("state").textContent !== text) at("state").textContent = text;
  at("state").dataset.state = kind;
}

/** Stops the till: a person has to look. */
function stop(head, text) {
  at("stop-head").textContent = head;
  at("stop-text").textContent = text;
  show("stop", true);
  ["sign", "by-code", "again", "stop-waits", "work", "waits"].forEach((id) => show(id, false));
  at("sure").close();
  state("Stopped", "bad");
}

/** Asks a question; whether the answer is yes. Whoever closes it otherwise, or presses the button that has the focus, says no. */
function isSure(head, text, yes, no) {
  for (const [id, words] of Object.entries({ "sure-head": head, "sure-text": text, yes, no })) at(id).textContent = words;
  at("sure").returnValue = "";
  at("sure").showModal();
  at("no").focus();
  return new Promise((fulfil) => {
    at("sure").addEventListener("close", () => fulfil(at("sure").returnValue === "yes"), { once: true });
  });
}

const requests = (count) => (count === 1 ? "1 request" : `${count} requests`);

class Page {
  constructor(books, mark, config, goods) {
    Object.assign(this, { books, mark, config, name: nameIn(goods), held: new Set(), session: null, tapped: -Infinity });
    this.form = new Form(goods, () => this.look());
    at("work").addEventListener("submit", (event) => { event.preventDefault(); this.tap(); });
    at("again").addEventListener("submit", (event) => { event.preventDefault(); this.goOn(event.submitter?.id !== "drop"); });
    at("leave").addEventListener("click", () => this.leave());
    new IntersectionObserver(([one]) => { at("unseen-way").dataset.near = String(one.isIntersecting); }).observe(at("unseen-head"));
    at("unseen-way").addEventListener("click", () => at("unseen-head").focus());
    for (const id of ["yes", "no"]) at(id).addEventListener("click", () => at("sure").close(id));
    addEventListener("online", () => this.changed());
    addEventListener("offline", () => this.changed());
    // a page that comes back from the browser's cache is an old one
    addEventListener("pageshow", (event) => { if (event.persisted) location.reload(); });
  }

  /** Takes the till, unless another page of this browser has it, and goes on where its book is. An account that is new is
   *  kept, if `stays`, when the broker has taken it; until then the form stays. */
  async start(sign, isNew = false, stays = false) {
    const { till } = sign, { shop, brokers } = this.config, place = `${shop}/${till}`;
    this.session?.end();
    this.session = null;
    at("title").textContent = document.title = `Till ${till}`;
    if (!this.held.has(place) && !(await hold(place)))
      return stop("This till is open in another tab", "Use that tab, or close it and load this page again.");
    this.held.add(place);
    const book = await this.books.book(place), answers = await this.books.answers(place, SHOWN);
    at("answers").replaceChildren();
    for (const answer of answers) this.list(answer);
    this.sign = isNew ? { kept: stays ? sign : null } : null;
    const account = `till-${shop}-${till}`, { mark } = this, keep = (...books) => this.books.keep(place, ...books);
    const connect = (...parts) => new Link(brokers, account, sign.password, ...parts);
    this.session = new Session({ shop, till, mark, book, keep, connect, screen: this, clock });
    if (!isNew) this.work();
    this.session.connect();
  }

  /** Shows what a till needs, in the place of the form to sign in. */
  work() {
    ["sign", "by-code"].forEach((id) => show(id, false));
    ["leave", "work", "done"].forEach((id) => show(id, true));
  }

  connected() {
    if (!this.sign) return;
    this.books.keepSign(this.sign.kept);
    this.sign = null;
    this.work();
  }

  /** The broker doesn't take this account: it is forgotten, and the form says so. */
  denied() {
    at("sign-fault").textContent = this.session.link.trouble();
    at("till").value = this.session.till;
    this.session.end();
    this.session = null;
    this.books.keepSign(null);
    ["leave", "work", "done"].forEach((id) => show(id, false));
    this.ask();
    show("sign-fault", true);
    at("password").value = "";
    at("password").focus();
  }

  /** Shows the forms to sign in. */
  ask() {
    ["sign", "by-code"].forEach((id) => show(id, true));
    state("Not signed in", "wait");
  }

  /** Signs in by a code, which the shop takes once. */
  async byCode(code) {
    at("code-fault").textContent = "";
    show("code-fault", false);
    try {
      const { till, password } = await accountOf(code, this.config.shop);
      at("code").value = "";
      await this.start({ till, password }, true, at("stay").checked);
    } catch (fault) {
      this.ask();
      at("code-fault").textContent = fault.message;
      show("code-fault", true);
      at("code").focus();
    }
  }

  /** Before a count is set the shop says how many are there. */
  look() {
    const [item] = this.form.items;
    if (this.form.kind === "S" && item !== null) this.session?.watch(item);
  }

  /** A tap on the big button: a filled form is a request, an empty one is none. */
  async tap() {
    const { form } = this;
    if (this.isAsking || !this.session || this.session.halt !== null) return;
    // the second tap of two finds the form empty
    if (form.isEmpty && performance.now() < this.tapped + SAME_TAP) return;
    const fault = form.fault();
    form.say(fault, !form.isEmpty);
    if (fault !== null) return;
    this.isAsking = form.kind === "S";
    try {
      if (this.isAsking && !(await this.isSet())) return;
    } finally {
      this.isAsking = false;
    }
    this.send(form.wish, form.kind);
  }

  /** Whether the count may be set: a person says so if it changes by more than half, or if nobody knows. */
  async isSet() {
    const [item] = this.form.items, before = await this.count(item), after = Number(this.form.quantity), { form } = this;
    const wish = form.fault() === null && form.kind === "S" ? form.wish : null;
    if (wish === null || this.session.halt !== null) return false;
    if (before === null || (before !== undefined && !rules.isMuch(before, after))) return true;
    const now = before === undefined ? "How many are there isn't known now." : `The shop has ${before} of ${this.name(item)}.`;
    return isSure(`Set ${this.name(item)} to ${after}?`, `${now} Set makes it ${after}. To sell ${after}, choose Sell.`, `Set to ${after}`, "Don't set");
  }

  /** How many of an item the shop has; undefined if it doesn't say that in time. */
  async count(item) {
    const { session } = this, end = performance.now() + PATIENCE;
    session.watch(item);
    while (session.isServed && session.count(item) === undefined && performance.now() < end)
      await new Promise((fulfil) => { setTimeout(fulfil, 20); });
    return session.count(item);
  }

  /** Hands the form's request to the till, and empties the form at once. */
  send(wish, kind) {
    const { book } = this.session;
    if (queue.added(book, wish) === null) {
      const isLast = book.last + queue.waiting(book).length >= rules.MOST;
      return this.form.say(isLast ? "This till has used all its numbers. Give it another number."
        : `${requests(queue.MOST_WAITING)} wait, and no more can be kept.`);
    }
    this.tapped = performance.now();
    this.form.clear(kind);
    this.session.enter(wish).then((isKept) => {
      if (!isKept) at("stop-text").append(` It wasn't kept: ${rules.wishWords(wish, this.name)}.`);
    });
  }

  /** Shows an answer, above the earlier ones. */
  answered(entry) {
    this.list(entry);
    at("news").textContent = rules.answerWords(entry.wish, entry.answer, this.name);
    this.changed();
  }

  list({ number, wish, answer, time }) {
    const one = made("li", ""), asked = `${rules.wishWords(wish, this.name)} · request ${number} · ${new Date(time).toLocaleTimeString()}`;
    at("answers").querySelector(`[data-number="${number}"]`)?.remove();
    one.dataset.number = number;
    one.dataset.answer = answer;
    one.append(made("span", rules.answerWords(wish, answer, this.name), rules.isDone(answer) ? "done" : "undone"), made("span", asked, "wish"));
    at("answers").prepend(one);
    show("none", false);
    while (at("answers").children.length > SHOWN) at("answers").lastChild.remove();
  }

  /** The till has stopped: says why, and offers to go on. */
  stopped() {
    const { halt, till } = this.session, [head, text] = this.why(halt, till);
    stop(head, text);
    if (halt.kind !== "store" && halt.kind !== "full" && halt.word !== "NO TILL") this.offer();
  }

  why(halt, till) {
    if (halt.kind === "full") return ["No number is left", "This till has used all its numbers. Give it another number."];
    if (halt.kind === "store") {
      const way = halt.fault instanceof Changed ? "Load this page again." : `${halt.fault}. Free some room on this device, and load the page again.`;
      return ["A request can't be kept", way];
    }
    const used = `was used on another device (request ${halt.number})`;
    const shop = halt.shop === null || halt.shop === halt.number ? "" : ` The shop's last request of it is ${halt.shop}.`;
    if (halt.kind === "other") return [`Another device is signed in as till ${till}`, halt.isUsed ? `The till ${used}.${shop}` : ""];
    if (halt.kind === "used") return [`Till ${till} ${used}`, shop];
    const whys = {
      "NO TILL": "The shop has no till of this number. Sign out, and in with another.",
      AHEAD: "The shop has fewer requests of this till than this device: an old backup may have been put back.",
    };
    const other = "Another device has asked with this till's number, or this device has lost its book.";
    return ["The shop refuses this till's number", `${whys[halt.word] ?? other} (${halt.word})`];
  }

  /** Offers to go on: after the number that is known, with the requests that wait, or without them. */
  offer() {
    const { halt, book } = this.session, undone = queue.undone(book, halt.word), doubtful = queue.doubtful(book, halt.word);
    const isDropped = halt.isUsed && doubtful !== null, count = halt.isUsed ? undone.length : 0, lines = [];
    if (halt.kind === "refused" && halt.number !== null) lines.push(`The shop's last request of this till is ${halt.number}.`);
    if (isDropped) lines.push(`The open request is dropped, which may or may not count: ${rules.wishWords(doubtful, this.name)}.`);
    if (count > 0) lines.push(`Never done, and kept on this device: ${undone.map((wish) => rules.wishWords(wish, this.name)).join("; ")}.`);
    at("stop-waits").replaceChildren(...[...lines, "Go on here?"].map((line) => made("p", line)));
    show("stop-waits", true);
    show("number-field", halt.isUsed && halt.number === null);
    at("number").required = halt.isUsed && halt.number === null;
    at("go").textContent = count > 0 ? `Go on here, and send ${count === 1 ? "it" : `the ${count}`}` : "Go on here";
    at("drop").textContent = `Go on here without ${count === 1 ? "it" : `the ${count}`}`;
    show("drop", count > 0);
    show("again", true);
  }

  async goOn(isKept) {
    const typed = at("number-field").hidden ? null : Number(at("number").value);
    const fault = await this.session.goOn(isKept, typed);
    at("number-fault").textContent = fault ?? "";
    show("number-fault", fault !== null);
    if (this.session.halt !== null) return;
    show("stop", false);
    show("work", true);
    this.changed();
  }

  async leave() {
    const count = this.session ? queue.waiting(this.session.book).length : 0;
    const words = `${requests(count)} of this till ${count === 1 ? "waits" : "wait"} on this device alone, and can be sent only from here.`;
    if (count > 0 && !(await isSure("Sign out?", words, "Sign out", "Stay"))) return;
    await this.books.keepSign(null);
    this.session?.end();
    location.reload();
  }

  /** Shows what waits: the requests that have no answer yet, in the order in which they are asked. */
  waits() {
    const waiting = queue.waiting(this.session.book), { serving } = this.session;
    show("waits", waiting.length > 0);
    const isHere = serving === true && this.session.holds;
    const text = waiting.length === 1 && isHere ? "Waiting for the answer. It is asked again by itself."
      : `Waiting (${waiting.length}). Kept on this device, and sent by itself in this order.`;
    if (waiting.length > 0 && at("waits-head").textContent !== text) at("waits-head").textContent = text;
    at("waits-list").replaceChildren(...waiting.map(({ number, wish }) => {
      const one = made("li", `${rules.wishWords(wish, this.name)} · request ${number}`);
      one.dataset.number = number;
      return one;
    }));
  }

  /** Shows what nobody has seen yet: answers that did nothing, and requests that were dropped. */
  unseen() {
    const { unseen } = this.session.book;
    show("unseen", unseen.length > 0);
    show("unseen-way", unseen.length > 0);
    if (unseen.map((one) => `${one.number} ${one.time}`).join() === at("unseen").dataset.shown) return;
    at("unseen").dataset.shown = unseen.map((one) => `${one.number} ${one.time}`).join();
    at("unseen-head").textContent = at("unseen-way").textContent = `Not done (${unseen.length})`;
    at("unseen-list").replaceChildren(...unseen.map((one) => this.unseenLine(one)));
  }

  unseenLine({ number, wish, answer, time }) {
    const line = made("li", ""), button = made("button", "Seen", "quiet"), words = rules.wishWords(wish, this.name);
    const said = answer === null ? "Dropped: it may or may not count. Look at these goods." : rules.answerWords(wish, answer, this.name);
    button.type = "button";
    button.setAttribute("aria-label", `Seen: ${words}`);
    button.addEventListener("click", () => this.session.see(number, time));
    const text = made("div", "");
    text.append(made("span", `${words}. ${said}`, "undone"), made("span", `request ${number} · ${new Date(time).toLocaleString()}`, "wish"));
    line.append(text, button);
    return line;
  }

  /** Says how things stand. */
  changed() {
    const { session } = this;
    if (!session?.link) return;
    if (session.link.isDenied) return this.denied();
    this.unseen();
    if (session.halt !== null) {
      if (session.halt.kind === "refused" && session.halt.word !== "NO TILL" && !at("again").hidden) this.offer();
      return;
    }
    this.waits();
    const trouble = session.link.trouble(), isSlow = session.book.open !== null && session.times > 2;
    if (trouble) state(trouble, "bad");
    else if (session.serving === null) state("Connected; the shop hasn't been there yet.", "wait");
    else if (!session.serving) state("Connected; the shop is closed.", "wait");
    else state(isSlow ? "Connected; no answer yet." : "Ready", isSlow ? "wait" : "on");
  }
}

/** Keeps the page's files for a time without net. */
function keepFiles() {
  if (!("serviceWorker" in navigator)) return;
  const policy = globalThis.trustedTypes?.createPolicy("worker", { createScriptURL: () => "worker.js" });
  navigator.serviceWorker.register(policy ? policy.createScriptURL("") : "worker.js").catch(() => {});
}

async function main() {
  const given = codeIn(location.hash);
  // a code is worth nothing once it is used, but it needn't be seen
  if (given.code) history.replaceState(null, "", location.pathname);
  keepFiles();
  if (!navigator.locks || !globalThis.indexedDB)
    return stop("This browser can't be a till", "It has no store or no locks. Open the page by https, in a current browser.");
  const [books, config, list] = await Promise.all([Books.open(), configured(), fetched()]);
  const page = new Page(books, await books.mark(), config, list), sign = await books.sign();
  at("sign").addEventListener("submit", (event) => {
    event.preventDefault();
    show("sign-fault", false);
    page.start({ till: Number(at("till").value), password: at("password").value.trim() }, true, at("stay").checked);
  });
  at("by-code").addEventListener("submit", (event) => {
    event.preventDefault();
    page.byCode(at("code").value);
  });
  // an address that a camera reads may come into a tab that is here already
  addEventListener("hashchange", () => { if (codeIn(location.hash).code) location.reload(); });
  if (given.code) return page.byCode(given.code);
  if (sign) return page.start(sign);
  page.ask();
  at("till").value = given.till ?? "";
  at(given.till ? "password" : "code").focus();
}

main().catch((fault) => stop("The page can't start", String(fault)));
