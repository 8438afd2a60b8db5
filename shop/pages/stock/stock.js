// The page of a shop's stock: what is low, the tills, the last answers, all cards, and an item's history.

import { fetched, nameIn, Search } from "../till/goods.js";
import { configured, Link } from "../till/link.js";
import { isDone } from "../till/rules.js";
import { ago, Board, words } from "./board.js";

const ROWS = 100, KEPT = "ledger-screen";
const PARTS = ["low-part", "tills-part", "last-part", "stock-part"];
const at = (id) => document.getElementById(id);
const show = (id, isShown) => { at(id).hidden = !isShown; };

/** An element with text, which is never markup. */
function made(kind, text, type) {
  const one = document.createElement(kind);
  one.textContent = text;
  if (type) one.className = type;
  return one;
}

function fill(id, elements, empty) {
  at(id).replaceChildren(...elements);
  if (empty) show(empty, elements.length === 0);
}

class Page {
  constructor(config, goods) {
    Object.assign(this, { config, goods, board: new Board(goods), search: new Search(goods), name: nameIn(goods) });
    Object.assign(this, { rows: ROWS, item: null, changed: new Set() });
    at("find").addEventListener("input", () => { this.rows = ROWS; this.due("stock"); });
    at("more").addEventListener("click", () => { this.rows += ROWS; this.due("stock"); });
    at("close").addEventListener("click", () => this.closed());
    at("leave").addEventListener("click", () => { localStorage.removeItem(KEPT); location.reload(); });
    setInterval(() => { this.due("tills"); this.due("last"); }, 15000);
  }

  /** Shows what a screen of this number may see. */
  start({ screen, password }) {
    const shop = `shops/${this.config.shop}/`;
    const topics = ["bridge", "stock/+", "tills/+", "last", "top", "history/+"].map((topic) => shop + topic);
    const heard = (topic, text) => this.message(topic.slice(shop.length), text);
    this.link = new Link(this.config.brokers, `screen-${this.config.shop}-${screen}`, password, topics, heard, () => this.due("state"));
    [...PARTS, "leave"].forEach((id) => show(id, true));
    this.due("state");
  }

  message(topic, text) {
    if (topic === `history/${this.item}`) this.history(text);
    else this.due(this.board.take(topic, text));
  }

  /** Has a part of the page drawn with the next frame: many messages come at once. */
  due(part) {
    if (!part) return;
    this.changed.add(part);
    if (this.isDue) return;
    this.isDue = true;
    // not a frame: a page that isn't seen has none
    setTimeout(() => this.draw(), 50);
  }

  draw() {
    this.isDue = false;
    const parts = this.changed, now = Date.now();
    this.changed = new Set();
    if (parts.has("state")) this.state();
    if (parts.has("stock")) this.stock();
    if (parts.has("tills"))
      fill("tills", [...this.board.tills.values()].sort((a, b) => a.till - b.till).map((one) => this.till(one, now)), "tills-none");
    if (parts.has("last")) fill("last", [...this.board.last].reverse().map((one) => this.line(one, now)), "last-none");
  }

  state() {
    const trouble = this.link.trouble(), { serving } = this.board;
    const [text, kind] = trouble ? [`${trouble} The figures may be old.`, "bad"]
      : serving ? ["Open", "on"] : ["The shop is closed. The figures may be old.", "wait"];
    if (at("state").textContent !== text) at("state").textContent = text;
    at("state").dataset.state = kind;
  }

  till(one, now) {
    const line = made("li", ""), text = made("span", `Till ${one.till}, request ${one.number}, ${ago(one.time, now)}`);
    line.dataset.till = one.till;
    line.dataset.number = one.number;
    line.append(text, made("span", words(one, this.name), isDone(one.answer) ? "soft" : "soft undone"));
    return line;
  }

  line(one, now) {
    const line = made("li", "");
    line.append(made("span", words(one, this.name), isDone(one.answer) ? "" : "undone"));
    line.append(made("span", `Till ${one.till}, request ${one.number}, ${ago(one.time, now)}`, "soft"));
    return line;
  }

  stock() {
    const { stock } = this.board, items = this.board.cards(at("find").value, this.search);
    fill("low", this.board.low().slice(0, ROWS).map((one) => {
      const line = made("li", this.name(one.item));
      line.append(made("strong", `${stock.get(one.item)} of ${one.least}`));
      return line;
    }), "low-none");
    fill("stock", items.slice(0, this.rows).map((item) => this.row(item)));
    const text = `${items.length} goods` + (items.length > this.rows ? `, the first ${this.rows} shown` : "");
    if (at("count").textContent !== text) at("count").textContent = text;
    show("more", items.length > this.rows);
  }

  row(item) {
    const row = document.createElement("tr"), one = this.goods.get(item), quantity = this.board.stock.get(item);
    const name = document.createElement("td"), button = made("button", one?.name ?? `item ${item}`);
    button.type = "button";
    button.setAttribute("aria-label", `History of ${this.name(item)}`);
    button.addEventListener("click", () => this.ask(item));
    name.append(button);
    if (one && quantity < one.least) row.className = "low";
    row.dataset.item = item;
    row.dataset.quantity = quantity;
    if (one?.unit) name.append(made("span", ` ${one.unit}`, "soft"));
    row.append(made("td", String(item)), name, made("td", String(quantity), "right"), made("td", one ? String(one.least) : "", "right"));
    return row;
  }

  /** Asks the bridge for an item's history. */
  ask(item) {
    this.item = item;
    at("history-head").textContent = `History of ${this.name(item)}`;
    fill("history", [], "history-none");
    show("history-part", true);
    at("history-head").focus();
    this.link.send(`shops/${this.config.shop}/history/asks`, String(item));
  }

  history(text) {
    const board = new Board(this.goods), now = Date.now();
    board.take("last", text);
    fill("history", [...board.last].reverse().map((one) => this.line(one, now)), "history-none");
  }

  closed() {
    const item = this.item;
    this.item = null;
    show("history-part", false);
    document.querySelector(`tr[data-item="${item}"] button`)?.focus();
  }
}

async function main() {
  const [config, list] = await Promise.all([configured(), fetched()]), page = new Page(config, list);
  const kept = localStorage.getItem(KEPT);
  if (kept) return page.start(JSON.parse(kept));
  at("state").textContent = "Not signed in";
  show("sign", true);
  at("password").focus();
  at("sign").addEventListener("submit", (event) => {
    event.preventDefault();
    const sign = { screen: Number(at("screen").value), password: at("password").value.trim() };
    if (at("stay").checked) localStorage.setItem(KEPT, JSON.stringify(sign));
    show("sign", false);
    page.start(sign);
  });
}

main();
