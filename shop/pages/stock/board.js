// The shop as the bridge publishes it (shop/src/ledger_shop/board.py), without browser or broker.

import { answerWords, isDone, wishWords } from "../till/rules.js";

export const PAGE = 40;
const COUNT = /^[1-9][0-9]{0,8}$/, NUMBER = /^(?:0|[1-9][0-9]{0,8})$/, TIME = /^(?:-|\d{4}-\d\d-\d\dT\d\d:\d\d:\d\d\.\d{3}Z)$/;
const SHORTEST = 5;

/** A line `TIME TILL,NUMBER,KIND,ITEM,QUANTITY[,TO],ANSWER`, or null. */
export function requestOf(line) {
  const space = line.indexOf(" "), time = line.slice(0, space), parts = line.slice(space + 1).split(",");
  const size = parts[2] === "M" ? 6 : 5;
  const isRight = space > 0 && TIME.test(time) && parts.length > size && "RISM".includes(parts[2])
    && [parts[0], parts[1], parts[3]].every((part) => COUNT.test(part)) && NUMBER.test(parts[4]);
  if (!isRight) return null;
  return { time: time === "-" ? null : time, till: Number(parts[0]), number: Number(parts[1]),
    wish: parts.slice(2, size).join(","), answer: parts.slice(size).join(",") };
}

export class Board {
  constructor(goods) {
    Object.assign(this, { goods, stock: new Map(), pages: new Map(), tills: new Map(), last: [], top: null, serving: null });
  }

  /** Takes a message by its topic below the shop's; returns which part of the screen has changed, or null. */
  take(topic, text) {
    const [kind, place] = topic.split("/");
    if (kind === "bridge") { this.serving = text === "serving"; return "state"; }
    if (kind === "top") { this.top = Number(text.split(",")[0]); return "state"; }
    if (kind === "last") { this.last = text.split("\n").map(requestOf).filter(Boolean); return "last"; }
    if (!NUMBER.test(place ?? "")) return null;
    if (kind === "tills") {
      const [time, rest] = text.split(" "), one = requestOf(`${time} ${place},${rest ?? ""}`);
      if (one) this.tills.set(Number(place), one);
      else this.tills.delete(Number(place));
      return "tills";
    }
    return kind === "stock" ? this.page(Number(place), text) : null;
  }

  /** Takes a page of the stock, in the place of what it said before. */
  page(place, text) {
    for (const item of this.pages.get(place) ?? []) this.stock.delete(item);
    const lines = text.split("\n").map((line) => line.split(",")).filter(([item, quantity]) => COUNT.test(item) && NUMBER.test(quantity ?? ""));
    const cards = lines.map((line) => line.map(Number)).filter(([item]) => Math.floor(item / PAGE) === place);
    for (const [item, quantity] of cards) this.stock.set(item, quantity);
    this.pages.set(place, cards.map(([item]) => item));
    return "stock";
  }

  /** The goods that have less than their least stock, those that want most first. */
  low() {
    const all = [...this.goods.values()].filter((one) => this.stock.has(one.item) && this.stock.get(one.item) < one.least);
    return all.sort((a, b) => this.stock.get(a.item) / a.least - this.stock.get(b.item) / b.least || a.item - b.item);
  }

  /** The cards whose item or name has what is typed, by item. */
  cards(typed, search) {
    const items = [...this.stock.keys()].sort((a, b) => a - b);
    if (!typed.trim()) return items;
    const found = new Set(search.find(typed, Infinity).map((one) => one.item));
    return items.filter((item) => found.has(item) || String(item) === typed.trim());
  }
}

/** A request and its answer in a line of words. */
export function words({ wish, answer }, name) {
  if (!isDone(answer)) return `${wishWords(wish, name)}. ${answerWords(wish, answer, name)}`;
  return `${wishWords(wish, name)}: ${answer.split(",").slice(1).join(" and ")} left`;
}

/** How long ago a time was, in words. A clock that went back counts as now. */
export function ago(time, now) {
  if (!time) return "before this journal";
  const seconds = Math.max(0, Math.round((now - Date.parse(time)) / 1000));
  if (seconds < SHORTEST) return "now";
  const [size, unit] = [[86400, "day"], [3600, "hour"], [60, "minute"], [1, "second"]].find(([size]) => seconds >= size);
  const count = Math.floor(seconds / size);
  return `${count} ${unit}${count === 1 ? "" : "s"} ago`;
}
