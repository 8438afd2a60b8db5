// The form of a till's page: what it says, what is wrong with it, and what it becomes when its request is kept.

import { Chooser } from "./chooser.js";
import { Search } from "./goods.js";
import { MOST, wishOf } from "./rules.js";

const WORDS = { I: "Sell", R: "Receive", S: "Set", M: "Move", L: "Look" };
const COUNT = /^(?:0|[1-9][0-9]{0,8})$/;
const at = (id) => document.getElementById(id);
const show = (id, isShown) => { at(id).hidden = !isShown; };

export class Form {
  /** A form that finds these goods. `changed()` is called when somebody has chosen something. */
  constructor(goods, changed) {
    this.changed = () => {};
    this.choosers = ["item", "to"].map((id) => new Chooser(at(id), at(`${id}-list`)));
    for (const chooser of this.choosers) chooser.search = new Search(goods);
    at("work").addEventListener("change", () => this.fit());
    at("work").addEventListener("input", () => this.say(null));
    at("less").addEventListener("click", () => this.count(-1));
    at("more").addEventListener("click", () => this.count(1));
    this.clear("I");
    this.changed = changed;
  }

  get kind() {
    return new FormData(at("work")).get("kind");
  }

  get items() {
    return this.choosers.map((chooser) => chooser.item());
  }

  get quantity() {
    return at("quantity").value.trim();
  }

  /** Whether no goods are named, so that there is nothing to ask. */
  get isEmpty() {
    return ["item", "to"].every((id) => at(id).value.trim() === "") && ["", "1"].includes(this.quantity);
  }

  get wish() {
    const [item, to] = this.items;
    return wishOf(this.kind, item, this.quantity, to);
  }

  /** What is wrong with the form, or null. */
  fault() {
    const [item, to] = this.items, { kind } = this;
    if (item === null) return "Which goods? Type a name or a number, and choose.";
    if (kind === "M" && to === null) return "To which goods? Type a name or a number, and choose.";
    if (kind === "M" && item === to) return "The goods to move to are the same.";
    if (kind !== "L" && !COUNT.test(this.quantity)) return "How many? A whole number up to 999999999, without a zero in front.";
    return null;
  }

  /** Says a word beside the button, or with null takes it away. */
  say(word, isFault = true) {
    at("fault").textContent = word ?? "";
    at("fault").className = isFault ? "fault" : "notice";
    show("fault", word !== null);
  }

  /** Empties the form for the next request: it sells, or looks if the last one did. */
  clear(kind = this.kind) {
    const wasTyped = at("work").contains(document.activeElement) && document.activeElement.matches("input[inputmode], input[role]");
    for (const id of ["item", "to"]) at(id).value = "";
    at("quantity").value = "1";
    at("work").elements.kind.value = kind === "L" ? "L" : "I";
    this.choosers.forEach((chooser) => chooser.close());
    // by the keyboard the next goods are typed at once
    if (wasTyped) at("item").focus();
    this.fit();
  }

  count(by) {
    const value = Number(this.quantity);
    if (Number.isInteger(value)) at("quantity").value = Math.min(Math.max(value + by, 0), MOST);
  }

  /** Fits the form to what is chosen. */
  fit() {
    this.say(null);
    const { kind } = this;
    show("to-field", kind === "M");
    show("quantity-field", kind !== "L");
    at("send").textContent = WORDS[kind];
    at("item-label").textContent = kind === "M" ? "From these goods" : "Goods";
    this.changed();
  }
}
