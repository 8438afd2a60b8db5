// What tills and shop say to each other (docs/MESSAGES.md), and how people read it, without browser, store or broker.

export const MOST = 999_999_999, MOST_ITEM = 65535, MOST_TILL = 64;
// docs/MESSAGES.md: numbers without leading zeros
const COUNT = "[1-9][0-9]{0,8}", NUMBER = "(?:0|[1-9][0-9]{0,8})";
const WISH = new RegExp(`^(?:[RIS],(${COUNT}),${NUMBER}|M,(${COUNT}),${NUMBER},(${COUNT}))$`);
// the answers of docs/MESSAGES.md, by the wish's kind
const ANSWERS = {
  S: `DONE,${NUMBER}|72,DISK FULL|52,FILE TOO LARGE`,
  R: `DONE,${NUMBER}|OVER,${NUMBER}|NO CARD`,
  I: `DONE,${NUMBER}|SHORT,${NUMBER}|NO CARD`,
  M: `DONE,${NUMBER},${NUMBER}|OVER,${NUMBER}|SHORT,${NUMBER}|NO CARD`,
};
const ANSWER = Object.fromEntries(Object.entries(ANSWERS).map(([kind, form]) => [kind, new RegExp(`^(?:${form})$`)]));
// what no till hears that keeps these rules on a shop that it has always asked
export const REFUSALS = ["NO TILL", "CLASH", "STALE", "AHEAD"];

/** Whether this is kind, item and quantity of a request, and for a move the item to go to. */
export function isWish(text) {
  const found = WISH.exec(text);
  const items = found ? found.slice(1).filter(Boolean).map(Number) : [];
  return items.length > 0 && Math.max(...items) <= MOST_ITEM && new Set(items).size === items.length;
}

/** Whether this is an answer that the trade rule has for the wish. */
export function isAnswer(wish, text) {
  return ANSWER[wish[0]].test(text);
}

/** The wish of what a form says: kind `R`, `I`, `S`, `M`, or `L` to look, which receives 0. */
export function wishOf(kind, item, quantity, to) {
  if (kind === "L") return `R,${item},0`;
  return kind === "M" ? `M,${item},${quantity},${to}` : `${kind},${item},${quantity}`;
}

/** A wish in words. `name` gives the name of an item. */
export function wishWords(wish, name) {
  const [kind, item, quantity, to] = wish.split(",");
  if (kind === "R" && quantity === "0") return `Look at ${name(item)}`;
  if (kind === "M") return `Move ${quantity} from ${name(item)} to ${name(to)}`;
  return { S: `Set ${name(item)} to ${quantity}`, R: `Receive ${quantity} of ${name(item)}`,
    I: `Sell ${quantity} of ${name(item)}` }[kind];
}

/** An answer in words: what happened, or why nothing did. */
export function answerWords(wish, answer, name) {
  const [kind, item, , to] = wish.split(","), parts = answer.split(",");
  if (answer === "NO CARD") return `Nothing was done: ${kind === "M" ? "one of these goods" : name(item)} has no card. Set it first.`;
  if (parts[0] === "SHORT") return `Nothing was done: only ${parts[1]} of ${name(item)} are there.`;
  if (parts[0] === "OVER") return `Nothing was done: ${parts[1]} of ${name(kind === "M" ? to : item)} are there, and more than ${MOST} can't be.`;
  if (answer === "72,DISK FULL") return `Nothing was done: the disk has no room for item ${item}.`;
  if (answer === "52,FILE TOO LARGE") return `Nothing was done: an item's number can't be so large.`;
  const left = `${parts[1]} of ${name(item)}`;
  return kind === "M" ? `Done: ${left} and ${parts[2]} of ${name(to)} are there now.` : `Done: ${left} are there now.`;
}

/** Whether an answer did what was asked. */
export function isDone(answer) {
  return answer.startsWith("DONE,");
}

/** Whether a count that becomes another changes by more than half of what it was. */
export function isMuch(before, after) {
  return 2 * Math.abs(after - before) > before;
}

/** Seconds until a wish is asked again, after so many times: 2, 4, and then every 8. */
export function pause(times) {
  return Math.min(2 * 2 ** times, 8);
}
