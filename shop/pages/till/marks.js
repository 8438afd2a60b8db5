// Which device has a till's number. Several devices may have a till's account, but the broker lets only one be connected.
// Each device has a random mark. The broker keeps for each till, retained on `shops/SHOP/marks/TILL`, which device is signed
// in, and which devices had the last two numbers: `MARK NUMBER:MARK NUMBER:MARK`. A device takes a number there before it
// asks with it. So the next device sees each number that may have been asked with, also while the shop is away.

const MARK = "[0-9a-f]{16}", TAKEN = `([1-9][0-9]{0,8}):(${MARK})`;
const MARKS = new RegExp(`^${MARK}(?: ${TAKEN}){0,2}$`);

/** The mark of a new device. */
export function newMark() {
  return [...crypto.getRandomValues(new Uint8Array(8))].map((byte) => byte.toString(16).padStart(2, "0")).join("");
}

/** What a message says: {at, taken}, the device that is signed in, or null, and a map from number to device. */
export function marksOf(text) {
  if (!MARKS.test(text)) return { at: null, taken: new Map() };
  const [at, ...pairs] = text.split(" ");
  return { at, taken: new Map(pairs.map((pair) => pair.split(":")).map(([number, mark]) => [Number(number), mark])) };
}

/** The message of a device that is signed in. */
export function marksText(mark, taken) {
  return [mark, ...[...taken].map(([number, device]) => `${number}:${device}`)].join(" ");
}

/** The numbers when this device takes one: that before stays whose it is. If later ones are taken, this one was taken before
 *  them, and nothing changes: theirs mustn't be forgotten. */
export function take(taken, number, mark) {
  if (lastUsed(0, taken) > number) return taken;
  const before = [...taken].filter(([other]) => other === number - 1);
  return new Map([...before, [number, mark]]);
}

/** The number of a till's last request at the shop, as the bridge shows it: `TIME NUMBER,..`; 0 if it shows none. */
export function numberOf(text) {
  return Number(/^\S+ ([1-9][0-9]{0,8}),/.exec(text)?.[1] ?? 0);
}

/** The last number that the shop has, or that a device has taken. */
export function lastUsed(shop, taken) {
  return Math.max(shop, ...taken.keys());
}

/** Whether a device may go on with its book: the book's next number is free, or its open wish has it. `book.isSent` says
 *  that this device took the number; a broker that died may have forgotten that. */
export function fits(book, shop, taken, mark) {
  const next = book.last + 1;
  if (lastUsed(shop, taken) < next) return true;
  return book.open !== null && (taken.has(next) ? taken.get(next) === mark : book.isSent === true);
}
