// A till's book, without browser, store or broker: it numbers wishes, keeps those that wait one after the other, repeats the
// first of them, and takes each answer once. The rules are those of `Till` in crates/request_cards/src/till.rt (`wish`, `ask`,
// `hear`), about which `both_ends` is proved; the queue hands that till one wish after the other.
//
// A book is {last, open, isSent, more, unseen}: the number of the last wish that was answered; the wish that has the next
// number, or null; whether this device took that number at the broker, so that the wish may have been asked; the wishes after
// it, none of which was ever asked; and what a person hasn't seen yet. The functions return a new book and leave the old one.

import { isAnswer, isDone, isWish, MOST, REFUSALS } from "./rules.js";

export const EMPTY = { last: 0, open: null, isSent: false, more: [], unseen: [] };
/** How many wishes a book keeps at most. */
export const MOST_WAITING = 1000;
// a shop that refuses a number with one of these has another request under it, or none: it never did this wish
const NEVER_DONE = ["AHEAD", "CLASH"];

/** The book of what a store has, or of nothing. One of an earlier release has no queue; if it doesn't say whether its open
 *  wish was asked, it may have been. */
export function bookOf(kept) {
  const book = { ...EMPTY, ...kept };
  return { ...book, isSent: book.open !== null && kept.isSent !== false };
}

/** Whether two books are the same. */
export function isSame(one, other) {
  const values = ({ last, open, isSent, more, unseen }) => JSON.stringify([last, open, isSent, more, unseen]);
  return values(bookOf(one)) === values(bookOf(other));
}

/** The wishes that wait, with their numbers: {number, wish}. */
export function waiting(book) {
  const wishes = book.open === null ? [] : [book.open, ...book.more];
  return wishes.map((wish, place) => ({ number: book.last + 1 + place, wish }));
}

/** The book with this wish after those that wait; null if it is no wish, no number is left, or too many wait. */
export function added(book, wish) {
  const count = waiting(book).length;
  if (!isWish(wish) || book.last + count >= MOST || count >= MOST_WAITING) return null;
  return book.open === null ? { ...book, open: wish, isSent: false } : { ...book, more: [...book.more, wish] };
}

/** The book once this device takes the number of the open wish. */
export function sent(book) {
  return { ...book, isSent: book.open !== null };
}

/** The message of the open wish, the same each time; null if none is open. */
export function ask(till, book) {
  return book.open === null ? null : `${till},${book.last + 1},${book.open}`;
}

/** What a reply at this time says to the open wish: {answer, entry, book} closes it, {refused} means that a person has to
 *  look. Null if it says nothing: all of a reply has to be this till, this number and an answer to this wish. An answer that
 *  didn't do what was asked is unseen until a person has seen it. */
export function hear(till, book, reply, time) {
  const number = book.last + 1, begin = `${till},${number},`;
  if (book.open === null || !reply.startsWith(begin)) return null;
  const answer = reply.slice(begin.length);
  if (REFUSALS.includes(answer)) return { refused: answer };
  if (!isAnswer(book.open, answer)) return null;
  const entry = { number, wish: book.open, answer, time }, [open = null, ...more] = book.more;
  const unseen = isDone(answer) ? book.unseen : [...book.unseen, entry];
  return { answer, entry, book: { last: number, open, isSent: false, more, unseen } };
}

/** The wishes that this device never asked, or that the shop refused with this word and so never did. */
export function undone(book, word = null) {
  return book.isSent && !NEVER_DONE.includes(word) ? book.more : waiting(book).map((one) => one.wish);
}

/** The open wish, if it may have been asked and nobody can say whether it counts; null otherwise. */
export function doubtful(book, word = null) {
  return book.isSent && !NEVER_DONE.includes(word) ? book.open : null;
}

/** The book that goes on after this number, because a person says so, or null if this is no number. A doubtful wish is
 *  dropped, and unseen until a person has seen that; the others get new numbers, or are dropped unless `isKept`. */
export function begunAgain(book, number, isKept, time, word = null) {
  if (!Number.isInteger(number) || number < 0 || number > MOST) return null;
  const [open = null, ...more] = isKept ? undone(book, word) : [], wish = doubtful(book, word);
  const unseen = wish === null ? book.unseen : [...book.unseen, { number: book.last + 1, wish, answer: null, time }];
  return { last: number, open, isSent: false, more, unseen };
}

/** The book once a person has seen the unseen entry of this number and time. */
export function seen(book, number, time) {
  return { ...book, unseen: book.unseen.filter((one) => one.number !== number || one.time !== time) };
}
