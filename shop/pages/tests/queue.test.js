// A till's book and the wishes that wait in it, by node's test runner: node --test shop/pages/tests/
// Messages and replies are those of docs/MESSAGES.md, written by hand.

import assert from "node:assert/strict";
import { test } from "node:test";
import * as queue from "../till/queue.js";

const NOW = 1_700_000_000_000;
const book = (last, open = null, more = [], isSent = false, unseen = []) => ({ last, open, isSent, more, unseen });
const numbers = (one) => queue.waiting(one).map(({ number, wish }) => `${number} ${wish}`);

test("a till numbers, repeats and hears as `Till` does", () => {
  let one = queue.EMPTY;
  assert.equal(queue.ask(7, one), null);
  one = queue.added(one, "S,5,10");
  assert.deepEqual(one, book(0, "S,5,10"));
  assert.equal(queue.ask(7, one), "7,1,S,5,10");
  assert.equal(queue.ask(7, one), "7,1,S,5,10", "the same each time");
  const others = ["7,2,DONE,10", "8,1,DONE,10", "7,1,", "7,1,DONE,10\n", "7,1,DONE,010", "7,1,DONE", "7,1,SHORT,3", "7,1,MEDIA",
    "30,SYNTAX ERROR,00,00", "7,1,DONE,10,10", "77,1,DONE,10", "7,1,DONE,1000000000", "7,1,NO CARD"];
  for (const reply of others) assert.equal(queue.hear(7, one, reply, NOW), null, reply);
  const heard = queue.hear(7, queue.sent(one), "7,1,DONE,10", NOW);
  assert.deepEqual(heard, { answer: "DONE,10", entry: { number: 1, wish: "S,5,10", answer: "DONE,10", time: NOW }, book: book(1) });
  assert.equal(queue.hear(7, heard.book, "7,1,DONE,10", NOW), null, "once");
});

test("wishes wait one after the other, and are asked in that order", () => {
  let one = queue.added(queue.added(queue.added(book(4), "I,1,2"), "R,1,3"), "I,9,1");
  assert.deepEqual(numbers(one), ["5 I,1,2", "6 R,1,3", "7 I,9,1"]);
  const asked = [];
  for (const reply of ["7,5,DONE,8", "7,6,DONE,11", "7,7,SHORT,0"]) {
    asked.push(queue.ask(7, one));
    assert.equal(one.isSent, false, "the next one isn't asked before its number is taken");
    one = queue.hear(7, queue.sent(one), reply, NOW).book;
  }
  assert.deepEqual(asked, ["7,5,I,1,2", "7,6,R,1,3", "7,7,I,9,1"]);
  assert.deepEqual(one, book(7, null, [], false, [{ number: 7, wish: "I,9,1", answer: "SHORT,0", time: NOW }]));
});

test("what nobody has seen stays until somebody has", () => {
  const short = { number: 7, wish: "I,9,1", answer: "SHORT,0", time: NOW }, again = { ...short, time: NOW + 1 };
  assert.deepEqual(queue.seen(book(7, null, [], false, [short, again]), 7, NOW).unseen, [again]);
  assert.deepEqual(queue.seen(book(7, null, [], false, [short]), 8, NOW).unseen, [short]);
});

test("no number and no wish too many", () => {
  assert.equal(queue.added(book(999999999), "I,1,1"), null);
  const last = queue.added(book(999999998), "I,1,1");
  assert.equal(queue.ask(1, last), "1,999999999,I,1,1");
  assert.equal(queue.added(last, "I,1,1"), null);
  let many = book(0);
  for (let count = 0; count < queue.MOST_WAITING; count++) many = queue.added(many, "I,1,1");
  assert.equal(queue.added(many, "I,1,1"), null);
  for (const wish of ["", "I,1", "I,0,1", "X,1,1", "I,1,1\n"]) assert.equal(queue.added(book(0), wish), null, wish);
});

test("refusals are for a person", () => {
  for (const word of ["NO TILL", "CLASH", "STALE", "AHEAD"])
    assert.deepEqual(queue.hear(7, book(4, "I,5,1", ["I,6,1"], true), `7,5,${word}`, NOW), { refused: word });
});

test("going on keeps what was never done, under new numbers", () => {
  const unsent = book(4, "I,5,1", ["I,6,1"]), sent = queue.sent(unsent), dropped = { number: 5, wish: "I,5,1", answer: null, time: NOW };
  assert.deepEqual(queue.begunAgain(unsent, 9, true, NOW), book(9, "I,5,1", ["I,6,1"]));
  assert.deepEqual(queue.begunAgain(unsent, 9, false, NOW), book(9));
  assert.deepEqual(queue.begunAgain(sent, 9, true, NOW), book(9, "I,6,1", [], false, [dropped]), "one that may have been asked is dropped, and said");
  assert.deepEqual(queue.begunAgain(sent, 9, false, NOW), book(9, null, [], false, [dropped]));
  assert.deepEqual(queue.begunAgain(sent, 3, true, NOW, "AHEAD"), book(3, "I,5,1", ["I,6,1"]), "the shop never had it");
  assert.deepEqual(queue.begunAgain(sent, 9, true, NOW, "CLASH"), book(9, "I,5,1", ["I,6,1"]), "the shop has another request there");
  assert.deepEqual(queue.begunAgain(sent, 9, true, NOW, "STALE").unseen, [dropped]);
  assert.deepEqual([queue.undone(sent), queue.doubtful(sent)], [["I,6,1"], "I,5,1"]);
  for (const number of [-1, 1.5, NaN, 1000000000, null]) assert.equal(queue.begunAgain(unsent, number, true, NOW), null);
});

test("books of earlier releases", () => {
  assert.deepEqual(queue.bookOf(undefined), book(0));
  assert.deepEqual(queue.bookOf({ last: 3, open: null }), book(3));
  assert.deepEqual(queue.bookOf({ last: 3, open: "I,1,1", isSent: false }), book(3, "I,1,1"));
  assert.deepEqual(queue.bookOf({ last: 3, open: "I,1,1" }), book(3, "I,1,1", [], true), "it may have been asked");
});

test("books are compared by all that they have", () => {
  const one = book(3, "I,1,1", ["I,2,1"]);
  assert.ok(queue.isSame(one, { ...one }));
  assert.ok(queue.isSame({ last: 0, open: null }, queue.EMPTY));
  const changed = { last: 4, open: "I,1,2", isSent: true, more: [], unseen: [{ number: 1, wish: "I,1,1", answer: null, time: NOW }] };
  for (const name of Object.keys(changed)) assert.ok(!queue.isSame(one, { ...one, [name]: changed[name] }), name);
});
