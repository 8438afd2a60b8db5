// What tills and shop say, by node's test runner: node --test shop/pages/tests/
// Messages, answers and replies are those of docs/MESSAGES.md, written by hand.

import assert from "node:assert/strict";
import { test } from "node:test";
import { goodsOf, nameIn } from "../till/goods.js";
import * as rules from "../till/rules.js";

const MARKUP = '<img src=x onerror="alert(1)">&amp;';

test("wishes of docs/MESSAGES.md, and what is none", () => {
  for (const wish of ["R,42,0", "I,1,999999999", "S,65535,1", "M,15,5,16"]) assert.ok(rules.isWish(wish), wish);
  const none = ["", "R,0,1", "R,65536,1", "R,1,01", "R,1,1000000000", "R,1", "R,1,1,2", "M,1,1", "M,1,1,1", "M,1,1,65536",
    "X,1,1", "r,1,1", "R,1,1\n", " R,1,1", "R,1,-1", "R,1,1.0", "R,١,1", "R,1,1\nI,1,1"];
  for (const wish of none) assert.ok(!rules.isWish(wish), JSON.stringify(wish));
});

test("answers by the wish's kind", () => {
  const all = ["DONE,1", "DONE,1,2", "OVER,1", "SHORT,1", "NO CARD", "72,DISK FULL", "52,FILE TOO LARGE"];
  const right = { R: [0, 2, 4], I: [0, 3, 4], S: [0, 5, 6], M: [1, 2, 3, 4] };
  for (const [kind, places] of Object.entries(right))
    all.forEach((answer, place) => assert.equal(rules.isAnswer(`${kind},1,1`, answer), places.includes(place), `${kind} ${answer}`));
});

test("pauses are 2, 4 and then 8 seconds", () => {
  assert.deepEqual([0, 1, 2, 3, 40].map(rules.pause), [2, 4, 8, 8, 8]);
});

test("what a form says, in messages and in words", () => {
  assert.equal(rules.wishOf("L", 42, "7"), "R,42,0");
  assert.equal(rules.wishOf("M", 15, "5", 16), "M,15,5,16");
  assert.equal(rules.wishOf("I", 15, "5", 16), "I,15,5");
  const name = nameIn(goodsOf(`item,name,unit,least\n15,"${MARKUP.replaceAll('"', '""')}",,0\n`));
  assert.equal(rules.wishWords("I,15,5", name), `Sell 5 of ${MARKUP} (15)`);
  assert.equal(rules.answerWords("I,15,5", "DONE,3", name), `Done: 3 of ${MARKUP} (15) are there now.`);
  assert.equal(rules.answerWords("M,16,5,15", "OVER,9", name), `Nothing was done: 9 of ${MARKUP} (15) are there, and more than 999999999 can't be.`);
});

test("a count that changes by more than half", () => {
  const rows = [[500, 2, true], [500, 250, false], [500, 249, true], [500, 750, false], [500, 751, true], [1, 0, true], [1, 1, false],
    [0, 0, false], [0, 1, true], [3, 2, false], [3, 1, true], [999999999, 1, true]];
  for (const [before, after, wanted] of rows) assert.equal(rules.isMuch(before, after), wanted, `${before} to ${after}`);
});
