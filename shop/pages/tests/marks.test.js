// Which device has a till's number, by node's test runner: node --test shop/pages/tests/

import assert from "node:assert/strict";
import { test } from "node:test";
import * as marks from "../till/marks.js";

test("who has a till's numbers, as the broker keeps it", () => {
  const [a, b] = ["00000000000000aa", "00000000000000bb"], text = `${b} 5:${a} 6:${b}`, { at, taken } = marks.marksOf(text);
  assert.deepEqual([at, [...taken]], [b, [[5, a], [6, b]]]);
  assert.equal(marks.marksText(at, taken), text);
  assert.deepEqual([...marks.take(taken, 7, a)], [[6, b], [7, a]]);
  assert.deepEqual([...marks.take(taken, 9, a)], [[9, a]]);
  assert.equal(marks.take(taken, 4, a), taken, "an older number is asked again: what others took isn't forgotten");
  assert.deepEqual([marks.lastUsed(4, taken), marks.lastUsed(7, taken), marks.lastUsed(0, new Map())], [6, 7, 0]);
  for (const other of ["", "x", `${a} 6`, `${a} 06:${b}`, `${a}  6:${b}`, `${a} 4:${a} 5:${a} 6:${a}`, `${a}\n`, `${a} 6:${b}x`])
    assert.deepEqual([marks.marksOf(other).at, marks.marksOf(other).taken.size], [null, 0], other);
  assert.match(marks.newMark(), /^[0-9a-f]{16}$/);
  assert.notEqual(marks.newMark(), marks.newMark());
  assert.deepEqual(["- 17,I,1,1,DONE,2", "2026-11-26T19:05:12.345Z 3,S,1,1,DONE,1", "", "- 0,x"].map(marks.numberOf), [17, 3, 0, 0]);
});

test("a device goes on if its next number is free, or its own", () => {
  const mine = "00000000000000aa", other = "00000000000000bb", none = new Map(), open = "I,1,1";
  const rows = [
    [{ last: 5, open: null }, 5, none, true], [{ last: 5, open: null }, 4, none, true], [{ last: 5, open: null }, 6, none, false],
    [{ last: 5, open: null }, 5, new Map([[6, other]]), false], [{ last: 5, open }, 5, none, true],
    [{ last: 5, open, isSent: true }, 6, new Map([[6, mine]]), true], [{ last: 5, open, isSent: true }, 6, new Map([[6, other]]), false],
    [{ last: 5, open, isSent: false }, 6, none, false], [{ last: 5, open }, 6, none, false], [{ last: 5, open, isSent: true }, 6, none, true],
    [{ last: 5, open, isSent: true }, 7, new Map([[6, mine], [7, other]]), true], [{ last: 0, open: null }, 0, none, true],
  ];
  for (const [book, shop, taken, wanted] of rows)
    assert.equal(marks.fits(book, shop, taken, mine), wanted, JSON.stringify([book, shop, [...taken]]));
});
