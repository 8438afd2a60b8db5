// What the stock page makes of the bridge's messages, by node's test runner:
//   node --test shop/pages/tests/
// The lines are written by hand after docs/MESSAGES.md and shop/src/ledger_shop/board.py. It wants Debian's nodejs.

import assert from "node:assert/strict";
import { test } from "node:test";
import { ago, Board, requestOf, words } from "../stock/board.js";
import { goodsOf, nameIn, Search } from "../till/goods.js";

const GOODS = goodsOf('item,name,unit,least\n15,Postcard,piece,10\n16,"<i>Map</i>",,4\n120,Mug,,2\n');
const TIME = "2026-11-26T19:05:12.345Z";

test("requests with their answers", () => {
  assert.deepEqual(requestOf(`${TIME} 7,16,S,5,10,DONE,10`), { time: TIME, till: 7, number: 16, wish: "S,5,10", answer: "DONE,10" });
  assert.deepEqual(requestOf("- 1,3,M,101,10,102,DONE,27,15"), { time: null, till: 1, number: 3, wish: "M,101,10,102", answer: "DONE,27,15" });
  assert.equal(requestOf("- 2,2,I,102,20,72,DISK FULL").answer, "72,DISK FULL");
  const bad = ["", "7,16,S,5,10,DONE,10", `${TIME} 7,16,X,5,10,DONE,10`, `${TIME} 7,0,S,5,10,DONE,10`, `${TIME} 7,16,S,5,10`, "yesterday 7,16,S,5,10,DONE,10"];
  for (const line of bad) assert.equal(requestOf(line), null, line);
});

test("stock by pages, each in the place of the one before", () => {
  const board = new Board(GOODS);
  assert.equal(board.take("stock/0", "15,9\n16,4"), "stock");
  assert.equal(board.take("stock/3", "120,0\n159,7"), "stock");
  assert.deepEqual([...board.stock], [[15, 9], [16, 4], [120, 0], [159, 7]]);
  board.take("stock/0", "15,8");
  assert.deepEqual([...board.stock.keys()].sort((a, b) => a - b), [15, 120, 159]);
  board.take("stock/0", "nonsense\n15,-3\n200,5\n15,08");
  assert.deepEqual([...board.stock.keys()], [120, 159], "lines of another form or page aren't shown");
});

test("what is low", () => {
  const board = new Board(GOODS);
  board.take("stock/0", "15,9\n16,4");
  board.take("stock/3", "120,0");
  assert.deepEqual(board.low().map((one) => one.item), [120, 15]);
});

test("tills and last answers, and what is no message of the bridge's", () => {
  const board = new Board(GOODS);
  assert.equal(board.take("tills/7", `${TIME} 16,I,15,3,SHORT,2`), "tills");
  assert.equal(words(board.tills.get(7), nameIn(GOODS)), "Sell 3 of Postcard (15). Nothing was done: only 2 of Postcard (15) are there.");
  assert.equal(board.take("tills/7", ""), "tills");
  assert.equal(board.tills.size, 0);
  board.take("last", `${TIME} 7,16,S,16,10,DONE,10\nrubbish\n- 1,3,M,15,1,16,DONE,2,3`);
  assert.deepEqual(board.last.map((one) => words(one, nameIn(GOODS))), ["Set <i>Map</i> (16) to 10: 10 left", "Move 1 from Postcard (15) to <i>Map</i> (16): 2 and 3 left"]);
  for (const [topic, text] of [["stock/x", "1,1"], ["asks/7", "7,1,S,1,1"], ["", ""]]) assert.equal(board.take(topic, text), null);
});

test("10,000 cards are found by name and number", () => {
  const rows = Array.from({ length: 10000 }, (_, n) => `${n + 1},Card no ${n + 1},,0`);
  const goods = goodsOf(`item,name,unit,least\n${rows.join("\n")}\n`), board = new Board(goods), search = new Search(goods);
  for (let place = 0; place <= 250; place++)
    board.take(`stock/${place}`, Array.from({ length: 40 }, (_, n) => `${place * 40 + n},${n}`).join("\n"));
  assert.equal(board.cards("", search).length, 10039, "item 0 is none");
  assert.deepEqual(board.cards("no 9999", search), [9999]);
  assert.deepEqual(board.cards("10001", search), [10001], "a card without a name");
});

test("times, also of a clock that jumps", () => {
  const now = Date.parse("2026-11-26T19:06:12.345Z");
  assert.equal(ago(TIME, now), "1 minute ago");
  assert.equal(ago("2026-11-27T19:06:12.345Z", now), "now");
  assert.equal(ago("2026-11-24T19:06:12.345Z", now), "2 days ago");
  assert.equal(ago(null, now), "before this journal");
});
