// The list of goods, by node's test runner: node --test shop/pages/tests/

import assert from "node:assert/strict";
import { test } from "node:test";
import { goodsOf, rowsOf, Search } from "../till/goods.js";

test("CSV after RFC 4180", () => {
  assert.deepEqual(rowsOf('\ufeffa,"b ""c"", d"\r\n\r\n"e\nf",\n'), [["a", 'b "c", d'], ["e\nf", ""]]);
  assert.throws(() => rowsOf('a,"b'), /no end/);
});

test("goods that are unfit are named by their row", () => {
  const bad = ["0,a,,0", "65536,a,,0", "01,a,,0", "1,,,0", "1,a,,", "1,a,,-1", "1,a,", "1,a\u0007,,0", "1,a\u202e,,0", "1,a,,0\n1,b,,0", `1,${"a".repeat(81)},,0`];
  for (const row of bad) assert.throws(() => goodsOf(`item,name,unit,least\n${row}\n`), /row [23]/, row);
  assert.throws(() => goodsOf("number,name\n"), /first line/);
});

test("10,000 goods are read and searched in little time", () => {
  const rows = Array.from({ length: 10000 }, (_, n) => `${n + 1},Postcard no ${n + 1},piece,5`);
  const began = performance.now(), search = new Search(goodsOf(`item,name,unit,least\n${rows.join("\n")}\n`));
  assert.deepEqual(search.find("4321").map((one) => one.item)[0], 4321);
  assert.deepEqual(search.find("no 99 post", 3).map((one) => one.item), [99, 990, 991]);
  for (let n = 0; n < 20; n++) search.find("postcard");
  assert.equal(search.find("postcard").length, 20);
  assert.equal(search.item("Postcard no 77 (77)"), 77);
  assert.equal(search.item("postcard NO 78"), 78);
  assert.equal(search.item("postcard"), null);
  assert.ok(performance.now() - began < 3000, "it takes more than three seconds");
});

test("names are found without their accents", () => {
  const search = new Search(goodsOf("item,name,unit,least\n3,Café crème,cup,1\n"));
  assert.equal(search.find("cafe creme")[0].item, 3);
});
