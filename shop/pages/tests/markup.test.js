// What the pages' files may not have, by node's test runner: node --test shop/pages/tests/

import assert from "node:assert/strict";
import { readdirSync, readFileSync } from "node:fs";
import { test } from "node:test";

const FOLDERS = ["till", "stock"].map((name) => new URL(`../${name}/`, import.meta.url));
const files = FOLDERS.flatMap((folder) => readdirSync(folder).map((name) => new URL(name, folder)));
// mqtt.js is a library that make_mqtt.sh makes
const own = files.filter(({ pathname }) => /\.(js|html)$/.test(pathname) && !pathname.endsWith("/mqtt.js"));

test("no text is put where markup is read, and nothing is loaded from elsewhere", () => {
  assert.ok(own.length > 12, "the files aren't found");
  for (const file of own) {
    const text = readFileSync(file, "utf8").replaceAll("http://www.w3.org/2000/svg", "");
    assert.ok(!/innerHTML|outerHTML|insertAdjacentHTML|document\.write|eval\(|["'(]https?:\/\/[a-z]/.test(text), file.pathname);
  }
});

test("the worker keeps each file of the till's page", () => {
  const worker = readFileSync(new URL("worker.js", FOLDERS[0]), "utf8"), there = readdirSync(FOLDERS[0]);
  for (const name of there.filter((one) => /\.(js|css|svg|html)$/.test(one) && !["worker.js", "index.html"].includes(one)))
    assert.ok(worker.includes(`"${name}"`), `${name} isn't kept for a time without net`);
});
