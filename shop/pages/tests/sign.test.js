// Signing in by a code, by node's test runner: node --test shop/pages/tests/

import assert from "node:assert/strict";
import { test } from "node:test";
import { accountOf, codeIn } from "../till/sign.js";

const answer = (status, known) => ({ ok: status === 200, status, json: async () => known });

test("an address gives a code and a number, and no password", () => {
  assert.deepEqual(codeIn("#code=K7QF2M9X4TBC"), { till: null, code: "K7QF2M9X4TBC" });
  assert.deepEqual(codeIn("#till=3&password=secret"), { till: "3", code: null });
  assert.deepEqual(codeIn(""), { till: null, code: null });
});

test("a code gives an account, in the body of a request", async () => {
  const asked = [];
  const get = async (place, how) => { asked.push([place, how.method, how.body]); return answer(200, { shop: "1", till: 3, password: "p" }); };
  assert.deepEqual(await accountOf(" K7QF-2M9X-4TBC ", "1", get), { till: 3, password: "p" });
  assert.deepEqual(asked, [["/sign_in", "POST", "K7QF-2M9X-4TBC"]]);
});

test("what gives none says why", async () => {
  const rows = [[answer(404, { fault: "no such code" }), /used, is older/], [answer(404, null), /takes no codes/], [answer(502, {}), /takes no codes/],
    [answer(200, { shop: "2", till: 3, password: "p" }), /another shop/], [answer(200, { shop: "1", till: 65, password: "p" }), /takes no codes/],
    [answer(200, { shop: "1", till: 3 }), /takes no codes/], [{ ok: true, status: 200, json: async () => { throw new Error("no JSON"); } }, /takes no codes/]];
  for (const [one, wanted] of rows) await assert.rejects(accountOf("X", "1", async () => one), wanted);
  await assert.rejects(accountOf("X", "1", async () => { throw new Error("no net"); }), /Try again/);
  for (const code of ["", "  ", "A".repeat(65)]) await assert.rejects(accountOf(code, "1", assert.fail), /used, is older/);
});
