// A till over a broker while nets, pages, bridges, brokers and devices come and go, by node's test runner:
//   node --test shop/pages/tests/
// WORLDS in the environment is how many worlds are drawn (300).

import assert from "node:assert/strict";
import { test } from "node:test";
import * as queue from "../till/queue.js";
import { countIn } from "../till/session.js";
import { World } from "./world.js";

const WORLDS = Number(process.env.WORLDS ?? 300), STEPS = 60;

async function lone(count) {
  const world = new World(1), [device] = world.devices;
  device.open();
  await world.clock.until(3000);
  for (let turn = 0; turn < count; turn++) device.enter();
  await world.clock.until(60_000);
  return { world, device };
}

test("wishes are sent in order, each once, each with its answer", async () => {
  const { world, device } = await lone(20);
  assert.equal(world.shop.requests.length, 20);
  assert.deepEqual(device.answers.map((one) => one.number), Array.from({ length: 20 }, (_, place) => place + 1));
  assert.equal(device.disk.open, null);
});

test("what is entered without net waits over a reload, and is sent then", async () => {
  const { world, device } = await lone(3);
  device.net(false);
  for (let turn = 0; turn < 5; turn++) device.enter();
  await world.clock.until(90_000);
  assert.deepEqual(queue.waiting(device.disk).map((one) => one.number), [4, 5, 6, 7, 8]);
  device.open();
  await world.clock.until(200_000);
  assert.equal(world.shop.requests.length, 3);
  device.net(true);
  await world.clock.until(260_000);
  assert.deepEqual([world.shop.requests.length, device.answers.length, device.disk.last, device.disk.open], [8, 8, 8, null]);
});

test("another device is asked, and so is the first one, which sends what waits under new numbers", async () => {
  const { world, device } = await lone(3), [, other] = world.devices;
  device.net(false);
  device.enter();
  device.enter();
  await world.clock.until(70_000);
  other.open();
  await world.clock.until(80_000);
  assert.deepEqual([other.session.halt.kind, other.session.halt.number, other.session.halt.shop], ["used", 3, 3]);
  other.person(true);
  await world.clock.until(90_000);
  other.enter();
  await world.clock.until(100_000);
  assert.deepEqual(other.answers.map((one) => one.number), [4]);
  device.net(true);
  await world.clock.until(110_000);
  assert.deepEqual([device.session.halt.kind, device.session.halt.number], ["other", 4]);
  device.person(true);
  await world.clock.until(130_000);
  assert.deepEqual(device.answers.map((one) => one.number), [1, 2, 3, 5, 6]);
});

test("a number that a lost device took is free after one word", async () => {
  const { world, device } = await lone(2), [, other] = world.devices;
  // it takes the number 3, and is lost before it asks
  device.close();
  world.broker.retained.set("marks/7", `${device.mark} 2:${device.mark} 3:${device.mark}`);
  other.open();
  await world.clock.until(70_000);
  assert.deepEqual([other.session.halt.number, other.session.halt.shop], [3, 2]);
  other.person(true);
  await world.clock.until(80_000);
  other.enter();
  await world.clock.until(90_000);
  assert.deepEqual([other.session.halt, other.answers.map((one) => one.number)], [null, [3]]);
});

test("a number that can't be the shop's isn't taken", async () => {
  const { world, device } = await lone(2);
  // a shop that shows no numbers, and then an old backup
  world.broker.retained.clear();
  world.shop.requests.length = 0;
  world.broker.retained.set("bridge", "serving");
  device.open();
  await world.clock.until(70_000);
  device.enter();
  await world.clock.until(80_000);
  const { session } = device;
  assert.deepEqual([session.halt.word, session.halt.number], ["AHEAD", null]);
  let fault;
  session.goOn(true, 1010).then((said) => { fault = said; });
  await world.clock.until(81_000);
  assert.match(fault, /another last number/);
  session.goOn(true, 0);
  await world.clock.until(90_000);
  assert.deepEqual([session.halt, device.answers.at(-1).number, world.shop.requests.length], [null, 1, 1]);
});

test(`in ${WORLDS} worlds each request counts once, and each answer is one device's`, async () => {
  let counted = 0, doubtful = 0, dropped = 0;
  for (let seed = 1; seed <= WORLDS; seed++) {
    const world = new World(seed);
    world.devices[0].open();
    for (let step = 0; step < STEPS; step++) await world.happen();
    if (seed % 3 === 0) world.devices[1].isLost = true;
    await world.end();
    const { devices, shop } = world, heard = devices.flatMap((one) => one.answers.map((answer) => answer.number));
    assert.equal(new Set(heard).size, heard.length, `seed ${seed}: two devices show one answer`);
    assert.ok(heard.every((number) => number <= shop.requests.length), `seed ${seed}: an answer to what the shop hasn't`);
    const living = devices.filter((one) => !one.isLost);
    for (const one of living) {
      assert.deepEqual(queue.waiting(one.disk), [], `seed ${seed}: a request waits for ever: ${JSON.stringify(one.disk)}`);
      assert.equal(one.entered, one.answers.length + one.dropped + one.doubtful, `seed ${seed}: a request is lost`);
    }
    // what the shop has and nobody heard was doubtful, or is a lost device's
    const lost = devices.filter((one) => one.isLost && one.disk.isSent).length;
    const unsure = devices.reduce((sum, one) => sum + one.doubtful, 0);
    assert.ok(shop.requests.length - heard.length <= unsure + lost, `seed ${seed}: ${shop.requests.length} counted, ${heard.length} heard, ${unsure} doubtful`);
    counted += shop.requests.length;
    doubtful += unsure;
    dropped += devices.reduce((sum, one) => sum + one.dropped, 0);
  }
  assert.ok(counted > 3 * WORLDS, `only ${counted} requests`);
  console.log(`${WORLDS} worlds: ${counted} requests counted, ${doubtful} doubtful, ${dropped} dropped by a person`);
});

test("a reply that a broker keeps is nobody's", async () => {
  const { world, device } = await lone(1);
  world.broker.serve(false);
  device.enter();
  await world.clock.until(70_000);
  world.broker.retained.set("replies/7", "7,2,DONE,777");
  device.open();
  await world.clock.until(80_000);
  // a broker may hand it over again, once the device has the till
  device.session.message("shops/1/replies/7", "7,2,DONE,777", true);
  await world.clock.until(81_000);
  assert.deepEqual([device.answers.length, queue.waiting(device.disk).length], [1, 1]);
  world.broker.serve(true);
  await world.clock.until(90_000);
  assert.deepEqual(device.answers.map((one) => one.answer), ["DONE,999999", "DONE,999998"]);
});

test("a store that fails stops the till, and the request isn't asked", async () => {
  const { world, device } = await lone(1);
  device.session.store = () => Promise.reject(new Error("no room"));
  const kept = device.session.enter("I,1,1");
  await world.clock.until(70_000);
  assert.deepEqual([await kept, device.session.halt.kind, world.shop.requests.length, device.disk.last], [false, "store", 1, 1]);
});

test("how many of an item the shop has", () => {
  assert.deepEqual([countIn("15,9\n16,4", 15), countIn("15,9\n16,4", 16), countIn("15,9\n16,4", 5), countIn("", 5)], [9, 4, null, null]);
});
