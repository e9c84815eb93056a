// What the page asks of its worker, where both run in one thread: after a failure of the engine the page opens its run again.

import assert from "node:assert/strict";
import test from "node:test";
import { Engine } from "../src/worker/engine.js";
import { journalOf, packedModule } from "./built_engine.js";

const bytes = text => new TextEncoder().encode(text);

/** @type {any} */
const worker = globalThis.self = { postMessage: () => {} };

// A message between the two is copied, or its buffers are handed over, and comes in a turn of its own.
globalThis.Worker = /** @type {any} */ (class {
  constructor() {
    this.requests = [];
    this.pieces = [];
    worker.postMessage = (message, options) => {
      const data = structuredClone(message, options);
      setImmediate(() => this.onmessage({ data }));
    };
  }

  postMessage(message, options) {
    this.requests.push(message.request);
    if (message.request === "piece") this.pieces.push(message.values[0]);
    const data = structuredClone(message, options);
    setImmediate(() => worker.onmessage({ data }));
  }
});

await import("../src/worker.js");
const { Client } = await import("../src/run/client.js");

// A journal text of `count` sends, of which nobody receives one.
const sends = count => bytes(journalOf(["broadcast 2"], Array.from({ length: count }, (_, i) => `0 0 send 0 ${i} = sent 1`)));
const NAMES = bytes('{"actors": {"0": "shop"}}');

// Makes the next call of an export trap.
function trapIn(name) {
  const { call } = Engine.prototype;
  Engine.prototype.call = function (called, ...inputs) {
    if (called !== name) return call.call(this, called, ...inputs);
    Engine.prototype.call = call;
    this.exports = { ...this.exports, [name]: () => { throw new WebAssembly.RuntimeError("unreachable"); } };
    return call.call(this, called, ...inputs);
  };
}

async function opened() {
  const client = new Client("", () => packedModule);
  await client.open(sends(3), []);
  await client.name(NAMES);
  return client;
}

test("after a trap the run and its names are there again for the next requests, and it is opened once for them", async () => {
  const client = await opened();
  const wanted = await client.request("account");
  assert.match(JSON.stringify(wanted), /shop/);
  trapIn("account");
  await assert.rejects(client.request("account"), { message: "unreachable" });
  const before = client.worker.requests.length;
  const answers = await Promise.all([client.request("account"), client.request("ask", "list\n"), client.request("account")]);
  assert.deepEqual([answers[0], answers[2]], [wanted, wanted]);
  assert.equal(answers[1].split("\n").length, 4);
  assert.deepEqual(client.worker.requests.slice(before), ["account", "ask", "account", "piece", "open", "piece", "name", "account", "ask", "account"]);
});

test("a run that traps while it is opened again is a fault, and another one can be opened", async () => {
  const client = await opened();
  trapIn("account");
  await assert.rejects(client.request("account"), { message: "unreachable" });
  trapIn("open");
  await assert.rejects(client.request("account"), { message: "unreachable" });
  assert.equal((await client.open(sends(5), [])).lastPlace, 5);
  assert.doesNotMatch(JSON.stringify(await client.request("account")), /shop/);
});

test("where no run was opened, or its text has a fault, none is asked", async () => {
  const client = new Client("", () => packedModule);
  await assert.rejects(client.request("account"), { message: "no run is open" });
  assert.equal((await client.open(bytes("ttd-journal 2\nbroadcast 2\nsteps\n"), [])).fault.text, "truncated");
  await assert.rejects(client.request("account"), { message: "no run is open" });
});

test("names that aren't read are a fault, and none are there when the run is opened again", async () => {
  const client = await opened();
  await assert.rejects(client.name(bytes("[]")), { message: "no object" });
  trapIn("account");
  await assert.rejects(client.request("account"), { message: "unreachable" });
  assert.doesNotMatch(JSON.stringify(await client.request("account")), /shop/);
});

test("names that are passed on after a trap are those of the run that is opened again for them", async () => {
  const client = await opened();
  trapIn("account");
  await assert.rejects(client.request("account"), { message: "unreachable" });
  await client.name(bytes('{"actors": {"0": "bank"}}'));
  assert.match(await client.request("account"), /bank/);
});

test("long names are passed on in pieces of one buffer too", async () => {
  const client = await opened();
  const [before, pieces] = [client.worker.requests.length, client.worker.pieces.length];
  await client.name(bytes(`{"actors": {"0": "${"long ".repeat(500_000)}"}}`));
  assert.deepEqual(client.worker.requests.slice(before), ["piece", "piece", "piece", "name"]);
  assert.ok(client.worker.pieces.slice(pieces).every(it => it.byteLength === 0), "the pieces are handed over");
  assert.match(await client.request("account"), /long long/);
});

test("a long text is passed on in pieces of one buffer, and nothing is asked of it before all of it is there", async () => {
  const client = await opened();
  const long = sends(120_000);
  assert.ok(long.length > 3 << 20);
  const before = client.worker.requests.length;
  const opening = client.open(long, []);
  while (client.worker.requests.length === before) await new Promise(setImmediate);
  assert.equal((await client.request("ask", "list\n")).split("\n").length, 4, "the run before it is asked");
  assert.equal((await opening).lastPlace, 120_000);
  assert.equal((await client.request("ask", "list\n")).split("\n").length, 120_001);
  assert.deepEqual(client.worker.requests.slice(before), ["piece", "ask", ...Array(Math.ceil(long.length / (1 << 20)) - 1).fill("piece"), "open", "ask"]);
  assert.ok(client.worker.pieces.every(it => it.byteLength === 0), "the pieces are handed over");
});

test("two runs that are opened at once are opened one after the other", async () => {
  const client = new Client("", () => packedModule);
  const opened = await Promise.all([client.open(sends(60_000), []), client.open(sends(70_000), [])]);
  assert.deepEqual(opened.map(it => it.lastPlace), [60_000, 70_000]);
  assert.equal((await client.request("ask", "list\n")).split("\n").length, 70_001);
});

test("the letters of an answer that is a text aren't looked at", async () => {
  const client = await opened();
  const { values } = Object;
  const seen = [];
  Object.values = of => {
    seen.push(typeof of);
    return values(of);
  };
  try {
    assert.match(await client.request("ask", "list\n"), /^#1 /);
  } finally {
    Object.values = values;
  }
  assert.ok(!seen.includes("string"), seen);
});
