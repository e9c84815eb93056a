// What the built module does: at its limit, with its memory, and after a failure. The page that has it is rust/built/yovanelum.html.

import assert from "node:assert/strict";
import test from "node:test";
import { Hits } from "../src/run/hits.js";
import { Closed, Fault } from "../src/worker/engine.js";
import { hitsOf as bitsOf, levelsIn, lossesOf, salvagedFrom, statesAt } from "../src/worker/found.js";
import { openRun } from "../src/worker/opening.js";
import { builtEngine, journalOf, opened } from "./built_engine.js";

const bytes = text => new TextEncoder().encode(text);

// A journal text of `count` sends, of which nobody receives one.
const sends = (count, heads = ["broadcast 2"]) => journalOf(heads, Array.from({ length: count }, (_, i) => `0 0 send 0 ${i} = sent 1`));

// The places of the calls that have a text.
function hitsOf(engine, wanted) {
  const hits = new Hits(bitsOf(engine, wanted));
  return Array.from({ length: hits.length }, (_, i) => hits.at(i));
}

// The spans of how much the receiver has to receive, in `stretches` stretches of one place from the first call on.
const spans = (engine, stretches) => levelsIn(engine, [0], 1, 1, stretches).map(({ channel, receiver, spans }) => [channel, receiver, ...spans]);

test("as many stretches are answered as the limit allows, and one more is refused", () => {
  const engine = opened(sends(3));
  for (const stretches of [65_535, 65_536]) assert.deepEqual(spans(engine, stretches), [[0, 1, 0, 1, 1, 1, 3, 2]]);
  assert.throws(() => spans(engine, 65_537), { message: "there are too many stretches" });
  assert.deepEqual(spans(engine, 2), [[0, 1, 0, 1, 1, 1, 2, 2]]);
});

test("a capacity is that of tokio, the next power of two, and a watch that isn't seen has the level 1", () => {
  const engine = opened(journalOf(["broadcast 3", "watch 0"], [...Array.from({ length: 6 }, (_, i) => `0 0 send 0 ${i} = sent 1`), "0 1 send 0 7 = stored"]));
  assert.deepEqual(levelsIn(engine, [0, 1], 6, 1, 2).map(({ channel, receiver, spans }) => [channel, receiver, ...spans]), [[0, 1, 0, 2, 4], [1, 1, 1, 2, 1]]);
});

test("a run that is closed leaves its memory to the next", () => {
  const engine = builtEngine();
  const sizes = Array.from({ length: 12 }, () => {
    engine.open(bytes(sends(20_000)));
    engine.textOf("ask", "goto 9000\nstate\nrback actor 0\n");
    engine.ofRun("found");
    engine.textOf("account");
    engine.call("debug", bytes(sends(20_000)), "");
    return engine.exports.memory.buffer.byteLength;
  });
  assert.deepEqual(sizes.slice(2), sizes.slice(2).map(() => sizes[2]), "the memory grows with each run");
});

test("a text with a fault is told, and no run is open then", () => {
  const engine = opened(sends(3));
  const faults = [
    [journalOf(["broadcast 2"], ["0 0 send 0 7 = sent 2"]), { of: "journal", text: "line 4: wrong reply" }],
    ["ttd-journal 2\nbroadcast 2\nsteps\n", { of: "journal", text: "truncated" }],
    ["broadcast 2\nactors 1\n0 0 sing 0\n", null],
  ];
  for (const [text, wanted] of faults) {
    const { fault } = openRun(engine, bytes(text), []);
    const said = new TextDecoder().decode(engine.call(text.startsWith("ttd") ? "debug" : "session", bytes(text), "")[0]);
    assert.equal(said.split("\n")[0], `${fault.of} fault ${fault.text}`);
    if (wanted) assert.equal(fault.of, wanted.of);
    assert.throws(() => statesAt(engine, [0]), { message: "no run is open" });
  }
});

test("a script is run up to the call that would wait, and its run has a journal text", () => {
  const { journal, waitingLine, lastPlace, columns } = openRun(builtEngine(), bytes("broadcast 2\nactors 2\n0 0 send 0 7\n1 0 recv 1\n1 0 recv 1\n---\nlist\n"), []);
  assert.equal(new TextDecoder().decode(journal), journalOf(["broadcast 2"], ["0 0 send 0 7 = sent 1", "1 0 recv 1 = value 7"]));
  assert.deepEqual([waitingLine, lastPlace, [...columns.actors], columns.actorCount], [5, 2, [0, 0, 1], 2]);
  assert.deepEqual([...columns.starts].map(start => new TextDecoder().decode(journal.subarray(start, start + 5))), ["1 0 0"]);
});

test("numbers of handles are told whatever their size", () => {
  for (const [least, List] of [[65_535, Uint16Array], [65_536, Uint32Array], [2 ** 32 - 1, Uint32Array]]) {
    const { columns } = openRun(builtEngine(), bytes(journalOf(["broadcast 2"], [`0 0 try-recv ${least} = unknown`, "0 0 try-recv 1 = empty"])), []);
    assert.deepEqual(columns.handles, List.of(0, least, 1));
  }
});

test("each entry of a long run is answered", () => {
  assert.equal(opened(sends(120_000)).textOf("ask", "list\n").split("\n").length, 120_001);
});

test("after a trap no run is open in a fresh instance, and memory isn't blamed", () => {
  const engine = opened(sends(3), { actors: { 0: "shop" } });
  const { input } = engine.exports;
  engine.exports = { ...engine.exports, account: () => { throw new WebAssembly.RuntimeError("unreachable"); } };
  assert.throws(() => engine.textOf("account"), { message: "unreachable" });
  assert.notEqual(engine.exports.input, input);
  assert.throws(() => engine.textOf("account"), error => error instanceof Closed && error.message === "no run is open");
  engine.open(bytes(sends(3)));
  assert.doesNotMatch(engine.textOf("account"), /shop/);
});

test("a text that is written in pieces is opened when all are there, and a trap between them leaves no room for the next", () => {
  const engine = opened(sends(3));
  const text = bytes(sends(5));
  const pieces = [0, 20, 40].map(at => [text.subarray(at, at === 40 ? text.length : at + 20), at, text.length]);
  for (const piece of pieces) {
    engine.write(...piece);
    assert.equal(engine.textOf("ask", "list\n").split("\n").length, 4, "the run before it is open");
  }
  assert.equal(openRun(engine, null, []).lastPlace, 5);
  engine.write(...pieces[0]);
  engine.start();
  assert.throws(() => engine.write(...pieces[1]), { message: "no memory" });
});

test("memory that was refused is said", () => {
  const engine = opened(sends(3));
  engine.exports = { ...engine.exports, refused: () => 1, losses: () => { throw new WebAssembly.RuntimeError("unreachable"); } };
  assert.throws(() => lossesOf(engine), { message: "no memory" });
  // More than a module has.
  assert.throws(() => engine.put({ byteLength: 2 ** 32 - 1 }), { message: "no memory" });
  assert.throws(() => engine.write(new Uint8Array(1), 0, 2 ** 32 - 1), { message: "no memory" });
  assert.equal(engine.exports.refused(), 0, "the room for an input is asked for, and may be refused");
});

test("that there is no memory for a run is no fault of its text", () => {
  const engine = builtEngine();
  engine.exports = { ...engine.exports, refused: () => 1, open: () => { throw new WebAssembly.RuntimeError("unreachable"); } };
  assert.throws(() => openRun(engine, bytes(sends(3)), []), { message: "no memory" });
});

test("names that aren't read are a fault, and the run has none then", () => {
  const engine = opened(sends(3), { actors: { 0: "shop" } });
  for (const [names, fault] of [["[]", "no object"], ['{"window": 7}', "its `window`: no object"]]) {
    assert.throws(() => engine.name(bytes(names)), error => error instanceof Fault && error.message === fault);
  }
  assert.doesNotMatch(engine.textOf("account"), /shop/);
  engine.name(bytes('{"panics": {"line": 7}, "made_by": 7, "sources": [], "actors": {"0": "shop"}, "unrecorded": {"channels": 2, "left": 0, "handles": 0}, "later": {}}'));
  const { unknown } = JSON.parse(engine.textOf("account"));
  assert.deepEqual(unknown, ["2 channels were not recorded, since 64 were alive"], "what has its form is used");
});

test("a truncated journal has its whole lines", () => {
  const text = sends(5).slice(0, -9);
  const { kept, bytes: left } = salvagedFrom(builtEngine(), bytes(text));
  assert.deepEqual([kept, new TextDecoder().decode(left)], [text.lastIndexOf("\n") + 1, sends(4)]);
  assert.equal(salvagedFrom(builtEngine(), bytes("none")), null);
});

test("a text is found in the words of calls and replies, behind a lead by the real numbers", () => {
  const nothing = { names: "", actors: new Uint8Array(2), channels: new Uint8Array(1), located: new Uint8Array(), handles: [[]], values: [[]] };
  const entries = ["0 0 subscribe 0 = new 2", "0 0 send 0 7 = sent 2", "1 0 try-recv 2 = value 7", "1 0 receiver-count 0 = count 2", "1 0 receiver-len 1 = count 1"];
  const find = (engine, text, more = {}) => hitsOf(engine, { text, ...nothing, ...more });
  const engine = opened(journalOf(["broadcast 2"], entries));
  assert.deepEqual(["try-recv 2", "7", "new 2", "count", "1 0", "=", ""].map(text => find(engine, text)), [[3], [2, 3], [1], [4, 5], [], [], [1, 2, 3, 4, 5]]);
  const none = "nothing has it";
  assert.deepEqual([find(engine, none, { actors: Uint8Array.of(0, 1) }), find(engine, none, { handles: [[2]] }), find(engine, none, { values: [[7]] }),
    find(engine, none, { values: [BigUint64Array.of(7n, 2n ** 40n)] }), find(engine, none, { channels: Uint8Array.of(1) })], [[3, 4, 5], [3], [2, 3], [2, 3], [1, 2, 3, 4, 5]]);
  assert.deepEqual(find(engine, none, { located: Uint8Array.of(0, 0, 0, 1, 0, 0) }), [3]);
  const waited = JSON.stringify({ waited: { 0: [3] } });
  assert.deepEqual([find(engine, "closed 0", { names: waited }), find(engine, "receiver-count", { names: waited })], [[4], []]);
  const window = { trigger: "call", reason: "asked", at: null, lead: 1, channels: { 0: { lead: 1, calls: 90, sent: 40, handles: [0, null, 55], lags: {} } } };
  const names = JSON.stringify({ version: 4, window });
  assert.deepEqual(["new", "try-recv 55", "receiver-len 1 of the lead"].map(text => find(engine, text, { names })), [[], [3], [5]]);
  assert.deepEqual(find(engine, none, { names, located: Uint8Array.of(0, 1, 1) }), [2], "what is in the lead is no hit");
});

test("a text is found in a line that differs from an earlier one in its numbers or in a flag", () => {
  const nothing = { names: "", actors: new Uint8Array(1), channels: new Uint8Array(2), located: new Uint8Array(), handles: [[], []], values: [[], []] };
  const entries = ["0 0 send 0 7 = sent 1", "0 0 send 0 12 = sent 1", "0 0 try-recv 1 = value 7", "0 0 try-recv 1 = value 12",
    "0 1 modify 0 3 no = told no", "0 1 modify 0 4 yes = told yes", "0 1 send 0 12 = stored"];
  const engine = opened(journalOf(["broadcast 2", "watch 0"], entries));
  const wanted = { "send 0 12": [2, 7], "e 12": [4], " 12": [2, 4, 7], no: [5], yes: [6], "told yes": [6], "3 n": [5], "send 0 3": [], 9: [], "12 = ": [], stored: [7], thumbnail: [] };
  const found = Object.fromEntries(Object.keys(wanted).map(text => [text, hitsOf(engine, { text, ...nothing })]));
  assert.deepEqual(found, wanted);
});

test("any part of a line is found in all lines that have it, and nowhere else", () => {
  const engine = builtEngine();
  const values = [0, 1, 7, 12, 17, 70, 121, 1000, 2n ** 32n, 2n ** 64n - 1n];
  const calls = values.flatMap((value, i) => [`0 0 send 0 ${value}`, `1 0 try-recv ${1 + i % 3}`, `1 0 subscribe 0`, `0 1 modify 0 ${value} ${i % 2 ? "yes" : "no"}`,
    `0 1 send-replace 0 ${value}`, "1 1 has-changed 1", "1 1 update 1", `0 0 receiver-len ${1 + i % 11}`, `0 0 drop ${5 + i}`]);
  const { journal } = openRun(engine, bytes(`broadcast 2\nwatch 0\nactors 2\n${calls.join("\n")}\n`), []);
  const lines = new TextDecoder().decode(journal).split("\n").filter(line => /^\d/.test(line)).map(line => /^\d+ \d+ \d+ (.*) = (.*)$/.exec(line).slice(1));
  assert.equal(lines.length, calls.length);
  const nothing = { names: "", actors: new Uint8Array(2), channels: new Uint8Array(2), located: new Uint8Array(), handles: [[], []], values: [[], []] };
  const parts = new Set(lines.flat().flatMap(part => Array.from(part, (_, from) => Array.from(part.slice(from), (_, i) => part.slice(from, from + i + 1))).flat()));
  for (const text of [...parts, "00", "01", "1 0", "send 0 1 ", "sent 00", "99", "18446744073709551616"]) {
    const wanted = lines.flatMap((of, i) => (of.some(part => part.includes(text)) ? [i + 1] : []));
    assert.deepEqual(hitsOf(engine, { text, ...nothing }), wanted, text);
  }
  assert.ok(parts.size > 300, parts.size);
});
