// What the account has the page show first: its texts without signs of the report, the rows that it tells of, and labels of a cause beside each other.
import assert from "node:assert/strict";
import test from "node:test";
import { rowsOf } from "../src/draw/layout.js";
import { partsOf } from "../src/draw/parts.js";
import { placedLabels } from "../src/draw/story.js";
import { aligned, plainText } from "../src/findings/account_text.js";
import { failureLines } from "../src/findings/failure.js";
import { readNames } from "../src/run/names.js";

test("names stand without backquotes, and counts in groups, but for what is quoted or is a line of a file", () => {
  const texts = {
    "`client 38` lost 5000 of 90000 values of `prices` (capacity 4)": "client 38 lost 5,000 of 90,000 values of prices (capacity 4)",
    '  call 555719   ticks.send("12345 EUR")   tests/bus.rs:1234   overwrote "2000 values"': '  call 555,719   ticks.send("12345 EUR")   tests/bus.rs:1234   overwrote "2000 values"',
    "`9000 calls` closed": "9000 calls closed",
    "order 20260101": "order 20260101",
    "dump of 2026-11-30 18:29:23.447 UTC: a channel had more calls than a journal takes (1048576); calls 5 to 555723": "dump of 2026-11-30 18:29:23.447 UTC: a channel had more calls than a journal takes (1,048,576); calls 5 to 555,723",
    "its last receive: call 12, its 540000th value; at 3rd": "its last receive: call 12, its 540,000th value; at 3rd",
    "20000 calls here, 30000 calls there: 12345 differ, 9999 only there": "20,000 calls here, 30,000 calls there: 12,345 differ, 9,999 only there",
    "a single ` stays": "a single ` stays",
  };
  assert.deepEqual(Object.keys(texts).map(plainText), Object.values(texts));
});

test("columns stay below each other where a number grows by its groups", () => {
  const lines = [
    '  call 675    prices.send("9 EUR")     clerk     tests/bus.rs:24   overwrote',
    "  call 1624   told: lagged 12          auditor   tests/bus.rs:36   its last receive",
    "  call 9      told: lagged 123456      auditor   tests/bus.rs:36   its last receive",
    "  call 9      told: lagged 1234 of a   auditor   tests/bus.rs:36   its last receive",
  ].map(line => plainText(aligned(line)));
  for (const columns of [/prices|told/, /clerk|auditor/, /tests/, /overwrote|its last/]) assert.equal(new Set(lines.map(line => line.search(columns))).size, 1, lines.join("\n"));
  assert.match(lines[1], /^ {2}call 1,624 {2}told/);
});

test("a failure is the panic in its own words, or of an earlier writer the line of the report, and a hang is said where nothing failed", () => {
  const lines = (account, ending = {}) => failureLines({ account, names: { ending: { hangs: false, ...ending } } });
  const failed = { place: 9, name: "a_test", message: "assertion `left == right` failed\n  left: 1\n right: 2", location: ["tests/a.rs", 7, 5], text: "a_test at tests/a.rs:7: .." };
  assert.deepEqual(lines({ failed }), ["a_test failed at tests/a.rs:7:", "assertion `left == right` failed", "  left: 1", " right: 2"]);
  assert.deepEqual(lines({ failed: { place: 9, text: failed.text } }), ["failed: a_test at tests/a.rs:7: .."]);
  assert.deepEqual([lines({ failed: null }), lines(null, { hangs: true })], [[], []]);
  assert.deepEqual(lines({ failed: null }, { hangs: true, test: "a_test" }), ["a_test hangs"]);
  assert.deepEqual(lines({ failed: null }, { hangs: true }), ["the test hangs"]);
  assert.deepEqual(lines({ failed }, { hangs: true, test: "a_test" })[0], "a_test failed at tests/a.rs:7:");
});

test("before a failure is said that a replay is another run, and behind it the race, in words without backquotes", () => {
  const [replay, race] = ["from call 2 on, this is another run", "it fails where `a` made x"].map(text => ({ text }));
  const lines = failureLines({ account: { failed: { place: 9, text: "a" }, replay, race }, names: { ending: {} } });
  assert.deepEqual(lines, ["from call 2 on, this is another run", "failed: a", "the race: it fails where a made x"]);
});

test("a thread without a name is called as the account calls it", () => {
  const names = readNames('{"actors": {"0": "ThreadId(14)", "1": "ThreadId(x)", "2": "clerk"}}');
  assert.deepEqual([0, 1, 2, 3].map(it => names.shortActor(it)), ["thread 14", "ThreadId(x)", "clerk", "actor 3"]);
});

// A run of one broadcast with a sender and as many receivers as this, whose calls are sends and receives of these handles.
function runOf(receivers, handles, account) {
  const life = (handle, kind) => ({ handle, kind, from: 0, to: handles.length + 1, user: 0, last: 0 });
  return {
    lead: 0, lastPlace: handles.length, channels: [{ kind: "broadcast", capacity: 4 }], names: { account }, isOfLead: () => false,
    lives: [[life(0, "sender"), ...Array.from({ length: receivers }, (_, i) => life(i + 1, "receiver"))]],
    columns: { channels: new Uint32Array(handles.length + 1), handles: Uint32Array.from([0, ...handles]) },
  };
}

test("the rows that the account tells of are the first, in its order, each alone and with a word", () => {
  const loss = (receiver, lost, end) => ({ kind: "loss", channel: 0, receiver, lost, end, text: [""], places: [{ place: 1, line: 1, role: "cause" }, { place: 2, line: 2, role: "told" }] });
  const empty = { kind: "empty", channel: 0, receiver: 40, text: [""], places: [{ place: 3, line: 1, role: "told" }] };
  const run = runOf(40, [0, 38, 40], { facts: [loss(38, 5, "told"), loss(24, 1200, "dropped"), empty], rest: { after: 1 } });
  const [rows] = rowsOf(run, partsOf(run));
  assert.deepEqual(rows.slice(0, 3).map(({ kind, lives, part }) => [kind, lives.map(it => it.handle), part.word]),
    [["sender", [0], "overwrote"], ["receiver", [38], "lost 5"], ["receiver", [24], "lost 1,200, never told"]]);
  assert.deepEqual([rows[3].part, rows.length], [undefined, 41]);
  assert.deepEqual(rowsOf(run).flat().map(({ part }) => part).filter(it => it), []);
});

test("a receiver has a word for what it waited for in vain, or marked without a look", () => {
  const of = fact => partsOf(runOf(2, [0, 1], { facts: [{ channel: 0, text: [""], places: [], ...fact }], rest: { after: 1 } })).get(0).get(1).word;
  assert.deepEqual([{ kind: "dropped", handle: 1 }, { kind: "wait", handle: 1 }, { kind: "unlooked", receiver: 1, changes: 1200 }].map(of), ["waited", "waits", "marked 1,200 unseen"]);
});

test("labels of steps on one point lie over none of each other", () => {
  const pen = { measureText: text => ({ width: 6 * text.length }) };
  const steps = ["sent", "overwrote it", "last receive", "told"].map((word, i) => ({ word, x: 300 + i, y: 100 }));
  const placed = placedLabels({ pen, frame: { left: 268, right: 1000 } }, steps);
  for (const [i, a] of placed.entries()) {
    for (const b of placed.slice(i + 1)) assert.ok(Math.abs(a.y - b.y) >= 14 || a.left + a.width < b.left || b.left + b.width < a.left, `${a.word} over ${b.word}`);
  }
  assert.deepEqual(placed.map(({ word }) => word), steps.map(({ word }) => word));
});
