// The account that the built page makes of runs whose names have none, worked by hand: what ended a test, what a receiver did with the change before a
// window, and what a window begins with.

import assert from "node:assert/strict";
import test from "node:test";
import { journalOf, opened } from "./built_engine.js";

const account = (heads, entries, names) => JSON.parse(opened(journalOf(heads, entries), names).textOf("account"));

test("the end is the first panic after which its actor drops alone", () => {
  // Each actor makes one call, and drops what it called with.
  const entries = ["0 0 send 0 7 = sent 1", "1 0 try-recv 1 = value 7", "0 0 drop 0 = dropped", "1 0 drop 1 = dropped"];
  const end = (...panics) => account(["broadcast 4"], entries, { panics: panics.map(([actor, since]) => ({ text: "", location: null, actor, since })) }).failure;
  assert.equal(end([1, 2], [0, 4]), 2, "actor 1 calls right before its panic");
  assert.equal(end([0, 1], [1, 3]), 1, "actor 0 drops after its own");
});

test("a change of the lead that was marked by no look is marked", () => {
  // Receiver 2 marks what the lead has sent, by `mark_unchanged`. It looks at the one change of the window, and doesn't mark it.
  const entries = [
    "63 1 subscribe 0 = new 2", "63 1 send-replace 0 5 = old 5",
    "0 1 mark-unchanged 2 = done", "0 1 has-changed 2 = flag no", "0 1 send 0 6 = stored", "0 1 borrow 2 = value 6",
  ];
  const channels = { 0: { lead: 0, calls: 0, sent: 0, handles: [0, 1], lags: {} }, 1: { lead: 2, calls: 90, sent: null, handles: [0, 4, 6], lags: {} } };
  const { facts } = account(["broadcast 4", "watch 5"], entries, { version: 4, window: { trigger: "call", reason: "asked", at: null, lead: 2, channels } });
  assert.deepEqual(facts.map(({ text }) => text[0]), [
    "receiver 6 never marked 1 of 1 change of channel 1 as seen in the window", "receiver 4 never learned of 1 of 1 change of channel 1 in the window",
  ]);
});

const window = { trigger: "call", reason: "asked", at: null, lead: 2, channels: { 0: { lead: 2, calls: 9, sent: 7, handles: [0, 1], lags: {} } } };

test("a loss that the last call of the lead began was there before", () => {
  const entries = ["63 0 send 0 0 = sent 1", "63 0 send 0 5 = sent 1", "1 0 try-recv 1 = lagged 1"];
  const { facts, look } = account(["broadcast 1"], entries, { version: 4, window });
  assert.deepEqual(facts[0].text, [
    "receiver 1 lost 1 of at most 7 values of channel 0 (capacity 1)",
    "  before the window   the overwriting began",
    "  call 3              told: lagged 1          actor 1  its last receive: none in the window",
    "  lost: 1 value, overwritten before the window",
  ]);
  assert.equal(look, 3);
});

test("a window without calls is looked at where it begins", () => {
  const entries = ["63 0 try-recv 1 = empty", "63 0 send 0 2 = sent 1"];
  assert.equal(account(["broadcast 1"], entries, { version: 4, window }).look, 2);
});
