// Two dumps of one test, worked by hand: their leads, which nobody has called, are no part of what is compared.
import assert from "node:assert";
import { test } from "node:test";
import { comparedWith } from "../src/worker/found.js";
import { journalOf, opened } from "./built_engine.js";

// A run of one broadcast of two with these entries, which begins in a window with a lead. By the channel's numbers, its handles are these.
function dump(entries, { lead, failed, handles = [0, 1, 41] }) {
  const channels = { 0: { lead, calls: 900, sent: 450, handles, lags: {} } };
  const names = {
    version: 4, actors: { 0: "shop", 1: "audit", 63: "before the window" }, failed, window: { trigger: "call", reason: "asked", at: null, lead, channels },
  };
  return [journalOf(["broadcast 2"], entries), names];
}

function compared(here, [journal, names]) {
  return comparedWith(opened(...here), journal, JSON.stringify(names));
}

const SHORT = ["63 0 subscribe 0 = new 2", "63 0 drop 1 = dropped", "0 0 send 0 7 = sent 1", "1 0 recv 2 = value 7"];
const LONG = [
  "63 0 send 0 5 = sent 1", "63 0 subscribe 0 = new 2", "63 0 send 0 6 = sent 2", "63 0 drop 1 = dropped", "0 0 send 0 7 = sent 1", "1 0 recv 2 = value 6",
];

test("calls are aligned behind the leads", () => {
  const found = compared(dump(LONG, { lead: 4, failed: true }), dump(SHORT, { lead: 2, failed: false }));
  assert.deepStrictEqual(found.lines, [
    "the first difference: call 6, `audit` got another reply in the passing run",
    "  here    call 6   channel 0: recv()   audit  value 6",
    "  there   call 4   channel 0: recv()   audit  value 7",
    "2 calls here, 2 calls there: 1 differs",
  ]);
  assert.deepStrictEqual([...found.partners], [0, 0, 0, 0, 0, 3, 4]);
  assert.deepStrictEqual([...found.back], [0, 0, 0, 5, 6]);
  assert.deepStrictEqual([...found.kinds].map(kind => kind > 0), [false, false, false, false, false, false, true]);
});

test("what one dump alone has is behind its lead", () => {
  const found = compared(dump(LONG.slice(0, 5), { lead: 4, failed: true }), dump(SHORT, { lead: 2, failed: false }));
  assert.strictEqual(found.lines[0], "the first difference: call 4 of the passing run, `audit` doesn't make it here");
  assert.strictEqual(found.lines.at(-1), "1 call here, 2 calls there: 1 only there");
});

test("a receiver from before the window is the one of the same number", () => {
  const found = compared(dump(SHORT, { lead: 2, handles: [0, 1, 42] }), dump(SHORT, { lead: 2 }));
  assert.strictEqual(found.lines[0], "the first difference: call 4, `audit` made another call in the other run");
});

test("a close by a lead is no call", () => {
  const closed = dump(["63 0 drop 0 = dropped", "1 0 try-recv 1 = closed"], { lead: 1, handles: [0, 1] });
  const open = dump(["1 0 try-recv 1 = empty"], { lead: 0, failed: true, handles: [0, 1] });
  const { lines } = compared(closed, open);
  assert.strictEqual(lines[0], "the first difference: call 2, `audit` received before the close in the failing run");
  assert.strictEqual(lines.length, 4);
});
