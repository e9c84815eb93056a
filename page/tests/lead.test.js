// What the names of a window say, by hand.
import assert from "node:assert";
import { test } from "node:test";
import { behindLead, lostBefore, numberOf, timeOf, windowText } from "../src/run/lead.js";

const CHANNEL = { lead: 4, calls: 12, sent: 7, handles: [0, 41, null, 77], lags: { 1: 5_000_000 } };
const WINDOW = { trigger: "call", reason: "asked\nfor", at: 1_795_921_965_120, lead: 6, channels: { 0: CHANNEL, 1: { ...CHANNEL, lead: 0 } } };

test("handles are called by their real numbers", () => {
  assert.deepStrictEqual([0, 1, 2, 3, 4].map(it => numberOf(WINDOW, 0, it)), ["0", "41", "2 of the lead", "77", "4"]);
  assert.strictEqual(numberOf(null, 0, 1), "1");
});

test("what was lost before the window is what it really was", () => {
  const loss = { channel: 0, receiver: 1, from: 3, lost: 2, end: "open", to: 20 };
  // Of the sends at the places 1, 3, 5 and 9, two of the lead overwrote values of the loss.
  assert.deepStrictEqual(lostBefore(WINDOW, [1, 3, 5, 9], loss), [5_000_000, 2]);
  assert.deepStrictEqual(lostBefore(WINDOW, [1, 3, 5, 9], { ...loss, receiver: 3 }), [2, 2]);
  assert.deepStrictEqual(lostBefore(WINDOW, [1, 3, 5, 9], { ...loss, from: 9 }), [0, 0]);
  const losses = [["told", 6], ["told", 7], ["dropped", 4], ["open", 21]].map(([end, to]) => ({ ...loss, end, to }));
  assert.deepStrictEqual(behindLead(WINDOW, losses).map(({ to }) => to), [7, 21]);
});

test("a time is known between two others", () => {
  // The wall clock is set back by a second between the second and the third.
  const times = [[10, 1_795_921_961_120, 17_000_000], [20, 1_795_921_965_120, 21_000_000], [30, 1_795_921_964_120, 22_000_000],
    [30, 1_795_921_964_620, 22_500_000], [40, 1_795_921_965_120, 23_000_000]];
  const text = stamp => timeOf(WINDOW, times, stamp);
  assert.deepStrictEqual([9, 10, 13, 25, 30, 40, 41].map(text), [
    null, "at 03:12:41.120 UTC, 6 s before the dump", "at 03:12:42.320 UTC, 4 s before the dump", "at 03:12:44.620 UTC, 1 s before the dump",
    "at 03:12:44.120 UTC, 1 s before the dump", "at 03:12:45.120 UTC, at the dump", null,
  ]);
  assert.strictEqual(timeOf(null, times, 13), null);
  const night = [[10, 1_795_910_399_000, 0], [20, 1_795_910_401_000, 2_000_000]];
  assert.strictEqual(timeOf(WINDOW, night, 10), "at 2026-11-28 23:59:59.000 UTC, 2 s before the dump");
});

test("it is said when and why a window was written, and which calls it has", () => {
  const escaped = text => text.replace("\n", "\\n");
  const text = (lead, length, at = WINDOW.at) => windowText({ ...WINDOW, lead, at }, length, escaped);
  assert.strictEqual(text(117, 20_117), "dump of 2026-11-29 03:12:45.120 UTC: asked\\nfor; calls 118 to 20,117; 1 to 117 lead to the window");
  assert.deepStrictEqual([[0, 5], [1, 2], [3, 3]].map(([lead, length]) => text(lead, length, null).slice(18)),
    ["calls 1 to 5", "call 2; 1 leads to the window", "no call; 1 to 3 lead to the window"]);
});
