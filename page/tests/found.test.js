// What the worker makes of the lists of numbers of what is found in a run.

import assert from "node:assert/strict";
import test from "node:test";
import { lossesIn } from "../src/run/losses.js";
import { foundIn, lossesOf } from "../src/worker/found.js";

const NONE = 2 ** 32 - 1;
const answering = (...parts) => ({ ofRun: () => parts.map(part => Uint32Array.from(part)) });

const PARTS = [
  [1, 9], [1, 1, 12, 3, 1, 4, NONE, 0], [0, 1, 5, 2, 2, 7, 0, 0, 3, 0, 0, 0, 0, NONE], [1, 1, 2, 1],
  [0, 0, 0, 0, NONE, NONE, 2], [2, 17], [3, 4, 0], [7, NONE, NONE], [2, 0, 3],
];

test("closings, and who was there", () => {
  const { places, told, readOn } = foundIn(answering(...PARTS), 3).closings;
  assert.deepEqual(places, [null, 9, null]);
  assert.deepEqual(told.map(it => [...it]), [[], [[1, 12], [4, null]], []]);
  assert.deepEqual(readOn.map(it => [...it]), [[], [[1, 3], [4, 0]], []]);
});

test("totals of receivers", () => {
  assert.deepEqual(foundIn(answering(...PARTS), 3).totals, [
    { channel: 0, receiver: 1, counts: { received: 5, lost: 2, worst: 2, worstPlace: 7, unread: 0 }, missed: null, unlooked: null },
    { channel: 0, receiver: 3, counts: { received: 0, lost: 0, worst: 0, worstPlace: 0, unread: null }, missed: null, unlooked: null },
    { channel: 1, receiver: 1, counts: null, missed: 2, unlooked: 1 },
  ]);
});

test("a run in which nothing is found", () => {
  const { closings, totals, handles, columns } = foundIn(answering([], [], [], [], [], [], [], [], [0]), 1);
  assert.deepEqual([closings.places, totals, handles.length, [...columns.ends]], [[null], [], 0, [0]]);
});

test("losses, of which one is open past the last place", () => {
  assert.deepEqual(lossesIn(lossesOf(answering([0, 1, 3, 2, 0, 7, 2, 5, 4, 1, 2, NONE, 1, 2, 5, 1, 1, 6])), 9), [
    { channel: 0, receiver: 1, from: 3, lost: 2, end: "told", to: 7 },
    { channel: 2, receiver: 5, from: 4, lost: 1, end: "open", to: 10 },
    { channel: 1, receiver: 2, from: 5, lost: 1, end: "dropped", to: 6 },
  ]);
});
