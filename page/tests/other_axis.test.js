// Where the calls of another run stand on the axis of this one.
import assert from "node:assert";
import { test } from "node:test";
import { OtherAxis, anchorsOf } from "../src/run/other_axis.js";

// A chance that is the same each time.
function chanceOf(seed) {
  let state = seed;
  return most => {
    state = (Math.imul(state, 1664525) + 1013904223) >>> 0;
    return Math.floor(state / 2 ** 32 * most);
  };
}

// Partners of `here` calls here among `there` calls there: each has one, or none.
function partnersOf(chance, here, there) {
  const free = Array.from({ length: there }, (_, i) => i + 1);
  const partner = () => (chance(4) === 0 || free.length === 0 ? 0 : free.splice(chance(Math.min(free.length, 3)), 1)[0]);
  return Uint32Array.from([0, ...Array.from({ length: here }, partner)]);
}

// How many calls here at most have partners in the same order: of all that end with a call, one more than the best that ends before it.
function longest(partners) {
  const best = [];
  partners.forEach((partner, place) => {
    if (partner > 0) best.push({ partner, length: 1 + Math.max(0, ...best.filter(it => it.partner < partner).map(it => it.length)) });
    return place;
  });
  return Math.max(0, ...best.map(it => it.length));
}

test("as many calls as can be stand in the column of their partners, and all keep their order", () => {
  const chance = chanceOf(68);
  for (let run = 0; run < 400; run++) {
    const here = 1 + chance(24);
    const there = 1 + chance(24);
    const partners = partnersOf(chance, here, there);
    const anchors = anchorsOf(partners);
    assert.strictEqual(anchors.length, longest(partners));
    const axis = new OtherAxis(partners, there);
    for (const place of anchors) assert.strictEqual(axis.at(partners[place]), place);
    for (let place = 1; place <= there; place++) {
      assert.ok(axis.at(place - 1) < axis.at(place), `call ${place} stands after the one before it`);
      assert.strictEqual(axis.placeAt(axis.at(place)), place);
    }
    assert.strictEqual(axis.at(0), 0);
    assert.ok(axis.at(there + 1) > axis.lastColumn);
  }
});

test("a run that goes on has a column for each call behind the last common one", () => {
  const axis = new OtherAxis(Uint32Array.of(0, 1, 2), 5);
  assert.deepStrictEqual([...axis.columns], [0, 1, 2, 3, 4, 5, 6]);
  assert.strictEqual(axis.lastColumn, 5);
});

test("calls that have no column of their own share the room between two", () => {
  const axis = new OtherAxis(Uint32Array.of(0, 1, 4), 4);
  assert.deepStrictEqual([...axis.columns].map(it => Number(it.toFixed(3))), [0, 1, 1.333, 1.667, 2, 3]);
  assert.strictEqual(axis.placeAt(1.5), 2);
});
