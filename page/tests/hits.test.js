// Hits by their bits beside a list of their places.
import assert from "node:assert/strict";
import test from "node:test";
import { Hits } from "../src/run/hits.js";
import { Random } from "./random_runs.js";

function check(hits, places, last) {
  assert.deepEqual([hits.length, hits.at(-1), hits.at(places.length)], [places.length, undefined, undefined]);
  assert.deepEqual(Array.from(places, (_, i) => hits.at(i)), places);
  for (let place = -1; place <= last + 70; place++) {
    assert.equal(hits.upTo(place), places.filter(it => it <= place).length, place);
    assert.equal(hits.indexOf(place), places.indexOf(place), place);
    assert.equal(hits.from(place), places.find(it => it >= place), place);
  }
}

test("hits have the places, counts and indexes of a list", () => {
  const random = new Random(3);
  for (const [last, share] of [[0, 2], [31, 2], [32, 2], [64, 0], [100, 2], [300, 1], [1000, 0.1], [1000, 0.01]]) {
    const places = Array.from({ length: last + 1 }, (_, place) => place).filter(() => random.below(1000) < 500 * share);
    check(Hits.of(places), places, last);
    const words = new Uint32Array(Math.floor(last / 32) + 1);
    for (const place of places) words[place >> 5] |= 1 << (place & 31);
    check(new Hits(words), places, last);
  }
  check(new Hits(), [], 0);
});
