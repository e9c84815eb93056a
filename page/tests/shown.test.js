// What is shown, and the link that is made of it.
import assert from "node:assert";
import { test } from "node:test";
import { hashOf, readAddress } from "../src/input/address.js";
import { View } from "../src/draw/view.js";
import { Shown } from "../src/run/shown.js";

test("a link has what is more than at first, and is read as it was written", () => {
  const shown = new Shown();
  assert.strictEqual(hashOf(shown.address("0.3", "0.3")), "#call=0&view=0-0");
  const against = { digest: "0123456789abcd", name: "passed & \"other\".journal" };
  Object.assign(shown, { place: 42, from: 10, to: 74, filter: "jobs & \"more\"", isByNumber: true, stop: "lagging 0 2", against });
  const address = shown.address("1.actors", "");
  assert.deepStrictEqual(address, { place: 42, view: [10, 74], fold: "1.actors", filter: "jobs & \"more\"", order: "number", stop: "lagging 0 2", against });
  assert.deepStrictEqual(readAddress(`file:///run.html${hashOf(address)}`), address);
  // An empty list of folded bands is one of its own, where some are folded at first.
  assert.strictEqual(readAddress(`file:///run.html${hashOf(shown.address("", "0"))}`).fold, "");
});

test("an address of an earlier page, and one without a call, are read", () => {
  assert.strictEqual(readAddress("file:///run.html#place=7").place, 7);
  assert.strictEqual(readAddress("file:///run.html").place, null);
  assert.strictEqual(readAddress("file:///run.html#call=x").place, 0);
  assert.strictEqual(readAddress("file:///run.html#call=1&against=other.journal").against, null);
});

test("the view keeps the place in view, and itself in the run", () => {
  const shown = new Shown();
  const view = new View(200, 201, 64, shown);
  for (const [move, wanted] of [
    [() => view.go(100), [100, 68, 132]], [() => view.go(500), [200, 137, 201]], [() => view.scroll(-1000), [200, 0, 64]],
    [() => view.whole(), [200, 0, 201]], [() => view.go(-3), [0, 0, 201]], [() => view.show(190, 2), [0, 189, 201]],
  ]) {
    move();
    assert.deepStrictEqual([shown.place, shown.from, shown.to], wanted);
  }
});
