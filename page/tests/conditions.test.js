// Stops: all hits of a condition are found, also where they come in several parts.

import assert from "node:assert/strict";
import test from "node:test";
import { hitsOfCondition } from "../src/findings/conditions.js";

// A run of `hits` calls, at each of which a condition has a hit, as the console answers.
function runOf(hits) {
  return {
    async ask(commands) {
      let place = 0;
      const lines = commands.trimEnd().split("\n").map(line => {
        const [word, number] = line.split(" ");
        if (word === "goto") place = Number(number);
        if (word === "goto") return `place ${place} of ${hits}`;
        return place === hits ? "no hit" : `hit ${++place} of ${hits}`;
      });
      return `${lines.join("\n")}\n`;
    },
  };
}

test("all hits of a condition are found, in as many parts as they need", async () => {
  for (const condition of ["lagging 0 1", "actor 0"]) {
    for (const hits of [0, 1, 8, 9, 1000]) {
      const { places, isAll } = await hitsOfCondition(runOf(hits), condition, () => false);
      assert.deepEqual([places, isAll], [Array.from({ length: hits }, (_, i) => i + 1), true]);
    }
  }
});

test("of very many hits some are left out, as is said", async () => {
  const { places, isAll } = await hitsOfCondition(runOf(20_000), "lagging 0 1", () => false);
  assert.ok(places.length >= 1000 && !isAll);
});
