// Compares pairs of runs as the page's worker does: for each line of standard input, a JSON object with two runs, it writes one with what differs. A
// run has the journal's text and that of its names.
import { createInterface } from "node:readline";
import { comparedWith } from "../src/worker/found.js";
import { builtEngine } from "./built_engine.js";

// By the numbers of page/engine/src/beside.rs.
const KINDS = ["same", "missing", "other", "order", "value", "reply", "more"];

const engine = builtEngine();

for await (const line of createInterface({ input: process.stdin })) {
  const [here, there] = JSON.parse(line);
  engine.open(new TextEncoder().encode(here.journal));
  engine.name(new TextEncoder().encode(here.names));
  const { kinds, partners, back, lines } = comparedWith(engine, there.journal, there.names);
  const differing = [...kinds.keys()].filter(place => kinds[place] > 0).map(place => ({ kind: KINDS[kinds[place]], here: place, there: partners[place] || null }));
  for (let place = 1; place < back.length; place++) if (back[place] === 0) differing.push({ kind: "more", here: null, there: place });
  console.log(JSON.stringify({ differing, text: lines }));
}
