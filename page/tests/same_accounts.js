// Whether the page's engine makes the same account of each run in a folder as the Rust crate: of NAME.journal, with the names in NAME.names, it is in
// NAME.account (rust/tests/calls/storm.rs). Its losses are those that the engine finds, and levels and states agree with them. Prints how many runs.
import assert from "node:assert/strict";
import { readFileSync, readdirSync } from "node:fs";
import { lossesIn } from "../src/run/losses.js";
import { foundIn, lossesOf, statesAt } from "../src/worker/found.js";
import { openRun } from "../src/worker/opening.js";
import { readStates } from "../src/run/states.js";
import { builtEngine } from "./built_engine.js";

const [folder] = process.argv.slice(2);
const engine = builtEngine();

// How much each receiver lost, by the states: what it lags by before a place at which it does no more, or at the end.
function lostIn(states) {
  const lags = states.map(state => new Map(state.channels.flatMap(({ receivers }, channel) => receivers.map(it => [`${channel}.${it.handle}`, it.lag ?? 0]))));
  const lost = new Map();
  lags.forEach((now, place) => now.forEach((lag, key) => {
    const next = lags[place + 1]?.get(key) ?? 0;
    if (next < lag) lost.set(key, (lost.get(key) ?? 0) + lag);
  }));
  return lost;
}

function check(name) {
  const read = ending => readFileSync(`${folder}/${name}.${ending}`);
  const opened = openRun(engine, read("journal"), []);
  engine.name(read("names"));
  const account = JSON.parse(read("account"));
  assert.deepEqual(JSON.parse(engine.textOf("account")), account, name);
  const losses = lossesIn(lossesOf(engine), opened.lastPlace).map(loss => ({ ...loss, to: loss.end === "open" ? null : loss.to }));
  assert.deepEqual(losses.map(({ channel, receiver, from, to, lost, end }) => ({ channel, receiver, from, to, lost, end })), account.losses, name);
  const places = Array.from({ length: opened.lastPlace + 1 }, (_, place) => place);
  const lost = lostIn(readStates(statesAt(engine, places), opened.lives.length, opened.lastPlace));
  const { totals } = foundIn(engine, opened.lives.length);
  for (const { channel, receiver, counts } of totals) if (counts) assert.equal(counts.lost, lost.get(`${channel}.${receiver}`) ?? 0, name);
}

const names = readdirSync(folder).filter(it => it.endsWith(".journal")).map(it => it.slice(0, -".journal".length));
assert.ok(names.length > 0, "the folder has no run");
names.forEach(check);
console.log(`${names.length} runs have the same account`);
