// Stops: the console's own search for a condition, from a place on.

import { isolated } from "../base/text.js";

const MOST_RECEIVERS = 16;
const HIT = /^hit (\d+) of/;

// Conditions on calls have an index in the debugger, so that their hits are asked for in few parts. Others are looked for from call to call, so that a
// search without a hit takes long: of these the first hits are found in small parts.
const OF_CALLS = /^(actor|channel|reply) /;
const MANY = { first: 10_000, atOnce: 10_000, most: 10_000 };
const FEW = { first: 8, atOnce: 64, most: 1000 };

// Searches for the nearest hit of some conditions by `rback` or `rforward`. Returns the line that the console writes for it, its place, if there is
// one, and the condition.
export async function seek(run, place, word, conditions) {
  const lines = (await run.ask(conditions.map(condition => `goto ${place}\n${word} ${condition}\n`).join(""))).trimEnd().split("\n");
  const answers = conditions.map((condition, i) => {
    const answer = lines[2 * i + 1];
    const hit = HIT.exec(answer);
    return { condition, answer, place: hit && Number(hit[1]) };
  });
  const away = it => (it.place === null ? Infinity : Math.abs(it.place - place));
  return answers.reduce((nearest, it) => (away(it) < away(nearest) ? it : nearest));
}

// Returns all hits of a condition, or as many as are looked for, and whether there are no more. It is null where `isOver` says that nobody waits for them.
export async function hitsOfCondition(run, condition, isOver) {
  const { first, atOnce, most } = OF_CALLS.test(condition) ? MANY : FEW;
  const places = [];
  for (let count = first; places.length < most; count = Math.min(2 * count, atOnce)) {
    const answers = (await run.ask(`goto ${places.at(-1) ?? 0}\n${`rforward ${condition}\n`.repeat(count)}`)).split("\n").slice(1, count + 1);
    if (isOver()) return null;
    const found = answers.map(line => HIT.exec(line)).filter(hit => hit !== null).map(([, place]) => Number(place));
    places.push(...found);
    if (found.length < count) return { places, isAll: true };
  }
  return { places, isAll: false };
}

// The conditions that a receiver of a watch has a value that it hasn't seen, for all of them.
export function unseenConditions(run) {
  return run.channels.flatMap(({ kind }, channel) => (kind === "watch" ? run.lives[channel] : []).filter(life => life.kind === "receiver")
    .map(({ handle }) => `unseen ${channel} ${handle}`));
}

// Returns the conditions that are offered at a state, each with its meaning in words.
export function conditionsAt(state, run) {
  const { names } = run;
  const offers = [
    ["reply lagged", "a receiver lagged"],
    ["reply closed", "a receiver finds its channel closed"],
  ];
  state.channels.forEach((channel, index) => {
    const name = isolated(names.channel(index));
    for (const { handle } of channel.receivers.slice(0, MOST_RECEIVERS)) {
      if (channel.kind === "broadcast") offers.push([`lagging ${index} ${handle}`, `receiver ${run.numberOf(index, handle)} of ${name} begins to lag`]);
      else offers.push([`unseen ${index} ${handle}`, `receiver ${run.numberOf(index, handle)} of ${name} has a value that it hasn't seen`]);
    }
    offers.push([`closed ${index}`, `${name} is closed`]);
    if (channel.kind === "broadcast") offers.push([`queue ${index} ${channel.capacity}`, `${name} is full`]);
  });
  for (let actor = 0; actor < run.columns.actorCount; actor++) {
    if (run.isCaller(actor)) offers.push([`actor ${actor}`, `a call of ${isolated(names.actor(actor))}`]);
  }
  return offers;
}
