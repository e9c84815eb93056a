// Searches the calls for a text: in the texts of values, in the names of actors, channels and handles, in places in the sources, and in calls and
// replies. All hits are found, so that they can be counted, and marked on the strip.

import { visible } from "../base/text.js";
import { Hits } from "../run/hits.js";
import { Sought, folded } from "../run/sought.js";

// Whether an actor is the test itself.
function isOfTest({ names }, actor) {
  const { test } = names.ending;
  return test !== undefined && names.shortActor(actor) === visible(test);
}

// Which calls stand at places in the sources that have the text, by their own places: 1 for each that does. It is empty where no place has it.
function locatedIn({ names, columns, channels }, has) {
  const { locations, calls } = names.tables;
  const areWanted = Uint8Array.from(locations.map(([file, line]) => Number(has(`${file}:${line}`))));
  if (!areWanted.includes(1)) return new Uint8Array();
  const counts = new Uint32Array(channels.length);
  return columns.channels.map((channel, place) => (place === 0 ? 0 : areWanted[calls[channel]?.[counts[channel]++]] ?? 0));
}

// Which of a run's things have the text in their names as the page shows them, by their numbers. In the calls and their replies the engine looks for it.
function wantedOf(run, sought) {
  const { names, actors, channels, lives } = run;
  const { text } = sought;
  const has = name => folded(name).includes(text);
  // A test makes most calls itself: a part of its name is no reason to find all of them.
  const ofActor = (name, actor) => (isOfTest(run, actor) ? folded(name) === text : has(name));
  return {
    text,
    actors: Uint8Array.from(actors.names, (name, actor) => Number(ofActor(name, actor))),
    channels: Uint8Array.from(channels, (_, channel) => Number(has(names.channel(channel)))),
    located: locatedIn(run, has),
    handles: lives.map((lives, channel) => lives.filter(({ handle }) => has(names.handle(channel, handle) ?? "")).map(({ handle }) => handle)),
    values: channels.map((_, channel) => names.tables.values.numbersWith(channel, sought)),
  };
}

// Returns the hits of a text, or null where `isOver` says that nobody waits for them any more.
export async function hitsOf(run, text, isOver) {
  const hits = await run.search(wantedOf(run, new Sought(text)));
  return isOver() ? null : new Hits(hits);
}

// The console's conditions, with what comes after their word: a channel, a handle of it, an actor, or a number or word as it is.
const CONDITIONS = {
  actor: ["actor"], channel: ["channel"], reply: ["word"], unread: ["channel", "handle", "word"], lagging: ["channel", "handle"],
  unseen: ["channel", "handle"], version: ["channel", "word"], closed: ["channel"], queue: ["channel", "word"],
};

// The things of a kind, as the number that the console has for each with its name.
function namedThings(run, kind, channel) {
  if (kind === "actor") return run.actors.names.map((name, actor) => [actor, name, run.names.shortActor(actor)]);
  if (kind === "channel") return run.channels.map((_, number) => [number, run.names.channel(number)]);
  return (run.lives[channel] ?? []).map(life => [life.handle, run.names.handle(channel, life.handle), run.ownerOf(channel, life)]);
}

// Takes a number or a name from the front of a text, the longest name that it begins with. Returns the number and what is left, or null.
function taken(run, kind, text, channel) {
  const number = /^(\S+)\s*(.*)$/s.exec(text);
  if (kind === "word" || /^\d+(\s|$)/.test(text)) return number && [number[1], number[2]];
  const rest = folded(text);
  const those = namedThings(run, kind, channel).flatMap(([it, ...names]) => names.filter(name => name && startsWithName(rest, folded(name))).map(name => [it, name.length]));
  const found = those.sort((a, b) => b[1] - a[1])[0];
  return found ? [String(found[0]), text.slice(found[1]).trim()] : null;
}

function startsWithName(text, name) {
  return text.startsWith(name) && /^(\s|$)/.test(text.slice(name.length));
}

// Returns a condition as the console has it, with numbers in place of names, or null for a text that is none.
export function conditionOf(run, text) {
  const [, word, args] = /^(\S*)\s*(.*)$/s.exec(text);
  if (!Object.hasOwn(CONDITIONS, word) || args === "") return null;
  let left = args;
  const parts = [word];
  for (const kind of CONDITIONS[word]) {
    const found = taken(run, kind, left, Number(parts[1]));
    if (found === null) return word === "reply" || /^\d/.test(args) ? text : null;
    parts.push(found[0]);
    left = found[1];
  }
  return left === "" ? parts.join(" ") : text;
}
