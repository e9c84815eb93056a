// The engine, in a thread beside the page's own: each request is a message, and gets one message as its reply.

import { inflated } from "./base/inflating.js";
import { Closed, Engine } from "./worker/engine.js";
import { comparedWith, foundIn, hitsOf, levelsIn, salvagedFrom, statesAt } from "./worker/found.js";
import { openRun } from "./worker/opening.js";

// The engine, once it is unpacked. Requests wait for it, and are answered in their order.
let starting = null;
let engine = null;
// How many channels the opened run has.
let channels = 0;

const text = ([bytes]) => new TextDecoder().decode(bytes);

const requests = {
  start(packed) {
    starting = inflated(packed, "deflate").then(module => { engine = new Engine(module); });
    return starting;
  },
  // A piece of the text that is opened or taken next, where it begins, and how long all of it is. The buffer goes back to the page.
  piece(bytes, at, length) {
    engine.write(bytes, at, length);
    return new Uint8Array(bytes.buffer);
  },
  open(places) {
    const opened = openRun(engine, null, places);
    channels = opened.lives?.length ?? 0;
    return opened;
  },
  // Takes the text as that of the file of names of the opened run, which is empty where there is none.
  name: () => engine.name(),
  // What is found in the whole run.
  found: () => foundIn(engine, channels),
  account: () => engine.textOf("account"),
  // How the opened run differs from another run of the same test: its journal text, and that of its names.
  against: (journal, names) => comparedWith(engine, journal, names),
  levels: (wanted, from, each, count) => levelsIn(engine, wanted, from, each, count),
  search: wanted => hitsOf(engine, wanted),
  // What is left of a truncated journal text, or null.
  salvage: bytes => salvagedFrom(engine, bytes),
  // The states at some places of the opened run, and what commands write over it.
  states: places => statesAt(engine, places),
  ask: commands => engine.textOf("ask", commands),
  debug: (journal, commands) => text(engine.call("debug", journal, commands)),
  session: input => text(engine.call("session", input)),
};

// The lists of numbers of an answer are handed over, since copying them is slow. A text has none, and each of its letters would be looked at.
function handedOver(answer) {
  if (typeof answer === "string") return [];
  const lists = answer?.buffer ? [answer] : [...Object.values(answer ?? {}), ...Object.values(answer?.columns ?? {})];
  return lists.filter(it => it?.buffer instanceof ArrayBuffer).map(({ buffer }) => buffer);
}

self.onmessage = async ({ data: { number, request, values } }) => {
  try {
    await starting;
    const answer = await requests[request](...values);
    self.postMessage({ number, answer }, { transfer: handedOver(answer) });
  } catch (error) {
    self.postMessage({ number, fault: error.message, isClosed: error instanceof Closed });
  }
};
