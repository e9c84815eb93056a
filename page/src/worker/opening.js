// What the engine says of an opened text: what is wrong with it, or its run in columns.

import { KINDS } from "../run/kinds.js";
import { readStates } from "../run/states.js";
import { Fault } from "./engine.js";
import { lossesOf, statesAt } from "./found.js";

// Past every place.
const NONE = 2 ** 32 - 1;

const FAULT = /^(journal|script) fault (.*)$/;

// The handles of each channel by number. `counts` has how many there are, and `numbers` what each is, and who used it.
/** @returns {Life[][]} */
function livesOf(counts, numbers) {
  let at = 0;
  return Array.from(counts, count => Array.from({ length: count }, (_, handle) => {
    const [kind, from, to, user, last] = numbers.subarray(at, at += 5);
    return { handle, kind: KINDS[kind], from, to, user: user === NONE ? null : user, last };
  }));
}

function opened(engine, text) {
  try {
    return engine.open(text);
  } catch (error) {
    const fault = error instanceof Fault && FAULT.exec(error.message);
    if (fault) return { of: fault[1], text: fault[2] };
    throw error;
  }
}

// Opens a journal text or a script: this one, or else the one that was written in pieces. The states at `places` are read together with the opening, as far
// as there are such places.
export function openRun(engine, text, places) {
  const parts = opened(engine, text);
  if (!Array.isArray(parts)) return { fault: parts };
  const [made, [lastPlace, waitingLine], actors, channels, handles, marks, starts, counts, lives] = parts;
  const [opening, ...states] = readStates(statesAt(engine, [0, ...places, lastPlace]), counts.length, lastPlace);
  return {
    lastPlace, opening, states, ending: states.at(-1),
    // The page has the text that it sent.
    journal: made.length > 0 ? made : null,
    columns: { actors, channels, handles, marks, starts, actorCount: actors.reduce((most, actor) => Math.max(most, actor), 0) + 1 },
    losses: lossesOf(engine),
    lives: livesOf(counts, lives),
    waitingLine: waitingLine === NONE ? null : waitingLine,
  };
}
