// What handles have to do with what the account tells: their rows stand above the others of their channel, and those that something went wrong at are
// marked. It is known where the account comes with the names, so that no row moves later.

import { grouped } from "../base/numbers.js";

// What a handle did, by the role of its call in a fact.
const DID = { cause: "overwrote", close: "closed it" };

// Steps that are no call of the fact.
const NO_CALLS = ["panic", "failure", "end"];

// What a receiver has to do with a fact of a kind.
const OF_RECEIVER = {
  loss: ({ lost, end }) => `lost ${grouped(lost ?? 0)}${end === "told" ? "" : ", never told"}`,
  unlearned: ({ changes }) => `missed ${grouped(changes ?? 0)}`,
  unlooked: ({ changes }) => `marked ${grouped(changes ?? 0)} unseen`,
  wait: () => "waits",
  dropped: () => "waited",
  empty: () => "found nothing",
};

// Facts that are often as they should be: only where the report tells of them in full they aren't.
const USUAL = ["empty", "closing"];

// Of how many facts the handles have rows of their own, above the others.
const MOST_FACTS = 24;

/**
 * @typedef {object} Part
 * @property {number} rank the facts' order
 * @property {string} word what it did or what happened to it, or an empty text
 */

function add(parts, channel, handle, rank, word) {
  const of = parts.get(channel) ?? new Map();
  parts.set(channel, of);
  const there = of.get(handle);
  if (there === undefined) of.set(handle, { rank, word });
  else if (there.word === "") there.word = word;
}

function addFact(parts, run, fact, rank) {
  const { channels, handles } = run.columns;
  for (const { place, role } of fact.places) {
    const isCall = place > run.lead && place <= run.lastPlace && !NO_CALLS.includes(role);
    if (isCall && (role in DID || channels[place] === fact.channel)) add(parts, channels[place], handles[place], rank, DID[role] ?? "");
  }
  const handle = fact.receiver ?? fact.handle;
  const said = OF_RECEIVER[fact.kind];
  if (Number.isSafeInteger(handle) && run.lives[fact.channel]?.[handle]) add(parts, fact.channel, handle, rank, said ? said(fact) : "");
}

// By channel, and then by handle, what they have to do with the facts. The channel of the first fact is the first.
/** @returns {Map<number, Map<number, Part>>} */
export function partsOf(run) {
  const parts = new Map();
  const { facts, rest } = run.names.account ?? { facts: [], rest: { after: 0 } };
  const wrong = facts.slice(0, MOST_FACTS).filter(({ kind }, rank) => rank < rest.after || !USUAL.includes(kind));
  wrong.forEach((fact, rank) => addFact(parts, run, fact, rank));
  return parts;
}
