// The calls that wait at the end: of a script the one that would wait, and of a recorded run those that its file of names has. Each
// has a mark after the last place.

import { sinceText } from "../base/numbers.js";
import { isolated, visible } from "../base/text.js";
import { stepsOf } from "./bindings.js";

const CALL = /^(\d+) (\d+) ([a-z-]+) (\S+)/;

// Returns the handle that a step names: by its number, or by the name that an earlier step gave to the handle that it made. Each of
// the earlier steps is an entry.
function handleOf(word, steps, run) {
  const binding = steps.findIndex(step => step.endsWith(` as ${word}`));
  return Number(binding < 0 ? word : run.entry(binding + 1).answer);
}

// Parses the call in this line of the script. The first line is 1.
export function waitingCall(bytes, lineNumber, run) {
  const steps = stepsOf(bytes, lineNumber);
  const text = steps.pop();
  const [, actor, channel, word, handle] = CALL.exec(text);
  return {
    line: lineNumber, text, actor: Number(actor), channel: Number(channel), word, handle: handleOf(handle, steps, run), since: run.lastPlace, said: "would wait",
  };
}

// Returns the calls that waited when the names were written, unless they are of channels that this run doesn't have. One that was woken then and hadn't gone
// on says so.
export function waitsOf(run) {
  return run.names.waiting.filter(({ channel }) => channel < run.channels.length).map(it => ({
    actor: it.actor, channel: it.channel, handle: it.handle, word: it.call, since: run.placeOf(it.since), text: waitText(it, run),
    said: it.woken ? "was woken" : "waits",
  }));
}

// The actors that waited then, who may have made no call before. Of a file of names from elsewhere, those that it names.
export function waitingActors({ waiting, tables: { actors } }) {
  const named = Object.keys(actors).length;
  return waiting.map(({ actor }) => actor).filter(actor => actor < named);
}

// Whose look holds the lock of a watch's value that a call waits for, as far as the names say it.
function holderText(holder, run) {
  if (!holder) return "";
  if (!Number.isSafeInteger(holder.actor)) return ", for the lock of the value";
  const place = run.names.location(holder.location);
  return `, for a look taken${place ? ` at ${place}` : ""} by ${isolated(run.names.actor(holder.actor))}`;
}

function waitText({ actor, channel, handle, call, since, location, woken, held_by: holder }, run) {
  const place = run.names.location(location);
  const whose = run.lifeOf(channel, handle) ? run.titleOf(channel, handle) : `handle ${handle}`;
  const who = isolated(run.names.actor(actor));
  const where = isolated(run.names.channel(channel));
  const begun = `${visible(call)} of ${whose} on ${where} since ${sinceText(run.placeOf(since), run.lead)}${place ? `, at ${place}` : ""}`;
  return woken ? `${who} waited in ${begun}, and was woken` : `${who} waits in ${begun}${holderText(holder, run)}`;
}
