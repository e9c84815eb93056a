// What became of each receiver over the whole run: what it received, what it lost, and how it stands at the end.

import { countOf, grouped, sinceText } from "../base/numbers.js";
import { visible } from "../base/text.js";
import { versionOf } from "../run/versions.js";
import { unlookedBy } from "./unlooked.js";

// Where a receiver was told that its channel is closed, or that it was created after that, or null.
function closedFor(run, channel, life) {
  const closing = run.closings.places[channel];
  if (closing === null) return null;
  if (life.from > closing) return "created after the close";
  const told = run.closings.told[channel].get(life.handle);
  return told === null ? null : `found closed at call ${grouped(told)}`;
}

// How a receiver stands at the end, in few words. `state` is its state there, unless it was dropped.
function endingOf(run, channel, life, state) {
  const { waiting } = run.names;
  const waits = waiting.find(it => it.channel === channel && it.handle === life.handle);
  if (life.to <= run.lastPlace) return `dropped at call ${grouped(life.to)}`;
  if (waits) {
    const begun = `in ${visible(waits.call)} since ${sinceText(run.placeOf(waits.since), run.lead)}`;
    return waits.woken ? `waited ${begun}, and was woken` : `waits ${begun}`;
  }
  const closed = closedFor(run, channel, life);
  if (closed !== null) return closed;
  if (state.seen !== undefined) return versionOf(run.ending.channels[channel], state, run.isWindow(channel));
  return state.unread > 0 ? "open, behind" : "open";
}

// What a receiver of a broadcast has to show in numbers. Of its losses only the last may be one that it never learned of, as one that is open. What
// that lost can't be read any more.
function numbersOf(losses, { received, lost, worst, worstPlace, unread }) {
  const last = losses.at(-1) ?? { end: "told", lost: 0 };
  const never = last.end === "told" ? 0 : last.lost;
  // A receiver may really have lagged by more when the window began than its lead lets it.
  const more = losses.reduce((sum, { before = 0, here = 0 }) => sum + before - here, 0);
  const all = lost + more;
  return {
    received, lost: all, told: all - never, never, isHeld: received === 0 && lost > 0 && never === all, greatest: worst + more, rest: unread === null ? null : unread - never + more,
    worst: losses.find(({ from, to }) => from <= worstPlace && worstPlace < to) ?? null,
  };
}

// As many that a receiver of a watch doesn't have.
const NONE = { received: null, lost: null, told: null, never: null, isHeld: false, greatest: null, rest: null, worst: null };

function receiverOf(run, { channel, receiver, counts, unlooked: all }, state) {
  const life = run.lifeOf(channel, receiver);
  const unlooked = all && run.lead > 0 ? unlookedBy(run, channel, receiver).length : all;
  return {
    channel, life, name: run.names.channel(channel),
    get title() {
      return run.titleOf(channel, receiver);
    },
    ...(counts ? numbersOf(run.losses.of(channel, receiver), counts) : NONE),
    // Where it was created and dropped is loaded later than its counts.
    get ending() {
      return endingOf(run, channel, life, state) + (unlooked ? `, never looked at ${countOf(unlooked, "change")}` : "");
    },
  };
}

// Returns every receiver that the run's channels had, by channel, and then by its number.
export function receiversOf(run) {
  const states = run.ending.channels.map(({ receivers }) => new Map(receivers.map(state => [state.handle, state])));
  const own = run.totals.filter(({ channel, receiver }) => !run.isOfLead(run.lifeOf(channel, receiver)));
  return own.map(totals => receiverOf(run, totals, states[totals.channel].get(totals.receiver)));
}
