// A window: a run that doesn't begin where its channels were opened. Its first entries are a lead, calls that nobody made, which lead to the state in which
// the window begins. What the names say of it, and which losses are of the run.

import { grouped } from "../base/numbers.js";
import { countUpTo } from "./values.js";

// What the names say of a channel whose calls aren't all there.
export function windowOf(window, channel) {
  const found = window?.channels[channel];
  return found !== undefined && found.lead > 0 ? found : undefined;
}

// The number by which texts call a handle: its real one.
export function numberOf(window, channel, handle) {
  const number = window?.channels[channel]?.handles[handle];
  return number === null ? `${handle} of the lead` : String(number ?? handle);
}

// How many of a loss's values were overwritten before the window: really, and by the lead. `sends` has the places of its channel's sends.
export function lostBefore(window, sends, { channel, receiver, from }) {
  if (!window) return [0, 0];
  const here = Math.max(0, countUpTo(sends, window.lead) - countUpTo(sends, from - 1));
  const real = windowOf(window, channel)?.lags?.[receiver];
  return here > 0 && real !== undefined ? [real, here] : [here, here];
}

// The losses that didn't end in the lead.
/** @param {Loss[]} losses */
export function behindLead(window, losses) {
  return window ? losses.filter(({ end, to }) => end === "open" || to > window.lead) : losses;
}

const DAY = 86_400_000;

// The units of a duration with how many microseconds each has, and how many of it are said at most.
/** @type {[string, number, number][]} */
const UNITS = [["ms", 1_000, 1_000], ["s", 1_000_000, 120], ["min", 60_000_000, 120], ["h", 3_600_000_000, Infinity]];

function duration(microseconds) {
  const [name, of] = UNITS.find(([, of, most]) => Math.floor(microseconds / of) < most);
  return `${Math.floor(microseconds / of)} ${name}`;
}

// The number that is `part` of `whole` parts of the way from `from` to `to`.
function between(from, to, part, whole) {
  return whole === 0 ? from : from + Number(BigInt(to - from) * BigInt(part) / BigInt(whole));
}

// A time of the wall clock in UTC, as `2026-11-29 03:12:45.120`.
export function utc(wall) {
  return new Date(wall).toISOString().slice(0, -1).replace("T", " ");
}

// When the call with a stamp was made, in words, or null. Between two times that are known it is by the stamps.
export function timeOf(window, times, stamp) {
  if (!window) return null;
  // The dump may have the stamp of the last call, whose own time is before it.
  const next = countUpTo(times.map(([it]) => it), stamp - 1);
  const after = times[next];
  const before = after?.[0] === stamp ? after : times[next - 1];
  if (before === undefined || after === undefined) return null;
  const dump = times.at(-1);
  const [wall, monotonic] = [1, 2].map(i => between(before[i], after[i], stamp - before[0], after[0] - before[0]));
  const isSameDay = Math.floor(wall / DAY) === Math.floor(dump[1] / DAY);
  const left = Math.max(0, dump[2] - monotonic);
  return `at ${utc(wall).slice(isSameDay ? 11 : 0)} UTC, ${left < 1_000 ? "at the dump" : `${duration(left)} before the dump`}`;
}

function callsOf(lead, length) {
  const calls = length <= lead ? "no call" : length === lead + 1 ? `call ${grouped(length)}` : `calls ${grouped(lead + 1)} to ${grouped(length)}`;
  return lead === 0 ? calls : lead === 1 ? `${calls}; 1 leads to the window` : `${calls}; 1 to ${grouped(lead)} lead to the window`;
}

// When and why the window was written, and its calls by their numbers. `escaped` puts a text on one line.
export function windowText({ at, reason, lead }, length, escaped) {
  return `dump${at === null ? "" : ` of ${utc(at)} UTC`}: ${escaped(reason)}; ${callsOf(lead, length)}`;
}
