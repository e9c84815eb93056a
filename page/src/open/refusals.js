// Why a file is refused: the fault of a text as the debugger reports it, what that means, and the lines around it; and why a file of names isn't one of
// the opened run.

import { element, outside } from "../base/dom.js";
import { countOf, grouped } from "../base/numbers.js";

// The calls by which a value gets into a channel, with the value as the first of their arguments.
const SENT = new Set(["sent", "stored", "old", "told", "no-receivers"]);

function largest(keys) {
  return keys.reduce((most, key) => Math.max(most, Number(key)), -1);
}

// Whether the run has one of the values with these texts on a channel: as a sent value, or as the first one of a watch. Also true if the
// channel has no value at all.
function hasOneOf(run, channel, texts) {
  const { channels } = run.columns;
  const first = run.channels[channel].value;
  const has = value => texts.text(channel, value) !== undefined;
  if (first !== undefined && has(first)) return true;
  let isSilent = true;
  for (let place = 1; place <= run.lastPlace; place++) {
    if (channels[place] !== channel) continue;
    const entry = run.entry(place);
    if (!SENT.has(entry.reply) || entry.rest === "") continue;
    if (has(entry.rest.split(" ")[0])) return true;
    isSilent = false;
  }
  return isSilent;
}

// Returns why the names are those of another run, or null if nothing speaks against them.
export function misfit(names, run) {
  const { channels, handles, values, calls } = names.tables;
  const last = Math.max(...[...[channels, handles, calls].map(Object.keys), values.channels].map(largest));
  if (last >= run.channels.length) {
    return `it names channel ${grouped(last)}, and this run has ${countOf(run.channels.length, "channel")}, from 0 on`;
  }
  for (const channel of values.channels) {
    const count = values.count(channel);
    if (count > 0 && !hasOneOf(run, Number(channel), values)) {
      return `none of the ${countOf(count, "value")} that it names on channel ${channel} is sent there in this run`;
    }
  }
  return misfitOfCalls(names.tables.calls, run) ?? misfitOfText(names.journal, run);
}

// The places of calls are by the order of a channel's entries, so there are as many: of a truncated run, perhaps more.
function misfitOfCalls(calls, run) {
  const counts = new Uint32Array(run.channels.length);
  if (Object.keys(calls).length > 0) for (const channel of run.columns.channels.subarray(1)) counts[channel]++;
  for (const [channel, list] of Object.entries(calls)) {
    if (list.length === counts[channel] || (run.isCut && list.length > counts[channel])) continue;
    return `it has ${countOf(list.length, "call")} of channel ${channel}, and this run has ${grouped(counts[channel])}`;
  }
  return null;
}

// The names may have the checksum of their journal. Of a script, and of a truncated journal, the page doesn't have that text.
function misfitOfText(sum, run) {
  if (sum === null || !run.isWholeJournal || sum === checksum(run.journal)) return null;
  return "it was written beside another journal";
}

// The prime of the 64-bit FNV-1a hash, which is the checksum that a file of names has of its journal. It is 2^40 + PRIME_LOW.
const PRIME_LOW = 0x1b3;

// Returns the hash of these bytes as 16 hexadecimal digits. Its 64 bits are two words, since a number has only 53.
function checksum(bytes) {
  let high = 0xcbf29ce4;
  let low = 0x84222325;
  for (let i = 0; i < bytes.length; i++) {
    low ^= bytes[i];
    // The product of the lower word has 41 bits. Its two halves of 16 bits have none that a 32-bit sum would lose.
    const half = (low & 0xffff) * PRIME_LOW;
    const carry = ((low >>> 16) * PRIME_LOW + (half >>> 16)) >>> 16;
    high = (Math.imul(high, PRIME_LOW) + carry + (low << 8)) | 0;
    low = Math.imul(low, PRIME_LOW);
  }
  return [high, low].map(word => (word >>> 0).toString(16).padStart(8, "0")).join("");
}

const AROUND = 4;
const MOST_SHOWN = 256;

const MEANINGS = {
  malformed: "such a line can't be here",
  "limit-exceeded": "the line is too long, or a number in it is outside its limits",
  "wrong-order": "the stamp does not come after those of the calls before it",
  "wrong-reply": "the recorded reply is not the one that this call gives",
  truncated: "the text ends before its last line does",
  "too-long": "the line has more than 256 bytes",
  syntax: "the line is not one of a script",
  "bad-capacity": "the capacity is 0 or above 65,536",
  "too-many-channels": "there are more than 64 channels",
  "bad-actors": "the number of actors is 0 or above 64",
  "unknown-actor": "there is no such actor",
  "unknown-channel": "there is no such channel",
  "wrong-word": "this kind of channel has no such call",
  "bad-arguments": "these are not the arguments that the call takes",
  "unknown-name": "no earlier line of this actor on this channel gives this name",
  "name-taken": "an earlier line gives this name",
  "too-many-steps": "there are more than 1,048,576 calls",
  "no-channels": "there is no channel line",
};

// Parses a fault into its kind and line: `wrong-reply 4`, `4 syntax` or `truncated`. A truncated text is at fault in its last line.
function takeApart(text, lineCount) {
  const words = text.split(" ");
  return {
    kind: words.find(word => /^\D/.test(word)),
    line: Number(words.find(word => /^\d/.test(word)) ?? lineCount),
  };
}

function numbered(lines, number, isFaulty) {
  const text = lines[number - 1].slice(0, MOST_SHOWN);
  return element("li", { value: number, ...(isFaulty ? { "aria-current": "true" } : {}) }, element("code", {}, outside(text)));
}

// Which line of a text is wrong, and how.
export function wrongLine(fault, bytes) {
  const { kind, line } = takeApart(fault.text, new TextDecoder().decode(bytes).trimEnd().split("\n").length);
  return `line ${grouped(line)}: ${MEANINGS[kind]}`;
}

// `fault` has the kind of text that is refused (`of`), and the text of the fault.
export function faultPanel(fault, bytes) {
  const lines = new TextDecoder().decode(bytes).split("\n");
  if (lines.at(-1) === "") lines.pop();
  const { kind, line } = takeApart(fault.text, lines.length);
  const shown = [];
  for (let number = Math.max(1, line - AROUND); number <= Math.min(lines.length, line + AROUND); number++) {
    shown.push(numbered(lines, number, number === line));
  }
  return [
    element("h2", {}, `This ${fault.of} is refused`),
    element("p", {}, element("code", { class: "fault" }, `${fault.of} fault ${fault.text}`)),
    element("p", {}, `Line ${grouped(line)}: ${MEANINGS[kind]}.`),
    element("ol", { class: "lines" }, ...shown),
  ];
}
