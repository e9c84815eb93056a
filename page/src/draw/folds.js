// Which of the picture's bands are folded, by which text its rows are filtered, and in which order the channels are.

export const ACTORS = "actors";

const MANY_ACTORS = 10;
const MANY_CHANNELS = 24;

// What is folded at first: very many actors, and of very many channels those that lost nothing.
function firstKeys(run) {
  const quiet = [...run.channels.keys()].filter(channel => run.losses.sums[channel].lost === 0);
  return [...(run.channels.length > MANY_CHANNELS ? quiet : []), ...(run.callerCount > MANY_ACTORS ? [ACTORS] : [])];
}

export class Folds {
  // What is folded, the filter and the order are those of `shown`.
  /** @param {import("../run/shown.js").Shown} shown */
  constructor(run, shown) {
    this.run = run;
    this.shown = shown;
    this.keys = new Set(firstKeys(run));
    this.firstText = this.text;
    /** @type {number[]} the channels that the account tells of, in its order */
    this.first = [];
  }

  get keys() {
    return this.shown.folded;
  }

  set keys(keys) {
    this.shown.folded = keys;
  }

  get filter() {
    return this.shown.filter;
  }

  set filter(text) {
    this.shown.filter = text;
  }

  get isByNumber() {
    return this.shown.isByNumber;
  }

  set isByNumber(is) {
    this.shown.isByNumber = is;
  }

  has(key) {
    return this.keys.has(key);
  }

  // The channels in their order: those first that the account tells of, then those whose receivers that were ever read by lost most, and then those of
  // others; or by number.
  get channels() {
    const { sums } = this.run.losses;
    const numbers = [...this.run.channels.keys()];
    const told = new Map(this.first.map((channel, i) => [channel, i - this.first.length]));
    const rank = channel => told.get(channel) ?? 0;
    return this.isByNumber ? numbers : numbers.sort((a, b) => rank(a) - rank(b) || sums[b].read - sums[a].read || sums[b].lost - sums[a].lost || a - b);
  }

  turn(key) {
    if (!this.keys.delete(key)) this.keys.add(key);
  }

  get all() {
    return [...this.run.channels.keys(), ACTORS];
  }

  get areAll() {
    return this.keys.size === this.all.length;
  }

  // Folds all bands, or unfolds them if all are folded.
  turnAll() {
    this.keys = new Set(this.areAll ? [] : this.all);
  }

  // The folded bands as a text, and back. What is no band is ignored.
  get text() {
    return this.all.filter(key => this.keys.has(key)).join(".");
  }

  // Whether the bands are folded as in a run that was just opened.
  get areFirst() {
    return this.text === this.firstText;
  }

  set text(text) {
    const wanted = new Set(text.split("."));
    this.keys = new Set(this.all.filter(key => wanted.has(String(key))));
  }

  matches(text) {
    return text.toLowerCase().includes(this.filter.toLowerCase());
  }
}
