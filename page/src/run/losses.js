// The losses of a run, by receiver and by place.

import { RECEIVED } from "./marks.js";
import { countUpTo } from "./values.js";

// Finds the stretches of places that overlap others. They are in the order in which they begin, and a tree over them has the last end of each half.
class Overlaps {
  /** @param {Loss[]} stretches in the order of the places where they begin */
  constructor(stretches) {
    this.stretches = stretches;
    this.size = 1;
    while (this.size < stretches.length) this.size *= 2;
    // Node 1 is the root, node i has the nodes 2i and 2i + 1 below it, and the leaves are the stretches.
    this.ends = new Uint32Array(2 * this.size);
    stretches.forEach(({ to }, i) => { this.ends[this.size + i] = to; });
    for (let i = this.size - 1; i > 0; i--) this.ends[i] = Math.max(this.ends[2 * i], this.ends[2 * i + 1]);
  }

  // Returns the stretches that begin at `last` or before it, and end at `first` or after it, in their order.
  /** @returns {Loss[]} */
  between(first, last) {
    const found = [];
    this.gather(1, first, last, found);
    return found;
  }

  // Appends those below a node. Returns whether some further on may begin early enough.
  gather(node, first, last, found) {
    if (this.ends[node] < first) return true;
    if (node < this.size) return this.gather(2 * node, first, last, found) && this.gather(2 * node + 1, first, last, found);
    const stretch = this.stretches[node - this.size];
    if (stretch === undefined || stretch.from > last) return false;
    found.push(stretch);
    return true;
  }
}

const END = ["told", "dropped", "open"];
const NUMBERS = 6;

// The losses in numbers of the engine, in the order of the places where they begin. Those that are open end behind the last place.
/** @returns {Loss[]} */
export function lossesIn(numbers, lastPlace) {
  return Array.from({ length: numbers.length / NUMBERS }, (_, i) => {
    const [channel, receiver, from, lost, end, to] = numbers.subarray(NUMBERS * i, NUMBERS * (i + 1));
    return { channel, receiver, from, lost, end: /** @type {Loss["end"]} */ (END[end]), to: END[end] === "open" ? lastPlace + 1 : to };
  });
}

// The places behind a lead where losses begin, and where they end, each once and in their order.
function stopsOf(all, lead) {
  const places = new Uint32Array(2 * all.length);
  let count = 0;
  for (const { from, end, to } of all) {
    if (from > lead) places[count++] = from;
    if (end !== "open") places[count++] = to;
  }
  return places.subarray(0, count).sort().filter((place, i, sorted) => i === 0 || sorted[i - 1] !== place);
}

export class Losses {
  /** @param {Loss[]} all in the order of the places where they begin */
  constructor(run, all) {
    this.run = run;
    this.all = all;
    this.overlaps = new Overlaps(all);
    this.byChannel = sorted(all, run.channels.length);
    this.byLives = new WeakMap();
    this.stops = stopsOf(all, run.lead);
    this.byReceiver = run.channels.map(() => new Map());
    this.reading = readersIn(run, all);
    // The sums of the channels, with the failure of the test that they were counted with.
    this.counted = { failure: undefined, sums: [] };
    for (const loss of all) {
      const those = this.byReceiver[loss.channel].get(loss.receiver);
      if (those) those.push(loss);
      else this.byReceiver[loss.channel].set(loss.receiver, [loss]);
    }
  }

  // How many values each channel's receivers lost, of how many of them nobody was told, how many were open at the failure of the test, and how many
  // receivers lost that were ever read by.
  get sums() {
    if (this.counted.failure !== this.failure) this.counted = { failure: this.failure, sums: this.count() };
    return this.counted.sums;
  }

  count() {
    const sums = this.run.channels.map(() => ({ lost: 0, untold: 0, unwound: 0, read: 0 }));
    if (this.run.isBeginning) return sums;
    for (const loss of this.all) {
      const sum = sums[loss.channel];
      sum.lost += loss.lost;
      if (this.reading.has(keyOf(loss.channel, loss.receiver))) sum.read += loss.lost;
      if (this.isUnwound(loss)) sum.unwound += loss.lost;
      else if (loss.end !== "told") sum.untold += loss.lost;
    }
    return sums;
  }

  // The place at which the test failed, or null.
  get failure() {
    return this.run.account?.failure ?? null;
  }

  // Whether a loss ended by a drop after the panic or error that ended the test. Its receiver wasn't told by then.
  isUnwound({ end, to }) {
    return end === "dropped" && this.failure !== null && to > this.failure;
  }

  /** @returns {Loss[]} */
  of(channel, receiver) {
    return this.byReceiver[channel].get(receiver) ?? [];
  }

  // All losses of a channel, in the order in which they begin.
  /** @returns {Loss[]} */
  on(channel) {
    return this.byChannel[channel];
  }

  // All losses of the receivers in a row, in the order in which they begin: the same array each time.
  /** @returns {Loss[]} */
  along(channel, lives) {
    if (!this.byLives.has(lives)) this.byLives.set(lives, lives.flatMap(life => this.of(channel, life.handle)));
    return this.byLives.get(lives);
  }

  // The losses that a place is in, or that end there, by channel and receiver.
  /** @returns {Loss[]} */
  at(place) {
    return this.between(place, place).sort((a, b) => a.channel - b.channel || a.receiver - b.receiver);
  }

  // Of each receiver the last loss that begins up to `last`, if it ends at `first` or later.
  between(first, last) {
    return this.overlaps.between(first, last).filter(loss => {
      const those = this.of(loss.channel, loss.receiver);
      return those[lastFrom(those, last)] === loss;
    });
  }

  // Returns the nearest place where a loss begins or ends, after a place or before it, or null.
  next(place, isBack) {
    const index = isBack ? countUpTo(this.stops, place - 1) - 1 : countUpTo(this.stops, place);
    return this.stops[index] ?? null;
  }

  // The number of the first value that a loss lost, once the channel's values are loaded, as for all that follows: the one that was overwritten
  // where the loss begins.
  firstOf({ channel, from }) {
    return this.run.values.overwrittenUpTo(channel, from) - 1;
  }

  // How many of the journal's values a loss has.
  countIn({ lost, before = 0, here = 0 }) {
    return lost - before + here;
  }

  // How many of a loss's values are overwritten at a place.
  lostAt(loss, place) {
    const { channel, lost, before = 0, here = 0 } = loss;
    return Math.min(lost, this.run.values.overwrittenUpTo(channel, place) - this.firstOf(loss) + before - here);
  }

  // The number of the value of a loss that was overwritten at a place, where `now` were lost by then.
  numberAt(loss, now) {
    const { before = 0, here = 0 } = loss;
    return this.firstOf(loss) + now - before + here - 1;
  }

  // The losses of other receivers that lost some of the same values: they lag where one of these values is overwritten.
  /** @returns {Loss[]} */
  sharing(loss) {
    const last = this.run.values.overwritten(loss.channel)[this.firstOf(loss) + this.countIn(loss) - 1];
    return this.between(loss.from + 1, last).filter(it => it.channel === loss.channel && it.receiver !== loss.receiver);
  }

  // The texts of this many of a loss's values, with the places where they were sent and overwritten. Those that were overwritten before a window it
  // doesn't have.
  valuesOf(loss, most) {
    const { values } = this.run;
    const { before = 0, here = 0 } = loss;
    const first = this.firstOf(loss) + here;
    return Array.from({ length: Math.max(0, Math.min(most, loss.lost - before)) }, (_, i) => ({
      text: values.text(loss.channel, first + i), sent: values.sendOf(loss.channel, first + i),
      overwritten: values.overwritten(loss.channel)[first + i],
    }));
  }
}

// A receiver as a number. A channel has fewer handles than this.
function keyOf(channel, receiver) {
  return channel * 2 ** 20 + receiver;
}

// The receivers that lost values and were ever read by: they lagged, or received a value.
function readersIn({ columns, lastPlace }, losses) {
  const readers = new Set(losses.filter(({ end }) => end === "told").map(({ channel, receiver }) => keyOf(channel, receiver)));
  if (losses.every(({ channel, receiver }) => readers.has(keyOf(channel, receiver)))) return readers;
  const last = Math.min(lastPlace, columns.marks.length - 1);
  for (let place = 1; place <= last; place++) {
    if (columns.marks[place] === RECEIVED) readers.add(keyOf(columns.channels[place], columns.handles[place]));
  }
  return readers;
}

// Sorts losses by their channels.
function sorted(losses, count) {
  const made = Array.from({ length: count }, () => []);
  for (const loss of losses) made[loss.channel].push(loss);
  return made;
}

// The index of the last loss that begins at a place or before it. A receiver's losses don't overlap, but one may begin where another ends.
function lastFrom(losses, place) {
  let least = 0;
  let end = losses.length;
  while (least < end) {
    const middle = (least + end) >> 1;
    if (losses[middle].from <= place) least = middle + 1;
    else end = middle;
  }
  return least - 1;
}

// The place where a receiver last received a value before its loss, or 0.
export function lastReceived({ columns }, { channel, receiver, from }, made) {
  for (let place = from; place > made; place--) {
    if (columns.handles[place] === receiver && columns.channels[place] === channel && columns.marks[place] === RECEIVED) return place;
  }
  return 0;
}
