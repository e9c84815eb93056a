// The places that a search has found, as a bit for each place of the run: a text may have as many hits as there are calls.

import { countUpTo } from "./values.js";

// In a word.
const BITS = 32;

function countIn(word) {
  const pairs = word - (word >>> 1 & 0x55555555);
  const fours = (pairs & 0x33333333) + (pairs >>> 2 & 0x33333333);
  return Math.imul(fours + (fours >>> 4) & 0x0f0f0f0f, 0x01010101) >>> 24;
}

export class Hits {
  constructor(words = new Uint32Array()) {
    this.words = words;
    // How many there are before each word.
    this.before = new Uint32Array(words.length + 1);
    for (let i = 0; i < words.length; i++) this.before[i + 1] = this.before[i] + countIn(words[i]);
  }

  // Those of a list in ascending order.
  static of(places) {
    const words = new Uint32Array(Math.floor((places.at(-1) ?? 0) / BITS) + 1);
    for (const place of places) words[Math.floor(place / BITS)] |= 1 << place % BITS;
    return new Hits(words);
  }

  get length() {
    return this.before[this.words.length];
  }

  // How many are at most this place.
  upTo(place) {
    const word = Math.floor(place / BITS);
    if (word < 0 || word >= this.words.length) return word < 0 ? 0 : this.length;
    return this.before[word] + countIn(this.words[word] & 2 ** (place % BITS + 1) - 1);
  }

  // The one with this index, or undefined.
  at(index) {
    if (index < 0 || index >= this.length) return undefined;
    const word = countUpTo(this.before, index) - 1;
    let bits = this.words[word];
    for (let before = this.before[word]; before < index; before++) bits &= bits - 1;
    return BITS * word + BITS - 1 - Math.clz32(bits & -bits);
  }

  // The first from a place on, or undefined.
  from(place) {
    return this.at(this.upTo(place - 1));
  }

  // The index of one that is at this place, or -1.
  indexOf(place) {
    const index = this.upTo(place) - 1;
    return this.at(index) === place ? index : -1;
  }
}
