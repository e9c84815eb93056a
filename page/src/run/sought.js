// A text that is looked for in other texts as the page shows them, whatever the case of its letters.

import { visible } from "../base/text.js";

// Texts of these characters alone are shown as they are.
const PLAIN = /^[ -~]*$/;
const QUOTE = 34;
const BACKSLASH = 92;

// The small letter of each character of one byte, or else that character.
const FOLDED = Uint8Array.from({ length: 256 }, (_, byte) => (byte < 128 ? String.fromCharCode(byte).toLowerCase().charCodeAt(0) : byte));

export function folded(text) {
  return text.toLowerCase();
}

// Returns the table of a search by Horspool's algorithm: how far the search moves on, by the byte at which the last one of the text was compared.
function skipsOf(bytes) {
  const skips = new Uint32Array(256).fill(bytes.length);
  const last = bytes.length - 1;
  for (let byte = 0; byte < skips.length; byte++) {
    const at = bytes.lastIndexOf(FOLDED[byte], last - 1);
    if (last > 0 && at >= 0) skips[byte] = last - at;
  }
  return skips;
}

export class Sought {
  constructor(text) {
    this.text = folded(visible(text));
    this.isPlain = PLAIN.test(this.text);
    this.pattern = new RegExp(this.text.replace(/[.*+?^${}()|[\]\\/]/g, "\\$&"), "i");
    // As a text of JSON has it.
    this.bytes = new TextEncoder().encode(this.text.replace(/["\\]/g, "\\$&"));
    this.skips = skipsOf(this.bytes);
  }

  // Whether a text of a value has it.
  isIn(text) {
    return this.isPlain && PLAIN.test(text) ? this.pattern.test(text) : folded(visible(text)).includes(this.text);
  }

  // Whether a text of JSON has it that begins there with its quotation mark. It has plain characters alone, and escapes no others than that mark and
  // `\`: so what is found from a whole character on doesn't go on behind its end.
  isInPlain(json, start) {
    const { bytes } = this;
    if (!this.isPlain) return false;
    for (let at = start + 1; json[at] !== QUOTE; at += json[at] === BACKSLASH ? 2 : 1) {
      let same = 0;
      while (same < bytes.length && FOLDED[json[at + same]] === bytes[same]) same++;
      if (same === bytes.length) return true;
    }
    return bytes.length === 0;
  }

  // Where it stands next in some bytes, whatever they are a part of, or `end`. Most of those before aren't looked at.
  nextIn(json, from, end) {
    const { bytes, skips } = this;
    const last = bytes.length - 1;
    for (let to = from + last; to < end; to += skips[json[to]]) {
      let at = last;
      while (at >= 0 && FOLDED[json[to - last + at]] === bytes[at]) at--;
      if (at < 0) return to - last;
    }
    return end;
  }
}
