// Values in words: a text between quotation marks, or what a value without one is called.

import { outside, quoted } from "../base/dom.js";

export function valueWords(run, channel, number) {
  const words = run.names.value(channel, number);
  return run.names.isOrdinal(channel, number) ? outside(words) : quoted(words);
}

// The same of the value that was sent at a place.
export function sentWords(run, place) {
  return valueWords(run, ...run.sentAt(place));
}
