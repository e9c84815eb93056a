// The first calls of a long journal text, which are shown while all of it is read.

// In bytes: from which length on a text is long, and how much of it is its beginning.
const LONG = 2 << 20;
export const BEGINNING = 64 << 10;

const LINE_END = 10;
const [ZERO, NINE] = [48, 57];
const END = new TextEncoder().encode("end\n");

// Returns the whole lines at the beginning of a journal text as a journal text.
export function firstLines(text) {
  const size = text.lastIndexOf(LINE_END, BEGINNING) + 1;
  const made = new Uint8Array(size + END.length);
  made.set(text.subarray(0, size));
  made.set(END, size);
  return made;
}

// How many calls a journal text has: its whole lines that begin with a number.
export function callsIn(text) {
  let calls = 0;
  let first = 0;
  for (let i = 0; i < text.length; i++) {
    if (text[i] !== LINE_END) continue;
    if (text[first] >= ZERO && text[first] <= NINE) calls++;
    first = i + 1;
  }
  return calls;
}

export function isLong(text) {
  return text.length >= LONG;
}

// Returns what was opened of a beginning as that of a run of so many calls of which no more is known: handles that are alive at its end live on.
export function asBeginning(opened, lastPlace) {
  const lives = opened.lives.map(those => those.map(life => (life.to > opened.lastPlace ? { ...life, to: lastPlace + 1 } : life)));
  return { ...opened, isBeginning: true, lastPlace, lives };
}
