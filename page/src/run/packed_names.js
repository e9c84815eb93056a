// A long run's file of names has a text for each value and a place in the sources for each call. Those are the most of it, and few of them are shown.
// So they stay in the bytes of the file: what is made of them is where each text begins, and a list of numbers for each channel's calls.

const [SPACE, QUOTE, COMMA, ZERO, NINE, COLON, BACKSLASH, U, TILDE] = bytesOf(' ",09:\\u~');
const [LEFT_BRACKET, RIGHT_BRACKET, LEFT_BRACE, RIGHT_BRACE] = bytesOf("[]{}");
const GAPS = new Set(bytesOf(" \t\n\r"));
const ESCAPED = new Set(bytesOf('"\\/bfnrt'));
const NULL = bytesOf("null");
const HEXADECIMAL = /^[0-9a-fA-F]{4}$/;

// How a value's number is written.
const NUMBER = /^(0|[1-9]\d{0,18})$/;

// A number with more digits might not fit into a list's item.
const MOST_DIGITS = 9;

// Where a call has no place in the sources. No list of places is as long.
const NONE = 2 ** 32 - 1;

const decoder = new TextDecoder();

function bytesOf(text) {
  return new TextEncoder().encode(text);
}

function read(bytes, from, to) {
  return JSON.parse(decoder.decode(bytes.subarray(from, to)));
}

// That a text isn't in the form that the crate writes, so that all of it has to be read as any JSON is.
class Unlike extends Error {}

// A list of numbers that grows.
class Numbers {
  constructor() {
    this.list = new Uint32Array(256);
    this.length = 0;
  }

  push(number) {
    if (this.length === this.list.length) {
      const { list } = this;
      this.list = new Uint32Array(2 * list.length);
      this.list.set(list);
    }
    this.list[this.length++] = number;
  }

  get whole() {
    return this.list.slice(0, this.length);
  }
}

// Goes over the bytes of a text of JSON.
class Scanner {
  constructor(bytes) {
    this.bytes = bytes;
    this.at = 0;
  }

  // The next byte that is no gap, which it goes to.
  get next() {
    let byte = this.bytes[this.at];
    while (byte <= SPACE && GAPS.has(byte)) byte = this.bytes[++this.at];
    return byte;
  }

  // Where that byte is.
  get here() {
    return this.next === undefined ? this.bytes.length : this.at;
  }

  // Goes behind this byte, which comes next.
  take(byte) {
    if (this.bytes[this.at] !== byte && this.next !== byte) throw new Unlike();
    this.at++;
  }

  // Goes behind these bytes, which are here.
  takeHere(bytes) {
    for (const byte of bytes) if (this.bytes[this.at++] !== byte) throw new Unlike();
  }

  // Goes behind a text in quotation marks, which is a right one. Returns whether it is plain, as `Sought` has it.
  text() {
    this.take(QUOTE);
    const { bytes } = this;
    let { at } = this;
    let isPlain = true;
    for (let byte = bytes[at]; byte !== QUOTE; byte = bytes[at]) {
      if (byte === BACKSLASH) {
        isPlain &&= bytes[at + 1] === QUOTE || bytes[at + 1] === BACKSLASH;
        at += this.escape(at);
      } else if (byte >= SPACE) {
        isPlain &&= byte <= TILDE;
        at++;
      } else throw new Unlike();
    }
    this.at = at + 1;
    return isPlain;
  }

  // How long the escaped character is that begins there.
  escape(at) {
    const byte = this.bytes[at + 1];
    if (ESCAPED.has(byte)) return 2;
    if (byte === U && HEXADECIMAL.test(decoder.decode(this.bytes.subarray(at + 2, at + 6)))) return 6;
    throw new Unlike();
  }

  // Goes behind a number from 0 on, written as the crate does.
  number() {
    const { bytes } = this;
    const first = this.at;
    let number = 0;
    for (let byte = bytes[first]; byte >= ZERO && byte <= NINE; byte = bytes[++this.at]) number = 10 * number + byte - ZERO;
    const digits = this.at - first;
    if (digits === 0 || digits > MOST_DIGITS || (digits > 1 && bytes[first] === ZERO)) throw new Unlike();
    return number;
  }

  // Goes behind a number in quotation marks, and the colon after it.
  key() {
    this.take(QUOTE);
    const number = this.number();
    if (this.bytes[this.at++] !== QUOTE) throw new Unlike();
    this.take(COLON);
    return number;
  }

  // Goes into an object or a list, and returns whether something is in it, or else goes behind it.
  begin(begin = LEFT_BRACE, end = RIGHT_BRACE) {
    this.take(begin);
    if (this.next !== end) return true;
    this.at++;
    return false;
  }

  // Goes behind a comma, and returns whether one is next, or else goes behind the end.
  goesOn(end = RIGHT_BRACE) {
    const isMore = this.next === COMMA;
    this.take(isMore ? COMMA : end);
    return isMore;
  }

  // Goes behind any value. What is wrong within it is found where the rest is read.
  value() {
    let depth = 0;
    do {
      const byte = this.next;
      if (byte === undefined) throw new Unlike();
      if (byte === QUOTE) {
        this.text();
        continue;
      }
      if (byte === LEFT_BRACE || byte === LEFT_BRACKET) depth++;
      if (byte === RIGHT_BRACE || byte === RIGHT_BRACKET) depth--;
      this.at++;
    } while (depth > 0 || !isEnd(this.next));
  }
}

function isEnd(byte) {
  return byte === COMMA || byte === RIGHT_BRACE || byte === undefined;
}

// Goes behind an object by numbers of channels, and returns what `part` makes of each.
function byChannel(scanner, part) {
  const parts = new Map();
  for (let isMore = scanner.begin(); isMore; isMore = scanner.goesOn()) {
    const channel = scanner.key();
    if (parts.has(channel)) throw new Unlike();
    parts.set(channel, part(scanner));
  }
  return new Map([...parts].sort(([one], [other]) => one - other));
}

// The texts of one channel's values: which values have one, where each text begins, the indexes of those that aren't plain, and where the last one ends.
function textsOfChannel(scanner) {
  const [numbers, starts, others] = [new Numbers(), new Numbers(), new Numbers()];
  let least = 0;
  for (let isMore = scanner.begin(); isMore; isMore = scanner.goesOn()) {
    const number = scanner.key();
    if (number < least) throw new Unlike();
    least = number + 1;
    numbers.push(number);
    starts.push(scanner.here);
    if (!scanner.text()) others.push(numbers.length - 1);
  }
  return { numbers: numbers.whole, starts: starts.whole, others: others.whole, end: scanner.at };
}

function placesOfCalls(scanner) {
  const places = new Numbers();
  for (let isMore = scanner.begin(LEFT_BRACKET, RIGHT_BRACKET); isMore; isMore = scanner.goesOn(RIGHT_BRACKET)) {
    const isThere = scanner.next !== NULL[0];
    if (!isThere) scanner.takeHere(NULL);
    places.push(isThere ? scanner.number() : NONE);
  }
  return places.whole;
}

// Texts of values that are in a text of JSON.
class PackedTexts {
  constructor(bytes, tables) {
    this.bytes = bytes;
    this.tables = tables;
  }

  get channels() {
    return [...this.tables.keys()].map(String);
  }

  count(channel) {
    return this.tables.get(Number(channel))?.numbers.length ?? 0;
  }

  // The text of a value, or undefined.
  text(channel, number) {
    const { numbers, starts } = this.tables.get(Number(channel)) ?? { numbers: [], starts: [] };
    let [least, end] = [0, numbers.length];
    while (least < end) {
      const middle = (least + end) >> 1;
      if (numbers[middle] < number) least = middle + 1;
      else end = middle;
    }
    return least < numbers.length && String(numbers[least]) === String(number) ? this.textAt(starts[least]) : undefined;
  }

  textAt(start) {
    const scanner = new Scanner(this.bytes);
    scanner.at = start;
    scanner.text();
    return read(this.bytes, start, scanner.at);
  }

  // The numbers of the values of a channel whose texts have what is looked for, in their order. No text is made of a plain one.
  numbersWith(channel, sought) {
    const table = this.tables.get(Number(channel));
    if (table === undefined) return new Uint32Array();
    const areFound = this.plainWith(table, sought);
    for (const other of table.others) areFound[other] = Number(sought.isIn(this.textAt(table.starts[other])));
    return table.numbers.filter((_, i) => areFound[i] === 1);
  }

  // Returns 1 for each plain text of a channel that has what is looked for, and 0 for all other texts. The search goes over all bytes of the channel.
  // What it finds between two texts doesn't count.
  plainWith({ starts, end }, sought) {
    const areFound = new Uint8Array(starts.length);
    const past = sought.isPlain ? end : 0;
    let index = 0;
    for (let from = starts[0]; from < past;) {
      const at = sought.nextIn(this.bytes, from, past);
      while (starts[index + 1] <= at) index++;
      const isFound = at < past && sought.isInPlain(this.bytes, starts[index]);
      if (isFound) areFound[index] = 1;
      from = isFound ? starts[index + 1] ?? past : at + 1;
    }
    return areFound;
  }
}

// Texts of values that were read, by number, by channel.
export class ReadTexts {
  constructor(tables = {}) {
    this.tables = tables;
  }

  get channels() {
    return Object.keys(this.tables);
  }

  count(channel) {
    return Object.keys(this.table(channel)).length;
  }

  text(channel, number) {
    const table = this.table(channel);
    return Object.hasOwn(table, number) ? table[number] : undefined;
  }

  table(channel) {
    return Object.hasOwn(this.tables, channel) ? this.tables[channel] : {};
  }

  numbersWith(channel, sought) {
    const found = Object.entries(this.table(channel)).filter(([number, text]) => NUMBER.test(number) && sought.isIn(text));
    return BigUint64Array.from(found, ([number]) => BigInt(number)).sort();
  }
}

// The keys that are packed: each with what reads its part of a channel, and what is made of the parts.
const PACKED = new Map([
  ['"values"', [textsOfChannel, (bytes, parts) => new PackedTexts(bytes, parts)]],
  ['"calls"', [placesOfCalls, (_, parts) => Object.fromEntries(parts)]],
]);

function scanned(bytes) {
  const scanner = new Scanner(bytes);
  const packed = new Map();
  let [rest, kept] = ["", 0];
  for (let isMore = scanner.begin(); isMore; isMore = scanner.goesOn()) {
    const start = scanner.here;
    scanner.text();
    const key = decoder.decode(bytes.subarray(start, scanner.at));
    scanner.take(COLON);
    if (packed.has(key)) throw new Unlike();
    const [part, made] = PACKED.get(key) ?? [];
    if (part) {
      rest += `${decoder.decode(bytes.subarray(kept, scanner.at))}{}`;
      packed.set(key, made(bytes, byChannel(scanner, part)));
      kept = scanner.at;
    } else scanner.value();
  }
  return { packed, tables: JSON.parse(rest + decoder.decode(bytes.subarray(kept))) };
}

// Reads the tables of a file of names. What is packed is there as it is, and elsewhere an empty object stands in its place. Of a text in another form
// than the crate's nothing is packed.
export function readTables(bytes) {
  try {
    const { packed, tables } = scanned(bytes);
    return { tables, values: packed.get('"values"'), calls: packed.get('"calls"') };
  } catch {
    return { tables: read(bytes, 0), values: undefined, calls: undefined };
  }
}
