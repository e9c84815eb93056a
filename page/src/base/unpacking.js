// Unpacks parts of a file one after the other, up to a limit: a small file may unpack to more than there is memory.

import { joined } from "./bytes.js";
import { sizeOf } from "./numbers.js";

// In bytes: the journal of as many calls as a run may have has a fifth of it.
export const MOST_UNPACKED = 256_000_000;

// How many bytes are passed to the browser at once.
const PIECE = 1 << 18;

export class TooLong extends Error {
  constructor() {
    super(`it unpacks to more than ${sizeOf(MOST_UNPACKED)}`);
  }
}

async function write(writer, parts, noted) {
  for (const [i, part] of parts.entries()) {
    const bytes = part();
    for (let at = 0; at < bytes.length; at += PIECE) {
      await writer.write(bytes.subarray(at, at + PIECE));
      noted((i + Math.min(1, (at + PIECE) / bytes.length)) / parts.length);
    }
  }
  await writer.close();
}

// Bytes that come in chunks. As far as it is known how many there will be, they are in one list from the first on, and no chunk is kept.
class Gathered {
  constructor(size) {
    this.first = new Uint8Array(size);
    this.used = 0;
    this.more = [];
    this.size = 0;
  }

  add(chunk) {
    this.size += chunk.length;
    if (this.size > this.first.length) return this.more.push(chunk);
    this.first.set(chunk, this.used);
    this.used = this.size;
  }

  get beginning() {
    return this.first.subarray(0, this.used);
  }

  get whole() {
    return this.used === this.first.length && this.more.length === 0 ? this.first : joined([this.beginning, ...this.more]);
  }
}

async function read(reader, { most, size, read: seen }) {
  const gathered = new Gathered(Math.min(size, most));
  for (;;) {
    const { done, value } = await reader.read();
    if (done) return gathered.whole;
    if (gathered.size + value.length > most) throw new TooLong();
    gathered.add(value);
    await seen(gathered.beginning);
  }
}

// Returns the bytes of all parts, each of which is a function that returns packed bytes. `format` is `gzip`, `deflate`, or `deflate-raw` without a
// heading. `noted` is called with the share of the parts that is done, and `read` with the bytes so far, up to `size`: unpacking goes on when what it
// returns is done. `size` says how many bytes there will be, if that is known. Throws an error where the parts aren't whole, or unpack to more than `most` bytes.
/** @typedef {{ most?: number, size?: number, noted?: (share: number) => void, read?: (bytes: Uint8Array) => void | Promise<void> }} Options */
export async function unpackedParts(parts, format, /** @type {Options} */ { most = MOST_UNPACKED, size = PIECE, noted = () => {}, read: seen = () => {} } = {}) {
  const { readable, writable } = new DecompressionStream(format);
  const [reader, writer] = [readable.getReader(), writable.getWriter()];
  const written = write(writer, parts, noted);
  // Where reading ends early, so does writing, and where a part can't be written, reading says so.
  written.catch(() => {});
  try {
    const bytes = await read(reader, { most, size, read: seen });
    await written;
    return bytes;
  } catch (fault) {
    writer.abort().catch(() => {});
    reader.cancel().catch(() => {});
    throw fault;
  }
}
