// The files in a zip, as a browser unpacks them. Nothing in it is trusted: not how long its files are, nor where they would be.

import { grouped } from "../base/numbers.js";
import { MOST_UNPACKED, TooLong, unpackedParts } from "../base/unpacking.js";

const END = 0x06054b50;
const ENTRY = 0x02014b50;
const LOCAL = 0x04034b50;
const END_LENGTH = 22;
const ENTRY_LENGTH = 46;
const LOCAL_LENGTH = 30;
const MOST_COMMENT = 0xffff;

const STORED = 0;
const DEFLATED = 8;
const ENCRYPTED = 1;
const WIDE = 0xffffffff;

// How many files are looked at.
const MOST_FILES = 2000;

export function isZip(bytes) {
  return bytes[0] === 0x50 && bytes[1] === 0x4b && [3, 5].includes(bytes[2]) && bytes[3] === bytes[2] + 1;
}

// Where the list of files begins, and how many there are.
function endOf(view) {
  const least = Math.max(0, view.byteLength - END_LENGTH - MOST_COMMENT);
  for (let at = view.byteLength - END_LENGTH; at >= least; at--) {
    if (view.getUint32(at, true) === END) return { count: view.getUint16(at + 10, true), at: view.getUint32(at + 16, true) };
  }
  throw new Error("it is no whole zip file");
}

// The name of a file without what would lead elsewhere, which nothing here follows.
function nameOf(bytes) {
  const parts = new TextDecoder().decode(bytes).split(/[\\/]/);
  return parts.filter(part => !["", ".", ".."].includes(part)).join("/");
}

function entryAt(view, bytes, at) {
  if (view.getUint32(at, true) !== ENTRY) throw new Error("it is no whole zip file");
  const [name, more, comment] = [28, 30, 32].map(offset => view.getUint16(at + offset, true));
  return {
    isEncrypted: (view.getUint16(at + 8, true) & ENCRYPTED) !== 0, method: view.getUint16(at + 10, true),
    packed: view.getUint32(at + 20, true), start: view.getUint32(at + 42, true),
    name: nameOf(bytes.subarray(at + ENTRY_LENGTH, at + ENTRY_LENGTH + name)), end: at + ENTRY_LENGTH + name + more + comment,
  };
}

// The bytes of a file, of `most` at most. What is wrong with one leaves the others alone.
async function contentsOf(view, bytes, { isEncrypted, method, packed, start }, most) {
  if (isEncrypted) throw new Error("it is encrypted");
  if (packed === WIDE || start === WIDE) throw new Error("it is too long for this page");
  if (start + LOCAL_LENGTH > bytes.length || view.getUint32(start, true) !== LOCAL) throw new Error("it is no whole zip file");
  const from = start + LOCAL_LENGTH + view.getUint16(start + 26, true) + view.getUint16(start + 28, true);
  const part = bytes.subarray(from, from + packed);
  if (method === STORED && part.length > most) throw new TooLong();
  if (method === STORED) return part;
  if (method !== DEFLATED) throw new Error("it is packed in a way that isn't unpacked here");
  return unpackedParts([() => part], "deflate-raw", { most });
}

// Returns the files in a zip whose names are wanted, each as a file that is read by `arrayBuffer`. All together unpack to 256 MB at most.
export function filesInZip(bytes, isWanted) {
  const view = new DataView(bytes.buffer, bytes.byteOffset, bytes.byteLength);
  const { count, at } = endOf(view);
  if (count > MOST_FILES) throw new Error(`it has more than ${grouped(MOST_FILES)} files`);
  const files = [];
  let left = MOST_UNPACKED;
  try {
    for (let i = 0, next = at; i < count; i++) {
      const entry = entryAt(view, bytes, next);
      next = entry.end;
      if (!isWanted(entry.name)) continue;
      const read = async () => {
        const contents = await contentsOf(view, bytes, entry, left);
        left -= contents.length;
        return contents;
      };
      files.push({ name: entry.name, size: entry.packed, read });
    }
  } catch (fault) {
    // A number in it leads outside of its bytes.
    throw fault instanceof RangeError ? new Error("it is no whole zip file") : fault;
  }
  return files;
}
