// The bytes of a file as the debugger reads them: unpacked, in UTF-8 without a byte order mark, with lines that end in LF.

import { TooLong, unpackedParts } from "../base/unpacking.js";

const CR = 13;
const LF = 10;
const GZIP = [0x1f, 0x8b];
const UTF_8 = [0xef, 0xbb, 0xbf];
const UTF_16 = { "utf-16le": [0xff, 0xfe], "utf-16be": [0xfe, 0xff] };

// What packs files otherwise, by the first bytes.
const OTHERS = { zstd: [0x28, 0xb5, 0x2f, 0xfd], xz: [0xfd, 0x37, 0x7a, 0x58, 0x5a], bzip2: [0x42, 0x5a, 0x68] };

function beginsWith(bytes, beginning) {
  return beginning.every((byte, i) => bytes[i] === byte);
}

function withoutCr(bytes) {
  const kept = new Uint8Array(bytes.length);
  let count = 0;
  for (let i = 0; i < bytes.length; i++) {
    if (bytes[i] !== CR || bytes[i + 1] !== LF) kept[count++] = bytes[i];
  }
  return kept.slice(0, count);
}

// Decodes UTF-16, as some shells write it, and leaves out a byte order mark.
function decoded(bytes, notes) {
  const wide = Object.keys(UTF_16).find(name => beginsWith(bytes, UTF_16[name]));
  if (wide) {
    notes.push("UTF-16");
    return new TextEncoder().encode(new TextDecoder(wide).decode(bytes));
  }
  if (!beginsWith(bytes, UTF_8)) return bytes;
  notes.push("byte order mark");
  return bytes.subarray(UTF_8.length);
}

// Returns the bytes, and notes on what they were before. Throws an error if they are packed in another way.
export async function unpacked(file) {
  const notes = [];
  let bytes = file;
  if (beginsWith(bytes, GZIP)) {
    notes.push("gzip");
    const packed = bytes;
    bytes = await unpackedParts([() => packed], "gzip").catch(fault => { throw fault instanceof TooLong ? fault : new Error("it is no whole gzip file"); });
  }
  const other = Object.keys(OTHERS).find(name => beginsWith(bytes, OTHERS[name]));
  if (other) throw new Error(`it is packed by ${other}, and only gzip and zip are unpacked here`);
  bytes = decoded(bytes, notes);
  if (bytes[bytes.indexOf(LF) - 1] === CR) {
    notes.push("CR LF");
    bytes = withoutCr(bytes);
  }
  return { bytes, notes };
}
