// The run in a page's file: of this page, and of one that is dropped. No script of that page runs.
//
// The element of a run has the name of its file and perhaps more, each on a line in base64. A journal may be the text of elements of its own instead,
// since nothing in a journal is markup. That of a long run is packed, and so are its names. There are several elements, since WebKit reads one of a few
// megabytes in seconds, and one of 35 in minutes: it copies what it has for each piece that follows.

import { fromBase64, joined } from "../base/bytes.js";
import { unpackedParts } from "../base/unpacking.js";
import { BEGINNING } from "./beginning.js";

const PAGE = /^\s*<!doctype html>/i;
const RUN_STARTS = "\n<script type=\"text/plain\" id=\"run\">\n";
const ELEMENT = /<script type="text\/plain" (?:id|class)="(run|journal|names)"(?: class="(packed)")?>\n([^<]*)<\/script>\n/y;

export function isPage(bytes) {
  return PAGE.test(new TextDecoder().decode(bytes.subarray(0, 64)));
}

// What a page's file has of a run: the text in the element of the run, and those of its journal and of its names, with whether they are packed.
class Elements {
  constructor() {
    this.run = "";
    this.texts = { journal: [], names: [] };
    this.isPacked = false;
  }

  add(name, isPacked, text) {
    if (name === "run") this.run = text;
    else this.texts[name].push(text);
    this.isPacked ||= isPacked;
  }
}

// Those of this page.
export function elementsHere() {
  const found = new Elements();
  for (const it of document.querySelectorAll("#run, #journal, .journal, #names, .names")) {
    found.add(it.id || it.className, it.className === "packed", it.textContent.slice(1));
  }
  return found;
}

// Those in the file of another one. The run is behind the last script.
function elementsIn(bytes) {
  const text = new TextDecoder("latin1").decode(bytes);
  const found = new Elements();
  ELEMENT.lastIndex = text.lastIndexOf(RUN_STARTS) + 1;
  if (ELEMENT.lastIndex === 0) throw new Error("it is a page without a run");
  for (let part = ELEMENT.exec(text); part !== null; part = ELEMENT.exec(text)) found.add(part[1], part[2] !== undefined, part[3]);
  return found;
}

// What the heading of `gzip` is in base64. The crate writes zlib's form.
const GZIP = "H4sI";

async function unpackedTexts(texts, /** @type {import("../base/unpacking.js").Options} */ options = {}) {
  const format = texts[0]?.startsWith(GZIP) ? "gzip" : "deflate";
  return texts.length === 0 ? undefined : unpackedParts(texts.map(text => () => fromBase64(text.trimEnd())), format, options);
}

// Returns a function that passes the bytes on once, when they are enough for a beginning.
function onceBegun(pass) {
  let isPassed = false;
  return bytes => {
    if (isPassed || bytes.length <= BEGINNING) return undefined;
    isPassed = true;
    return pass(bytes);
  };
}

// How many calls and bytes a packed journal has, as a line of two numbers says. A page of an earlier crate doesn't.
function countsIn(line) {
  const [, calls, size] = /^(\d{1,9}) (\d{1,9})$/.exec(line === undefined ? "" : new TextDecoder().decode(line)) ?? [];
  return calls === undefined ? {} : { calls: Number(calls), size: Number(size) };
}

// Returns the name of the run's file, its bytes, and those of its names, if it has some. `noted` is called with the share that is unpacked, and `begun`
// once with the beginning of a packed journal, how many calls there are in all of it, and the names.
export async function runOf({ run, texts, isPacked }, noted = (/** @type {number} */ _) => {}, begun = null) {
  const [name, ...parts] = run.split("\n").slice(0, -1).map(fromBase64);
  if (name === undefined) throw new Error("its run can't be read");
  const read = { name: new TextDecoder().decode(name) };
  if (isPacked) {
    const { calls, size } = countsIn(parts[0]);
    const names = await unpackedTexts(texts.names);
    return { ...read, names, bytes: await unpackedTexts(texts.journal, { noted, size, read: calls === undefined ? undefined : onceBegun(bytes => begun?.({ bytes, calls, names })) }) };
  }
  if (texts.journal.length > 0) parts.unshift(joined(texts.journal.map(text => new TextEncoder().encode(text))));
  return { ...read, bytes: parts[0], names: parts[1] };
}

// The same of the bytes of a page's file.
export async function runIn(bytes) {
  const elements = elementsIn(bytes);
  try {
    const read = await runOf(elements);
    if (read.bytes !== undefined) return read;
  } catch (fault) {
    throw new Error(`its run can't be read: ${fault.message}`);
  }
  throw new Error("its run can't be read");
}
