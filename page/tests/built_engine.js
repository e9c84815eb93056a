// The engine of the built page, rust/built/yovanelum.html.
import { readFileSync } from "node:fs";
import { inflateSync } from "node:zlib";
import { Engine } from "../src/worker/engine.js";

const page = readFileSync(new URL("../../rust/built/yovanelum.html", import.meta.url), "utf8");

// The module as the page has it.
export const packedModule = Uint8Array.from(Buffer.from(/<script type="text\/plain" id="module">([^<]*)</.exec(page)[1], "base64"));

const module = inflateSync(packedModule);

export function builtEngine() {
  return new Engine(module);
}

// An engine that has a run open, with names.
export function opened(journal, names = null) {
  const engine = builtEngine();
  engine.open(new TextEncoder().encode(journal));
  engine.name(new TextEncoder().encode(names === null ? "" : JSON.stringify(names)));
  return engine;
}

// A journal text of these channels and entries, which get stamps from 1 on.
export function journalOf(heads, entries) {
  return `ttd-journal 2\n${heads.map(head => `${head}\n`).join("")}steps\n${entries.map((entry, i) => `${i + 1} ${entry}\n`).join("")}end\n`;
}
