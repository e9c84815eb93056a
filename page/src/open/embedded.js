// The contents of the page's own file: the debugger's module, the worker's program, and a run if one was put in.

import { fromBase64 } from "../base/bytes.js";
import { byId } from "../base/dom.js";
import { elementsHere, runOf } from "./run_in_page.js";

// The key of the run in the page's own file, in the browser's history.
export const OWN = "own";

export function moduleBytes() {
  return fromBase64(byId("module").textContent);
}

export function workerText() {
  return byId("worker").textContent;
}

export function exampleRun() {
  const bytesOf = id => new TextEncoder().encode(byId(id).textContent);
  return { name: "an example", bytes: bytesOf("example"), names: bytesOf("example-names") };
}

export function hasEmbeddedRun() {
  return byId("run").firstChild !== null;
}

// Returns the run of a page that has one: its name, and how it is unpacked.
export function embeddedRun() {
  const elements = elementsHere();
  const name = new TextDecoder().decode(fromBase64(elements.run.split("\n")[0]));
  return { key: OWN, name, unpack: (noted, begun) => runOf(elements, noted, begun) };
}
