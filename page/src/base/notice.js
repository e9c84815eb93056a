// What the page reports beside a run: notices, which part it shows, and a sign while something takes its time.

import { byId } from "./dom.js";

const working = new Set();

// Shows a notice, made of texts and elements. Without any it is hidden.
export function tell(...parts) {
  byId("notice").replaceChildren(...parts);
  byId("notice").hidden = parts.length === 0;
}

export function tellFault(fault) {
  tell(`The debugger failed: ${fault.message}.`);
}

// Shows one of the page's parts, or none: the welcome before a run, a list of runs, a run, or why a text is refused.
export function showPart(part) {
  for (const id of ["welcome", "choice", "refusal", "walk"]) byId(id).hidden = id !== part;
}

function showWork() {
  const last = [...working].at(-1);
  byId("busy").hidden = last === undefined;
  byId("busy-text").replaceChildren(...(last ?? []));
  showShare(null);
}

// How much of the work is done, or `null` where that isn't known.
function showShare(share) {
  if (share === null) byId("busy-bar").removeAttribute("value");
  else byId("busy-bar").setAttribute("value", share);
}

// Shows a sign, made of texts and elements, until the work is done. Returns what the work returns. It gets a function that notes which share of it is
// done. The style sheet lets the sign appear only if the work takes its time.
export async function during(parts, work) {
  working.add(parts);
  showWork();
  try {
    return await work(share => [...working].at(-1) === parts && showShare(share));
  } finally {
    working.delete(parts);
    showWork();
  }
}
