// What is known of the order in which the calls of a run were made, as links: where a replay left the one that it followed, so that this is another run,
// and which two steps decide whether it fails, with their calls.

import { element } from "../base/dom.js";
import { worded } from "./account_text.js";

// A link, since the text of a button isn't broken across lines with the text around it.
function link(place, text) {
  return element("a", { href: `#call=${place}`, "data-place": place, title: "go there" }, ...worded(text));
}

// A text with a part of it as a link, and the text behind that.
function linked(text, part, place) {
  const at = Number.isSafeInteger(place) && part !== "" ? text.indexOf(part) : -1;
  return at < 0 ? [[], text] : [[...worded(text.slice(0, at)), link(place, part)], text.slice(at + part.length)];
}

// That this isn't the run which was to be repeated.
function leftPart({ text, place }) {
  const [start, rest] = linked(text, `call ${place}`, place);
  return element("p", { class: "order" }, ...start, ...worded(rest));
}

function racePart({ text, first, then }) {
  const [start, behind] = linked(text, first.text, first.place);
  const [middle, rest] = linked(behind, then.text, then.place);
  return element("p", { class: "order" }, "the race: ", ...start, ...middle, ...worded(rest));
}

// The first is said before how the test failed, and the second behind that.
export function leftParts({ replay }) {
  return replay ? [leftPart(replay)] : [];
}

export function raceParts({ race }) {
  return race ? [racePart(race)] : [];
}

// The same as lines of a text.
export function leftLines({ replay }) {
  return replay ? [replay.text] : [];
}

export function raceLines({ race }) {
  return race ? [`the race: ${race.text}`] : [];
}
