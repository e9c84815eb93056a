// Texts of the account as the page shows them: names that the report has between backquotes are set off, letters from right to left leave the text around
// them alone, counts are grouped, and a place in the sources is a link.

import { element } from "../base/dom.js";
import { grouped } from "../base/numbers.js";
import { RIGHT_TO_LEFT, visible } from "../base/text.js";
import { sourceLink } from "./source_links.js";

const NAME = /`([^`]+)`/;
// Texts of values, which are as they are.
const QUOTED = /("(?:[^"\\]|\\.)*")/;
// The number of a call, how many there are of something and which of them one is, but no year.
const COUNT = new RegExp([
  String.raw`(?<=\b(?:calls \d+ to|calls?|lost|of|most|lagged|lags?|after|the last|missed) )\d{4,}\b(?!-)`,
  String.raw`(?<![\w.,:-])\d{4,}(?= (?:more |other )?[a-z]+s\b)`,
  String.raw`(?<=\()\d{4,}(?=\))`,
  String.raw`(?<![\w.,:-])\d{4,}(?= (?:differ|only here|only there)\b)`,
  String.raw`(?<![\w.,:-])\d{4,}(?=(?:st|nd|rd|th)\b)`,
].join("|"), "g");
// Words from right to left, and the text between them, which is of one name: neither words of another direction nor the gap between two columns.
const LETTER = RIGHT_TO_LEFT.source;
const TURNED = new RegExp(`(${LETTER}(?:(?:(?!\\p{Script=Latin}|  )[^"\`,;])*${LETTER})?)`, "u");

// The parts of a text, each alone as far as it is written from right to left.
function isolatedParts(text) {
  return text.split(TURNED).map((part, i) => (i % 2 ? element("bdi", {}, part) : part)).filter(part => part !== "");
}

// The text of a report without its backquotes, as one text.
export function plainText(text) {
  return visible(text).split(NAME).map((part, i) => (i % 2 ? part : groupedText(part))).join("");
}

function groupedText(text) {
  return text.split(QUOTED).map((part, i) => (i % 2 ? part : part.replace(COUNT, count => grouped(count)))).join("");
}

// The gap between two columns of a line, and how much of it stays.
const GAP = /( {3,})/;
const LEAST_GAP = 2;

// A line whose columns stand below those of others: what a number grows by where it is grouped is taken from the gap behind it.
export function aligned(text) {
  let grown = 0;
  return text.split(GAP).map((part, i) => {
    if (i % 2 === 0) {
      grown += plainText(part).length - visible(part).replace(/`/g, "").length;
      return part;
    }
    const taken = Math.min(grown, part.length - LEAST_GAP);
    grown -= taken;
    return part.slice(taken);
  }).join("");
}

// The same as elements and texts.
export function worded(text) {
  return visible(text).split(NAME).flatMap((part, i) => (i % 2 ? [element("bdi", { class: "name" }, part)] : isolatedParts(groupedText(part))));
}

// A text with the place in the sources that stands in it as a link, after what is before it in its line.
export function withSource(run, text, place, before) {
  if (!place) return worded(text);
  const shown = visible(`${place[0]}:${place[1]}`);
  const at = text.indexOf(before + shown);
  if (at < 0) return worded(text);
  const start = at + before.length;
  return [...worded(text.slice(0, start)), sourceLink(run, place, shown), ...worded(text.slice(start + shown.length))];
}

// A call that waits. What it waits in leads to where it began.
export function waitParts(run, { text, since, location }) {
  const began = /^(.*? since (?:(?:call|step) \d+|the start|before the window))(.*)$/s.exec(text);
  const [lead, rest] = began ? began.slice(1) : [text, ""];
  const go = element("button", { type: "button", "data-place": since, title: "go to where it began to wait" }, ...worded(lead));
  return [go, ...withSource(run, rest, location, ", ")];
}
