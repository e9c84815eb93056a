// The call that led to a place, in words.

import { coloured, element, outside } from "../base/dom.js";
import { grouped } from "../base/numbers.js";
import { actorColour } from "../base/palette.js";
import { visible } from "../base/text.js";
import { rowName } from "../draw/row_names.js";
import { sourceLink } from "./source_links.js";
import { sentWords, valueWords } from "./value_words.js";

const FEW = 2;
const MOST_NAMED = 2;

// Asking whether a watch has changed fails once it is closed, even if the last change wasn't seen: then one receive still succeeds.
function closedMeaning(entry) {
  return entry.word === "has-changed" ? ", and one change that it hasn't seen may still come" : " and nothing more will come";
}

// The first texts of lost values, and how many more there are.
function lostTexts(run, loss, count) {
  const { before = 0 } = loss;
  const texts = run.losses.valuesOf(loss, Math.min(FEW, count - before)).flatMap(({ sent }, i) => (i ? [", ", sentWords(run, sent)] : [sentWords(run, sent)]));
  if (before > 0) texts.unshift(`${grouped(before)} before the window${texts.length > 0 ? ", " : ""}`);
  return count - before > FEW ? [...texts, ` and ${grouped(count - before - FEW)} more`] : texts;
}

function lag(...children) {
  return element("strong", { class: "lag" }, ...children);
}

function readers(run, losses) {
  const named = losses.slice(0, MOST_NAMED).flatMap((it, i) => [i ? ", " : "", ...rowName(run, it.channel, run.lifeOf(it.channel, it.receiver))]);
  return losses.length > MOST_NAMED ? [...named, ` and ${grouped(losses.length - MOST_NAMED)} more`] : named;
}

// What receivers of the call's channel lost at it, or have lost by then. `here` has the losses at the place.
function lossMeaning(entry, run, here) {
  const those = here.filter(({ channel }) => channel === entry.channel);
  const ended = those.find(({ receiver, to }) => receiver === entry.handle && to === entry.number);
  if (ended?.end === "told") return [lag(": lost ", ...lostTexts(run, ended, ended.lost))];
  if (ended && run.losses.isUnwound(ended)) return [lag(` after the test failed: it had lost ${grouped(ended.lost)}, `, ...lostTexts(run, ended, ended.lost))];
  if (ended) return [lag(` and was never told that it lost ${grouped(ended.lost)}: `, ...lostTexts(run, ended, ended.lost))];
  const lagging = those.filter(({ to }) => to > entry.number);
  if (lagging.length === 0) return [];
  const [loss] = lagging;
  const now = run.losses.lostAt(loss, entry.number);
  if (entry.reply !== "sent") return [lag(" · ", ...readers(run, [loss]), " has lost ", ...lostTexts(run, loss, now))];
  const overwritten = run.values.sendOf(loss.channel, run.losses.numberAt(loss, now));
  return [lag(" overwrites ", sentWords(run, overwritten), ", not read by ", ...readers(run, lagging))];
}

// The number of the value that a call sends or gets, or an empty text.
function valueOf(entry) {
  return (entry.reply === "value" ? entry.answer : entry.rest).split(" ")[0];
}

// What the value that a call sends or gets is called, or null if that is its number alone.
export function textOf(entry, names) {
  const number = valueOf(entry);
  const text = number === "" ? "" : names.value(entry.channel, number);
  return text === number ? null : text;
}

// The same with its lines below each other.
export function linesOf(entry, names) {
  return textOf(entry, names) === null ? null : names.valueLines(entry.channel, valueOf(entry));
}

function meaning(entry, run) {
  if (entry.reply === "closed") return [element("span", { class: "unseen" }, ` (no sender is left${closedMeaning(entry)})`)];
  return textOf(entry, run.names) === null ? [] : [" ", valueWords(run, entry.channel, valueOf(entry))];
}

export function callText(entry, run) {
  return [run.methodOf(entry), run.numberOf(entry.channel, entry.handle), entry.rest].filter(part => part !== "").join(" ");
}

export function replyText(entry, run) {
  return [entry.reply, entry.reply === "new" ? run.numberOf(entry.channel, Number(entry.answer)) : entry.answer].filter(part => part !== "").join(" ");
}

// `here` has the losses at the place, first the one that the sentence names.
export function sentence(entry, run, here) {
  const { actors, names } = run;
  const source = run.sourceOf(entry.number);
  const losses = lossMeaning(entry, run, here);
  const time = run.timeOf(entry);
  return [
    ...(entry.number < run.lead ? [element("span", { class: "mute" }, "leads to the window: ")] : []),
    actors.badge(entry.actor), " ", coloured(actorColour(entry.actor), outside(names.actor(entry.actor))),
    " on ", outside(names.channel(entry.channel)), ": ",
    element("b", {}, callText(entry, run)), " → ", element("b", { class: entry.reply }, replyText(entry, run)),
    // Where it stands in the sources comes first, and what was lost before the call's own text, since what is last may be cut.
    ...(source ? [element("span", { class: "mute" }, " at ", sourceLink(run, source))] : []),
    ...(time ? [element("span", { class: "mute" }, ` ${time}`)] : []),
    ...losses, ...(losses.length > 0 ? [] : meaning(entry, run)),
  ];
}

export function atTheStart(run) {
  const hint = run.losses.all.length ? ". L goes to the first loss" : "";
  const said = run.lead > 0 ? "the window begins: the calls before it aren't known" : "the start: no call has been made";
  return [element("span", { class: "mute" }, `${said}${hint}`)];
}

// The folders of a path.
const FOLDERS = /^.*[\\/]/;

// A call in one short line, for a list, and where it stands in the sources, without the folders of that file. A value that has a text is shown by it alone.
export function shortLine(entry, run) {
  const hasText = textOf(entry, run.names) !== null;
  const source = run.sourceOf(entry.number);
  const channel = run.channels.length > 1 ? `${entry.channel}: ` : "";
  const whole = `${callText(entry, run)} → ${replyText(entry, run)}`;
  const call = hasText ? [`${channel}${run.methodOf(entry)} ${run.numberOf(entry.channel, entry.handle)} `, valueWords(run, entry.channel, valueOf(entry))] : [`${channel}${whole}`];
  return [
    element("span", { title: [whole, run.timeOf(entry)].filter(it => it).join(", ") }, ...call),
    ...(source ? [element("small", { title: visible(`${source[0]}:${source[1]}`) }, outside(`${source[0].replace(FOLDERS, "")}:${source[1]}`))] : []),
  ];
}
