// The answer: the account of the run, in the order and in the words of the report, below how the test failed. Each fact has a heading, each step that it
// tells of is a link that walks there, and each place in the sources one into the editor. Beside that are the changes that a receiver of a watch never
// looked at, and what the channel of a call that waits has at the end.

import { byId, element } from "../base/dom.js";
import { countOf, grouped } from "../base/numbers.js";
import { isAlone } from "../base/tabs.js";
import { visible } from "../base/text.js";
import { aligned, waitParts, withSource, worded } from "./account_text.js";
import { showFailure } from "./failure.js";
import { sourceLink } from "./source_links.js";
import { unlookedBy } from "./unlooked.js";
import { sentWords, valueWords } from "./value_words.js";

// How many panics are shown, and how many characters of what one says.
const MOST_ENDS = 3;
const MOST_TEXT = 300;

// How many changes are listed that a receiver never looked at.
const MOST_CHANGES = 3;

// The kinds of facts that such changes are listed in.
const UNLOOKED = ["unlearned", "unlooked"];

// How many facts are unfolded at first, and of how many others the headings are shown.
const MOST_UNFOLDED = 3;
const MOST_HEADINGS = 8;

// How high a line is, and how much of the upper half of a window has other things than facts.
const LINE = 18;
const AROUND = 270;

// What the line of a call begins with. Accounts of earlier versions say `step 3`.
const STEP = /^ {2}((?:call|step) \d+|before the window|a panic|the panic|the error|the end|the start)/;

function toPlace(place, text, fact) {
  const whose = fact.kind === "loss" ? { "data-receiver": `${fact.channel} ${fact.receiver}` } : {};
  return element("button", { type: "button", "data-place": place, title: "go there", ...whose }, ...text);
}

// A line of a fact, with a link where it tells of a step.
function lineOf(run, fact, text, index) {
  const step = fact.places.find(it => it.line === index);
  const name = step && STEP.exec(text)?.[1];
  if (!name) return element("bdi", { class: "line" }, ...worded(text));
  const rest = withSource(run, aligned(text).slice(2 + name.length), step.location, "  ");
  return element("bdi", { class: "line step" }, "  ", toPlace(step.place, worded(name), fact), ...rest);
}

// The values of these changes, if they are as many as the fact says.
function unlookedLine(run, { channel, receiver, changes }) {
  const places = unlookedBy(run, channel, receiver);
  if (places.length !== changes) return [];
  const listed = places.slice(0, MOST_CHANGES).flatMap((place, i) => [i ? ", " : "", sentWords(run, place)]);
  const more = places.length - MOST_CHANGES;
  return [element("bdi", { class: "then" }, "  not looked at: ", ...listed, more > 0 ? ` and ${grouped(more)} more` : "")];
}

// A fact as a heading, with its lines below it, which fold.
function factPart(run, fact, isOpen) {
  const [head, ...lines] = fact.text;
  const more = UNLOOKED.includes(fact.kind) && !run.isBeginning ? unlookedLine(run, fact) : [];
  return element("details", { class: "fact", "data-kind": fact.kind, ...(isOpen ? { open: "" } : {}) },
    element("summary", {}, element("h3", { class: "line" }, ...worded(head))), ...lines.map((text, index) => lineOf(run, fact, text, index + 1)), ...more);
}

function paragraph(...children) {
  return element("p", {}, ...children);
}

// How many lines of facts there is room for above the picture, which has half of the window: all of them where each part is alone under a tab.
function roomForLines() {
  return isAlone() ? Infinity : Math.floor((innerHeight / 2 - AROUND) / LINE);
}

// The facts that the report tells in full, and behind its line that counts them the others, by their headings. As many are unfolded as there is room
// for, and always the first.
function factParts(run, { facts, rest }) {
  let room = roomForLines();
  const told = facts.slice(0, rest.after).map((fact, index) => {
    const isOpen = index === 0 || (index < MOST_UNFOLDED && fact.text.length <= room);
    room -= isOpen ? fact.text.length : 1;
    return factPart(run, fact, isOpen);
  });
  if (rest.text === null) return told;
  const others = facts.slice(rest.after);
  const isOpen = others.length > 0 && others.length <= Math.min(room, MOST_HEADINGS);
  const parts = [element("summary", {}, ...worded(rest.text)), ...others.map(it => factPart(run, it, false))];
  return [...told, element("details", { class: "rest", ...(isOpen ? { open: "" } : {}) }, ...parts)];
}

function waitLine(run, wait) {
  return element("bdi", { class: "line" }, "  ", ...waitParts(run, wait));
}

// What the channel of a call that waits has at the end, so that one sees what it waits for in vain: the value of a watch, or whether a receiver has
// something to read; and who could still send.
function atTheEnd(run, { channel, handle }) {
  const state = run.ending.channels[channel];
  if (state === undefined) return [];
  const receiver = state.receivers.find(it => it.handle === handle);
  const has = state.kind === "watch" ? ["has ", valueWords(run, channel, state.value)]
    : [receiver === undefined ? `has ${countOf(state.receivers.length, "receiver")}` : `has ${receiver.unread === 0 ? "nothing" : grouped(receiver.unread - receiver.lag)} to read`];
  const senders = state.senders.length === 0 ? "no sender" : countOf(state.senders.length, "sender");
  return [element("bdi", { class: "then" }, "    ", element("bdi", { class: "name" }, visible(run.names.channel(channel))), " ", ...has, ` and ${senders} at the end`)];
}

function waitsPart(run, { waiting }) {
  const waits = waiting.flatMap(it => [waitLine(run, it), ...atTheEnd(run, it)]);
  return waits.length > 0 ? [element("section", { class: "waits" }, element("h3", {}, "still waiting:"), ...waits)] : [];
}

// How the test ended besides, as the names say: its other panics, or the error that it returned. Each leads to the last call before it.
function endsPart(run) {
  const { panics, returned } = run.names.ending;
  const { failed } = run.account;
  const isToldAbove = ({ location, text }) => failed !== null && text === failed.message && String(run.names.place(location) ?? null) === String(failed.location);
  const others = panics.slice(0, MOST_ENDS).map(it => ["panic", it]);
  const ends = [...others, ...(returned === null ? [] : [["error", returned]])].filter(([, it]) => !isToldAbove(it));
  const lines = ends.map(([word, { since, actor = null, location, text = "" }]) => {
    const place = run.placeOf(since);
    const who = actor === null ? [] : [" of ", ...worded(run.names.shortActor(actor))];
    const source = run.names.place(location);
    const said = typeof text !== "string" || text === "" ? [] : [": ", ...worded(text.slice(0, MOST_TEXT))];
    const at = place > run.lead ? `${word} after call ${grouped(place)}` : `${word} at the ${place === 0 ? "start" : "window's beginning"}`;
    const where = source ? [" at ", sourceLink(run, source)] : [];
    return element("bdi", { class: "line" }, "  ", toPlace(place, [at], {}), ...who, ...where, ...said);
  });
  return lines.length > 0 ? [element("section", { class: "ends" }, element("h3", {}, "how it ended:"), ...lines)] : [];
}

function tasksPart({ tasks }) {
  return tasks.length > 0 ? [element("section", { class: "tasks" }, ...tasks.map(({ text }) => element("bdi", { class: "line" }, ...worded(`waits: ${text}`))))] : [];
}

function summaryOf({ facts, unknown, waiting }) {
  const counts = [...(unknown.length > 0 ? ["not all is known"] : []), countOf(facts.length, "fact"), ...(waiting.length > 0 ? [`${countOf(waiting.length, "call")} still waiting`] : [])];
  return ["What was found: ", counts.join(", ")];
}

function accountParts(run, account) {
  return [
    ...(account.window ? [paragraph(...worded(account.window.text))] : []),
    ...(account.unknown.length > 0 ? [paragraph(element("b", {}, "not all is known: "), ...worded(account.unknown.join("; ")))] : []),
    ...factParts(run, account),
    ...(account.nothing === null ? [] : [paragraph(...worded(account.nothing))]),
    ...waitsPart(run, account),
    ...tasksPart(account),
    ...endsPart(run),
  ];
}

// Shows the account. Where it is still to be made it has its room, so that nothing moves when it comes.
export function showAccount(run) {
  const { account } = run;
  showFailure(run);
  byId("answer").classList.toggle("made", run.names.account === null);
  byId("answer-line").replaceChildren(...(account === null ? [`What was found: ${run.isBeginning ? "it is said when all calls are read" : "it is being counted"}`] : summaryOf(account)));
  byId("answer-box").replaceChildren(...(account === null ? [] : accountParts(run, account)));
}

// Opens it, as for another run.
export function openAccount(run) {
  byId("answer").setAttribute("open", "");
  showAccount(run);
}
