// How the test failed, which is the head of the page: its panic or error in its own words, with the two sides of an assertion below each other. A test that
// hangs has none: its head is which calls still wait, in the words of the report. Above that is that a replay is another run, and below it the race.

import { byId, element, outside } from "../base/dom.js";
import { countOf, grouped } from "../base/numbers.js";
import { visible, visibleLines } from "../base/text.js";
import { plainText, waitParts, withSource, worded } from "./account_text.js";
import { leftLines, leftParts, raceLines, raceParts } from "./order_said.js";
import { sourceLink } from "./source_links.js";

// What `assert_eq!` and `assert_ne!` of Rust's library write.
const SIDES = /^([^]*?)\n {2}left: ([^]*)\n right: ([^]*)$/;

// How many characters of a text are shown, and how many calls that wait: as many as the report has.
const MOST = 1200;
const MOST_WAITS = 3;

function side(name, text) {
  return element("div", {}, element("dt", {}, name), element("dd", {}, element("bdi", {}, visibleLines(text.slice(0, MOST)))));
}

// The text of a panic, with the text between it and the sides.
function sidesOf(message, between) {
  const [, head, left, right] = SIDES.exec(message) ?? [null, message];
  const said = element("p", { class: "panic" }, ...head.slice(0, MOST).split("\n").flatMap((line, i) => [...(i ? [element("br")] : []), ...worded(line)]));
  return [said, ...between, ...(left === undefined ? [] : [element("dl", { class: "sides" }, side("left", left), side("right", right))])];
}

function toPlace(place, ...children) {
  return element("button", { type: "button", "data-place": place, title: "go there" }, ...children);
}

// What the last call before it returned, which the line of the report has behind the text.
function lastCall({ call, text }) {
  const at = Number.isSafeInteger(call) ? text.lastIndexOf(`; call ${call} was `) : -1;
  return at < 0 ? [] : [element("p", { class: "last" }, toPlace(call, `call ${grouped(call)}`), ...worded(text.slice(at + `; call ${call}`.length)))];
}

// Whether the writer of the account kept the name and the text of the panic.
function isWhole({ name, message }) {
  return typeof message === "string" && typeof name === "string";
}

// The failure of an account whose writer kept the text as it was; of earlier ones, the line of the report.
function partsOf(run, failed) {
  const { place, name, message, location, text } = failed;
  if (!isWhole(failed)) return [element("h2", {}, toPlace(place, "failed:"), ...withSource(run, ` ${text}`, location, " at "))];
  const source = location ? [" at ", sourceLink(run, location)] : [];
  return [element("h2", {}, toPlace(place, outside(name), " failed"), ...source), ...sidesOf(message, lastCall(failed))];
}

// Whether the test hung when its run was written: nothing had failed.
function isHang({ names, account }) {
  return names.ending.hangs && account !== null && account.failed === null;
}

function hangHead({ names }) {
  return [names.ending.test === undefined ? "the test" : outside(names.ending.test), " hangs"];
}

// How many calls that wait are left out, as a list.
function waitsLeft({ waiting }) {
  const count = waiting.length - MOST_WAITS;
  return waiting.length === 0 ? ["no call on its channels waits"] : count > 0 ? [`and ${countOf(count, "more call")}`] : [];
}

function hangParts(run) {
  const { account } = run;
  const [first] = account.waiting;
  const name = first === undefined ? hangHead(run) : [toPlace(first.since, ...hangHead(run))];
  const waits = account.waiting.slice(0, MOST_WAITS).map(it => element("p", { class: "wait" }, "still waiting: ", ...waitParts(run, it)));
  return [element("h2", {}, ...name), ...waits, ...waitsLeft(account).map(text => element("p", { class: "wait" }, text))];
}

function headParts(run) {
  const { account } = run;
  if (account === null) return [];
  const how = account.failed !== null ? partsOf(run, account.failed) : isHang(run) ? hangParts(run) : [];
  return [...leftParts(account), ...how, ...raceParts(account)];
}

// Shows it, or nothing where the test neither failed nor hangs, or that isn't known.
export function showFailure(run) {
  const parts = headParts(run);
  byId("failed").hidden = parts.length === 0;
  byId("failed").replaceChildren(...parts);
}

function linesOf(run) {
  const { account, names } = run;
  if (isHang(run)) return [visible(`${names.ending.test ?? "the test"} hangs`)];
  if (account.failed === null) return [];
  const { name, message, location, text } = account.failed;
  if (!isWhole(account.failed)) return [`failed: ${visible(text)}`];
  const where = location ? ` at ${location[0]}:${location[1]}` : "";
  return [visible(`${name} failed${where}:`), ...message.split("\n").map(visible)];
}

// The same as lines of a text, without the calls that wait.
export function failureLines(run) {
  const { account } = run;
  if (account === null) return [];
  return [...leftLines(account).map(plainText), ...linesOf(run), ...raceLines(account).map(plainText)];
}
