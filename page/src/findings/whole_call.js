// A call in whole: who made it on what, its reply, the text of its value uncut, where it stands in the sources, and whose its handle was.

import { element, outside } from "../base/dom.js";
import { countOf, grouped } from "../base/numbers.js";
import { callText, linesOf, replyText } from "./sentence.js";
import { sourceLink } from "./source_links.js";

const MOST_CALLERS = 4;

function line(...children) {
  return element("p", {}, ...children);
}

function who(run, actor) {
  return outside(run.actors.names[actor]);
}

// Where and by whom a handle was created, and where it was dropped.
function madeAndDropped(run, { from, to, maker }) {
  const made = from <= run.lead && run.lead > 0 ? ["created before the window"] : maker === null ? ["created with its channel"] : ["created at call ", grouped(from), " by ", who(run, maker)];
  return to > run.lastPlace ? made : [...made, ", dropped at call ", grouped(to)];
}

// How many calls each actor made with a handle, those that made most first.
function callersOf(run, life) {
  const most = run.callersOf(life).sort((a, b) => b.calls - a.calls || a.actor - b.actor);
  const named = most.slice(0, MOST_CALLERS).flatMap(({ actor, calls }, i) => [i ? ", " : "; ", countOf(calls, "call"), " by ", who(run, actor)]);
  return most.length > MOST_CALLERS ? [...named, `, and more by ${countOf(most.length - MOST_CALLERS, "other actor")}`] : named;
}

// Whose a handle was, once that is listed.
function ownersOf(run, life) {
  return run.listed === null ? [] : [line(...madeAndDropped(run, life), ...callersOf(run, life))];
}

export function wholeCall(entry, run) {
  const { channel, handle, actor, number } = entry;
  const life = run.lifeOf(channel, handle);
  const text = linesOf(entry, run.names);
  const called = run.sourceOf(number);
  const made = run.names.madeAt(channel, handle);
  return [
    line(element("b", {}, `call ${grouped(number)}`), " ", run.actors.badge(actor), " ", outside(run.actors.names[actor]), " on ", outside(run.names.channel(channel))),
    line(element("code", {}, `${callText(entry, run)} → `, element("b", { class: entry.reply }, replyText(entry, run)))),
    ...(text === null ? [] : [line(element("code", { class: "text" }, element("bdi", {}, text)))]),
    ...(called ? [line("called at ", sourceLink(run, called))] : []),
    ...(run.timeOf(entry) ? [line(`called ${run.timeOf(entry)}`)] : []),
    ...(life ? [line(outside(run.titleOf(channel, handle)), ...(made ? [", created at ", sourceLink(run, made)] : [])), ...ownersOf(run, life)] : []),
  ];
}
