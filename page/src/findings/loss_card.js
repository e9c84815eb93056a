// The loss at the place: which values were lost, since which send, by whom, and how it ended.

import { breakable, element, outside } from "../base/dom.js";
import { countOf, grouped } from "../base/numbers.js";
import { rowName } from "../draw/row_names.js";
import { lastReceived } from "../run/losses.js";
import { sourceLink } from "./source_links.js";
import { sentWords } from "./value_words.js";

const FEW = 6;
const MOST = 500;
const MOST_NAMED = 4;

const WORDS = { told: "told", dropped: "dropped untold", open: "not told by the end" };

// What became of a loss by a place.
function word(run, loss, place) {
  if (loss.end !== "open" && place < loss.to) return "not told yet";
  return run.losses.isUnwound(loss) ? "not told when the test failed" : WORDS[loss.end];
}

function who(run, actor) {
  return [run.actors.badge(actor), " ", breakable(run.actors.names[actor])];
}

function toPlace(place, key = "") {
  return element("button", { type: "button", "data-place": place, title: `go there${key && ` (${key})`}` }, `call ${grouped(place)}`);
}

function part(head, ...children) {
  return element("div", {}, element("dt", {}, head), element("dd", {}, ...children));
}

// Where the call of a place stands in the sources.
function sourceOf(run, place) {
  const source = run.sourceOf(place);
  return source ? [" at ", sourceLink(run, source)] : [];
}

function cause(run, loss) {
  if (loss.from <= run.lead) return part("cause", "the overwriting began before the window");
  const { capacity } = run.channels[loss.channel];
  const { actor } = run.entry(loss.from);
  return part("cause", toPlace(loss.from, "C"), " ", ...who(run, actor), ...sourceOf(run, loss.from), " sent ", sentWords(run, loss.from),
    `, one more than the ${grouped(capacity)} that are kept`);
}

// The values, with the calls that overwrote them. Those that are overwritten only after the place are pale.
function values(run, loss, place, isAll) {
  const shown = run.losses.valuesOf(loss, isAll ? MOST : FEW).map(({ text, sent, overwritten }) =>
    element("li", { class: overwritten > place ? "mute" : "" }, element("span", { class: "box", title: text }, outside(text)),
      element("button", { type: "button", "data-place": overwritten, title: `sent by call ${grouped(sent)}, overwritten by call ${grouped(overwritten)}` },
        `✕ ${grouped(overwritten)}`)));
  const { before = 0 } = loss;
  const left = loss.lost - before - shown.length;
  if (before > 0) shown.unshift(element("li", { class: "mute" }, `${grouped(before)} overwritten before the window`));
  if (left > 0 && !isAll) shown.push(element("li", {}, element("button", { type: "button", "data-loss": "all" }, `all ${grouped(loss.lost)}`)));
  else if (left > 0) shown.push(element("li", {}, `and ${grouped(left)} more`));
  return part("values", element("ol", { class: isAll ? "lost all" : "lost" }, ...shown));
}

function reader(run, loss) {
  const received = lastReceived(run, loss, run.lifeOf(loss.channel, loss.receiver).from);
  const others = run.losses.sharing(loss);
  const named = others.slice(0, MOST_NAMED).flatMap(it => ["; ", ...rowName(run, it.channel, run.lifeOf(it.channel, it.receiver))]);
  const more = others.length > MOST_NAMED ? ` and ${grouped(others.length - MOST_NAMED)} more` : "";
  return part("reader", ...(received ? ["last received at ", toPlace(received)] : [loss.from <= run.lead ? "what it received before the window isn't known" : "had received nothing yet"]),
    ...(others.length ? [element("span", { class: "lag" }, ...named, more), " lost some of them too"] : []));
}

function end(run, loss) {
  if (loss.end === "open") return part("end", "the run ends, and nobody was told");
  const { actor } = run.entry(loss.to);
  const next = run.losses.firstOf(loss) + run.losses.countIn(loss);
  const told = loss.end === "told" ? [` lagged by ${grouped(loss.lost)}, and goes on with `, sentWords(run, run.values.sendOf(loss.channel, next))]
    : [run.losses.isUnwound(loss) ? " dropped it after the test failed" : " dropped it: nobody was ever told"];
  return part("end", toPlace(loss.to, "E"), " ", ...who(run, actor), ...sourceOf(run, loss.to), ...told);
}

// `here` has the losses at the place, the one that is shown first.
export function lossCard(run, here, place, isAll) {
  const [loss] = here;
  if (loss === undefined) return [];
  const now = run.losses.lostAt(loss, place);
  const count = now < loss.lost ? `${grouped(now)} of ${countOf(loss.lost, "value")} so far` : countOf(loss.lost, "value");
  const turn = here.length > 1 ? [element("p", { class: "turn" }, `${grouped(here.length)} receivers lose values here `,
    element("button", { type: "button", "data-loss": "turn", title: "the next of them (N)" }, "next"))] : [];
  const head = element("h3", {}, ...rowName(run, loss.channel, run.lifeOf(loss.channel, loss.receiver)), ` lost ${count} `,
    element("span", { class: `pill ${loss.end === "told" && place < loss.to ? "open" : loss.end}` }, word(run, loss, place)));
  const story = element("p", { class: "story" }, element("button", { type: "button", "data-loss": "story", title: "the cause in the picture, or no more (P)" }, "draw the cause"));
  return [element("section", { class: `loss ${loss.end}`, "aria-label": "the loss here" }, ...turn, head,
    element("dl", {}, cause(run, loss), values(run, loss, place, isAll), reader(run, loss), end(run, loss)), story)];
}

// The same in one line, for a narrow screen.
export function lossPeek(run, [loss], place) {
  const [first] = run.losses.valuesOf(loss, 1);
  return [element("b", {}, outside(run.titleOf(loss.channel, loss.receiver)), ` lost ${grouped(loss.lost)}`), ` · ${word(run, loss, place)} · `,
    first === undefined ? "overwritten before the window" : sentWords(run, first.sent)];
}
