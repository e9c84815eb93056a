// The life of a value of a broadcast: which call sent it, who received and who lost it, and which send overwrote it.

import { element, outside } from "../base/dom.js";
import { grouped } from "../base/numbers.js";
import { rowName } from "../draw/row_names.js";
import { MARK_NAMES, RECEIVED } from "../run/marks.js";
import { countUpTo } from "../run/values.js";
import { sourceLink } from "./source_links.js";

const LAGGED = MARK_NAMES.indexOf("lagged");
const MOST_NAMED = 64;

// What each receive of a channel received, by the places of the receives: the value's number. A receiver begins at the next value that is sent, and a
// reply `lagged` moves it past what it lost.
function receivesOn(run, channel) {
  const { channels, handles, marks } = run.columns;
  const { sends } = run.values.tables[channel];
  const positions = run.lives[channel].map(({ from }) => countUpTo(sends, from));
  const received = new Map();
  for (let place = 1; place <= run.lastPlace; place++) {
    if (channels[place] !== channel) continue;
    const handle = handles[place];
    if (marks[place] === LAGGED) positions[handle] += Number(run.entry(place).answer);
    if (marks[place] !== RECEIVED) continue;
    const number = positions[handle]++;
    if (received.has(number)) received.get(number).push(place);
    else received.set(number, [place]);
  }
  return received;
}

const known = new WeakMap();

// The places at which a value was received, once the channel's values are loaded.
function receivesOf(run, channel, number) {
  if (!known.has(run)) known.set(run, new Map());
  const byChannel = known.get(run);
  if (!byChannel.has(channel)) byChannel.set(channel, receivesOn(run, channel));
  return byChannel.get(channel).get(number) ?? [];
}

// What became of a value: where it was sent, received and overwritten, and the losses in which it was lost.
export function lifeOfValue(run, channel, number) {
  const { sends, overwritten } = run.values.tables[channel];
  const isLostIn = loss => run.losses.firstOf(loss) <= number && number < run.losses.firstOf(loss) + run.losses.countIn(loss);
  return {
    sent: sends[number], received: receivesOf(run, channel, number), lost: run.losses.on(channel).filter(isLostIn),
    overwritten: overwritten[number] <= run.lastPlace ? overwritten[number] : null,
  };
}

function toPlace(place) {
  return element("button", { type: "button", "data-place": place, title: "go there" }, `call ${grouped(place)}`);
}

// A call with who made it, and where it stands in the sources.
function call(run, place, ...rest) {
  const { actor } = run.entry(place);
  const source = run.sourceOf(place);
  return element("li", {}, toPlace(place), " ", run.actors.badge(actor), " ", outside(run.actors.names[actor]), ...rest, ...(source ? [" at ", sourceLink(run, source)] : []));
}

function receiver(run, channel, handle) {
  return rowName(run, channel, run.lifeOf(channel, handle));
}

function lossRow(run, loss) {
  const end = loss.end === "told" ? ["lagged at ", toPlace(loss.to)] : [run.losses.isUnwound(loss) ? "not told when the test failed" : "not told"];
  return element("li", {}, ...receiver(run, loss.channel, loss.receiver), ", ", ...end);
}

function part(head, rows, none) {
  const shown = rows.slice(0, MOST_NAMED);
  if (rows.length > shown.length) shown.push(element("li", {}, `and ${grouped(rows.length - shown.length)} more`));
  return element("div", {}, element("dt", {}, head), element("dd", {}, rows.length ? element("ol", { class: "lost" }, ...shown) : none));
}

// The life of a value as a card.
export function valueCard(run, { channel, number }) {
  const { sent, received, lost, overwritten } = lifeOfValue(run, channel, number);
  const receives = received.map(place => call(run, place, " by ", ...receiver(run, channel, run.columns.handles[place])));
  return element("section", { class: "loss life", "aria-label": "the life of a value" },
    element("p", { class: "turn" }, element("h3", {}, outside(run.values.text(channel, number))), element("button", { type: "button", "data-value": "", "aria-label": "close the life of the value" }, "×")),
    element("dl", {}, part("sent", [call(run, sent)], ""), part("received", receives, "by nobody"), part("lost", lost.map(it => lossRow(run, it)), "by nobody"),
      part("gone", overwritten === null ? [] : [call(run, overwritten, " overwrote it")], "never: the channel retains it to the end")));
}
