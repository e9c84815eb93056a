// The state at the place, channel by channel, as text. The channel of the call comes first, then the calls around it, then the others.

import { element, outside } from "../base/dom.js";
import { grouped } from "../base/numbers.js";
import { isolated } from "../base/text.js";
import { kindOf } from "../draw/heads.js";
import { rowName } from "../draw/row_names.js";
import { standingOf } from "../run/versions.js";

const MOST_HANDLES = 64;
const FEW_CHANNELS = 4;
const MOST_OVERWRITTEN = 3;
const MOST_READERS = 6;

// A retained value, and beside it the receivers that read it next.
function valueBox(run, index, number, text, readers) {
  const marks = readers.slice(0, MOST_READERS).map(receiver => element("span", { class: receiver.lag ? "reader lag" : "reader" }, `↑ ${run.numberOf(index, receiver.handle)}`));
  if (readers.length > MOST_READERS) marks.push(element("span", { class: "reader" }, `+${grouped(readers.length - MOST_READERS)}`));
  return element("li", {}, element("button", { type: "button", class: "box", "data-value": `${index} ${number}`, title: text, "aria-description": "shows who sent, received and lost it" }, outside(text)), ...marks);
}

// The values before the retained ones that a receiver hadn't read yet, struck out: the last of them, and how many there are before those. A window doesn't
// have those that were overwritten before it.
function overwritten(channel, index, run) {
  const oldest = channel.sent - channel.retained;
  const lag = channel.receivers.reduce((most, it) => Math.max(most, run.lagOf(index, it)), 0);
  const isThere = number => run.lead === 0 || (run.values.areThere && run.values.overwritten(index)[number] > run.lead);
  const first = channel.receivers.reduce((least, { lag, position }) => (lag ? Math.min(least, position) : least), oldest);
  if (first === oldest) return "";
  const shown = Array.from({ length: Math.min(MOST_OVERWRITTEN, oldest - first) }, (_, i) => oldest - i - 1).reverse().filter(isThere);
  const boxes = shown.map(number => {
    const text = run.values.text(index, number);
    return element("li", {}, element("del", { class: "box", title: text, "data-value": `${index} ${number}` }, outside(text)));
  });
  const hidden = lag - shown.length;
  if (hidden) boxes.unshift(element("li", {}, element("span", { class: "box older" }, `+${grouped(hidden)}`)));
  return element("ol", { class: "overwritten", "aria-label": "overwritten values that receivers lost, the oldest first" }, ...boxes);
}

// The newest of the retained values, and how many there are before them.
function retained(channel, index, run) {
  const { names } = run;
  if (channel.retained === 0) return element("p", { class: "mute" }, "nothing sent yet");
  const oldest = channel.sent - channel.retained;
  const hidden = channel.retained - channel.window.length;
  const boxes = channel.window.map((value, i) => {
    const position = oldest + hidden + i;
    const readers = channel.receivers.filter(receiver => receiver.unread > 0 && Math.max(receiver.position, oldest) === position);
    return valueBox(run, index, position, names.value(index, value), readers);
  });
  if (hidden) boxes.unshift(element("li", {}, element("span", { class: "box older" }, `+${grouped(hidden)}`)));
  return element("ol", { class: "values", "aria-label": "retained values, the oldest first" }, ...boxes);
}

/**
 * @param {ChannelState} channel
 * @param {ReceiverState} receiver
 */
function standing(channel, index, receiver, run) {
  if (channel.kind === "watch") {
    const isWindow = run.isWindow(index);
    const version = standingOf(channel, receiver, isWindow);
    if (isWindow) return [receiver.seen ? version : element("strong", { class: "unseen" }, version)];
    return receiver.seen ? [`${version}, seen`] : [element("strong", { class: "unseen" }, version)];
  }
  if (receiver.unread === 0) return ["up to date"];
  const readable = `${grouped(receiver.unread - receiver.lag)} to read`;
  if (receiver.lag === 0) return [readable];
  return [`${readable}, `, element("strong", { class: "lag" }, `${grouped(run.lagOf(index, receiver))} overwritten`)];
}

function row(name, ...children) {
  return element("div", {}, element("dt", {}, ...name), element("dd", {}, ...children));
}

// Handles by their names, or by their kind and number: a number alone would read as how many they are.
function listed(handles, kind, index, run) {
  const called = handles.slice(0, MOST_HANDLES).map(handle => run.names.handle(index, handle) ?? `${kind} ${run.numberOf(index, handle)}`);
  const more = handles.length > MOST_HANDLES ? ` and ${grouped(handles.length - MOST_HANDLES)} more` : "";
  return called.map(isolated).join(", ") + more || "none";
}

function handles(channel, index, run) {
  const receivers = channel.receivers.slice(0, MOST_HANDLES);
  const rows = receivers.map(receiver => row(rowName(run, index, run.lifeOf(index, receiver.handle)), ...standing(channel, index, receiver, run)));
  const left = channel.receivers.length - receivers.length;
  if (left) rows.push(row(["receivers"], `and ${grouped(left)} more`));
  rows.push(row(["senders"], listed(channel.senders, "sender", index, run)));
  if (channel.weak) rows.push(row(["weak senders"], listed(channel.weak, "weak sender", index, run)));
  return element("dl", {}, ...rows);
}

function currentValue(channel, index, run) {
  const text = run.names.value(index, channel.value);
  return element("p", { class: "current" }, element("span", { class: "box", title: text }, outside(text)), run.isWindow(index) ? "" : ` version ${grouped(channel.version)}`);
}

// What a channel that isn't unfolded says of its receivers.
function summary(channel, index, run) {
  if (channel.kind === "watch") {
    const unseen = channel.receivers.filter(receiver => !receiver.seen).length;
    return unseen ? element("small", { class: "unseen" }, ` ${grouped(unseen)} not up to date`) : "";
  }
  const lags = channel.receivers.map(receiver => run.lagOf(index, receiver)).filter(lag => lag > 0);
  const sum = lags.reduce((all, lag) => all + lag, 0);
  return lags.length ? element("small", { class: "lag" }, ` ${grouped(lags.length)} lag, −${grouped(sum)}`) : "";
}

function section(channel, index, run, isOpen) {
  const word = channel.closed ? "closed" : "open";
  const name = outside(run.names.channel(index));
  const kind = element("small", {}, ` ${kindOf(channel)} `);
  const tag = element("span", { class: `tag ${word}` }, word);
  const head = element("summary", {}, element("h3", {}, name, ...(isOpen ? [kind, tag] : [" ", tag, summary(channel, index, run), kind])));
  const made = element("details", { class: "channel", "data-channel": index, ...(isOpen ? { open: "" } : {}) }, head);
  if (!isOpen) return made;
  const values = channel.kind === "watch" ? [currentValue(channel, index, run)]
    : [overwritten(channel, index, run), retained(channel, index, run)];
  made.append(...values, handles(channel, index, run));
  return made;
}

// Returns the parts of the panel. `channels` has the channels in their order, `turned` those that were unfolded or folded by hand, `calls` is the part
// with the calls, and `card` the loss at the place, below which the calls come first.
export function statePanel(state, run, channels, turned, calls, card) {
  const isFew = run.channels.length <= FEW_CHANNELS;
  const [first] = channels;
  const parts = channels.map(index => section(state.channels[index], index, run, (isFew || index === first) !== turned.has(index)));
  return card.length > 0 ? [...card, ...calls, ...parts] : [parts[0], ...calls, ...parts.slice(1)];
}
