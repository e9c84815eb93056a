// The legend: what colours and shapes mean.

import { byId, element, outside } from "../base/dom.js";
import { MARK_NAMES } from "../run/marks.js";
import { cleared, hatched } from "./canvas.js";
import { drawStretch } from "./loss_band.js";
import { SHAPES } from "./shapes.js";

const SIZE = 14;

const SHAPE_MEANINGS = {
  sent: "sent", unsent: "nobody to send to", received: "received or seen", asked: "nothing there, or only asked", made: "a handle created",
  dropped: "dropped", lagged: "lagged", closed: "found closed", refused: "refused",
};

// How wide a mark is: that of an actor is its badge.
const BADGE = 28;

function colourMark(colour) {
  return pen => {
    pen.fillStyle = colour;
    pen.fillRect(0, 2, SIZE, SIZE - 4);
  };
}

function shapeMark(palette, shape) {
  return pen => {
    pen.fillStyle = pen.strokeStyle = palette.ink;
    pen.lineWidth = 1.6;
    SHAPES[shape](pen, SIZE / 2, SIZE / 2, 4.6);
  };
}

// The items, each with how its mark is drawn by a pen, how wide that is, and what it means.
export function legendItems(run, palette) {
  const named = run.actors.names.map((text, actor) => ({ text, actor, width: BADGE, draw: pen => run.actors.drawBadge(pen, palette, actor, 0, 0) }));
  const actors = named.filter(({ actor }) => run.isCaller(actor));
  const marks = [
    [colourMark(palette.unread), "to read"], [colourMark(palette.lag), LOST],
    [pen => drawStretch(pen, palette, { x: 0, end: SIZE }, 2, SIZE - 4, false), "lost, and nobody was told"], [colourMark(palette.unseen), "value not seen"],
    [pen => hatched(pen, palette, 0, 1, SIZE, SIZE - 2), CLOSED],
    ...Object.entries(SHAPE_MEANINGS).map(([shape, meaning]) => [shapeMark(palette, shape), meaning]),
  ];
  return [...actors, ...marks.map(([draw, text]) => ({ text, actor: null, width: SIZE, draw }))];
}

function swatch(draw) {
  const canvas = element("canvas", { "aria-hidden": "true" });
  canvas.style.width = `${SIZE}px`;
  draw(cleared(canvas, SIZE, SIZE));
  return canvas;
}

// The marks that the pictures of broadcasts and of watches have most of, and those of losses, closed channels and calls, if the run has such ones. What has
// no room is left out from the end on.
const MOST_SEEN = { broadcast: "to read", watch: "value not seen" };
const LOST = "lost: overwritten before it was read";
const OF_CALLS = ["sent", "received", "lagged", "dropped"];
const CLOSED = "channel closed";
const LAST = "asked";
const KEY = "yovanelum legend";

function isKept() {
  try {
    return localStorage.getItem(KEY) !== null;
  } catch {
    return false;
  }
}

// Whether a channel is closed at the end.
function hasClosed({ ending }) {
  return ending.channels.some(({ closed }) => closed);
}

// Shows the marks that the run has most of in one line below the picture, until it was closed in this browser once.
export function showKeyLine(run, palette) {
  const line = byId("key-line");
  line.hidden = isKept();
  if (line.hidden) return;
  const has = mark => run.columns.marks.includes(MARK_NAMES.indexOf(mark), 1);
  const meanings = marks => marks.filter(has).map(mark => SHAPE_MEANINGS[mark]);
  const most = new Set(run.channels.map(({ kind }) => MOST_SEEN[kind]));
  const lost = run.losses.all.length > 0 ? [LOST] : [];
  const wanted = [...most, ...lost, ...meanings(OF_CALLS), ...(hasClosed(run) ? [CLOSED] : []), ...meanings([LAST])];
  const all = legendItems(run, palette).filter(({ actor }) => actor === null);
  const items = wanted.map(text => all.find(it => it.text === text));
  line.querySelector("ul").replaceChildren(...items.map(({ text, draw }) => element("li", {}, swatch(draw), " ", text)));
}

// Closes that line for good.
export function closeKeyLine() {
  byId("key-line").hidden = true;
  try {
    localStorage.setItem(KEY, "closed");
  } catch {
    return;
  }
}

// The legend as elements.
export function legend(run, palette) {
  return legendItems(run, palette).map(({ text, actor, draw }) => (actor === null ? element("li", {}, swatch(draw), " ", text)
    : element("li", {}, run.actors.badge(actor), " ", outside(text))));
}
