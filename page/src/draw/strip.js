// The strip of the whole run: where each channel's receivers fell behind and lost values, and which part is in view.

import { grouped } from "../base/numbers.js";
import { CODE, SMALL } from "../base/palette.js";
import { drawBefore, fittedName, hatched } from "./canvas.js";
import { drawStretch, stretchOf, uncovered } from "./loss_band.js";

const ROW = 13;
const HIGH_ROW = 20;
const FEW = 4;
const GAP = 2;
const TOP = 2;
const LEAST_UNTOLD = 5;
const LEAST_BEFORE = 4;

// At the right of the names: how much was lost, and a sign where some of it was never told.
const COUNT = 78;
const DIGIT = 6.7;
const MOST_DIGITS = 7;
const SIGN = { right: 10, width: 12, height: 8 };

// Where a row of the strip is. Few channels have higher rows.
export function stripRow(run, index) {
  const height = run.channels.length <= FEW ? HIGH_ROW : ROW;
  return { y: TOP + index * height, height, bar: height - GAP };
}

export function stripHeight(run) {
  return stripRow(run, run.channels.length).y + TOP;
}

// Returns the height for as many whole rows as fit into a share of the window.
export function stripCap(run, share) {
  const { height } = stripRow(run, 0);
  return TOP + Math.floor((innerHeight * share - TOP) / height) * height;
}

// A stretch may be narrower than a point, so each point has the greatest level of the stretches in it.
function drawLevels({ pen, run, frame, palette, whole }, channel, { y, bar }) {
  const { kind, capacity } = run.channels[channel];
  const levels = new Uint32Array(Math.ceil(frame.right) + 1);
  for (const { level, from, to } of whole.levelsOf(channel)) {
    const end = Math.max(Math.floor(frame.x(from)) + 1, Math.ceil(frame.x(Math.min(to, run.lastPlace + 1))));
    for (let x = Math.floor(frame.x(from)); x < end; x++) levels[x] = Math.max(levels[x], level);
  }
  pen.fillStyle = kind === "broadcast" ? palette.unread : palette.unseen;
  levels.forEach((level, x) => {
    if (level === 0 || x >= frame.right) return;
    const height = kind === "broadcast" ? bar * level / capacity : bar * level / 2;
    pen.fillRect(x, y + bar - height, 1, height);
  });
}

// Where the losses of a channel are on a strip, those that a receive returned and others, which stays the same while the strip has its width.
const plans = new WeakMap();

/** @param {Loss[]} losses the same array each time */
function planOf(frame, losses) {
  const key = `${frame.from} ${frame.to} ${frame.left} ${frame.right}`;
  if (plans.get(losses)?.key === key) return plans.get(losses);
  const told = losses.filter(({ end }) => end === "told").map(loss => stretchOf(frame, loss));
  const untold = losses.filter(({ end }) => end !== "told").map(loss => stretchOf(frame, loss, LEAST_UNTOLD));
  const plan = { key, told: uncovered(told), untold: uncovered(untold) };
  plans.set(losses, plan);
  return plan;
}

// Losses that no receive returned are drawn last and lower, so that none of the others hides them.
function drawLosses({ pen, run, frame, palette }, channel, { y, bar }) {
  const height = Math.ceil(bar / 2);
  const { told, untold } = planOf(frame, run.losses.on(channel));
  for (const stretch of told) drawStretch(pen, palette, stretch, y, height, true);
  for (const stretch of untold) drawStretch(pen, palette, stretch, y + bar - height, height, false);
}

// How many values a channel's receivers lost, and a sign where no receive returned some.
export function drawLostCount({ pen, run, palette }, channel, right, middle) {
  const { lost, untold, unwound } = run.losses.sums[channel];
  if (lost === 0) return;
  const { height, width } = SIGN;
  pen.font = CODE;
  pen.textAlign = "right";
  pen.fillStyle = palette["lag-ink"];
  pen.fillText(`−${grouped(lost)}`, right - width - 4, middle);
  if (untold + unwound === 0) return;
  drawStretch(pen, palette, { x: right - width, end: right }, middle - height / 2, height, false);
}

// `drawing` has the pen, the run, a frame over all of it, the palette, the order of the channels, and the levels by stretches, once they are loaded.
export function drawStrip(drawing) {
  const { pen, run, frame, palette, whole, order } = drawing;
  const digits = Math.max(0, ...run.losses.sums.map(({ lost }) => grouped(lost).length));
  const room = run.losses.all.length ? COUNT + DIGIT * Math.max(0, digits - MOST_DIGITS) : SIGN.right;
  order.forEach((channel, index) => {
    const row = stripRow(run, index);
    const middle = row.y + row.bar / 2;
    pen.font = SMALL;
    pen.textAlign = "right";
    pen.fillStyle = palette.mute;
    const isNarrow = frame.left < 2 * COUNT;
    pen.fillText(fittedName(pen, run.names.channel(channel), frame.left - (isNarrow ? 14 : room + SIGN.right)), frame.left - (isNarrow ? 8 : room), middle);
    pen.fillStyle = palette.line;
    pen.fillRect(frame.left, row.y, frame.right - frame.left, row.bar);
    const closing = run.closings.places[channel];
    if (whole.tables.has(channel)) drawLevels(drawing, channel, row);
    if (closing !== null) hatched(pen, palette, Math.max(frame.left, frame.x(closing)), row.y, frame.right - Math.max(frame.left, frame.x(closing)), row.bar);
    drawLosses(drawing, channel, row);
    drawLostCount(drawing, channel, isNarrow ? frame.width - 2 : frame.left - SIGN.right, middle);
  });
  if (run.lead > 0) drawBefore(pen, palette, frame.left, 0, Math.max(frame.x(run.lead + 1) - frame.left, LEAST_BEFORE), stripHeight(run));
}

// Returns the first place after this one that is drawn at another point.
function behindPoint(frame, place, point) {
  let least = place + 1;
  let end = frame.to + 1;
  while (least < end) {
    const middle = (least + end) >> 1;
    if (Math.round(frame.middle(middle)) === point) least = middle + 1;
    else end = middle;
  }
  return least;
}

// Marks the hits of a search in the lower half, so that the place is seen above them. Those on one point are marked once, and the others aren't looked at.
function drawHits({ pen, frame, palette, height, hits }) {
  pen.fillStyle = palette.hit;
  for (let place = hits.from(0); place !== undefined;) {
    const x = Math.round(frame.middle(place));
    pen.fillRect(x - 1, height / 2, 2, height / 2);
    place = hits.from(behindPoint(frame, place, x));
  }
}

// Draws the part in view, the place, and the hits of a search.
export function drawStripCursor(drawing) {
  const { pen, view, frame, palette, height } = drawing;
  const x = Math.max(frame.left, frame.x(view.from));
  const width = Math.max(frame.x(view.to + 1) - x, 3);
  pen.globalAlpha = 0.1;
  pen.fillStyle = palette.frame;
  pen.fillRect(x, 1, width, height - 2);
  pen.globalAlpha = 1;
  pen.strokeStyle = palette.frame;
  pen.lineWidth = 1.5;
  pen.strokeRect(x, 1, width, height - 2);
  pen.fillStyle = palette["place-line"];
  pen.fillRect(Math.max(frame.left, frame.middle(view.place)) - 1, 0, 2, height);
  drawHits(drawing);
}
