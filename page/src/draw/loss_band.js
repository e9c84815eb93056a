// Draws losses as bands: each from the send that overwrote first to the call that was told, the drop, or past the end, at least so wide that it
// is seen. Those that no receive returned are hatched. Labels say how many values were lost; where two would touch, one says it of both.

import { grouped } from "../base/numbers.js";
import { CODE } from "../base/palette.js";
import { countUpTo } from "../run/values.js";
import { slanted } from "./canvas.js";

const LEAST = 2;
const LETTER = 6.7;
const PAD = 4;
const TICKS_FROM = 4;
const COUNT_ROOM = 16;

// Where a loss's stretch is on a canvas, and how wide at least.
export function stretchOf(frame, { from, to }, least = LEAST) {
  const x = Math.max(frame.left, Math.floor(frame.x(from)));
  const end = Math.min(frame.right, Math.max(x + least, Math.round(frame.x(to))));
  return { x: Math.min(x, end - least), end };
}

export function drawStretch(pen, palette, { x, end }, y, height, isTold) {
  pen.fillStyle = pen.strokeStyle = palette.lag;
  if (isTold) return pen.fillRect(x, y, end - x, height);
  slanted(pen, { x, y, width: end - x, height, ground: palette["lag-ground"], colour: palette.lag });
  pen.strokeStyle = palette.lag;
  pen.lineWidth = 1;
  pen.setLineDash([4, 2]);
  pen.strokeRect(x + 0.5, y + 0.5, Math.max(1, end - x - 1), height - 1);
  pen.setLineDash([]);
}

// How many values were lost, and how many of them no receive returned: never, or since the test failed before.
function textOf({ count, sum, untold, unwound }) {
  const many = count > 1 ? `${grouped(sum)} in ${grouped(count)}` : grouped(sum);
  const of = (part, word) => (part === 0 ? "" : part === sum ? ` ${word}` : `, ${grouped(part)} ${word}`);
  return `${many}${of(untold - unwound, "untold")}${of(unwound, "open at failure")}`;
}

// Where the label of some stretches goes: into a single told one at its right end, else from the first of them on.
function labelled(frame, part) {
  const text = textOf(part);
  const width = text.length * LETTER;
  const isInside = part.count === 1 && part.untold === 0 && width + 2 * PAD <= part.end - part.x;
  const x = isInside ? part.end - width - PAD : Math.max(frame.left + PAD, Math.min(part.x + PAD, frame.right - width - PAD));
  return { ...part, text, width, isInside, labelX: x };
}

// Joins the stretches whose labels would touch.
function joined(frame, parts) {
  const labels = [];
  for (const part of parts) {
    let next = labelled(frame, part);
    while (labels.length && next.labelX - PAD < labels.at(-1).labelX + labels.at(-1).width + PAD) {
      const last = labels.pop();
      next = labelled(frame, {
        x: last.x, end: Math.max(last.end, next.end), sum: last.sum + next.sum, untold: last.untold + next.untold,
        unwound: last.unwound + next.unwound, count: last.count + next.count,
      });
    }
    labels.push(next);
  }
  return labels;
}

function drawLabel({ pen, palette }, { text, width, isInside, untold, labelX }, y, height) {
  pen.fillStyle = isInside ? palette.lag : palette.card;
  pen.strokeStyle = palette.lag;
  pen.lineWidth = 1;
  pen.beginPath();
  pen.roundRect(labelX - PAD + 1, y - 0.5, width + 2 * PAD - 2, height + 1, 3);
  pen.fill();
  if (untold) pen.setLineDash([3, 2]);
  if (!isInside) pen.stroke();
  pen.setLineDash([]);
  pen.fillStyle = isInside ? palette["on-dark"] : palette["lag-ink"];
  pen.fillText(text, labelX, y + height / 2 + 0.5);
}

// Close up, a tick at each send that overwrote a value, with the count so far where it has room.
/** @param {Drawing} drawing */
function drawTicks({ pen, run, view, frame, palette }, loss, y, height) {
  if (!run.values.areThere) return;
  const sends = run.values.overwritten(loss.channel);
  const end = run.losses.firstOf(loss) + run.losses.countIn(loss);
  pen.fillStyle = palette["on-dark"];
  for (let i = countUpTo(sends, Math.max(loss.from, view.from - 1)); i < sends.length && sends[i] < Math.min(loss.to, view.to + 1); i++) {
    const x = Math.round(frame.x(sends[i]));
    const next = frame.x(i + 1 < end ? sends[i + 1] : loss.to);
    pen.globalAlpha = 0.7;
    pen.fillRect(x, y + 1, 1, height - 2);
    if (next - x > COUNT_ROOM && i + 1 < end) pen.fillText(String(loss.lost - end + i + 1), x + 3, y + height / 2 + 0.5);
    pen.globalAlpha = 1;
  }
}

// The stretches that none before them covers, of some that look the same.
export function uncovered(stretches) {
  let last = null;
  return stretches.filter(it => {
    const isCovered = last !== null && it.x >= last.x && it.end <= last.end;
    if (!isCovered) last = it;
    return !isCovered;
  });
}

// What is drawn of the losses of a band in a view, which stays the same while the place changes and rows are scrolled.
const plans = new WeakMap();

/**
 * @param {Drawing} drawing
 * @param {Loss[]} losses the same array each time, in the order in which they begin
 */
function planOf({ run, frame }, losses) {
  const key = `${frame.from} ${frame.to} ${frame.left} ${frame.width} ${run.losses.failure}`;
  if (plans.get(losses)?.key === key) return plans.get(losses);
  const shown = losses.filter(({ from, to }) => to >= frame.from && from <= frame.to);
  const parts = shown.map(loss => ({ ...stretchOf(frame, loss), sum: loss.lost, count: 1, untold: loss.end === "told" ? 0 : loss.lost, unwound: run.losses.isUnwound(loss) ? loss.lost : 0 }));
  const told = shown.filter(({ end }) => end === "told");
  const posts = new Set(told.map(({ to }) => Math.round(2 * frame.x(to)) / 2).filter(x => x > frame.left && x < frame.right));
  const stretches = [uncovered(parts.filter(it => it.untold === 0)), uncovered(parts.filter(it => it.untold > 0))].flat();
  const plan = { key, told, posts, stretches, labels: joined(frame, parts) };
  plans.set(losses, plan);
  return plan;
}

// Draws the losses in view in one band.
/**
 * @param {Drawing} drawing
 * @param {Loss[]} losses
 */
export function drawLossBand(drawing, losses, y, height) {
  const { pen, frame, palette } = drawing;
  const { told, stretches, labels } = planOf(drawing, losses);
  pen.font = CODE;
  pen.textAlign = "left";
  for (const part of stretches) drawStretch(pen, palette, part, y, height, part.untold === 0);
  if (frame.column >= TICKS_FROM) for (const loss of told) drawTicks(drawing, loss, y, height);
  for (const label of labels) drawLabel(drawing, label, y, height);
}

// Draws a post from each told loss in view down to the line of its row.
/**
 * @param {Drawing} drawing
 * @param {Loss[]} losses
 */
export function drawPosts(drawing, losses, y, base) {
  const { pen, palette } = drawing;
  pen.fillStyle = palette.lag;
  for (const x of planOf(drawing, losses).posts) pen.fillRect(x - 1.5, y, 1.5, base - y);
}
