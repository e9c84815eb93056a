// The cause of the loss that is shown, as a picture: from the send of the first value that was lost, over the send that overwrote it and the last receive
// of the reader, to where it was told. Rows that take no part in it are dimmed.

import { SMALL_BOLD } from "../base/palette.js";
import { lastReceived } from "../run/losses.js";

const HEAD = 6;
const BEND = 18;
const DIM = 0.72;
const PAD = 3;
const LABEL = 14;

// The steps of a loss, once the channel's values are loaded: each with its place, its handle, and what it was.
export function storyOf(run, loss) {
  const { channel, receiver, from, to, end } = loss;
  const { handles } = run.columns;
  const ended = end === "open" ? [] : [{ place: to, handle: receiver, word: end === "told" ? "told" : "dropped" }];
  if (from <= run.lead) return [{ place: run.lead, handle: receiver, word: "overwritten before the window" }, ...ended];
  const sent = run.values.sendOf(channel, run.losses.firstOf(loss));
  const received = lastReceived(run, loss, run.lifeOf(channel, receiver).from);
  return [
    { place: sent, handle: handles[sent], word: "sent" }, { place: from, handle: handles[from], word: "overwrote it" },
    ...(received ? [{ place: received, handle: receiver, word: "last receive" }] : []),
    ...ended,
  ];
}

/** @param {Drawing} drawing */
function dim({ pen, frame, bands, palette }, channel, taking) {
  pen.fillStyle = palette.card;
  pen.globalAlpha = DIM;
  for (const band of bands) {
    for (const row of band.rows) if (band.channel !== channel || !taking.has(row)) pen.fillRect(0, row.y, frame.width, row.height);
  }
  pen.globalAlpha = 1;
}

// An arrow that is bent upwards, with its head at the second point.
function arrow(pen, a, b) {
  const bend = { x: (a.x + b.x) / 2, y: Math.min(a.y, b.y) - BEND };
  const turn = Math.atan2(b.y - bend.y, b.x - bend.x);
  pen.beginPath();
  pen.moveTo(a.x, a.y);
  pen.quadraticCurveTo(bend.x, bend.y, b.x, b.y);
  pen.stroke();
  pen.beginPath();
  pen.moveTo(b.x, b.y);
  for (const side of [-0.45, 0.45]) pen.lineTo(b.x - HEAD * Math.cos(turn + side), b.y - HEAD * Math.sin(turn + side));
  pen.fill();
}

// Where a label is, and how far it may be moved so that it lies over no other.
const MOVES = [0, -LABEL, LABEL, -2 * LABEL, 2 * LABEL, -3 * LABEL, 3 * LABEL];

function isOver(a, b) {
  return Math.abs(a.y - b.y) < LABEL && a.left < b.left + b.width + 2 * PAD && b.left < a.left + a.width + 2 * PAD;
}

// The labels, each at the first height near its step where it lies over none before it.
/** @param {Drawing} drawing */
export function placedLabels({ pen, frame }, labels) {
  return labels.reduce((placed, { x, y, word }) => {
    const width = pen.measureText(word).width;
    const left = Math.max(frame.left, Math.min(x - width / 2, frame.right - width));
    const free = MOVES.find(move => !placed.some(it => isOver(it, { left, width, y: y + move })));
    return [...placed, { left, width, y: y + (free ?? 0), word }];
  }, []);
}

/** @param {Drawing} drawing */
function label({ pen, palette }, { left, width, y, word }) {
  pen.fillStyle = palette.card;
  pen.fillRect(left - PAD, y - LABEL / 2, width + 2 * PAD, LABEL);
  pen.fillStyle = palette["lag-ink"];
  pen.fillText(word, left, y);
}

// Draws the story of a loss over the rows in sight. A step out of view is at the edge that it is behind.
/**
 * @param {Drawing} drawing
 * @param {Loss} loss
 */
export function drawStory(drawing, loss) {
  const { pen, run, frame, bands, palette } = drawing;
  const band = bands.find(({ channel }) => channel === loss.channel);
  if (!band || !run.values.areThere) return;
  const steps = storyOf(run, loss).map(step => ({ ...step, row: band.rowOf.get(step.handle) })).filter(({ row }) => row !== undefined)
    .map(({ place, word, row }) => ({ word, row, x: Math.max(frame.left, Math.min(frame.middle(place), frame.right)), y: row.base - 5 }));
  dim(drawing, loss.channel, new Set(steps.map(({ row }) => row)));
  pen.strokeStyle = pen.fillStyle = palette["lag-ink"];
  pen.lineWidth = 1.6;
  steps.slice(1).forEach((step, i) => arrow(pen, steps[i], step));
  pen.font = SMALL_BOLD;
  pen.textAlign = "left";
  for (const it of placedLabels(drawing, steps.map((step, i) => ({ ...step, y: step.row.base - (i % 2 ? 1 : LABEL) })))) label(drawing, it);
}
