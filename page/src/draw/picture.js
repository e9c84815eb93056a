// Draws the rows in sight, at the places in view: a band for each channel, and one for the actors.

import { grouped } from "../base/numbers.js";
import { SMALL, SMALL_BOLD } from "../base/palette.js";
import { drawBand } from "./band.js";
import { drawBefore, fittedName, flag, line } from "./canvas.js";
import { ACTORS } from "./folds.js";
import { drawHead } from "./heads.js";
import { NAME_LINE } from "./layout.js";

// Draws the axis above the picture: the numbers of places, and the current place as a label.

export const AXIS_HEIGHT = 22;
const LABEL_EVERY = 62;
const STEPS = [1, 2, 5];
const MIDDLE = 10;
const GAP = 4;
const BEFORE = "before the window";

// What stands beside the names of receivers, by the kind of their channel.
const STANDINGS = { broadcast: "overwritten, to read", watch: "version seen, of the newest" };

// How many places are between two numbers on the axis.
function axisStep(column) {
  let step = 1;
  for (let i = 0; step * column < LABEL_EVERY; i++) step = STEPS[i % 3] * 10 ** Math.floor(i / 3);
  return step;
}

// Draws the current place as a label. Returns where it is, so that no number is drawn under it.
/** @returns {[number, number]} */
function drawPlace({ pen, run, view, frame, palette }) {
  if (view.place < view.from || view.place > view.to) return [0, 0];
  pen.font = SMALL_BOLD;
  const text = run.lead > 0 && view.place === run.lead ? BEFORE : grouped(view.place);
  const width = pen.measureText(text).width + 12;
  const middle = frame.middle(view.place);
  const left = Math.max(frame.left, Math.min(middle - width / 2, frame.width - width));
  pen.fillStyle = palette["place-line"];
  pen.beginPath();
  pen.roundRect(left, 2, width, 16, 4);
  pen.fill();
  pen.fillRect(middle - 1, 16, 2, AXIS_HEIGHT - 16);
  pen.fillStyle = palette.card;
  pen.textAlign = "left";
  pen.fillText(text, left + 6, MIDDLE + 0.5);
  return [left, left + width];
}

// Says what is at the left of a window's first call, unless the place's label is there. Returns where it is.
/** @returns {[number, number]} */
function drawBeforeWord({ pen, frame }, label) {
  const end = frame.left + pen.measureText(BEFORE).width;
  if (label[0] < end + GAP && label[1] > frame.left) return label;
  pen.textAlign = "left";
  pen.fillText(BEFORE, frame.left, MIDDLE);
  return [frame.left, end];
}

// `kind` is that of the channel whose rows are on top, or null.
export function drawAxis(drawing) {
  const { pen, run, view, frame, palette, kind } = drawing;
  const taken = [drawPlace(drawing)];
  const step = axisStep(frame.column);
  pen.font = SMALL;
  pen.fillStyle = palette.mute;
  if (run.lead > 0 && view.from <= run.lead && view.place !== run.lead) taken.push(drawBeforeWord(drawing, taken[0]));
  pen.textAlign = "center";
  for (let place = Math.ceil(Math.max(view.from, view.least + Number(run.lead > 0)) / step) * step; place <= Math.min(view.to, run.lastPlace); place += step) {
    const text = grouped(place);
    const half = pen.measureText(text).width / 2;
    const x = frame.middle(place);
    pen.fillRect(x, AXIS_HEIGHT - 4, 1, 4);
    const middle = Math.max(frame.left + half, Math.min(x, frame.width - half - 2));
    if (taken.every(([left, right]) => middle + half + GAP < left || middle - half - GAP > right)) pen.fillText(text, middle, MIDDLE);
  }
  if (frame.left === 0 || kind === null) return;
  pen.textAlign = "right";
  pen.fillText(STANDINGS[kind], frame.left - GAP - 4, MIDDLE);
}

const DOT = 4.5;
const BADGE_ROOM = 40;

// The height of an actor's line.
function middleOf({ lane, y, height }) {
  return lane + (height - (lane - y)) / 2;
}

/** @param {Drawing} drawing */
function drawActorRows({ pen, run, frame, band, palette }) {
  pen.font = SMALL;
  for (const row of band.rows) {
    const { actor, y } = row;
    const middle = middleOf(row);
    const nameY = frame.left ? middle : y + NAME_LINE / 2;
    pen.textAlign = "left";
    pen.fillStyle = palette.ink;
    run.actors.drawBadge(pen, palette, actor, 6, nameY - 8);
    pen.fillText(fittedName(pen, run.actors.names[actor], (frame.left || frame.width) - BADGE_ROOM - 10), BADGE_ROOM, nameY);
    pen.strokeStyle = palette.line;
    pen.lineWidth = 1;
    line(pen, frame.left, middle, frame.right, middle);
  }
}

/** @param {Drawing} drawing */
function drawActorCalls({ pen, run, view, frame, band, palette }) {
  const { actors } = run.columns;
  const middles = new Map(band.rows.map(row => [row.actor, middleOf(row)]));
  for (let place = Math.max(1, view.from); place <= Math.min(view.to, run.lastPlace); place++) {
    const y = middles.get(actors[place]);
    if (y === undefined) continue;
    pen.fillStyle = palette.actor(actors[place]);
    pen.beginPath();
    pen.arc(frame.middle(place), y, Math.min(DOT, frame.column / 2), 0, 2 * Math.PI);
    pen.fill();
  }
}

/** @param {Drawing} drawing */
function drawActorsFar({ pen, dots, frame, band, palette }) {
  for (const row of band.rows) {
    pen.fillStyle = palette.actor(row.actor);
    dots.each(frame, row.actor, (x, width) => pen.fillRect(x, middleOf(row) - 5, width, 10));
  }
}

/** @param {Drawing} drawing */
function drawWaits(drawing) {
  for (const wait of drawing.run.waits) drawWait(drawing, wait);
}

// A wait is a line from where it began to the end of the run, with a sign there.
/** @param {Drawing} drawing */
function drawWait({ pen, run, view, frame, bands, palette }, { actor, channel, word, handle, since, said }) {
  const column = run.lastPlace + 1;
  const band = bands.find(it => it.channel === channel);
  if (band === undefined || view.to < since) return;
  const row = band.rowOf.get(handle);
  const x = frame.middle(column);
  const foot = row ? row.base : band.y + band.height;
  pen.strokeStyle = palette.actor(actor);
  pen.lineWidth = 2;
  pen.setLineDash([2, 3]);
  line(pen, Math.max(frame.left, frame.middle(since)), foot - 7, Math.min(frame.right, x), foot - 7);
  pen.setLineDash([]);
  if (view.to < column) return;
  flag(pen, `${word} ${said}`, {
    x, y: foot - 15, colour: palette.actor(actor), ink: palette.card, least: frame.left, most: frame.right,
  });
}

function drawNothing({ pen, folds, palette }) {
  pen.font = SMALL;
  pen.fillStyle = palette.mute;
  pen.textAlign = "left";
  pen.fillText(`no row has “${folds.filter}” in its name`, 20, 30);
}

// The lead is grey: of a window, the column at its beginning, and its own calls where the place is in it.
/** @param {Drawing} drawing */
function drawLead({ pen, run, view, frame, top, bottom, palette }) {
  if (run.lead === 0 || view.from > run.lead) return;
  const x = frame.x(view.from);
  drawBefore(pen, palette, x, top, frame.x(Math.min(run.lead, view.to) + 1) - x, bottom - top);
}

// Draws the rows that stay in sight over those that are scrolled under them.
/** @param {Drawing} drawing */
function drawPinned(drawing) {
  const { pen, frame, band, palette } = drawing;
  const { y, height } = band.pins;
  pen.save();
  pen.beginPath();
  pen.rect(0, y, frame.width, height);
  pen.clip();
  pen.fillStyle = palette.card;
  pen.fillRect(0, y, frame.width, height);
  drawBand(drawing);
  pen.restore();
  pen.fillStyle = palette.mute;
  pen.fillRect(0, y + height - 1, frame.width, 1);
}

// `drawing` has the pen, the run, the view, its frame, the bands in sight, how far the rows are scrolled, the places whose states are drawn,
// the actors' dots, the folds and the palette. The pen's heights are those of the layout.
export function drawPicture(drawing) {
  for (const band of drawing.bands) {
    const part = { ...drawing, band };
    if (band.key === ACTORS) {
      drawActorRows(part);
      (drawing.frame.isNear ? drawActorCalls : drawActorsFar)(part);
    } else if (band.pins) {
      drawPinned(part);
    } else {
      drawBand(part);
    }
  }
  drawWaits(drawing);
  drawLead(drawing);
  for (const band of drawing.bands.filter(({ pins }) => !pins)) drawHead({ ...drawing, band });
  if (drawing.bands.length === 0) drawNothing(drawing);
}
