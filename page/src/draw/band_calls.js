// Draws the calls on a channel, each in its handle's row.

import { CODE, NUMBERS } from "../base/palette.js";
import { MARK_NAMES } from "../run/marks.js";
import { countUpTo } from "../run/values.js";
import { fittedValue, isTelling } from "./canvas.js";
import { SHAPES } from "./shapes.js";

const LARGEST = 4.6;
// How wide a letter of a code is, and how far a code is from its mark and from what comes after it.
const LETTER = 6.7;
const CODE_GAP = 1;
// How far a value is from its mark, which may have a ring, and from the next one.
const VALUE_GAP = 8;
const END_GAP = 6;
const LEAST_VALUE = 12;
const VALUED = new Set(["sent", "unsent"]);

// The calls that are drawn far out, since they are rare.
const FAR = new Set(["closed", "dropped"]);

// Returns the height of a mark: on the row's line if a handle is made or dropped, else just above the line.
function heightOf(mark, row) {
  return mark === "made" || mark === "dropped" ? row.base + 1.5 : row.base - 5;
}

// Draws each sent value behind its mark, cut where the next mark of its row begins. The values of a watch have a row of their own.
/** @param {Drawing} drawing */
function drawSentValues(drawing) {
  const { pen, run, frame, band, palette } = drawing;
  if (run.channels[band.channel].kind === "watch") return;
  const ends = new Map();
  pen.font = NUMBERS;
  pen.textAlign = "left";
  pen.fillStyle = palette.mute;
  eachCall(drawing, (place, mark, row) => {
    const x = frame.middle(place) + VALUE_GAP + codeWidth(drawing, place, row);
    const room = (ends.get(row) ?? frame.right) - x;
    ends.set(row, frame.middle(place) - END_GAP);
    if (!VALUED.has(MARK_NAMES[mark]) || room < LEAST_VALUE) return;
    const text = fittedValue(pen, run, ...run.sentAt(place), room);
    if (isTelling(text)) pen.fillText(text, x, row.base - 5);
  }, { isBack: true });
}

// How wide the code beside a call's mark is: that of a caller that isn't the one whose row it is, where it fits before the next mark.
function codeWidth({ run, frame }, place, row) {
  const actor = run.columns.actors[place];
  const width = run.actors.codes[actor].length * LETTER;
  return actor !== run.userOf(row.lives[0]) && width + 2 * (LARGEST + CODE_GAP) <= frame.column ? width : 0;
}

function drawCaller({ pen, run }, entry, x, y) {
  pen.font = CODE;
  pen.textAlign = "left";
  pen.fillText(run.actors.codes[entry.actor], x + LARGEST + CODE_GAP, y + 1);
}

// Draws a dashed line from the handle that made another to the other's row.
function drawMaking({ pen, band }, entry, x, y) {
  const made = band.rowOf.get(Number(entry.answer));
  if (made === undefined) return;
  pen.setLineDash([3, 2]);
  pen.beginPath();
  pen.moveTo(x, y);
  pen.lineTo(x, made.base);
  pen.stroke();
  pen.setLineDash([]);
}

/** @param {Drawing} drawing */
function drawNear(drawing, place, mark, row) {
  const { pen, run, frame, palette } = drawing;
  const entry = run.entry(place);
  const x = frame.middle(place);
  const y = heightOf(mark, row);
  pen.fillStyle = pen.strokeStyle = mark === "closed" ? palette.closed : mark === "lagged" ? palette.lag : palette.actor(entry.actor);
  pen.lineWidth = 1.6;
  SHAPES[mark](pen, x, y, Math.min(LARGEST, frame.column / 2.2));
  // The line of who made a handle goes on behind the mark.
  if (codeWidth(drawing, place, row) > 0) drawCaller(drawing, entry, x, mark === "made" ? row.base - 6 : y);
  if (mark === "made") drawMaking(drawing, entry, x, y);
}

// Far out only rare calls are drawn: drops of handles, and replies that the channel is closed.
/** @param {Drawing} drawing */
function drawFar({ pen, frame, palette }, place, row) {
  pen.fillStyle = palette.closed;
  pen.fillRect(frame.middle(place) - 0.5, row.base - 8, 1, 12);
}

// Calls `show` for each call in view whose handle has a row in the band, with its mark, from the first on or from the last back.
/** @param {Drawing} drawing */
function eachCall({ run, view, band }, show, { isBack = false } = {}) {
  const { channels, handles, marks } = run.columns;
  const first = Math.max((view.least ?? 0) + 1, view.from);
  const last = Math.min(view.to, run.lastPlace);
  for (let i = 0; i <= last - first; i++) {
    const place = isBack ? last - i : first + i;
    if (channels[place] !== band.channel) continue;
    const row = band.rowOf.get(handles[place]);
    if (row) show(place, marks[place], row);
  }
}

// The places of each channel's rare calls.
function rareCalls({ columns: { channels, marks }, channels: { length } }) {
  const isRare = MARK_NAMES.map(mark => FAR.has(mark));
  const places = Array.from({ length }, () => []);
  for (let place = 1; place < marks.length; place++) if (isRare[marks[place]]) places[channels[place]].push(place);
  return places;
}

// Draws the rare calls in view, those of one row on the same point once.
/** @param {Drawing} drawing */
function drawAllFar(drawing) {
  const { run, view, frame, band } = drawing;
  run.rareCalls ??= rareCalls(run);
  const places = run.rareCalls[band.channel];
  const ends = new Map();
  for (let i = countUpTo(places, view.from - 1); i < places.length && places[i] <= view.to; i++) {
    const row = band.rowOf.get(run.columns.handles[places[i]]);
    const x = Math.round(frame.middle(places[i]));
    if (!row || ends.get(row) === x) continue;
    ends.set(row, x);
    drawFar(drawing, places[i], row);
  }
}

/** @param {Drawing} drawing */
export function drawBandCalls(drawing) {
  if (!drawing.frame.isNear) return drawAllFar(drawing);
  drawSentValues(drawing);
  eachCall(drawing, (place, mark, row) => drawNear(drawing, place, MARK_NAMES[mark], row));
}
