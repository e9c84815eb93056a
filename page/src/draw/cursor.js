// Draws the place over the picture: its column, the row of its call, and beside each row's name what its receiver has to read or see there.

import { grouped } from "../base/numbers.js";
import { SMALL, SMALL_BOLD } from "../base/palette.js";
import { standingOf } from "../run/versions.js";
import { line } from "./canvas.js";
import { headY } from "./heads.js";
import { BAND, HEAD, NAME_LINE } from "./layout.js";
import { stretchOf } from "./loss_band.js";
import { drawPlainName, drawRowName } from "./row_names.js";
import { drawStory } from "./story.js";

const EDGE = 8;
const GAP = 5;
const RING = 7;

// The words about a receiver, from right to left, each with its colour and font.
function wordsOf(run, index, channel, receiver, palette) {
  if (channel.kind === "watch") {
    const said = run.isWindow(index) ? (receiver.seen ? "seen" : "unseen") : standingOf(channel, receiver, false).replace("has ", "");
    return [[said, receiver.seen ? palette.mute : palette["unseen-ink"], SMALL]];
  }
  const readable = receiver.unread - receiver.lag;
  const words = [[grouped(readable), readable ? palette["unread-ink"] : palette.mute, SMALL]];
  if (receiver.lag) words.push([`−${grouped(run.lagOf(index, receiver))}`, palette["lag-ink"], SMALL_BOLD]);
  return words;
}

function drawStanding({ pen, run, frame, palette }, index, channel, receiver, row) {
  let x = (frame.left || frame.width) - EDGE;
  const y = frame.left ? row.y + row.height / 2 : row.y + NAME_LINE / 2;
  pen.textAlign = "right";
  for (const [text, colour, font] of wordsOf(run, index, channel, receiver, palette)) {
    pen.font = font;
    pen.fillStyle = colour;
    pen.fillText(text, x, y);
    x -= pen.measureText(text).width + GAP;
  }
}

// Where several handles share a row, only one is alive at a place.
/** @param {Drawing} drawing */
function drawSharedNames(drawing) {
  const { pen, view, palette } = drawing;
  for (const row of drawing.band.rows.filter(({ lives }) => lives.length > 1)) {
    const life = row.lives.find(({ from, to }) => from <= view.place && view.place < to);
    pen.font = SMALL;
    pen.fillStyle = life ? palette.ink : palette.mute;
    if (life) drawRowName(drawing, row, life);
    else drawPlainName(drawing, row, `${row.lives.length} ${row.kind}s`);
  }
}

function drawStandings(drawing, state) {
  for (const band of drawing.bands) {
    // The band of those that stay has what the one before it has too.
    if (band.channel === null || band.pins) continue;
    const channel = state.channels[band.channel];
    for (const receiver of channel.receivers) {
      const row = band.rowOf.get(receiver.handle);
      if (row) drawStanding(drawing, band.channel, channel, receiver, row);
    }
  }
}

/** @param {Drawing} drawing */
function drawColumn({ pen, view, frame, top, bottom, palette }) {
  const x = frame.middle(view.place);
  pen.globalAlpha = 0.3;
  pen.fillStyle = palette.place;
  pen.fillRect(frame.x(view.place), top, Math.max(frame.column, 2), bottom - top);
  pen.globalAlpha = 1;
  pen.fillStyle = palette["place-line"];
  const width = frame.isNear ? 0.8 : 1.5;
  pen.fillRect(x - width / 2, top, width, bottom - top);
}

// Marks the name of the row in which the call at the place was made.
/** @param {Drawing} drawing */
function drawRow({ pen, run, view, frame, bands, palette }) {
  if (view.place <= run.lead) return;
  const row = bands.find(band => band.channel === run.columns.channels[view.place])?.rowOf.get(run.columns.handles[view.place]);
  if (row === undefined) return;
  const [width, height] = [frame.left || frame.width, frame.left ? row.height : row.lane - row.y];
  if (row.part?.word) {
    // Under the colour of the place its word would be too pale.
    pen.strokeStyle = palette["place-line"];
    pen.lineWidth = 2;
    return pen.strokeRect(1, row.y + 1, width - 2, height - 3);
  }
  pen.globalAlpha = 0.3;
  pen.fillStyle = palette.place;
  pen.fillRect(0, row.y, width, height);
  pen.globalAlpha = 1;
}

// Rings the send by which a loss began, and leads from there to the loss.
/** @param {Drawing} drawing */
function drawCause({ pen, run, view, frame, bands, palette }, loss) {
  const band = bands.find(({ channel }) => channel === loss.channel);
  const from = band?.rowOf.get(run.columns.handles[loss.from]);
  const to = band?.rowOf.get(loss.receiver);
  if (!from || !to || loss.from <= run.lead || loss.from < view.from || loss.from > view.to) return;
  const x = frame.middle(loss.from);
  pen.strokeStyle = palette.lag;
  pen.lineWidth = 1.5;
  pen.beginPath();
  pen.arc(x, from.base - 5, RING, 0, 2 * Math.PI);
  pen.stroke();
  pen.setLineDash([3, 3]);
  line(pen, x, from.base - 5 + (to.lane > from.lane ? RING : -RING), x, to.lane > from.lane ? to.lane + 2 : to.lane + 2 + BAND);
  pen.setLineDash([]);
}

// Draws an edge around the loss that is shown.
/** @param {Drawing} drawing */
function drawChosen({ pen, view, frame, bands, palette }, loss) {
  const row = bands.find(({ channel }) => channel === loss.channel)?.rowOf.get(loss.receiver);
  if (!row || loss.to < view.from || loss.from > view.to) return;
  const { x, end } = stretchOf(frame, loss);
  pen.strokeStyle = palette.ink;
  pen.lineWidth = 1.5;
  pen.strokeRect(x - 0.75, row.lane + 1.25, end - x + 1.5, BAND + 1.5);
}

// Keeps what is drawn in the rows from the heads, which may cover some of them.
/** @param {Drawing} drawing */
function clipToRows({ pen, frame, bands, top }) {
  pen.beginPath();
  for (const band of bands) {
    const y = headY(band, top) + HEAD;
    pen.rect(0, y, frame.width, band.y + band.height - y);
  }
  pen.clip();
}

/** @param {Drawing & { loss: Loss | null, isStory: boolean }} drawing */
function drawInRows(drawing) {
  const { run, view, loss } = drawing;
  drawRow(drawing);
  for (const band of drawing.bands) if (band.channel !== null) drawSharedNames({ ...drawing, band });
  const state = run.state(view.place);
  if (state) drawStandings(drawing, state);
  if (loss === null) return;
  if (drawing.isStory) drawStory(drawing, loss);
  drawChosen(drawing, loss);
  if (!drawing.isStory) drawCause(drawing, loss);
}

// `drawing` is as for the picture. The column isn't drawn if the place is out of view.
export function drawCursor(drawing) {
  const { pen, view } = drawing;
  if (view.place >= view.from && view.place <= view.to) drawColumn(drawing);
  pen.save();
  clipToRows(drawing);
  drawInRows(drawing);
  pen.restore();
}
