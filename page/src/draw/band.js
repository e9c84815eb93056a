// Draws a channel's rows in sight: a line for each handle, what its receiver has to read, and the calls on it.

import { SMALL, SMALL_BOLD } from "../base/palette.js";
import { drawBandCalls } from "./band_calls.js";
import { hatched, line } from "./canvas.js";
import { BAND, HEAD } from "./layout.js";
import { drawLevels, drawValues } from "./levels.js";
import { drawLossBand, drawPosts } from "./loss_band.js";
import { drawPlainName, drawRowName, drawRowWord } from "./row_names.js";

// How wide the stripe is at the left of a row that something went wrong at.
const STRIPE = 4;

// Marks a row that the account tells of where something went wrong: nothing about it looks well.
function drawWrong({ pen, frame, palette }, row) {
  pen.fillStyle = palette["lag-ground"];
  pen.fillRect(0, row.y, frame.left || frame.width, frame.left ? row.height : row.lane - row.y);
  pen.fillStyle = palette.lag;
  pen.fillRect(0, row.y, STRIPE, row.height - 1);
}

// Hatches a channel from the place on where it is closed.
/** @param {Drawing} drawing */
function drawClosed({ pen, run, view, frame, band, top, bottom, palette }) {
  const closing = run.closings.places[band.channel];
  if (closing === null || closing > view.to) return;
  const x = Math.max(frame.left, frame.x(closing));
  const y = Math.max(band.y + HEAD, top);
  hatched(pen, palette, x, y, frame.right - x, Math.min(band.y + band.height, bottom) - y);
}

/** @param {Drawing} drawing */
function drawRows(drawing) {
  const { pen, run, frame, band, palette } = drawing;
  for (const row of band.rows) {
    const isWrong = Boolean(row.part?.word);
    if (isWrong) drawWrong(drawing, row);
    pen.fillStyle = palette.line;
    pen.fillRect(0, row.y + row.height - 1, frame.width, 1);
    if (row.kind === "value") continue;
    pen.strokeStyle = palette.line;
    pen.lineWidth = 1;
    line(pen, frame.left, row.base + 1.5, frame.right, row.base + 1.5);
    pen.fillStyle = isWrong ? palette.lag : row.kind === "receiver" ? palette.alive : palette["alive-sender"];
    for (const life of row.lives) {
      const x = Math.max(frame.left, frame.x(life.from));
      const end = Math.min(frame.right, frame.middle(life.to), frame.x(run.lastPlace + 1));
      if (end > x) pen.fillRect(x, row.base, end - x, 3);
    }
  }
}

// Names each handle in view at the start of its line in the row, by its number alone where there is no room for more. Far out, numbers that are wider
// than the line are left out. Of the very many there may be, measuring each would be slow, and digits are of one width.
function drawSharedNames({ pen, run, view, frame, band, palette }, row) {
  pen.font = SMALL_BOLD;
  const digit = pen.measureText("0").width;
  pen.textAlign = "left";
  pen.fillStyle = palette.mute;
  for (const life of row.lives) {
    if (life.from > view.to || life.to < view.from) continue;
    const x = Math.max(frame.left, frame.x(life.from));
    const room = Math.min(frame.right, frame.x(life.to)) - x;
    const number = run.numberOf(band.channel, life.handle);
    const whole = `${row.kind} ${number}`;
    if (frame.isNear && pen.measureText(whole).width <= room) pen.fillText(whole, x, row.base + 9);
    else if (frame.isNear || number.length * digit <= room) pen.fillText(number, x, row.base + 9);
  }
}

// Names each row. If a row has several handles, each is named in it, and the row has the name of the one at the place.
/** @param {Drawing} drawing */
function drawRowNames(drawing) {
  const { pen, frame, band, palette } = drawing;
  for (const row of band.rows) {
    pen.font = SMALL;
    pen.fillStyle = palette.ink;
    if (row.part?.word) drawRowWord(drawing, row);
    if (row.lives.length === 1) drawRowName(drawing, row, row.lives[0]);
    else if (row.lives.length > 1) drawSharedNames(drawing, row);
    else if (frame.left) drawPlainName(drawing, row, "value");
  }
}

// Draws the losses of each receiver, with a post from a told one down to the line of the row.
/** @param {Drawing} drawing */
function drawLosses(drawing) {
  const { run, band } = drawing;
  for (const row of band.rows.filter(({ kind }) => kind === "receiver")) {
    const losses = run.losses.along(band.channel, row.lives);
    drawPosts(drawing, losses, row.lane + 2, row.base);
    drawLossBand(drawing, losses, row.lane + 2, BAND);
  }
}

/** @param {Drawing} drawing */
export function drawBand(drawing) {
  drawClosed(drawing);
  drawRows(drawing);
  drawLevels(drawing);
  drawLosses(drawing);
  drawValues(drawing);
  drawRowNames(drawing);
  drawBandCalls(drawing);
}
