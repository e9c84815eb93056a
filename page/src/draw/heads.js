// Draws a band's head: its name, what it is, and where it is closed. The head of the band on top stays in sight.

import { countOf, grouped } from "../base/numbers.js";
import { BOLD, SMALL, SMALL_BOLD } from "../base/palette.js";
import { fitted, fittedName } from "./canvas.js";
import { ACTORS } from "./folds.js";
import { BAND, HEAD } from "./layout.js";
import { drawLossBand } from "./loss_band.js";
import { drawLostCount } from "./strip.js";

const NAME = 22;
const COUNT = 70;

export function kindOf(channel) {
  return channel.kind === "broadcast" ? `broadcast, capacity ${grouped(channel.capacity)}` : "watch";
}

// Where a head stands: above its rows, or on top while they are in sight.
export function headY({ y, height }, top) {
  return Math.max(y, Math.min(top, y + height - HEAD));
}

function wordsOf({ run, view, frame, band }) {
  if (band.key === ACTORS) return [countOf(run.callerCount, "actor"), band.isFolded ? "folded" : "the calls of each"];
  const receivers = run.isBeginning ? [] : [countOf(run.receiverCounts[band.channel], "receiver")];
  // Without room beside the names, that it is closed is said here, if it is closed in what is in view.
  const closing = run.closings.places[band.channel];
  const closed = frame.left === 0 && closing !== null && closing <= view.to ? ["closed"] : [];
  return [run.names.channel(band.channel), [...closed, kindOf(run.channels[band.channel]), ...receivers].join(" · ")];
}

// Marks in a head where its channel is closed, and says so right of the words that end at `least`, or left of the place where it closed. Without room
// beside the names, the words of the head say it.
/** @param {Drawing} drawing */
function drawClosed({ pen, run, view, frame, band, palette }, y, least) {
  const closing = run.closings.places[band.channel];
  if (closing === null || closing > view.to) return;
  pen.font = SMALL_BOLD;
  pen.textAlign = "left";
  pen.fillStyle = palette.closed;
  const x = Math.max(frame.left, frame.x(closing));
  if (closing > view.from) pen.fillRect(x, y + 3, 2, HEAD - 6);
  const width = pen.measureText("closed").width;
  const right = Math.max(x + 6, least);
  const at = right + width <= frame.right ? right : x - 6 - width;
  if (at >= least) pen.fillText("closed", at, y + HEAD / 2);
}

// The losses of a folded channel in one band, at the right of its name how many values were lost.
/** @param {Drawing} drawing */
function drawLosses(drawing, y) {
  const { run, frame, band } = drawing;
  drawLossBand(drawing, run.losses.on(band.channel), y + (HEAD - BAND) / 2, BAND);
  drawLostCount(drawing, band.channel, (frame.left || frame.width) - 6, y + HEAD / 2);
}

function lostText({ lost, untold, unwound }) {
  if (lost === 0) return "";
  return `lost ${grouped(lost)}${untold ? `, ${grouped(untold)} untold` : ""}${unwound ? `, ${grouped(unwound)} open at failure` : ""}`;
}

/** @param {Drawing} drawing */
export function drawHead(drawing) {
  const { pen, run, frame, band, top, palette } = drawing;
  const y = headY(band, top);
  const [name, facts] = wordsOf(drawing);
  pen.fillStyle = palette.head;
  pen.fillRect(0, y, frame.width, HEAD);
  pen.fillStyle = palette.line;
  pen.fillRect(0, y + HEAD - 1, frame.width, 1);
  pen.textAlign = "left";
  pen.font = SMALL;
  pen.fillStyle = palette.mute;
  pen.fillText(band.isFolded ? "▸" : "▾", 8, y + HEAD / 2);
  pen.font = BOLD;
  pen.fillStyle = palette.ink;
  const room = (frame.left || frame.width) - NAME;
  const shown = fittedName(pen, name, room * 0.7);
  pen.fillText(shown, NAME, y + HEAD / 2);
  const x = NAME + 8 + pen.measureText(shown).width;
  pen.font = SMALL;
  pen.fillStyle = palette.mute;
  const lost = band.key === ACTORS ? "" : lostText(run.losses.sums[band.channel]);
  const isCut = band.isFolded || frame.left === 0;
  const text = isCut ? fitted(pen, facts, room - x - (lost ? COUNT : 0)) : facts;
  pen.fillText(text, x, y + HEAD / 2);
  if (band.key === ACTORS) return;
  if (isCut && frame.left > 0) drawClosed(drawing, y, frame.left);
  if (band.isFolded) return drawLosses(drawing, y);
  if (isCut) return drawLostCount(drawing, band.channel, room + NAME - 6, y + HEAD / 2);
  const end = x + pen.measureText(text).width + 12;
  pen.font = SMALL_BOLD;
  pen.textAlign = "left";
  pen.fillStyle = palette["lag-ink"];
  pen.fillText(lost, end, y + HEAD / 2);
  drawClosed(drawing, y, end + (lost ? pen.measureText(lost).width + 12 : 0));
}
