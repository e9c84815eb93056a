// Lines, texts, grounds and flags on a canvas or on the pen of a saved picture, for all drawings of the page.

import { SMALL_BOLD } from "../base/palette.js";

const MOST_PIXELS = 16000;

// The first half of a character of two, at the end of a text that was cut.
const HALF = /[\uD800-\uDBFF]$/;

// Resizes a canvas to this many pixels, unless it has that size.
function resize(canvas, width, height) {
  if (canvas.width === width && canvas.height === height) return;
  canvas.width = width;
  canvas.height = height;
}

// Clears and resizes a canvas, and returns its drawing context. On a sharp screen it has more pixels, up to the limit of a canvas.
export function cleared(canvas, width, height) {
  const scale = Math.min(window.devicePixelRatio || 1, MOST_PIXELS / Math.max(width, height));
  resize(canvas, Math.round(width * scale), Math.round(height * scale));
  canvas.style.height = `${height}px`;
  const pen = canvas.getContext("2d");
  pen.setTransform(scale, 0, 0, scale, 0, 0);
  pen.clearRect(0, 0, width, height);
  pen.textBaseline = "middle";
  return pen;
}

export function line(pen, x1, y1, x2, y2) {
  pen.beginPath();
  pen.moveTo(x1, y1);
  pen.lineTo(x2, y2);
  pen.stroke();
}

// Returns a text, cut if it is wider than this. Texts of values may be very long, and measuring them is slow. So a text is first cut to
// one letter for each pixel of the width, and then a binary search finds how many letters fit.
export function fitted(pen, text, width) {
  const isFitting = part => pen.measureText(part).width <= width;
  const cutTo = count => `${text.slice(0, count).replace(HALF, "")}…`;
  let most = Math.min(text.length, Math.max(0, Math.ceil(width)));
  if (most === text.length && isFitting(text)) return text;
  let least = 0;
  while (least < most) {
    const middle = Math.ceil((least + most) / 2);
    if (isFitting(cutTo(middle))) least = middle;
    else most = middle - 1;
  }
  return cutTo(least);
}

// A place in the sources at the end of a name: the file and the line, and how long they are at most. The search begins anew at each letter,
// and names may be very long.
const PLACE = /[^/\s]+:\d+$/;
const LONGEST_PLACE = 300;

// Returns a name, cut if it is wider than this. What it has at its end of a place is kept, since names of places differ there.
export function fittedName(pen, name, width) {
  const [place] = PLACE.exec(name.slice(-LONGEST_PLACE)) ?? [];
  if (place === undefined || pen.measureText(name).width <= width) return fitted(pen, name, width);
  const room = width - pen.measureText(place).width;
  return room < pen.measureText("…").width ? fittedEnd(pen, place, width) : fitted(pen, name.slice(0, -place.length), room) + place;
}

// The end of a text that is wider than this.
function fittedEnd(pen, text, width) {
  let from = 1;
  while (from < text.length && pen.measureText(`…${text.slice(from)}`).width > width) from++;
  return `…${text.slice(from)}`;
}

// How many letters of a value say something: less than these and the sign that it is cut are left out.
const LEAST_LETTERS = 4;

// Whether a text that was cut still says something.
export function isTelling(text, before = "") {
  return !text.endsWith("…") || text.length > before.length + LEAST_LETTERS;
}

// Returns what a value is called in this width: shortly, if it has no text and the words for it don't fit.
export function fittedValue(pen, run, channel, number, width, before = "") {
  const [whole, short] = [run.names.value(channel, number), run.names.shortValue(channel, number)].map(words => before + words);
  const shown = fitted(pen, whole, width);
  return shown === whole || whole === short ? shown : fitted(pen, short, width);
}

// Fills a box with slanted lines.
export function slanted(pen, { x, y, width, height, ground, colour, thickness = 1.4, step = 5 }) {
  if (width <= 0) return;
  pen.save();
  pen.beginPath();
  pen.rect(x, y, width, height);
  pen.clip();
  pen.fillStyle = ground;
  pen.fillRect(x, y, width, height);
  pen.strokeStyle = colour;
  pen.lineWidth = thickness;
  pen.beginPath();
  const first = x - height - ((x - height) % step);
  for (let at = first; at < x + width; at += step) {
    pen.moveTo(at, y + height);
    pen.lineTo(at + height, y);
  }
  pen.stroke();
  pen.restore();
}

// Fills a box as where a channel is closed.
export function hatched(pen, palette, x, y, width, height) {
  slanted(pen, { x, y, width, height, ground: palette.hatch, colour: palette["hatch-line"], thickness: 2, step: 8 });
}

// Greys a box out, as what was before a window.
export function drawBefore(pen, palette, x, y, width, height) {
  pen.globalAlpha = 0.35;
  pen.fillStyle = palette.mute;
  pen.fillRect(x, y, width, height);
  pen.globalAlpha = 1;
}

// Draws a small flag with a text, centred on x and between two edges.
export function flag(pen, text, { x, y, colour, ink, least, most }) {
  pen.font = SMALL_BOLD;
  const width = pen.measureText(text).width + 10;
  const left = Math.min(Math.max(least, x - width / 2), most - width);
  pen.fillStyle = colour;
  pen.beginPath();
  pen.roundRect(left, y, width, 15, 4);
  pen.fill();
  pen.fillStyle = ink;
  pen.textAlign = "left";
  pen.fillText(text, left + 5, y + 8);
}
