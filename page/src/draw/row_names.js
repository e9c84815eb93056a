// The name of a row: whose handle it is, and its kind and number. Without room for all the kind is left out, then whose it is, is cut, and the number never.

import { element, outside } from "../base/dom.js";
import { SMALL, SMALL_BOLD } from "../base/palette.js";
import { isolated } from "../base/text.js";
import { fittedName } from "./canvas.js";
import { NAME_LINE } from "./layout.js";

const LEFT = 6;
const RIGHT = 8;
const BADGE_ROOM = 34;

// How wide what a receiver has at the place is at the right of its name: of a broadcast, of a watch that has changed once at most, so that no change
// is missed, and of another one with versions of one digit, and how much wider that is with each digit more.
const TO_READ = 62;
const FIRST_VERSIONS = 46;
const VERSIONS = 98;
const DIGIT = 20;

// How wide a letter of a row's word is, and how far the word and the name are from the middle where one is below the other.
const LETTER = 6.6;
const APART = 8;

function standingWidth(run, channel) {
  if (run.channels[channel].kind === "broadcast" || run.isWindow(channel)) return TO_READ;
  const { version } = run.ending.channels[channel];
  return version < 2 ? FIRST_VERSIONS : VERSIONS + DIGIT * (String(version).length - 1);
}

// Returns where a row's name is, and its room: left of the row, or above it on a narrow screen.
/** @param {Drawing} drawing */
export function nameRoom({ run, frame, band }, row) {
  const standing = row.kind === "receiver" ? standingWidth(run, band.channel) : 0;
  const isAbove = isWordBelow(frame, row);
  const word = !row.part?.word || isAbove ? 0 : row.part.word.length * LETTER + RIGHT;
  const middle = frame.left ? row.y + row.height / 2 - (isAbove ? APART : 0) : row.y + NAME_LINE / 2;
  return { x: LEFT, y: middle, room: (frame.left || frame.width) - LEFT - RIGHT - standing - word };
}

// Whether the word of a row is below its name, and not right of it.
function isWordBelow(frame, row) {
  return frame.left > 0 && row.kind === "receiver" && Boolean(row.part?.word);
}

// What the row's handle has to do with what the account tells.
/** @param {Drawing} drawing */
export function drawRowWord(drawing, row) {
  const { pen, frame, palette } = drawing;
  const { x, y, room } = nameRoom(drawing, row);
  const isBelow = isWordBelow(frame, row);
  pen.font = SMALL_BOLD;
  pen.fillStyle = palette["lag-ink"];
  pen.textAlign = isBelow ? "left" : "right";
  pen.fillText(row.part.word, isBelow ? x + BADGE_ROOM : x + room + row.part.word.length * LETTER + RIGHT, isBelow ? y + 2 * APART : y);
  pen.font = SMALL;
  pen.fillStyle = palette.ink;
}

// Draws a name that has no badge.
/** @param {Drawing} drawing */
export function drawPlainName(drawing, row, text) {
  const { x, y } = nameRoom(drawing, row);
  drawing.pen.textAlign = "left";
  drawing.pen.fillText(text, x + BADGE_ROOM, y);
}

// The share of a name's room that its kind and number may have where whose it is has to be cut.
const MOST_TAIL = 0.7;

// A handle's name, cut to a width: first the word for its kind is left out, and then whose it is, is cut.
function cutName({ pen, run, band: { channel } }, life, width) {
  const owner = run.ownerOf(channel, life);
  const separator = owner ? " · " : "";
  const number = run.numberOf(channel, life.handle);
  const [long, short] = [`${separator}${life.kind} ${number}`, separator + number];
  const isFitting = tail => pen.measureText((owner ?? "") + tail).width <= width;
  const isShort = !isFitting(long) && (isFitting(short) || pen.measureText(long).width > width * MOST_TAIL);
  const tail = isShort ? short : long;
  return (owner ? isolated(fittedName(pen, owner, width - pen.measureText(tail).width)) : "") + tail;
}

// The names that were drawn last, by their rows, since measuring texts is slow. Rows are made again when names or widths change.
const cutNames = new WeakMap();

// Draws the badge of the handle's user and the name, as far as the room allows.
/** @param {Drawing} drawing */
export function drawRowName(drawing, row, life) {
  const { pen, run, palette } = drawing;
  const { x, y, room } = nameRoom(drawing, row);
  const user = run.userOf(life);
  if (user !== null) run.actors.drawBadge(pen, palette, user, x, y - 8);
  if (cutNames.get(row)?.life !== life) cutNames.set(row, { life, text: cutName(drawing, life, room - BADGE_ROOM) });
  pen.textAlign = "left";
  pen.fillText(cutNames.get(row).text, x + BADGE_ROOM, y);
}

// The same as elements.
export function rowName(run, channel, life) {
  const owner = run.ownerOf(channel, life);
  const number = element("span", { "data-handle": life.handle }, `${life.kind} ${run.numberOf(channel, life.handle)}`);
  const user = run.userOf(life);
  const badge = user === null ? [] : [run.actors.badge(user), " "];
  return owner ? [...badge, outside(owner), " · ", number] : [number];
}
