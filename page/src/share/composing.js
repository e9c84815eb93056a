// The picture as it is saved: the strip, the axis and the rows as they are drawn in the page, below a line that says of what they are, and above the
// words of the loss at the place and the legend. Any pen can draw it.

import { byId } from "../base/dom.js";
import { FONT, readPalette } from "../base/palette.js";
import { isolated, visible } from "../base/text.js";
import { fitted } from "../draw/canvas.js";
import { legendItems } from "../draw/legend.js";
import { plainText } from "../findings/account_text.js";
import { failureLines } from "../findings/failure.js";

const CAPTION = 26;
const NOTE = 18;
const NOTE_LEFT = 60;
const LEFT = 10;
const MIDDLE = 13;

// The words of an element, without the codes of actors and the buttons that lead to no call.
export function wordsOf(part) {
  const copy = part.cloneNode(true);
  for (const it of copy.querySelectorAll(".badge, .copy, [data-loss]")) it.remove();
  // What has an element of its own is divided from what comes after it.
  for (const head of copy.querySelectorAll("dt")) head.append(": ");
  for (const button of copy.querySelectorAll("li button")) button.prepend(" ");
  for (const item of copy.querySelectorAll("li:not(:last-child)")) item.append(", ");
  for (const pill of copy.querySelectorAll(".pill")) pill.replaceWith(`(${pill.textContent})`);
  return copy.textContent.replace(/\s+/g, " ").trim();
}

// The words of the loss at the place.
export function cardLines() {
  return [...byId("state").querySelectorAll(".loss h3, .loss dl > div")].map(wordsOf).filter(text => text !== "");
}

// How the test failed, and the first fact of its account.
function headLines(run) {
  const [fact] = run.account?.facts ?? [];
  return [...failureLines(run), ...(fact ? [fact.text[0]] : [])].map(plainText);
}

// What is below the drawings, each line with its mark if it has one.
function notesOf(run, palette) {
  return [...[...headLines(run), ...cardLines()].map(text => ({ text, draw: null })), ...legendItems(run, palette)];
}

// Draws in a part of the height alone, with its upper end as 0.
function drawPart(pen, { width, top, height }, draw) {
  pen.save();
  pen.translate(0, top);
  pen.beginPath();
  pen.rect(0, 0, width, height);
  pen.clip();
  draw(pen);
  pen.restore();
}

function drawNote(pen, { text, draw }, width) {
  pen.textAlign = "left";
  if (draw) {
    pen.save();
    pen.translate(LEFT, 2);
    draw(pen);
    pen.restore();
  }
  pen.fillText(fitted(pen, text, width - NOTE_LEFT - LEFT), NOTE_LEFT, NOTE / 2);
}

// Returns the size of the picture, what it is of, and how a pen draws it. The pen centres texts on their height.
export function composition(walk, name) {
  const { run, screen } = walk;
  const { width } = screen;
  const palette = readPalette();
  const caption = `${isolated(visible(name))} · ${byId("place").textContent} · ${byId("sentence").textContent}`;
  const layers = screen.layers();
  const notes = notesOf(run, palette);
  const height = layers.reduce((sum, layer) => sum + layer.height, CAPTION) + NOTE * notes.length + LEFT;
  const draw = pen => {
    const write = () => Object.assign(pen, { font: FONT, fillStyle: palette.ink, textAlign: "left" });
    write();
    pen.fillText(fitted(pen, caption, width - 2 * LEFT), LEFT, MIDDLE);
    let top = CAPTION;
    for (const layer of layers) {
      drawPart(pen, { width, top, height: layer.height }, layer.draw);
      top += layer.height;
    }
    for (const note of notes) {
      pen.save();
      pen.translate(0, top + LEFT / 2);
      write();
      drawNote(pen, note, width);
      pen.restore();
      top += NOTE;
    }
  };
  return { width, height, caption, ground: palette.card, draw };
}
