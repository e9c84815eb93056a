// Draws the levels of receivers: what each has yet to read, or that it hasn't seen a watch's value.

import { NUMBERS } from "../base/palette.js";
import { fittedValue, isTelling, line } from "./canvas.js";
import { BAND } from "./layout.js";

const UNSEEN_HEIGHT = 15;
const ABOVE = 4;
const VALUE_GAP = 3;
const EQUALS = "= ";

// Joins neighbouring places at which a receiver's level is the same, and calls `show` for each such stretch as an overview does.
function eachLevel({ run, places, band }, show) {
  const open = new Map();
  const close = (handle, { level, from, end }) => level > 0 && show(handle, level, from, end);
  for (const place of places) {
    for (const { handle, seen, unread, lag } of run.state(place).channels[band.channel].receivers) {
      if (!band.rowOf.has(handle)) continue;
      const level = seen === undefined ? unread - lag : Number(!seen);
      const stretch = open.get(handle);
      if (stretch?.level === level) {
        stretch.end = place + 1;
      } else {
        if (stretch) close(handle, stretch);
        open.set(handle, { level, from: place, end: place + 1 });
      }
    }
  }
  open.forEach((stretch, handle) => close(handle, stretch));
}

// For a broadcast, blue is what a receiver can still read, below the band of what it has lost. For a watch, amber is a value that isn't seen.
/** @param {Drawing} drawing */
export function drawLevels(drawing) {
  const { pen, run, view, frame, band, palette, overview } = drawing;
  const { kind, capacity } = run.channels[band.channel];
  const [colour, edge] = kind === "broadcast" ? [palette.unread, palette["unread-ink"]] : [palette.unseen, palette["unseen-ink"]];
  const edges = [];
  pen.fillStyle = colour;
  const show = (handle, level, from, end) => {
    const row = band.rowOf.get(handle);
    const x = Math.round(frame.x(Math.max(from, view.from)));
    const width = Math.max(1, Math.round(Math.min(frame.right, frame.x(Math.min(end, run.lastPlace + 1)))) - x);
    const height = kind === "broadcast" ? (row.base - row.lane - BAND - ABOVE) * level / capacity : UNSEEN_HEIGHT;
    pen.fillRect(x, row.base - height, width, height);
    edges.push([x, row.base - height - 1, width]);
  };
  if (view.stride === 1) eachLevel(drawing, show);
  else if (overview.has(view.from, view.to, view.stride, band.channel)) overview.eachLevel(band.channel, band.rowOf.keys(), show);
  // The colours are pale beside the ground, so that marks are seen on them. Their edge isn't.
  pen.fillStyle = edge;
  for (const [x, y, width] of edges) pen.fillRect(x, y, width, 1);
}

// Returns the first place and each place at which the value of a watch changes, with the values.
function changesOf(run, places, channel) {
  const changes = [];
  for (const place of places) {
    const { value } = run.state(place).channels[channel];
    if (changes.at(-1)?.value !== value) changes.push({ place, value });
  }
  return changes;
}

// For a watch: its value where it changes, cut to the width before the next one.
/** @param {Drawing} drawing */
export function drawValues({ pen, run, frame, places, band, palette }) {
  const row = band.rows.find(it => it.kind === "value");
  if (row === undefined || !frame.isNear) return;
  const middle = row.y + row.height / 2;
  pen.font = NUMBERS;
  pen.textAlign = "left";
  pen.fillStyle = pen.strokeStyle = palette["unseen-ink"];
  pen.lineWidth = 1;
  changesOf(run, places, band.channel).forEach(({ place, value }, i, changes) => {
    const x = frame.x(place);
    const end = i + 1 < changes.length ? frame.x(changes[i + 1].place) : frame.right;
    const text = fittedValue(pen, run, band.channel, value, end - x - VALUE_GAP, EQUALS);
    if (isTelling(text, EQUALS)) pen.fillText(text, x + VALUE_GAP, middle);
    line(pen, x, row.y + 3, x, row.y + row.height - 3);
  });
}
