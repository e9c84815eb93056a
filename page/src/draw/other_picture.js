// The picture of another run of the same test, below that of the opened run and on its axis. It follows what is in view there.

import { byId } from "../base/dom.js";
import { Shown } from "../run/shown.js";
import { cleared } from "./canvas.js";
import { Folds } from "./folds.js";
import { OtherFrame, gutterOf } from "./frame.js";
import { ActorDots, Overview } from "./from_far.js";
import { HEAD, inSight, layOut, rowsOf } from "./layout.js";
import { drawPicture } from "./picture.js";

const RING = 7;

// The bands of another run, in the order of this run's channels where they are the same. None is folded.
class OtherFolds extends Folds {
  constructor(run, folds, channels) {
    super(run, new Shown());
    this.keys = new Set();
    this.here = folds;
    this.indexes = channels;
  }

  get channels() {
    const order = this.here.channels;
    const rank = channel => (this.indexes[channel] < 0 ? Infinity : order.indexOf(this.indexes[channel]));
    return [...this.run.channels.keys()].sort((a, b) => rank(a) - rank(b) || a - b);
  }
}

// Rings the calls in sight that differ.
function drawRings({ pen, run, frame, palette, bands }, places) {
  pen.strokeStyle = palette.hit;
  pen.lineWidth = 1.8;
  for (const place of places) {
    const row = bands.find(({ channel }) => channel === run.columns.channels[place])?.rowOf.get(run.columns.handles[place]);
    if (row === undefined) continue;
    pen.beginPath();
    pen.arc(frame.middle(place), row.base - 5, Math.min(RING, Math.max(2, frame.column / 1.6)), 0, 2 * Math.PI);
    pen.stroke();
  }
}

// The places in view among some in their order.
function within(places, from, to) {
  return places.filter(place => place >= from && place <= to);
}

// Rings the calls of the opened run that differ from the other one. `drawing` is as for the cursor.
export function drawDiffering(drawing, differing) {
  if (drawing.frame.isNear) drawRings(drawing, within(differing, drawing.view.from, drawing.view.to));
}

export class OtherPicture {
  // `screen` is that of the opened run, and `compared` what was found: the axis, and in which places there the calls differ.
  constructor(run, screen, compared) {
    this.run = run;
    this.screen = screen;
    this.compared = compared;
    this.folds = new OtherFolds(run, screen.folds, compared.channels);
    this.rows = rowsOf(run);
    this.overview = new Overview(run);
    this.dots = new ActorDots(run);
  }

  // The places of the other run that stand in the columns in view. Its lead stands in none.
  get view() {
    const { view } = this.screen;
    const from = this.placeAt(view.from);
    const to = this.placeAt(view.to + 0.999);
    return { from, to, place: this.place, stride: view.stride, drawnPlaces: view.stride > 1 ? [] : Array.from({ length: to - from + 1 }, (_, i) => from + i) };
  }

  // The place there that belongs to the one here: that of the same call, or the last one that stands before it.
  get place() {
    const { place } = this.screen.view;
    return this.compared.partners[place] || this.placeAt(place);
  }

  placeAt(column) {
    return Math.max(this.run.lead, this.compared.axis.placeAt(column));
  }

  get missing() {
    return this.run.missing(this.view.drawnPlaces);
  }

  // Draws what is loaded, in rows as high as they need.
  draw() {
    const { height, draw } = this.layer();
    draw(cleared(byId("other-picture"), this.screen.width, height));
  }

  // The drawing of the rows in sight: its height, and how a pen draws it.
  layer() {
    const { run, folds, overview, dots, view } = this;
    const { width, palette, isNarrow } = this.screen;
    const frame = new OtherFrame(this.compared.axis, this.screen.view.from, this.screen.view.to, width, gutterOf(width));
    const layout = layOut(run, this.rows, folds, isNarrow);
    const pane = byId("other-pane");
    byId("other-space").style.height = `${layout.height}px`;
    const top = Math.min(pane.scrollTop, Math.max(0, layout.height - pane.clientHeight));
    const bottom = top + pane.clientHeight;
    const bands = inSight(layout, top, bottom);
    const places = view.drawnPlaces.filter(place => run.state(place));
    return { height: bottom - top, draw: pen => this.drawOn({ pen, run, view, frame, bands, top, bottom, palette, folds, overview, dots, places }) };
  }

  drawOn(drawing) {
    const { pen, view, frame, top } = drawing;
    pen.translate(0, -top);
    drawPicture(drawing);
    this.drawPlace(drawing);
    if (frame.isNear) drawRings(drawing, within(this.compared.differingThere, view.from, view.to));
  }

  drawPlace({ pen, frame, top, bottom, palette }) {
    pen.globalAlpha = 0.3;
    pen.fillStyle = palette.place;
    pen.fillRect(frame.x(this.place), top + HEAD, Math.max(2, frame.column), bottom - top);
    pen.globalAlpha = 1;
  }
}
