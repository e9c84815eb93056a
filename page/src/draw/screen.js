// The drawings: the strip, the axis, and the picture, whose rows scroll. What moves with the place has a layer of its own.

import { byId } from "../base/dom.js";
import { readPalette } from "../base/palette.js";
import { isTabbed } from "../base/tabs.js";
import { Tasks } from "../run/tasks.js";
import { cleared } from "./canvas.js";
import { drawCursor } from "./cursor.js";
import { Folds } from "./folds.js";
import { Frame, gutterOf, stripGutterOf } from "./frame.js";
import { ActorDots, Overview } from "./from_far.js";
import { headY } from "./heads.js";
import { Lanes } from "./lanes.js";
import { HEAD, inSight, layOut, pinnedHeight, rowOfHandle, rowsOf } from "./layout.js";
import { drawDiffering } from "./other_picture.js";
import { partsOf } from "./parts.js";
import { AXIS_HEIGHT, drawAxis, drawPicture } from "./picture.js";
import { drawStrip, drawStripCursor, stripCap, stripHeight, stripRow } from "./strip.js";

// How much of a row's surroundings is scrolled in with it.
const AROUND = 60;

// How far from a call a point may be that means it.
const NEAR = 6;
const TIP = 14;

// How wide the numbers of lost values are, right of the strip, on a narrow screen.
const COUNTS = 58;

// The share of the window that the strip may have, so that the answer above it has room, and on a narrow screen, where it is below none.
const SHARE = 0.1;
const NARROW_SHARE = 0.14;

const PAPER = matchMedia("print");

export class Screen {
  /** @param {import("../run/shown.js").Shown} shown */
  constructor(run, view, shown) {
    this.run = run;
    this.view = view;
    this.shown = shown;
    // The levels of the whole run, which the strip has too, and those of another view.
    this.whole = new Overview(run);
    this.levels = new Overview(run);
    this.dots = new ActorDots(run);
    /** @type {Loss | null} the loss whose cause is drawn */
    this.loss = null;
    this.folds = new Folds(run, shown);
    this.sight = { top: 0, bottom: 0 };
    this.account = undefined;
    this.resize();
  }

  // Loads the levels of the whole run, and draws the strip again with them.
  async loadWhole() {
    const { from, to, stride } = this.view.all;
    await this.whole.load(from, to, stride, [...this.run.channels.keys()]);
    this.drawStrip();
  }

  // The levels of what is in view.
  get inView() {
    return this.view.isWhole ? this.whole : this.levels;
  }

  // The channels in sight whose levels aren't loaded, for so many places in view that their states aren't drawn one by one. Those of the whole
  // run are loaded for the strip.
  get missingLevels() {
    const { from, to, stride } = this.view;
    if (stride === 1 || this.inView === this.whole) return [];
    const bands = inSight(this.layout, this.sight.top, this.sight.bottom).filter(({ channel, rows }) => channel !== null && rows.length);
    return [...new Set(bands.map(({ channel }) => channel))].filter(channel => !this.levels.has(from, to, stride, channel));
  }

  async loadLevels() {
    const { from, to, stride } = this.view;
    await this.levels.load(from, to, stride, this.missingLevels);
  }

  // Called after a change of the window's size, of names, or between light and dark.
  resize() {
    this.palette = readPalette();
    this.standRows();
    // The pane has no width while another part of a narrow page is shown. It will have that of the window.
    this.width = byId("pane").clientWidth || (isTabbed() ? innerWidth : this.width) || 0;
    const cap = stripCap(this.run, this.isNarrow ? NARROW_SHARE : SHARE);
    byId("strip-box").style.maxHeight = `${cap}px`;
    this.strip = {
      cap, run: this.run, view: this.view, palette: this.palette, height: stripHeight(this.run),
      frame: new Frame(this.view.first, this.view.lastColumn, this.width, stripGutterOf(this.width), this.isNarrow && this.run.losses.all.length ? COUNTS : undefined),
    };
    this.drawStrip();
    this.lanes = new Lanes(new Tasks(this.run), this.isNarrow);
    this.lanes.stand();
    // What is drawn below the rows belongs to the half of the window that the picture has.
    byId("left").style.setProperty("--below", this.shown.other === null ? `${this.lanes.height}px` : "28vh");
    this.arrange();
  }

  // Makes the rows, which follow the account that the run's names have.
  standRows() {
    const { account } = this.run.names;
    if (this.account === account) return;
    this.account = account;
    const parts = partsOf(this.run);
    this.folds.first = [...parts.keys()];
    this.rows = rowsOf(this.run, parts);
  }

  // Called after a change of what is folded or filtered.
  arrange() {
    this.layout = layOut(this.run, this.rows, this.folds, this.isNarrow);
    byId("space").style.height = `${this.layout.height}px`;
    this.measure();
    this.measureStrip();
    this.drawn = null;
  }

  drawStrip() {
    this.drawStripOn(this.pen("strip", this.strip.height));
  }

  drawStripOn(pen) {
    drawStrip({ ...this.strip, order: this.folds.channels, whole: this.whole, pen });
  }

  pen(id, height) {
    return cleared(byId(id), this.width, height);
  }

  // Reads how far the pane is scrolled, and how high it is, and returns whether other rows are in sight. That is slow while the page is being
  // changed, so it is read only after they have changed.
  measure() {
    // On paper the pane is as high as what is drawn, which stays.
    if (PAPER.matches) return false;
    const { scrollTop, clientHeight } = byId("pane");
    const { top, bottom } = this.sight;
    this.sight = { top: scrollTop, bottom: scrollTop + clientHeight };
    return this.sight.top !== top || this.sight.bottom !== bottom;
  }

  measureStrip() {
    this.stripTop = byId("strip-box").scrollTop;
  }

  get isNarrow() {
    return gutterOf(this.width) === 0;
  }

  // Scrolls the rows, as far as they go.
  scrollTo(wanted) {
    const height = this.sight.bottom - this.sight.top;
    const top = Math.round(Math.max(0, Math.min(wanted, this.layout.height - height)));
    byId("pane").scrollTop = top;
    this.sight = { top, bottom: top + height };
  }

  // Where the columns of the view are in the picture.
  get frame() {
    return new Frame(this.view.from, this.view.to, this.width, gutterOf(this.width));
  }

  // Draws the places in view whose states are loaded, in the rows in sight, unless the picture shows exactly these.
  drawView() {
    const { run, view, palette, folds, frame } = this;
    const places = view.drawnPlaces().filter(place => run.state(place));
    const { top, bottom } = this.sight;
    const wanted = `${view.from} ${view.to} ${places.length} ${this.inView.tables.size} ${top} ${bottom}`;
    if (this.drawn === wanted) return;
    const bands = inSight(this.layout, top, bottom);
    this.picture = { run, view, frame, bands, top, bottom, palette, folds, overview: this.inView, dots: this.dots };
    this.places = places;
    this.shapePaper();
    this.drawRows(this.pen("picture", bottom - top));
    this.drawn = wanted;
  }

  drawPlace() {
    const { run, view, palette, frame } = this;
    this.drawStripPlace(this.pen("strip-cursor", this.strip.height));
    drawAxis({ run, view, palette, frame, kind: this.kindOnTop, pen: this.pen("axis", AXIS_HEIGHT) });
    if (this.picture) this.drawRowsPlace(this.pen("cursor", this.picture.bottom - this.picture.top));
    this.lanes.draw({ view, palette, frame });
  }

  drawStripPlace(pen) {
    drawStripCursor({ ...this.strip, hits: this.shown.hits.places, pen });
  }

  drawRows(pen) {
    pen.translate(0, -this.picture.top);
    drawPicture({ ...this.picture, places: this.places, pen });
  }

  drawRowsPlace(pen) {
    pen.translate(0, -this.picture.top);
    drawCursor({ ...this.picture, pen, loss: this.loss, isStory: this.shown.isCause });
    if (this.shown.other) drawDiffering({ ...this.picture, pen }, this.shown.other.compared.differing);
  }

  // How high the rows in sight are, without the room below the last one.
  get rowsInSight() {
    return Math.min(this.sight.bottom, this.layout.height) - this.sight.top;
  }

  // On paper the picture has no room below its last row. A style that stays the same isn't set again.
  shapePaper() {
    const shape = `${this.width} / ${this.rowsInSight}`;
    if (this.shape === shape) return;
    this.shape = shape;
    byId("picture-box").style.setProperty("--shape", shape);
  }

  // Of which kind the channel is whose rows are on top, or null.
  get kindOnTop() {
    const band = this.layout.bands.find(({ y, height }) => y + height > this.sight.top);
    return band === undefined || band.channel === null ? null : this.run.channels[band.channel].kind;
  }

  // The drawings from top to bottom, each with its height and how a pen draws it.
  layers() {
    const { run, view, palette, frame, strip, picture } = this;
    const { other } = this.shown;
    const both = (below, above) => pen => [below, above].forEach(draw => {
      pen.save();
      draw(pen);
      pen.restore();
    });
    return [
      { height: strip.height, draw: both(pen => this.drawStripOn(pen), pen => this.drawStripPlace(pen)) },
      { height: AXIS_HEIGHT, draw: pen => drawAxis({ run, view, palette, frame, kind: this.kindOnTop, pen }) },
      ...(picture ? [{ height: this.rowsInSight, draw: both(pen => this.drawRows(pen), pen => this.drawRowsPlace(pen)) }] : []),
      ...(this.lanes.height > 0 ? [{ height: this.lanes.height, draw: pen => this.lanes.drawOn({ pen, view, palette, frame }) }] : []),
      ...(other ? [other.layer()] : []),
    ];
  }

  // Whether a row, or the whole band, is in sight below the head and the rows that stay there, of which it may be one.
  isInSight(row, band) {
    const { top, bottom } = this.sight;
    const pinned = row === band ? 0 : pinnedHeight(band, bottom - top);
    if (row.part && pinned > 0 && band.y < top) return band.y + band.height > top + HEAD + pinned;
    const above = row === band ? 0 : HEAD + (row.part ? 0 : pinned);
    return row.y >= top + above && row.y + Math.min(row.height, AROUND) <= bottom;
  }

  // Scrolls the row of a call in, with the head of its band if that fits, and its channel's row of the strip.
  reveal(channel, handle) {
    const row = rowOfHandle(this.layout, channel, handle);
    const { top, bottom } = this.sight;
    const band = row && this.layout.bands.find(it => it.channel === channel);
    if (row && !this.isInSight(row, band)) {
      const isNear = row.y + row.height - band.y + AROUND < bottom - top;
      this.scrollTo(isNear ? band.y : row.y + row.height / 2 - (bottom - top) / 2);
    }
    this.revealInStrip(stripRow(this.run, this.folds.channels.indexOf(channel)));
  }

  revealInStrip({ y, height }) {
    const seen = Math.min(this.strip.height, this.strip.cap);
    if (y >= this.stripTop && y + height <= this.stripTop + seen) return;
    this.stripTop = Math.round(Math.max(0, Math.min(y - seen / 2, this.strip.height - seen)));
    byId("strip-box").scrollTop = this.stripTop;
  }

  // Returns the key of the band whose head is under a point of the picture: on its name, or anywhere if it is folded.
  headAt(x, y) {
    if (!this.picture) return null;
    const { top, bands, frame } = this.picture;
    const found = bands.filter(band => y + top >= headY(band, top) && y + top < headY(band, top) + HEAD).at(-1);
    return found !== undefined && (found.isFolded || x < (frame.left || frame.width)) ? found.key : null;
  }

  // Returns the row under a point of the picture, its channel, and whether the point is on its name.
  rowAt(x, y) {
    const { top, bands, frame } = this.picture ?? { top: 0, bands: [], frame: this.frame };
    for (const { channel, rows } of bands) {
      const row = rows.find(it => y + top >= it.y && y + top < it.y + it.height);
      if (row) return { row, channel, isName: frame.left ? x < frame.left : y + top < row.lane };
    }
    return { row: null, channel: null, isName: false };
  }

  // Returns the place of the call in a row that is nearest to a point of the picture, or null if none is near it.
  callAt(x, y) {
    const { row, channel, isName } = this.rowAt(x, y);
    if (row === null || isName || (row.kind === "value")) return null;
    const { channels, handles, actors } = this.run.columns;
    const { frame } = this;
    const isCall = row.kind === "actor" ? place => actors[place] === row.actor
      : place => channels[place] === channel && row.lives.some(life => life.handle === handles[place]);
    let nearest = null;
    for (let place = Math.max(1, frame.columnAt(x - NEAR)); place <= Math.min(frame.columnAt(x + NEAR), this.view.to, this.run.lastPlace); place++) {
      const distance = Math.abs(frame.middle(place) - x);
      if (isCall(place) && distance <= NEAR && (nearest === null || distance < Math.abs(frame.middle(nearest) - x))) nearest = place;
    }
    return nearest;
  }

  // Puts the tip beside a place's column, above or below a height of the picture, inside the window.
  standTip(place, y) {
    const tip = byId("tip");
    const box = byId("picture-box").getBoundingClientRect();
    const { width, height } = tip.getBoundingClientRect();
    const left = box.left + this.frame.middle(place) + TIP;
    const top = box.top + y;
    tip.style.left = `${Math.max(0, left + width > innerWidth ? left - width - 2 * TIP : left)}px`;
    tip.style.top = `${top + height + TIP > innerHeight ? top - height - TIP : top + TIP}px`;
  }

  // Returns the place under a point of the picture. Before the first picture, and left of the columns, it is the current place.
  placeInPicture(x) {
    return this.picture && x >= this.frame.left ? this.frame.columnAt(x) : this.view.place;
  }

  placeInStrip(x) {
    return this.strip.frame.columnAt(x);
  }
}
