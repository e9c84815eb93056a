// Which places are in view, and which of them is the place. A run that ends in a call that would wait has one more column. The lead of a window is in
// view only where the place is in it.

import { gutterOf } from "./frame.js";

const FEWEST = 12;
const MOST_DRAWN = 1500;
const GOOD_COLUMN = 12;
const MOST_AT_FIRST = 64;

// How many columns fit side by side at a good width.
export function columnsThatFit(width) {
  return Math.max(FEWEST, Math.min(MOST_AT_FIRST, Math.floor((width - gutterOf(width)) / GOOD_COLUMN)));
}

// Returns the places around this one that are likely to be in view at first. The run may have fewer.
export function placesAtFirst(place) {
  const from = Math.max(0, place - MOST_AT_FIRST / 2);
  return Array.from({ length: MOST_AT_FIRST + 1 }, (_, i) => from + i);
}

// How many places are drawn as one, where very many are in view.
function strideOf(width) {
  return Math.max(1, Math.ceil(width / MOST_DRAWN));
}

function within(least, number, most) {
  return Math.max(least, Math.min(most, number));
}

export class View {
  // The place and the columns are those of `shown`.
  /** @param {import("../run/shown.js").Shown} shown */
  constructor(lastPlace, lastColumn, width, shown, first = 0) {
    this.lastPlace = lastPlace;
    this.lastColumn = lastColumn;
    // The place at which the window begins, or 0.
    this.first = first;
    this.shown = shown;
    shown.place = shown.from = first;
    shown.to = Math.min(lastColumn, first + width);
  }

  // The first column that may be in view.
  get least() {
    return this.place < this.first ? 0 : this.first;
  }

  // Whether all but the lead is in view.
  get isWhole() {
    return this.from === this.first && this.to === this.lastColumn;
  }

  get place() {
    return this.shown.place;
  }

  get from() {
    return this.shown.from;
  }

  get to() {
    return this.shown.to;
  }

  get width() {
    return this.to - this.from;
  }

  // Goes to a place, and brings it into view.
  go(place) {
    this.shown.place = within(0, place, this.lastPlace);
    if (this.place < this.from || this.place > this.to || this.from < this.least) this.centre(this.place);
  }

  centre(column) {
    this.show(Math.round(column - this.width / 2), this.width);
  }

  // Brings this many columns into view, from this one on, as far as the run has them.
  show(from, width) {
    const columns = this.lastColumn - this.least;
    const most = within(Math.min(FEWEST, columns), width, columns);
    this.shown.from = within(this.least, from, this.lastColumn - most);
    this.shown.to = this.from + most;
  }

  scroll(columns) {
    this.show(this.from + columns, this.width);
  }

  // The place stays where it is in the picture, if it is in view.
  zoom(factor) {
    const width = Math.round(this.width * factor);
    const fixed = within(this.from, this.place, this.to);
    const share = this.width ? (fixed - this.from) / this.width : 0;
    this.show(Math.round(fixed - width * share), width);
  }

  // The column at this share of the picture's width stays there.
  zoomAt(factor, share) {
    const width = within(Math.min(FEWEST, this.lastColumn), Math.round(this.width * factor), this.lastColumn);
    const fixed = this.from + Math.floor(share * (this.width + 1));
    this.show(fixed - Math.floor(share * (width + 1)), width);
  }

  // Goes to a place, with these columns in view if they are known.
  restore(place, view) {
    if (view === null) return this.go(place);
    this.shown.place = within(0, place, this.lastPlace);
    this.show(view[0], view[1] - view[0]);
  }

  whole() {
    this.show(this.least, this.lastColumn);
  }

  get stride() {
    return strideOf(this.width);
  }

  // What is in view when the whole run is: from which column, to which, and the stride.
  get all() {
    return { from: this.first, to: this.lastColumn, stride: strideOf(this.lastColumn - this.first) };
  }

  // The places whose states are drawn: all in view, unless they are very many.
  drawnPlaces() {
    if (this.stride > 1) return [];
    return Array.from({ length: Math.min(this.to, this.lastPlace) - this.from + 1 }, (_, i) => this.from + i);
  }
}
