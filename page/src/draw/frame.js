// Where a column of the view is on a canvas.

const MARGIN = 14;
const NARROW = 600;
const MIDDLING = 900;
const NARROW_STRIP = 84;

// How wide the names on the left are. On a narrow screen they are above their rows.
export function gutterOf(width) {
  if (width < NARROW) return 0;
  return width < MIDDLING ? 246 : 268;
}

export function stripGutterOf(width) {
  return gutterOf(width) || NARROW_STRIP;
}

export class Frame {
  constructor(from, to, width, left, margin = MARGIN) {
    this.from = from;
    this.to = to;
    this.width = width;
    this.left = left;
    this.right = width - margin;
    this.column = (this.right - this.left) / (to - from + 1);
  }

  x(column) {
    return this.left + (column - this.from) * this.column;
  }

  middle(column) {
    return this.x(column) + this.column / 2;
  }

  // Which share of the columns' width is left of a point.
  shareAt(x) {
    return Math.max(0, Math.min(0.999, (x - this.left) / (this.right - this.left)));
  }

  columnAt(x) {
    return this.from + Math.floor((x - this.left) / this.column);
  }

  // Whether a column is wide enough for a mark of its own.
  get isNear() {
    return this.column >= 5;
  }
}

// The same for another run, whose calls stand on the axis of this one.
export class OtherFrame extends Frame {
  constructor(axis, from, to, width, left) {
    super(from, to, width, left);
    this.axis = axis;
  }

  x(place) {
    return super.x(this.axis.at(place));
  }

  columnAt(x) {
    return this.axis.placeAt(super.columnAt(x) + 0.999);
  }
}
