// Where the calls of another run stand on the axis of this one. Calls that both have, in the same order, stand in the same column, as many as can. The
// others of the other run stand between them, one to a column as far as there is room.

// Of the calls here, as many as can be whose partners there are in the same order too. `partners` has by place here that of the partner, or 0.
export function anchorsOf(partners) {
  // By length, the place here at which the best row of that length ends; and for each place the one before it in its row.
  const ends = [];
  const before = new Map();
  for (let place = 1; place < partners.length; place++) {
    if (partners[place] === 0) continue;
    let least = 0;
    let most = ends.length;
    while (least < most) {
      const middle = (least + most) >> 1;
      if (partners[ends[middle]] < partners[place]) least = middle + 1;
      else most = middle;
    }
    if (least > 0) before.set(place, ends[least - 1]);
    ends[least] = place;
  }
  /** @type {number[]} */
  const anchors = [];
  for (let place = ends.at(-1); place !== undefined; place = before.get(place)) anchors.push(place);
  return anchors.reverse();
}

// Puts the calls between two anchors into the columns between them. Behind the last anchor there is room for all.
function fill(columns, from, to) {
  const count = to.place - from.place - 1;
  const step = Math.min(1, (to.column - from.column) / (count + 1));
  for (let i = 1; i <= count; i++) columns[from.place + i] = from.column + step * i;
}

export class OtherAxis {
  // `count` is how many calls the other run has.
  constructor(partners, count) {
    this.count = count;
    // By place there, from 0 to the one after the last.
    this.columns = new Float64Array(count + 2);
    let last = { column: 0, place: 0 };
    for (const column of anchorsOf(partners)) {
      const anchor = { column, place: partners[column] };
      this.columns[anchor.place] = column;
      fill(this.columns, last, anchor);
      last = anchor;
    }
    fill(this.columns, last, { column: Infinity, place: count + 2 });
  }

  // The last column that has a call.
  get lastColumn() {
    return this.columns[this.count];
  }

  at(place) {
    return this.columns[Math.min(place, this.count + 1)];
  }

  // The last place there that stands at a column or before it.
  placeAt(column) {
    let least = 0;
    let most = this.count;
    while (least < most) {
      const middle = (least + most + 1) >> 1;
      if (this.columns[middle] <= column) least = middle;
      else most = middle - 1;
    }
    return least;
  }
}
