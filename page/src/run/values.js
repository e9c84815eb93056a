// The values of a run's channels by number, with the places where they were sent and overwritten: those of a broadcast from 0 on in the order of their
// sends.

// Returns how many of these ascending numbers are at most this one.
export function countUpTo(numbers, most) {
  let least = 0;
  let end = numbers.length;
  while (least < end) {
    const middle = (least + end) >> 1;
    if (numbers[middle] <= most) least = middle + 1;
    else end = middle;
  }
  return least;
}

export class Values {
  constructor(run) {
    this.run = run;
    /** @type {ValuePlaces[] | null} by channel, once they are loaded */
    this.tables = null;
  }

  // Whether they are loaded.
  get areThere() {
    return this.tables !== null;
  }

  // Takes the values of all channels in columns.
  /** @param {ValueColumns} columns */
  take({ sends, overwritten, ends }) {
    let start = 0;
    this.tables = Array.from(ends, end => {
      const table = { sends: sends.subarray(start, end), overwritten: overwritten.subarray(start, end) };
      start = Math.max(start, end);
      return table;
    });
  }

  // How many values of a channel are overwritten up to a place.
  overwrittenUpTo(channel, place) {
    return countUpTo(this.tables[channel].overwritten, place);
  }

  // The places where the values of a channel were overwritten, in their order. Those that never were come last, past every place.
  overwritten(channel) {
    return this.tables[channel].overwritten;
  }

  // The place where a value was sent.
  sendOf(channel, number) {
    return this.tables[channel].sends[number];
  }

  // A value's text, from the call that sent it.
  text(channel, number) {
    return this.run.valueSent(this.sendOf(channel, number));
  }
}
