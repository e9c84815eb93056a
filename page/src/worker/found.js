// What the engine finds in the opened run, as the page holds it. Each list of numbers has a fixed number of them for each thing that is found.

// Past every place.
const NONE = 2 ** 32 - 1;

const KEPT = /^kept (\d+) bytes\n/;

function orNull(number) {
  return number === NONE ? null : number;
}

// Calls `make` with the numbers of each thing.
function each(numbers, width, make) {
  return Array.from({ length: numbers.length / width }, (_, i) => make(...numbers.subarray(width * i, width * (i + 1))));
}

// Returns the states at these places in numbers, without those that there aren't.
/** @returns {Uint32Array} */
export function statesAt(engine, places) {
  return engine.ofRun("states", BigUint64Array.from(places, BigInt))[0];
}

// Returns the losses of the run in numbers.
/** @returns {Uint32Array} */
export function lossesOf(engine) {
  return engine.ofRun("losses")[0];
}

// Returns all else that is found in the run, which has `count` channels.
export function foundIn(engine, count) {
  const [closings, late, broadcasts, watches, handles, callers, sends, overwritten, ends] = engine.ofRun("found");
  return {
    closings: closingsOf(count, closings, late), totals: totalsOf(broadcasts, watches), handles, callers, columns: { sends, overwritten, ends },
  };
}

// The place from which on each of `count` channels is closed, or null, and where each receiver that was there then was told so, or null, and how many
// values it received from then on.
/** @returns {Closings} */
function closingsOf(count, closings, late) {
  const places = Array.from({ length: count }, () => null);
  const told = Array.from({ length: count }, () => new Map());
  const readOn = Array.from({ length: count }, () => new Map());
  each(closings, 2, (channel, place) => { places[channel] = place; });
  each(late, 4, (channel, receiver, place, received) => {
    told[channel].set(receiver, orNull(place));
    readOn[channel].set(receiver, received);
  });
  return { places, told, readOn };
}

// The totals of each receiver, those of broadcasts before those of watches.
/** @returns {Totals[]} */
function totalsOf(broadcasts, watches) {
  return [
    ...each(broadcasts, 7, (channel, receiver, received, lost, worst, worstPlace, unread) => ({
      channel, receiver, counts: { received, lost, worst, worstPlace, unread: orNull(unread) }, missed: null, unlooked: null,
    })),
    ...each(watches, 4, (channel, receiver, missed, unlooked) => ({ channel, receiver, counts: null, missed, unlooked })),
  ];
}

// Returns the levels of the receivers of some channels in stretches of `each` places from `from` on: of each receiver that has one its spans of stretches
// with one level, each as its first stretch, the one after its last, and the level.
export function levelsIn(engine, channels, from, each, count) {
  const [numbers] = engine.ofRun("levels", Uint8Array.from(channels), BigUint64Array.from([from, each, count], BigInt));
  const rows = [];
  for (let at = 0; at < numbers.length;) {
    const [channel, receiver, length] = numbers.subarray(at, at += 3);
    rows.push({ channel, receiver, spans: numbers.slice(at, at += length) });
  }
  return rows;
}

// How the opened run differs from another one, whose journal text and text of names are given: where its calls have their partners there, or 0, and by
// what they differ, or 0; the places here of the partners of those there, or 0; which channel here each one there is, or -1; and the lines of the difference.
export function comparedWith(engine, journal, names) {
  const [lines, run, partners, kinds, back, channels] = engine.ofRun("against", journal, names);
  const text = bytes => new TextDecoder().decode(bytes);
  return { lines: text(lines).split("\n"), run: text(run), partners, kinds, back, channels: Array.from(channels, channel => orNull(channel) ?? -1) };
}

// Returns how many bytes of a journal text its whole lines have, and the journal text of what these hold, or null if they hold no run.
export function salvagedFrom(engine, journal) {
  const [bytes] = engine.call("salvage", journal);
  const head = KEPT.exec(new TextDecoder().decode(bytes.subarray(0, 64)));
  return head && { kept: Number(head[1]), bytes: bytes.slice(head[0].length) };
}

// Returns a bit for each place, which is set where a call has a text: in its words or those of its reply, or in what of the names has it.
export function hitsOf(engine, { names, text, actors, channels, located, handles, values }) {
  return engine.ofRun("search", names, text, actors, channels, located, ...listed(handles), ...listed(values))[0];
}

// Lists of numbers as one, with the index past each. They have 32 bits, unless one has a number that may have more.
function listed(lists) {
  let end = 0;
  const ends = Uint32Array.from(lists.map(list => (end += list.length)));
  const all = lists.some(list => list instanceof BigUint64Array) ? new BigUint64Array(end) : new Uint32Array(end);
  lists.forEach((list, i) => all.set(list, ends[i] - list.length));
  return [all, ends];
}
