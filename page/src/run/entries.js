// Entry lines, as the console's `list` and `step` write them, and the search for one by its stamp.

const ENTRY = /^#(\d+) (\d+) (\d+) (\d+) (\S+) (\d+)(?: (.*?))? = (\S+)(?: (.*))?$/;

/** @returns {Entry} */
export function readEntry(line) {
  const [, number, stamp, actor, channel, word, handle, rest = "", reply, answer = ""] = ENTRY.exec(line);
  return {
    number: Number(number), stamp, actor: Number(actor), channel: Number(channel),
    word, handle: Number(handle), rest, reply, answer,
  };
}

// The last place up to a stamp, from `least` to `most`, or `least`. `entryAt` reads the entry at a place: entries are in the order of their stamps.
export function placeUpTo(stamp, least, most, entryAt) {
  while (least < most) {
    const middle = Math.ceil((least + most) / 2);
    if (Number(entryAt(middle).stamp) <= stamp) least = middle;
    else most = middle - 1;
  }
  return least;
}
