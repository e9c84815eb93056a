// States at places, as the engine has them in numbers (page/engine/src/states.rs).

// The browser's numbers are exact up to 2^53, and a value may be larger: one of so much is a text.
const LARGE = 10n ** 15n;

// Where no version is marked.
const NONE = 2 ** 32 - 1;

class Reader {
  /** @param {Uint32Array} numbers */
  constructor(numbers) {
    this.numbers = numbers;
    this.at = 0;
  }

  next() {
    return this.numbers[this.at++];
  }

  // A value: two numbers, the lower one first.
  value() {
    const low = this.next();
    const high = this.next();
    if (high === 0) return low;
    const value = BigInt(high) << 32n | BigInt(low);
    return value < LARGE ? Number(value) : String(value);
  }

  // A list, with its length before it.
  list(read) {
    return Array.from({ length: this.next() }, read);
  }

  handles() {
    return this.list(() => this.next());
  }

  /** @returns {ChannelState} */
  channel() {
    const isWatch = this.next() === 1;
    const closed = this.next() === 1;
    return isWatch ? this.watch(closed) : this.broadcast(closed);
  }

  /** @returns {ChannelState} */
  broadcast(closed) {
    const [capacity, sent, retained] = [this.next(), this.next(), this.next()];
    const window = this.list(() => this.value());
    const [senders, weak] = [this.handles(), this.handles()];
    const receivers = this.list(() => ({ handle: this.next(), position: this.next(), unread: this.next(), lag: this.next() }));
    return { kind: "broadcast", closed, capacity, sent, retained, window, senders, ...(weak.length > 0 ? { weak } : {}), receivers };
  }

  /** @returns {ChannelState} */
  watch(closed) {
    const [value, version, senders] = [this.value(), this.next(), this.handles()];
    const receivers = this.list(() => ({ handle: this.next(), mark: this.mark(), seen: this.next() === 1 }));
    return { kind: "watch", closed, value, version, senders, receivers };
  }

  mark() {
    const mark = this.next();
    return mark === NONE ? null : mark;
  }
}

// Reads the states of a run that has `count` channels and `len` calls.
/** @returns {RunState[]} */
export function readStates(numbers, count, len) {
  const reader = new Reader(numbers);
  const states = [];
  while (reader.at < numbers.length) states.push({ place: reader.next(), len, channels: Array.from({ length: count }, () => reader.channel()) });
  return states;
}
