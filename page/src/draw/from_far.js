// What is drawn where a place has no column of its own: the levels of receivers by stretches of places, and the points at which actors have calls.

// On which points of a row each actor has a call. Many calls are on the same point, so the points are found once a view.
export class ActorDots {
  constructor(run) {
    this.run = run;
    this.key = "";
  }

  // Returns for each actor, by point of the frame's width, 1 where it has a call.
  /** @returns {Uint8Array[]} */
  in(frame) {
    const key = `${frame.from} ${frame.to} ${frame.left} ${frame.width}`;
    if (key !== this.key) this.points = this.find(frame);
    this.key = key;
    return this.points;
  }

  find(frame) {
    const { actors } = this.run.columns;
    const points = Array.from({ length: this.run.actorCount }, () => new Uint8Array(Math.ceil(frame.width) + 1));
    const last = Math.min(frame.to, this.run.lastPlace);
    for (let place = Math.max(1, frame.from); place <= last; place++) points[actors[place]][Math.round(frame.middle(place))] = 1;
    return points;
  }

  // Calls `show` for each longest row of points at which an actor has calls: its first point, and how many they are.
  each(frame, actor, show) {
    const points = this.in(frame)[actor];
    for (let x = points.indexOf(1); x >= 0; x = points.indexOf(1, x)) {
      const end = points.indexOf(0, x);
      show(x, (end < 0 ? points.length : end) - x);
      if (end < 0) return;
      x = end;
    }
  }
}

// The levels of receivers by stretches of places: how much each has to read, or that it hasn't seen a value.
export class Overview {
  constructor(run) {
    this.run = run;
    this.key = "";
    this.tables = new Map();
  }

  // Loads the levels of these channels by stretches of `each` places from `from` up to `to`. Those of other stretches are forgotten.
  async load(from, to, each, channels) {
    const key = `${from} ${to} ${each}`;
    if (key !== this.key) this.tables = new Map();
    this.key = key;
    this.from = from;
    this.each = each;
    const missing = channels.filter(channel => !this.tables.has(channel));
    if (missing.length === 0) return;
    const count = Math.ceil((Math.min(to, this.run.lastPlace) - from + 1) / each);
    const rows = await this.run.client.request("levels", missing, from, each, count);
    if (key !== this.key) return;
    for (const channel of missing) this.tables.set(channel, new Map());
    for (const { channel, receiver, spans } of rows) this.tables.get(channel).set(receiver, spans);
  }

  // Whether the levels of this channel are loaded for these stretches.
  has(from, to, each, channel) {
    return this.key === `${from} ${to} ${each}` && this.tables.has(channel);
  }

  // Calls `show` for each longest row of stretches in which one of these handles of a channel has one level above 0: the handle, the level, the
  // first place, and the place after the last.
  eachLevel(channel, handles, show) {
    for (const handle of handles) {
      const spans = this.tables.get(channel).get(handle) ?? [];
      for (let i = 0; i < spans.length; i += 3) show(handle, spans[i + 2], this.from + spans[i] * this.each, this.from + spans[i + 1] * this.each);
    }
  }

  // Returns the same of all receivers of a channel.
  levelsOf(channel) {
    const levels = [];
    this.eachLevel(channel, this.tables.get(channel).keys(), (_, level, from, to) => levels.push({ level, from, to }));
    return levels;
  }
}
