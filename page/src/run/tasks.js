// What the tasks of a test did, as its names have it: the polls of each, what it waited for after them, and who woke it. Of a fact of the account it is
// told what the tasks did that have to do with it.

import { visible } from "../base/text.js";

const MOST_LANES = 6;
const MOST_NAMED = 2;

function isNumber(value) {
  return Number.isSafeInteger(value) && value >= 0;
}

function isPoll(value) {
  return Array.isArray(value) && value.length >= 6 && [0, 2, 3, 4].every(at => isNumber(value[at])) && Array.isArray(value[5]);
}

// Whether this is what a version of names that the page knows has of tasks.
export function areTasks(value) {
  return Array.isArray(value?.tasks) && Array.isArray(value.places) && value.tasks.every(({ name, polls }) => typeof name === "string" && Array.isArray(polls) && polls.every(isPoll));
}

// A poll by the names of its items. `wait` is where the task waited after it, and `woken` by whom that ended.
function readPoll([begin, end, before, after, thread, places, at, stamp, by, , keptAt]) {
  return { begin, end, before, after, thread, places, woken: by === undefined ? null : { at, stamp, by, keptAt } };
}

// Where a task waited after a poll: the last place, if it waits there after its next poll too, else the one by which it was woken, else all.
function waitedAt(seen, { places, woken }, next) {
  const isKnown = place => seen.places[place]?.what || seen.places[place]?.function || isNumber(seen.places[place]?.location);
  const stays = next && next.end !== null && places.length > 0 && next.places.includes(places[0]) && isKnown(places[0]) ? [places[0]] : [];
  const kept = woken && places.includes(woken.keptAt) && isKnown(woken.keptAt) ? [woken.keptAt] : [];
  return [stays, kept, places].find(some => some.length > 0) ?? [];
}

function placeText(seen, names, index) {
  const place = seen.places[index] ?? {};
  const at = names.location(place.location) ?? (place.function && `in ${visible(place.function)}`);
  return [place.what && visible(place.what), at].filter(Boolean).join(", ");
}

// Who is named as having woken a task, without a lane of its own.
function wakerText(by) {
  return { timer: "timer", runtime: "runtime" }[by] ?? (/^thread /.test(by) ? visible(by) : "");
}

// The index of the task that woke another by running, or by its end.
function wakerOf({ by }) {
  const found = /^(?:task|end) (\d+)$/.exec(by);
  return found && Number(found[1]);
}

// What a task did, one after the other: polled, waits, ready. Each has its two ends, of a stamp and a time.
function stretchesOf(seen, names, task) {
  const polls = task.polls.map(readPoll);
  return polls.flatMap((poll, index) => {
    const next = polls[index + 1];
    const isLast = next === undefined;
    const open = { stamp: Infinity, time: seen.now };
    const ended = poll.end === null ? open : { stamp: poll.after, time: poll.end };
    const polled = { doing: "polled", from: { stamp: poll.before, time: poll.begin }, to: ended, thread: poll.thread, text: "", woken: null };
    if (poll.end === null || (isLast && task.over)) return [polled];
    const until = isLast ? open : { stamp: next.before, time: next.begin };
    const woken = poll.woken && { ...poll.woken, time: Math.min(Math.max(poll.woken.at, ended.time), until.time) };
    const wake = woken ? { stamp: Math.min(Math.max(woken.stamp, ended.stamp), until.stamp), time: woken.time } : until;
    const text = waitedAt(seen, poll, next).slice(0, MOST_NAMED).map(place => placeText(seen, names, place)).filter(Boolean).join(" or ");
    const waits = { doing: "waits", from: ended, to: wake, thread: poll.thread, text, woken };
    return [polled, waits, ...(woken ? [{ doing: "ready", from: wake, to: until, thread: isLast ? poll.thread : next.thread, text: "", woken: null }] : [])];
  });
}

function overlap(one, from, to) {
  return Math.max(0, Math.min(one.to.time, to.time) - Math.max(one.from.time, from.time));
}

// The fact that is told at a place: the first one whose steps are around it, or the last one before it.
export function factAt(facts, place) {
  const spans = facts.map(fact => ({ fact, first: Math.min(...fact.places.map(it => it.place)), last: Math.max(...fact.places.map(it => it.place)) }));
  const around = spans.find(({ first, last }) => first <= place && place <= last);
  return (around ?? spans.filter(({ last }) => last < place).at(-1) ?? spans[0])?.fact;
}

export class Tasks {
  constructor(run) {
    this.run = run;
    this.seen = run.names.tasksSeen;
    this.all = this.seen === null ? [] : this.seen.tasks.map((task, index) => ({
      index, actor: task.actor ?? null, name: isNumber(task.actor) ? run.names.shortActor(task.actor) : visible(task.name), stretches: stretchesOf(this.seen, run.names, task),
    }));
    this.told = new Map();
  }

  // The greatest number of lanes of a fact.
  get most() {
    return Math.max(0, ...this.facts.map(fact => this.lanesOf(fact).length));
  }

  // The facts whose tasks were seen, and of a hang, the tasks that wait.
  get facts() {
    const { facts = [], tasks = [] } = this.run.account ?? {};
    const hang = { kind: "hang", places: [{ place: this.run.lastPlace }], names: new Set(tasks.map(it => it.name)) };
    return this.all.length === 0 ? [] : [...facts.filter(fact => fact.late?.length), ...(tasks.length ? [hang] : [])];
  }

  // The lanes of a fact: of who took part in it, of who woke them, and of who ran while they were ready.
  lanesOf(fact) {
    if (!this.told.has(fact)) this.told.set(fact, this.placed(this.chosen(fact)));
    return this.told.get(fact);
  }

  chosen(fact) {
    const taking = new Set(fact.places.map(it => it.actor).filter(isNumber));
    const lanes = this.all.filter(it => fact.names ? fact.names.has(it.name) : taking.has(it.actor));
    const own = lanes.flatMap(it => it.stretches);
    const wakers = own.filter(it => it.woken).map(it => wakerOf(it.woken));
    const others = this.all.filter(it => !lanes.includes(it) && (wakers.includes(it.index) || this.ranMeanwhile(it, own)));
    return [...lanes, ...others].filter(it => it.stretches.length > 0).slice(0, MOST_LANES);
  }

  // Whether a task ran for half the time in which one of these was ready, on its thread.
  ranMeanwhile(task, own) {
    return own.some(({ doing, from, to, thread }) => doing === "ready" && task.stretches.some(it =>
      it.doing === "polled" && it.thread === thread && overlap(it, from, to) * 2 >= to.time - from.time && to.time > from.time));
  }

  // Gives each end its column: the place of the last call before it, and between that and the next call, as far as it comes in the order of time.
  placed(lanes) {
    const ends = lanes.flatMap(({ stretches }) => stretches.flatMap(({ from, to }) => [from, to]));
    const gaps = new Map();
    for (const end of ends) {
      end.place = end.stamp === Infinity ? this.run.lastPlace : this.run.placeOf(end.stamp);
      if (!gaps.has(end.place)) gaps.set(end.place, new Set());
      gaps.get(end.place).add(end.time);
    }
    const ranks = new Map([...gaps].map(([place, times]) => [place, new Map([...times].sort((a, b) => a - b).map((time, rank) => [time, rank + 1]))]));
    for (const end of ends) {
      const times = ranks.get(end.place);
      end.column = end.place + times.get(end.time) / (times.size + 1);
    }
    return lanes.map(lane => ({ ...lane, wakes: this.wakesOf(lane, lanes) }));
  }

  // The wakes of a lane: where, and from which other lane, or else by what.
  wakesOf({ stretches }, lanes) {
    return stretches.filter(it => it.woken).map(({ to, woken }) => {
      const by = wakerOf(woken);
      const from = by === null ? -1 : lanes.findIndex(it => it.index === by);
      return { column: to.column, from, word: by === null ? wakerText(woken.by) : from < 0 ? visible(this.seen.tasks[by]?.name ?? "") : "" };
    });
  }
}
