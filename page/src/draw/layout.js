// Where the rows of the picture are: for each channel a band with a head and a row for each handle, and last a band with a row for each
// actor. The handles that the account tells of come first. They are the same wherever the view is, so nothing moves when it changes. If a channel has
// very many handles of a kind, those that live one after the other share a row.

import { ACTORS } from "./folds.js";

export const HEAD = 24;
// How high the band of a receiver's losses is, above what it has to read.
export const BAND = 11;
const VALUE_ROW = 20;
const ACTOR_ROW = 18;
const SENDER_ROW = 26;
const RECEIVER_ROW = 37;
// How high a name above its row is, with room around its badge.
export const NAME_LINE = 18;
// What is below the line of a row: the lower half of a mark on it.
const FOOT = 8;
const SHARED_FOOT = 16;
const MANY_HANDLES = 14;
const KINDS = ["sender", "weak sender", "receiver"];
const HEIGHTS = { sender: SENDER_ROW, "weak sender": SENDER_ROW, receiver: RECEIVER_ROW, value: VALUE_ROW, actor: ACTOR_ROW };

// Puts each life into a row that is free again, or into a new one. The lives are in the order in which they begin.
function sharedRows(lives, kind) {
  const rows = [];
  const free = [];
  const rowOf = new Map();
  const ends = [...lives].sort((a, b) => a.to - b.to);
  let ended = 0;
  for (const life of lives) {
    while (ends[ended].to < life.from) free.push(rowOf.get(ends[ended++]));
    const row = free.pop() ?? { kind, lives: [] };
    if (row.lives.length === 0) rows.push(row);
    row.lives.push(life);
    rowOf.set(life, row);
  }
  return rows;
}

function rowsOfKind(lives, kind) {
  const those = lives.filter(life => life.kind === kind).sort((a, b) => a.from - b.from || a.handle - b.handle);
  return those.length > MANY_HANDLES ? sharedRows(those, kind) : those.map(life => ({ kind, lives: [life] }));
}

// The rows of the handles that take part in what the account tells: those that did something first, and then in the order of the facts.
function rowsOfParts(lives, parts) {
  const order = ({ kind, lives: [life], part }) => [KINDS.indexOf(kind), part.rank, life.from, life.handle];
  const rows = lives.filter(life => parts.has(life.handle)).map(life => ({ kind: life.kind, lives: [life], part: parts.get(life.handle) }));
  return rows.sort((a, b) => order(a).reduce((sum, it, i) => sum || it - order(b)[i], 0));
}

const NO_PARTS = new Map();

// Returns the rows of each channel, the same for every view. A handle that a window's lead alone has is none. `parts` has what some take part in.
export function rowsOf(run, parts = NO_PARTS) {
  return run.channels.map(({ kind }, channel) => {
    const own = parts.get(channel) ?? NO_PARTS;
    const lives = run.lives[channel].filter(life => !run.isOfLead(life));
    const others = lives.filter(life => !own.has(life.handle));
    return [...(kind === "watch" ? [{ kind: "value", lives: [] }] : []), ...rowsOfParts(lives, own), ...KINDS.flatMap(it => rowsOfKind(others, it))];
  });
}

// Returns the rows of a channel whose names have the text of the filter: all, if the channel's name has it.
function filtered(run, folds, channel, rows) {
  if (folds.matches(run.names.channel(channel))) return rows;
  return rows.filter(({ lives }) => lives.some(life => folds.matches(`${run.ownerOf(channel, life) ?? ""} · ${life.kind} ${run.numberOf(channel, life.handle)}`)));
}

function actorRows(run, folds) {
  return run.actors.names.map((name, actor) => ({ kind: "actor", actor, lives: [], name })).filter(({ actor, name }) => run.isCaller(actor) && folds.matches(name));
}

// Arranges rows below each other from `y` on. If there is no room for names beside them, they are above them.
function stood(rows, y, isNarrow) {
  return rows.map(row => {
    const named = isNarrow && row.kind !== "value" ? NAME_LINE : 0;
    const height = HEIGHTS[row.kind] + named + (row.lives.length > 1 ? SHARED_FOOT - FOOT : 0);
    const foot = row.lives.length > 1 ? SHARED_FOOT : FOOT;
    const placed = { ...row, y, height, lane: y + named, base: y + height - foot };
    y += height;
    return placed;
  });
}

function bandOf(key, rows, y, folds, isNarrow) {
  const isFolded = folds.has(key) && folds.filter === "";
  const placed = isFolded ? [] : stood(rows, y + HEAD, isNarrow);
  const end = placed.length ? placed.at(-1).y + placed.at(-1).height : y + HEAD;
  return { key, channel: key === ACTORS ? null : key, y, height: end - y, rows: placed, isFolded, count: rows.length };
}

// Arranges the bands below each other. Those without a row that passes the filter are left out.
export function layOut(run, rows, folds, isNarrow) {
  const bands = [];
  let y = 0;
  const parts = folds.channels.map(channel => [channel, filtered(run, folds, channel, rows[channel])]);
  for (const [key, those] of [...parts, [ACTORS, actorRows(run, folds)]]) {
    if (those.length === 0) continue;
    const band = bandOf(key, those, y, folds, isNarrow);
    bands.push(band);
    y += band.height;
  }
  return { bands, height: y, isNarrow };
}

function byHandle(rows) {
  return new Map(rows.flatMap(row => row.lives.map(life => [life.handle, row])));
}

// The share of what is in sight that rows may have that stay there.
const MOST_PINNED = 0.45;

// How high the rows of a band are that stay below its head while others are scrolled: those that the account tells of, unless they are too many.
export function pinnedHeight({ rows }, height) {
  const sum = rows.filter(({ part }) => part).reduce((all, row) => all + row.height, 0);
  return sum <= MOST_PINNED * height ? sum : 0;
}

// The rows in sight of a band that is scrolled, as two bands: the one on top has the rows that stay, and the other those that are whole below them.
function scrolledBand(band, top, bottom) {
  const height = pinnedHeight(band, bottom - top);
  const y = Math.min(top, band.y + band.height - HEAD - height);
  const shift = y - band.y;
  const pinned = band.rows.filter(({ part }) => part).map(row => ({ ...row, y: row.y + shift, lane: row.lane + shift, base: row.base + shift }));
  const [first] = pinned;
  const end = first.y + height;
  const rows = band.rows.filter(row => !row.part && row.y >= end && row.y < bottom);
  return [{ ...band, rows, rowOf: byHandle([...rows, ...pinned]) }, { ...band, rows: pinned, rowOf: byHandle(pinned), pins: { y: first.y, height } }];
}

// Returns the bands in sight between two heights, each with its rows in sight, by their handles too. A band with `pins` has rows that stay there over those
// of the one before it.
export function inSight({ bands }, top, bottom) {
  const isSeen = it => it.y + it.height > top && it.y < bottom;
  return bands.filter(isSeen).flatMap(band => {
    if (band.y < top && pinnedHeight(band, bottom - top) > 0) return scrolledBand(band, top, bottom);
    const rows = band.rows.filter(isSeen);
    return [{ ...band, rows, rowOf: byHandle(rows) }];
  });
}

// Returns the row of a handle, or the whole band where it is folded or filtered out.
export function rowOfHandle({ bands }, channel, handle) {
  const band = bands.find(it => it.channel === channel);
  return band && (band.rows.find(row => row.lives.some(life => life.handle === handle)) ?? band);
}
