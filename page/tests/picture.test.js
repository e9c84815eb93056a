// The numbers of the picture beside the states of the run, over random runs.
import assert from "node:assert/strict";
import test from "node:test";
import { drawBand } from "../src/draw/band.js";
import { fittedName } from "../src/draw/canvas.js";
import { drawCursor } from "../src/draw/cursor.js";
import { Folds } from "../src/draw/folds.js";
import { Frame } from "../src/draw/frame.js";
import { ActorDots, Overview } from "../src/draw/from_far.js";
import { BAND, inSight, layOut, rowsOf } from "../src/draw/layout.js";
import { drawStrip, drawStripCursor, stripRow } from "../src/draw/strip.js";
import { View } from "../src/draw/view.js";
import { receiversOf } from "../src/findings/receivers.js";
import { unlookedBy } from "../src/findings/unlooked.js";
import { Hits } from "../src/run/hits.js";
import { readNames } from "../src/run/names.js";
import { Shown } from "../src/run/shown.js";
import { PALETTE, Random, keepingPen, openedRun, randomScript } from "./random_runs.js";

const LEFT = 268;
const SEEDS = Array.from({ length: 60 }, (_, i) => i + 1);

// Of what a receiver's band shows: how much of a broadcast it can still receive, or whether it hasn't seen a watch's value.
function levelOf(receiver) {
  return receiver === undefined ? 0 : receiver.seen === undefined ? receiver.unread - receiver.lag : Number(!receiver.seen);
}

const receiverAt = (run, place, channel, handle) => run.state(place).channels[channel].receivers.find(it => it.handle === handle);

const places = run => Array.from({ length: run.lastPlace + 1 }, (_, place) => place);

// The boxes of these colours that cover a point.
const covering = (boxes, colours, x, y) => boxes.filter(it => colours.includes(it.colour) && it.x <= x && x < it.x + it.width && it.y <= y && y < it.y + it.height);

// Draws all channels of a run with all its calls in view, in columns of this width or by strides.
async function drawn(run, column, width = column * (run.lastColumn + 1) + LEFT + 14) {
  const pen = keepingPen();
  const shown = new Shown();
  const view = new View(run.lastPlace, run.lastColumn, run.lastColumn, shown);
  view.whole();
  const folds = new Folds(run, shown);
  folds.keys = new Set();
  const layout = layOut(run, rowsOf(run), folds, false);
  const frame = new Frame(view.from, view.to, width, LEFT);
  const overview = new Overview(run);
  await overview.load(view.from, view.to, view.stride, [...run.channels.keys()]);
  const bands = inSight(layout, 0, layout.height).filter(({ channel }) => channel !== null);
  const drawing = { pen, run, view, frame, bands, top: 0, bottom: layout.height, places: view.drawnPlaces(), overview, dots: new ActorDots(run), folds, palette: PALETTE };
  for (const band of bands) drawBand({ ...drawing, band });
  return { pen, view, frame, bands, overview };
}

// A number whose digits are in groups.
const numberOf = text => Number(text.replace(/\p{Z}/gu, ""));

// The rows of a drawing that have one receiver each.
const receiverRows = bands => bands.flatMap(({ channel, rows }) => rows.filter(({ kind, lives }) => kind === "receiver" && lives.length === 1).map(row => ({ channel, row, life: row.lives[0] })));

function checkLevels(run, { pen, frame, bands }, seed) {
  for (const { channel, row, life } of receiverRows(bands)) {
    const { kind, capacity } = run.channels[channel];
    const colour = kind === "watch" ? "unseen" : "unread";
    const full = row.base - row.lane - BAND - 4;
    for (const place of places(run)) {
      const level = levelOf(receiverAt(run, place, channel, life.handle));
      const [box, ...more] = covering(pen.boxes, [colour], frame.middle(place), row.base - 0.01);
      const height = kind === "watch" ? 15 * level : full * level / capacity;
      assert.ok(more.length === 0 && Math.abs((box?.height ?? 0) - height) < 0.001, `seed ${seed}, place ${place}, ${channel}.${life.handle}: ${JSON.stringify(box)}, level ${level}`);
    }
  }
}

// A band of losses covers the places at which its receiver lags, and what it lost is what its labels say. It has no ticks, whose counts look the same.
function checkLosses(run, { pen, frame, bands }, seed) {
  for (const { channel, row, life } of receiverRows(bands)) {
    let lost = 0;
    let before = 0;
    for (const place of places(run)) {
      const { lag = 0 } = receiverAt(run, place, channel, life.handle) ?? {};
      if (lag < before) lost += before;
      before = lag;
      const boxes = covering(pen.boxes, ["lag", "lag-ground"], frame.middle(place), row.lane + 2 + BAND / 2);
      assert.equal(boxes.length > 0, lag > 0, `seed ${seed}, place ${place}, ${channel}.${life.handle}: ${JSON.stringify(boxes)}, lag ${lag}`);
    }
    lost += before;
    const labels = pen.texts.filter(({ y }) => y === row.lane + 2 + BAND / 2 + 0.5).map(({ text }) => text);
    const told = labels.reduce((sum, text) => sum + numberOf(/^[\d\p{Z}]+/u.exec(text)[0]), 0);
    if (run.channels[channel].kind === "broadcast") assert.equal(told, lost, `seed ${seed}, ${channel}.${life.handle}: ${JSON.stringify(labels)}`);
  }
}

// A tick of a told loss stands where one more value was overwritten, with how many were by then, but for the last.
function checkTicks(run, { pen, frame, bands }, seed) {
  for (const { channel, row, life } of receiverRows(bands)) {
    const lagAt = place => receiverAt(run, place, channel, life.handle)?.lag ?? 0;
    const wanted = run.losses.of(channel, life.handle).filter(({ end }) => end === "told").flatMap(({ from, to }) => {
      const those = places(run).filter(place => place > from && place < to && lagAt(place) > lagAt(place - 1));
      return those.map((place, i) => [Math.round(frame.x(place)), i + 1 < those.length ? String(lagAt(place)) : null]);
    });
    const y = row.lane + 2;
    const said = pen.boxes.filter(it => it.colour === "on-dark" && it.y === y + 1 && it.width === 1).map(({ x }) => [x, pen.texts.find(it => it.x === x + 3 && it.y === y + BAND / 2 + 0.5)?.text ?? null]);
    assert.deepEqual(said, wanted, `seed ${seed}, ${channel}.${life.handle}`);
  }
}

// How far a ring around a mark reaches with its line, and half of the line of a cross.
const RING = 7.75;
const HALF_CROSS = 1.2;

// Each call has its mark in the row of its handle: sends point up, receives down, and a cross is in it as a whole. A sent value of a broadcast stands beside
// its own, and beside a ring around it.
function checkMarks(run, { pen, frame, bands }, seed) {
  for (const place of places(run).slice(1)) {
    const entry = run.entry(place);
    const kind = run.channels[entry.channel].kind;
    const row = bands.find(({ channel }) => channel === entry.channel).rowOf.get(entry.handle);
    const [x, y, size] = [frame.middle(place), row.base - 5, 4.6];
    const corner = MARKS[entry.reply === "value" && kind === "broadcast" ? "received" : entry.reply];
    const colour = { closed: "closed", lagged: "lag" }[entry.reply] ?? `actor ${entry.actor}`;
    const isNear = (it, dx, dy) => it.colour === colour && Math.abs(it.x - x - dx) < 0.7 && Math.abs(it.y - y - dy) < 0.7;
    const why = `seed ${seed}, place ${place}: ${JSON.stringify(entry)}`;
    if (corner) assert.ok([...pen.paths, ...pen.boxes].some(it => isNear(it, corner[0] * size, corner[1] * size + (corner[2] ?? 0))), why);
    if (entry.reply === "dropped") assert.ok(y + corner[2] + size + HALF_CROSS <= row.y + row.height, why);
    if (kind === "watch" || entry.reply !== "sent" && entry.reply !== "no-receivers") continue;
    assert.ok(pen.texts.some(it => it.text === entry.rest && it.y === y && it.x > x + RING && it.x < x + frame.column), why);
  }
}

// Where the shape of a reply begins, in its sizes right of the mark's middle and below it, and how much lower the mark is.
const MARKS = {
  sent: [-1, 1], stored: [-1, 1], old: [-1, 1], "no-receivers": [-1, 1], received: [-1, -1], lagged: [-1, -1], closed: [-1, -1], dropped: [-1, -1, 6.5],
  new: [0, 0, 6.5],
};

// At a place each receiver has beside its row what it can read there and what it has lost.
function checkCursor(run, { view, frame, bands }, seed) {
  const shown = view.shown;
  for (const place of places(run)) {
    const pen = keepingPen();
    shown.place = place;
    drawCursor({ pen, run, view, frame, bands, top: 0, bottom: 1000, palette: PALETTE, loss: null, isStory: false });
    for (const { channel, row, life } of receiverRows(bands)) {
      const receiver = receiverAt(run, place, channel, life.handle);
      const said = pen.texts.filter(it => it.y === row.y + row.height / 2).map(({ text, colour }) => (run.channels[channel].kind === "watch" ? colour : text));
      const wanted = receiver === undefined ? [] : receiver.seen === undefined ? [String(levelOf(receiver)), ...(receiver.lag ? [`−${receiver.lag}`] : [])]
        : [receiver.seen ? "mute" : "unseen-ink"];
      assert.deepEqual(said, wanted, `seed ${seed}, place ${place}, ${channel}.${life.handle}`);
    }
  }
}

// The line of a handle covers the places at which it is alive.
function checkLives(run, { pen, frame, bands }, seed) {
  for (const { channel, rows } of bands) {
    for (const row of rows.filter(({ lives }) => lives.length === 1)) {
      const { handle } = row.lives[0];
      for (const place of places(run)) {
        const { receivers, senders } = run.state(place).channels[channel];
        const isAlive = senders.includes(handle) || receivers.some(it => it.handle === handle);
        const boxes = covering(pen.boxes, ["alive", "alive-sender"], frame.middle(place), row.base + 1);
        assert.equal(boxes.length > 0, isAlive, `seed ${seed}, place ${place}, ${channel}.${handle}`);
      }
    }
  }
}

// A channel is hatched from the place on where it is closed, and a watch's value stands where it changes.
function checkChannels(run, { pen, frame, bands }, seed) {
  for (const { channel, y, height, rows } of bands) {
    for (const place of places(run)) {
      const boxes = covering(pen.boxes, ["hatch"], frame.middle(place), y + height - 1);
      assert.equal(boxes.length > 0, run.state(place).channels[channel].closed, `seed ${seed}, place ${place}, channel ${channel}`);
    }
    const row = rows.find(({ kind }) => kind === "value");
    if (row === undefined) continue;
    const said = pen.texts.filter(it => it.y === row.y + row.height / 2 && it.text.startsWith("= ")).map(({ text, x }) => [Math.round(x), text]);
    const values = places(run).map(place => run.state(place).channels[channel].value);
    const changes = places(run).filter(place => place === 0 || values[place] !== values[place - 1]);
    assert.deepEqual(said, changes.map(place => [Math.round(frame.x(place) + 3), `= ${values[place]}`]), `seed ${seed}`);
  }
}

test("close up each receiver has the levels, losses and life that the states have, and each call its mark", async () => {
  for (const seed of SEEDS) {
    const run = await openedRun(randomScript(seed, 20 + 3 * seed));
    const drawing = await drawn(run, 24);
    for (const check of [checkLevels, checkTicks, checkLives, checkChannels, checkCursor]) check(run, drawing, seed);
    checkLosses(run, await drawn(run, 3), seed);
    checkMarks(run, await drawn(run, 60), seed);
  }
});

test("a text of a value that is cut to less than four letters isn't drawn", async () => {
  const run = await openedRun("broadcast 2\nwatch 0\n0 0 send 0 1\n0 1 send 0 1\n0 0 send 0 2\n0 1 send 0 2\n");
  run.rename(readNames(JSON.stringify({ values: { 0: { 1: "OrderPlaced", 2: "OrderPlaced" }, 1: { 0: "maintenance", 1: "maintenance", 2: "maintenance" } } })));
  for (const column of [14, 20, 30, 40]) {
    const texts = (await drawn(run, column)).pen.texts.map(({ text }) => text.replace(/^= /, ""));
    const cut = texts.filter(text => text.endsWith("…"));
    assert.deepEqual(cut.filter(text => text.length < 5), [], `columns of ${column}`);
    assert.equal(cut.length > 0, column > 14, `columns of ${column}: ${JSON.stringify(texts)}`);
  }
});

test("of a name that is a place the line stays, and as much of what is before it as there is room for", () => {
  const pen = keepingPen();
  const name = "task of tests/bus.rs:66";
  assert.deepEqual([200, 92, 91, 48, 40, 20].map(width => fittedName(pen, name, width)), 
    [name, name, "task of test…bus.rs:66", "ta…bus.rs:66", "…bus.rs:66", "…s:66"]);
  assert.equal(fittedName(pen, "nightly-export", 24), "night…");
  // A search of the whole would take an hour.
  assert.match(fittedName(pen, "i".repeat(3_000_000), 48), /^i+…$/);
  assert.match(fittedName(pen, `${"i".repeat(3_000_000)}/bus.rs:66`, 80), /^i+…bus\.rs:66$/);
});

test("the names in a row that several receivers share are between its line and its border", async () => {
  const some = Array.from({ length: 20 }, (_, i) => `0 0 subscribe 0\n0 0 drop ${i + 2}\n`);
  const { pen, bands } = await drawn(await openedRun(`broadcast 2\n${some.join("")}`), 40);
  const shared = bands[0].rows.filter(({ lives }) => lives.length > 1);
  const names = shared.flatMap(row => pen.texts.filter(({ y, text }) => y > row.base && y < row.y + row.height && text.startsWith("receiver ")).map(({ y }) => [row, y]));
  // Letters of 11 points, and the line of 3.
  for (const [row, y] of names) assert(y - 5.5 >= row.base + 3 && y + 5.5 <= row.y + row.height - 1, JSON.stringify([row, y]));
  assert(names.length > 4, `${names.length}`);
});

test("from far a stretch of places has the greatest level in it", async () => {
  for (const seed of [1, 2, 3, 4]) {
    const run = await openedRun(randomScript(seed, 1600 + 800 * seed, true));
    const { pen, view, frame, bands } = await drawn(run, 2);
    assert.ok(view.stride > 1);
    for (const { channel, row, life } of receiverRows(bands)) {
      const { kind, capacity } = run.channels[channel];
      for (let from = 0; from <= run.lastPlace; from += view.stride) {
        const stretch = Array.from({ length: Math.min(view.stride, run.lastPlace + 1 - from) }, (_, i) => levelOf(receiverAt(run, from + i, channel, life.handle)));
        const level = Math.max(...stretch);
        const x = (frame.x(from) + frame.x(from + stretch.length)) / 2;
        const [box] = covering(pen.boxes, [kind === "watch" ? "unseen" : "unread"], x, row.base - 0.01);
        const height = kind === "watch" ? 15 * level : (row.base - row.lane - BAND - 4) * level / capacity;
        assert.ok(Math.abs((box?.height ?? 0) - height) < 0.001, `seed ${seed}, place ${from}, ${channel}.${life.handle}: ${JSON.stringify(box)}, level ${level}`);
      }
    }
  }
});

// Each point of the strip has the greatest level, of any receiver, of the places on it.
test("the strip has the levels, the losses and their sums that the states have", async () => {
  for (const seed of SEEDS) {
    const run = await openedRun(randomScript(seed, 20 + 9 * seed));
    const whole = new Overview(run);
    const order = [...run.channels.keys()];
    await whole.load(0, run.lastColumn, 1, order);
    const pen = keepingPen();
    const frame = new Frame(0, run.lastColumn, LEFT + 214, LEFT);
    drawStrip({ pen, run, frame, palette: PALETTE, whole, order });
    order.forEach((channel, index) => checkStripRow(run, { pen, frame }, channel, stripRow(run, index), seed));
  }
});

function checkStripRow(run, { pen, frame }, channel, { y, bar }, seed) {
  const { kind, capacity } = run.channels[channel];
  const most = new Map();
  for (const place of places(run)) {
    const level = Math.max(0, ...run.state(place).channels[channel].receivers.map(levelOf));
    const first = Math.floor(frame.x(place));
    const end = Math.max(first + 1, Math.ceil(frame.x(place + 1) - 1e-9));
    for (let x = first; x < end; x++) most.set(x, Math.max(most.get(x) ?? 0, level));
  }
  for (const [x, level] of most) {
    if (x >= frame.right) continue;
    const [box] = covering(pen.boxes, [kind === "watch" ? "unseen" : "unread"], x + 0.5, y + bar - 0.01);
    const height = kind === "broadcast" ? bar * level / capacity : bar * level / 2;
    assert.ok(Math.abs((box?.height ?? 0) - height) < 0.001, `seed ${seed}, point ${x} of channel ${channel}: ${JSON.stringify(box)}, level ${level}`);
  }
  const lost = run.losses.on(channel).reduce((sum, loss) => sum + loss.lost, 0);
  const said = pen.texts.filter(it => it.y === y + bar / 2 && it.text.startsWith("−")).map(({ text }) => numberOf(text.slice(1)));
  assert.deepEqual(said, lost > 0 ? [lost] : [], `seed ${seed}, channel ${channel}`);
}

// Worked by the calls: a look is a receiver's own call that returns a value.
function unlookedOf(run, channel, { handle, from, to }) {
  let open = [];
  for (let place = from + 1; place <= Math.min(to, run.lastPlace); place++) {
    const before = run.state(place - 1).channels[channel];
    const { version } = run.state(place).channels[channel];
    const entry = run.entry(place);
    if (entry.channel !== channel) continue;
    if (version > before.version) open.push(place);
    else if (entry.handle === handle && entry.reply === "value") open = open.filter(it => it !== lastChange(run, channel, place));
  }
  return open;
}

// The place at which a watch's value at a place was set.
function lastChange(run, channel, place) {
  const { version } = run.state(place).channels[channel];
  while (place > 0 && run.state(place - 1).channels[channel].version === version) place--;
  return place;
}

test("what a receiver never looked at, received and lost is what the states and calls have", async () => {
  for (const seed of SEEDS) {
    const run = await openedRun(randomScript(seed, 20 + 3 * seed));
    for (const { channel, receiver, unlooked } of run.totals) {
      const life = run.lifeOf(channel, receiver);
      if (run.channels[channel].kind === "broadcast") continue;
      const found = unlookedBy(run, channel, receiver);
      assert.deepEqual(found, unlookedOf(run, channel, life), `seed ${seed}, ${channel}.${receiver}`);
      assert.equal(found.length, unlooked, `seed ${seed}, ${channel}.${receiver}`);
    }
    receiversOf(run).filter(({ received }) => received !== null).forEach(it => checkReceiver(run, it, seed));
  }
});

// The numbers of a receiver of a broadcast in the table of receivers.
function checkReceiver(run, { channel, life, received, lost, told, never, greatest, rest }, seed) {
  const own = places(run).slice(1).map(place => run.entry(place)).filter(it => it.channel === channel && it.handle === life.handle);
  const replies = word => own.filter(it => it.reply === word);
  const lags = places(run).map(place => receiverAt(run, place, channel, life.handle)?.lag ?? 0);
  const atEnd = receiverAt(run, run.lastPlace, channel, life.handle);
  const last = atEnd ? atEnd.lag : lags[life.to - 1];
  const toldOf = replies("lagged").reduce((sum, { answer }) => sum + Number(answer.split(" ").at(-1)), 0);
  const wanted = [replies("value").length, toldOf + last, toldOf, last, Math.max(...lags), atEnd ? atEnd.unread - atEnd.lag : null];
  assert.deepEqual([received, lost, told, never, greatest, rest], wanted, `seed ${seed}, ${channel}.${life.handle}`);
}

test("hits are marked once for each point of the strip, and those between aren't looked at", () => {
  const random = new Random(9);
  for (const [last, share] of [[40, 1], [900, 0.5], [200_000, 1], [200_000, 0.001], [200_000, 0]]) {
    const hits = Array.from({ length: last }, (_, i) => i + 1).filter(() => random.below(1000) < 1000 * share);
    const pen = keepingPen();
    const frame = new Frame(0, last, 700, 84);
    let looks = 0;
    const seen = Object.assign(Object.create(frame), { middle: place => { looks++; return frame.middle(place); } });
    drawStripCursor({ pen, frame: seen, palette: PALETTE, height: 20, hits: Hits.of(hits), view: { from: 0, to: last, place: 0 } });
    const marks = pen.boxes.filter(it => it.colour === "hit");
    assert.deepStrictEqual(marks.map(({ x }) => x + 1), [...new Set(hits.map(place => Math.round(frame.middle(place))))]);
    assert.ok(marks.every(it => it.y === 10 && it.width === 2 && it.height === 10));
    assert.ok(looks <= 2 + 20 * marks.length, `${looks} looks for ${marks.length} points`);
  }
});
