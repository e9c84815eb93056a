// Random runs as the page has them, over the built engine, and a pen that keeps what it is told to draw.
import { Names } from "../src/run/names.js";
import { Run } from "../src/run/run.js";
import { foundIn, levelsIn, statesAt } from "../src/worker/found.js";
import { openRun } from "../src/worker/opening.js";
import { builtEngine } from "./built_engine.js";

// Random numbers from a seed (xorshift32).
export class Random {
  constructor(seed) {
    this.state = (Math.imul(seed, 0x9e3779b9) ^ 0x2545f491) >>> 0 || 1;
  }

  // A number from 0 to `count` - 1.
  below(count) {
    this.state ^= this.state << 13;
    this.state ^= this.state >>> 17;
    this.state ^= this.state << 5;
    this.state >>>= 0;
    return this.state % count;
  }

  of(list) {
    return list[this.below(list.length)];
  }
}

// The handles of a channel that are alive, by kind. A new one has the next number.
class Handles {
  constructor() {
    this.senders = [0];
    this.receivers = [1];
    this.next = 2;
  }

  made(kind) {
    this[kind].push(this.next++);
  }

  dropped(kind, handle) {
    this[kind] = this[kind].filter(it => it !== handle);
  }
}

// Calls that never wait, each with how often it is made, by the kind of its handle. One that makes a handle says of which kind.
const CALLS = {
  broadcast: {
    senders: [["send", 12], ["receiver-count", 1], ["clone-sender", 1, "senders"], ["subscribe", 2, "receivers"], ["drop", 1]],
    receivers: [["try-recv", 8], ["receiver-len", 1], ["resubscribe", 1, "receivers"], ["drop", 1]],
  },
  watch: {
    senders: [["send", 6], ["send-replace", 2], ["borrow", 1], ["clone-sender", 1, "senders"], ["subscribe", 2, "receivers"], ["drop", 1]],
    receivers: [["borrow", 2], ["update", 3], ["has-changed", 2], ["mark-unchanged", 1], ["mark-changed", 1], ["clone-receiver", 1, "receivers"], ["drop", 1]],
  },
};

// How many handles of a kind a channel has at most.
const MOST_HANDLES = 5;

function callOf(random, kind, handles, value, isKept) {
  const side = handles.senders.length === 0 ? "receivers" : handles.receivers.length === 0 || random.below(2) === 0 ? "senders" : "receivers";
  if (handles[side].length === 0) return null;
  const isLast = isKept && handles[side].length === 1;
  const may = CALLS[kind][side].filter(([word, , makes]) => !(makes && handles[makes].length >= MOST_HANDLES) && !(isLast && word === "drop"));
  const [word, , makes] = random.of(may.flatMap(it => Array(it[1]).fill(it)));
  const handle = random.of(handles[side]);
  if (makes) handles.made(makes);
  if (word === "drop") handles.dropped(side, handle);
  return `${word} ${handle}${word.startsWith("send") ? ` ${value}` : ""}`;
}

// A script of random calls on up to three channels by up to four actors. Where `isKept`, no channel loses its last sender or receiver.
export function randomScript(seed, calls, isKept = seed % 2 === 0) {
  const random = new Random(seed);
  const kinds = Array.from({ length: 1 + random.below(3) }, () => random.of(["broadcast", "watch"]));
  const actors = 1 + random.below(4);
  const heads = kinds.map(kind => (kind === "watch" ? "watch 0" : `broadcast ${1 + random.below(5)}`));
  const handles = kinds.map(() => new Handles());
  const lines = Array.from({ length: calls }, (_, i) => {
    const channel = random.below(kinds.length);
    const call = callOf(random, kinds[channel], handles[channel], i + 1, isKept);
    return call === null ? [] : [`${random.below(actors)} ${channel} ${call}`];
  });
  return `${heads.join("\n")}\nactors ${actors}\n${lines.flat().join("\n")}\n`;
}

// Opens a script as the page does, without a worker between them, and loads all that is found and each state.
export async function openedRun(script) {
  const engine = builtEngine();
  const opened = openRun(engine, new TextEncoder().encode(script), []);
  if (opened.fault) throw new Error(`${opened.fault.of} fault ${opened.fault.text}`);
  const requests = {
    found: () => foundIn(engine, opened.opening.channels.length),
    levels: (channels, from, each, count) => levelsIn(engine, channels, from, each, count),
    states: places => statesAt(engine, places),
    account: () => engine.textOf("account"),
    name: bytes => engine.name(bytes),
  };
  const run = new Run({ request: async (request, ...values) => requests[request](...values) }, opened, new Names());
  for await (const part of run.findings()) void part;
  await run.load(Array.from({ length: run.lastPlace + 1 }, (_, place) => place));
  return run;
}

// A pen that keeps each box and text, and where each path begins, with its colour. Letters are 4 wide. Whatever else it is told it does nothing.
export function keepingPen() {
  const boxes = [];
  const texts = [];
  const paths = [];
  const own = {
    boxes, texts, paths, fillStyle: "",
    fillRect: (x, y, width, height) => boxes.push({ colour: own.fillStyle, x, y, width, height }),
    moveTo: (x, y) => paths.push({ colour: own.fillStyle, x, y }),
    arc: (x, y) => paths.push({ colour: own.fillStyle, x, y }),
    fillText: (text, x, y) => texts.push({ colour: own.fillStyle, text, x, y }),
    measureText: text => ({ width: 4 * text.length }),
  };
  return new Proxy(own, { get: (pen, key) => (key in pen ? pen[key] : () => {}) });
}

// A palette whose colours are their names.
export const PALETTE = new Proxy({}, { get: (_, name) => (name === "actor" ? number => `actor ${number}` : name) });
