// What is drawn of tasks, of a run that is worked by hand: the audit waits for a lock from call 2 on, while the feed sends, until the backup wakes it after
// call 5.
import assert from "node:assert";
import { test } from "node:test";
import { Lanes } from "../src/draw/lanes.js";
import { Frame } from "../src/draw/frame.js";
import { readNames } from "../src/run/names.js";
import { Tasks, factAt } from "../src/run/tasks.js";
import { SvgPen } from "../src/share/svg_pen.js";

const FACT = { kind: "loss", late: ["waited"], text: ["lost"], places: [{ place: 2, line: 1, actor: 1 }, { place: 5, line: 2, actor: 0 }, { place: 6, line: 3, actor: 1 }] };

const AUDIT = { name: "audit", actor: 1, polls: [[10, 20, 1, 2, 0, [0], 12090, 5, "task 2", 1, 0], [12100, null, 5, 6, 0, []]] };
const FEED = { name: "feed", actor: 0, polls: [[0, 5, 0, 1, 0, [2], 895, 2, "timer", null, 2], [900, 905, 2, 5, 0, [2]]] };
const BACKUP = { name: "backup", polls: [[12080, 12095, 5, 5, 0, []]], over: true };
const IDLE = { name: "idle", polls: [[1, 2, 0, 0, 0, [0]]] };

function tasksOf(tasks, facts = [FACT], pending = undefined) {
  const names = readNames(JSON.stringify({
    version: 5, actors: { 0: "feed", 1: "audit" }, locations: [["src/db.rs", 40, 21], ["src/backup.rs", 39, 5]],
    account: { version: 1, unknown: [], facts, tasks: pending, rest: { after: facts.length, text: null }, nothing: null, waiting: [], look: 5 },
    tasks_seen: { times: true, now: 50000, places: [{ what: "Mutex::lock", location: 0 }, { what: "", location: 1 }, { what: "Sleep", function: "shop::feed" }], tasks },
  }));
  // Each stamp is the place of its call.
  return new Tasks({ names, account: names.account, lastPlace: 6, placeOf: stamp => stamp, actors: { drawBadge() {} } });
}

test("a fact has a lane for who took part and for who woke them, and none for the others", () => {
  const lanes = tasksOf([FEED, AUDIT, BACKUP, IDLE]).lanesOf(FACT);
  assert.deepStrictEqual(lanes.map(it => it.name), ["feed", "audit", "backup"]);
  const [feed, audit, backup] = lanes;
  assert.deepStrictEqual(audit.stretches.map(it => [it.doing, it.text]), [["polled", ""], ["waits", "Mutex::lock, src/db.rs:40"], ["ready", ""], ["polled", ""]]);
  assert.deepStrictEqual(feed.stretches.map(it => [it.doing, it.text]), [["polled", ""], ["waits", "Sleep, in shop::feed"], ["ready", ""], ["polled", ""], ["waits", "Sleep, in shop::feed"]]);
  assert.deepStrictEqual(backup.stretches.map(it => it.doing), ["polled"]);
  assert.deepStrictEqual(audit.wakes.map(it => [it.from, it.word]), [[2, ""]]);
  assert.deepStrictEqual(feed.wakes.map(it => [it.from, it.word]), [[-1, "timer"]]);
});

test("between two calls the ends are in the order of time", () => {
  const [feed, audit, backup] = tasksOf([FEED, AUDIT, BACKUP]).lanesOf(FACT);
  // After call 2: the audit's poll ends at 20, the feed is woken at 895 and polled at 900. So they are at a quarter, two and three.
  assert.deepStrictEqual(audit.stretches[0].to.column, 2.25);
  assert.deepStrictEqual([feed.stretches[2].from.column, feed.stretches[3].from.column], [2.5, 2.75]);
  // After call 5: the feed's poll ends at 905, the backup begins at 12080, wakes at 12090, ends at 12095, and the audit is polled at 12100.
  assert.deepStrictEqual(feed.stretches[3].to.column, 5 + 1 / 6);
  assert.deepStrictEqual([backup.stretches[0].from.column, audit.wakes[0].column, backup.stretches[0].to.column], [5 + 2 / 6, 5 + 3 / 6, 5 + 4 / 6]);
  assert.deepStrictEqual(audit.stretches[3].from.column, 5 + 5 / 6);
});

test("who ran while a task was ready has a lane, and a hang has those that wait", () => {
  const ready = { ...AUDIT, polls: [[10, 20, 1, 2, 0, [0], 100, 2, "timer", null, 0], [12100, null, 5, 6, 0, []]] };
  const busy = { name: "import", polls: [[110, 12000, 2, 5, 0, []]] };
  const elsewhere = { name: "other", polls: [[110, 12000, 2, 5, 1, []]] };
  assert.deepStrictEqual(tasksOf([FEED, ready, busy, elsewhere]).lanesOf(FACT).map(it => it.name), ["feed", "audit", "import"]);
  const hang = tasksOf([FEED, IDLE], [], [{ name: "idle", actor: null, since: 0, text: "idle in Mutex::lock" }]);
  assert.deepStrictEqual(hang.facts.map(it => it.kind), ["hang"]);
  assert.deepStrictEqual(hang.lanesOf(hang.facts[0]).map(it => it.name), ["idle"]);
  assert.strictEqual(tasksOf([]).most, 0);
});

test("the fact of a place is the one around it, else the one before it", () => {
  const [one, two] = [[2, 5], [8, 9]].map(places => ({ places: places.map(place => ({ place })) }));
  assert.deepStrictEqual([0, 2, 5, 6, 8, 20].map(place => factAt([one, two], place)), [one, one, one, one, two, two]);
  assert.strictEqual(factAt([], 3), undefined);
});

test("a lane has boxes, lines with what is waited for, and arrows from who wakes", () => {
  const lanes = new Lanes(tasksOf([FEED, AUDIT, BACKUP]), false);
  assert.strictEqual(lanes.height, 18 + 3 * 30);
  const pen = new SvgPen((font, text) => text.length * 6);
  // Seven columns of 100 points, so call 2 is at 300 + 250.
  const frame = new Frame(0, 6, 1014, 300);
  assert.strictEqual(frame.middle(2), 550);
  const palette = { ink: "#ink", mute: "#mute", "lag-ink": "#lag", "place-line": "#here", actor: number => `#actor${number}` };
  lanes.drawOn({ pen, view: { place: 3, from: 0, to: 6 }, frame, palette });
  // A poll without a call has its ends between two calls, and the last one goes on at the end of the run.
  assert.deepStrictEqual(pen.parts.filter(it => it.startsWith("<rect")), [
    '<rect x="649" y="0" width="2" height="108" fill="#here"/>',
    '<rect x="400" y="32" width="83.33" height="10" fill="#actor0"/>',
    '<rect x="625" y="32" width="241.67" height="10" fill="#actor0"/>',
    '<rect x="516.67" y="62" width="58.33" height="10" fill="#actor1"/>',
    '<rect x="933.33" y="62" width="66.67" height="10" fill="#actor1"/>',
    '<rect x="883.33" y="92" width="33.33" height="10" fill="#mute"/>',
  ]);
  // The feed's first wait has room for 18 letters of six points.
  assert.deepStrictEqual(pen.parts.filter(it => it.startsWith("<text")).map(it => it.replace(/<[^>]*>/g, "")), [
    "what tasks did", "feed", "Sleep, in shop::f…", "Sleep, in shop::feed", "audit", "Mutex::lock, src/db.rs:40", "backup", "timer",
  ]);
  // The backup, in the third lane, wakes the audit in the second, half way between calls 5 and 6.
  assert.ok(pen.parts.includes('<path d="M900 97L900 67" fill="none" stroke="#lag" stroke-width="1.4"/>'), pen.parts.join("\n"));
});
