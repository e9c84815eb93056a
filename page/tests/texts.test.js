// Texts, numbers, names and entries, as the page reads and writes them.
import assert from "node:assert";
import { test } from "node:test";
import { countOf, grouped, nth, sizeOf } from "../src/base/numbers.js";
import { isolated, visible, visibleLines } from "../src/base/text.js";
import { readEntry } from "../src/run/entries.js";
import { Names, readNames } from "../src/run/names.js";
import { isJournal } from "../src/run/opened_text.js";
import { Run } from "../src/run/run.js";
import { readStates } from "../src/run/states.js";
import { countUpTo } from "../src/run/values.js";

test("numbers have separators, and units", () => {
  assert.deepStrictEqual([0, 999, 1000, 1234567].map(grouped), ["0", "999", "1,000", "1,234,567"]);
  assert.deepStrictEqual([countOf(1, "call"), countOf(2, "call"), countOf(1000, "loss", "losses")], ["1 call", "2 calls", "1,000 losses"]);
  assert.deepStrictEqual([999, 1500, 2_600_000].map(sizeOf), ["999 bytes", "2 KB", "3 MB"]);
  assert.deepStrictEqual([1, 2, 3, 4, 11, 12, 13, 22, 101, 113, 2n ** 64n].map(nth),
    ["1st", "2nd", "3rd", "4th", "11th", "12th", "13th", "22nd", "101st", "113th", "18,446,744,073,709,551,616th"]);
});

test("what hides in a text is written out, and ends of lines of `{:#?}` are signs", () => {
  assert.strictEqual(visible("a\u202eb\u0007"), "a⟨U+202E⟩b⟨U+0007⟩");
  assert.strictEqual(visible("Order {\n    id: 7,\n}"), "Order {↵ id: 7,↵ }");
  assert.strictEqual(visibleLines("Order {\n    id: 7,\n}"), "Order {\n    id: 7,\n}");
  assert.strictEqual(visible("👩‍🚀"), "👩‍🚀");
  assert.strictEqual(isolated("abc"), "abc");
  assert.strictEqual(isolated("שלום"), "\u2068שלום\u2069");
});

test("an entry's line is read with its arguments and its reply", () => {
  const entry = readEntry("#7 9 2 0 send 0 18446744073709551615 = sent 3");
  const wanted = { number: 7, stamp: "9", actor: 2, channel: 0, word: "send", handle: 0, rest: "18446744073709551615", reply: "sent", answer: "3" };
  assert.deepStrictEqual(entry, wanted);
  assert.strictEqual(readEntry("#1 1 0 0 drop 0 = dropped").answer, "");
});

test("the count of numbers up to one is that of a plain count", () => {
  const numbers = [1, 1, 4, 9, 9, 30];
  for (let most = 0; most < 32; most++) assert.strictEqual(countUpTo(numbers, most), numbers.filter(it => it <= most).length);
});

test("states are read, and values that a browser would round are texts", () => {
  const none = 2 ** 32 - 1;
  const broadcast = [0, 1, 2, 5, 2, 2, none, none, 1, 0, 1, 0, 1, 3, 1, 1, 3, 4, 2];
  const watch = [1, 0, 0, 1, 3, 1, 0, 2, 1, none, 0, 2, 3, 1];
  assert.deepStrictEqual(readStates(Uint32Array.from([7, ...broadcast, ...watch]), 2, 9), [{ place: 7, len: 9, channels: [
    { kind: "broadcast", closed: true, capacity: 2, sent: 5, retained: 2, window: ["18446744073709551615", 1], senders: [0], weak: [3],
      receivers: [{ handle: 1, position: 3, unread: 4, lag: 2 }] },
    { kind: "watch", closed: false, value: 2 ** 32, version: 3, senders: [0], receivers: [{ handle: 1, mark: null, seen: false }, { handle: 2, mark: 3, seen: true }] },
  ] }]);
});

test("a value without a text is called by which of its channel's it is, where the crate has numbered it", () => {
  const values = '"values": {"0": {"70": "order 71"}}';
  const [recorded, script] = [`{"journal": "12", ${values}}`, `{${values}}`].map(readNames);
  for (const names of [recorded, script]) {
    assert.deepStrictEqual([names.value(0, 70), names.shortValue(0, "70"), names.valueLines(0, 70)], ["order 71", "order 71", "order 71"]);
    assert.strictEqual(names.isOrdinal(0, 70), false);
  }
  for (const number of [0, "0"]) assert.deepStrictEqual([recorded.value(0, number), recorded.shortValue(0, number)], ["its 1st value", "1st"]);
  assert.deepStrictEqual([recorded.value(1, 70), recorded.valueLines(1, 70), recorded.isOrdinal(1, 70)], ["its 71st value", "its 71st value", true]);
  // There a number is the value itself.
  assert.deepStrictEqual([script.value(0, 0), script.shortValue(0, 0), script.isOrdinal(0, 0)], ["0", "0", false]);
});

test("a journal is told from a script", () => {
  const bytes = text => new TextEncoder().encode(text);
  assert.deepStrictEqual(["ttd-journal 2\n", "broadcast 1\n", ""].map(text => isJournal(bytes(text))), [true, false, false]);
});

test("a channel without a name is called by its place, as in the account", () => {
  const locations = [["src/bus.rs", 12, 5], ["src/bus.rs", 30, 5], ["src/bus.rs", 12, 40]];
  const made = { 0: { 0: 0, 1: 1 }, 1: { 0: 1 }, 2: { 0: 0 }, 3: { 0: 1 }, 4: { 1: 0 } };
  const names = readNames(JSON.stringify({ version: 3, channels: { 2: "orders" }, locations, made }));
  assert.deepStrictEqual([0, 1, 2, 3, 4, 5].map(number => names.channel(number)),
    ["channel of src/bus.rs:12", "channel 1 of src/bus.rs:30", "orders", "channel 3 of src/bus.rs:30", "channel 4", "channel 5"]);
});

test("names are read, and refused with a reason", () => {
  const names = readNames('{"version": 3, "actors": {"0": "a\\u202eb"}, "handles": {"1": {"2": "audit"}}, "failed": true, "later": {}}');
  assert.deepStrictEqual([names.actor(0), names.actor(1), names.handle(1, 2), names.handle(0, 2), names.ending.hasFailed],
    ["a⟨U+202E⟩b", "actor 1", "audit", undefined, true]);
  assert.strictEqual(new Names().channel(4), "channel 4");
  assert.strictEqual(readNames('{"version": 5, "actors": {"0": "audit"}, "tasks_seen": {"times": true, "now": 7, "places": [], "tasks": []}}').actor(0), "audit");
  for (const [text, fault] of [
    ["[]", /no object/], ['{"version": 6}', /version 6/], ['{"x": 1}', /none of the keys/], ['{"actors": {"0": 1}}', /actors are no names/],
    ['{"values": {"0": {"1": 2}}}', /values are no texts/], ['{"window": {"reason": "x", "at": null, "lead": -1, "channels": {}}}', /window has no/],
    ['{"times": [[1, 2]]}', /times are no lists/],
  ]) assert.throws(() => readNames(text), fault);
});

test("the order of an entry in its channel is that of a plain count", () => {
  const channels = Uint8Array.from({ length: 5000 }, (_, number) => (number * number * 7) % 11 % 3);
  const run = { columns: { channels }, channels: [{}, {}, {}], orders: null };
  const counts = [0, 0, 0];
  for (let number = 1; number < channels.length; number++) {
    assert.strictEqual(Run.prototype.orderOf.call(run, number), counts[channels[number]]++, String(number));
  }
});
