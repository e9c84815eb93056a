// A file of names whose texts and places stay in its bytes has the same names as one that is read as any JSON is.
import assert from "node:assert";
import { test } from "node:test";
import { visible } from "../src/base/text.js";
import { ReadTexts, readTables } from "../src/run/packed_names.js";
import { Sought } from "../src/run/sought.js";

const bytesOf = text => new TextEncoder().encode(text);
const numbersWith = (values, channel, text) => Array.from(values.numbersWith(channel, new Sought(text)), String);
// All texts of a channel by number, since each has the empty text.
const tableOf = (values, channel) => Object.fromEntries(numbersWith(values, channel, "").map(number => [number, values.text(channel, number)]));
const read = text => readTables(bytesOf(text));

// Texts in the crate's form, with all that JSON escapes and letters of several bytes.
const VALUES = { 0: { 0: "order 1", 2: 'a "b" \\ {,}[:]\n\u0001', 999999999: "👩‍🚀 שלום" }, 3: {}, 11: { 7: "" } };
const CALLS = { 0: [1, null, 0, 41], 3: [], 12: [null] };
const REST = { version: 3, actors: { 0: "a: {\"calls\": [1]}" }, locations: [["src/bus.rs", 1, 2]], later: [{ values: { 0: {} }, x: [1, true, null, -1.5e3] }] };

function escaped(json) {
  return json.replace(/[^ -~]/gu, found => [...Array(found.length).keys()].map(i => `\\u${found.charCodeAt(i).toString(16).padStart(4, "0")}`).join(""));
}

test("packed texts and places are those of the whole text as JSON", () => {
  const tables = { ...REST, values: VALUES, calls: CALLS, failed: true };
  for (const text of [JSON.stringify(tables), JSON.stringify(tables, null, 2), escaped(JSON.stringify(tables)), ` ${JSON.stringify(tables)}\r\n\t`]) {
    const { tables: others, values, calls } = read(text);
    assert.deepStrictEqual(others, { ...tables, values: {}, calls: {} });
    assert.deepStrictEqual(values.channels, Object.keys(VALUES));
    for (const [channel, texts] of Object.entries(VALUES)) {
      assert.deepStrictEqual([tableOf(values, channel), values.count(channel)], [texts, Object.keys(texts).length]);
      for (const number of [...Object.keys(texts), "1", "3", "1000000000", "18446744073709551615", "00", ""]) {
        assert.strictEqual(values.text(Number(channel), number), texts[number], number);
      }
      for (const number of [0, 1, 2, 7, 999999999, 7n]) assert.strictEqual(values.text(channel, number), texts[number]);
    }
    assert.deepStrictEqual([values.text(1, 0), tableOf(values, 1), values.count(1), values.text(0, undefined)], [undefined, {}, 0, undefined]);
    const places = Object.fromEntries(Object.entries(calls).map(([channel, list]) => [channel, Array.from(list, it => REST.locations[it] ?? null)]));
    assert.deepStrictEqual(places, Object.fromEntries(Object.entries(CALLS).map(([channel, list]) => [channel, list.map(it => REST.locations[it] ?? null)])));
  }
});

test("channels may be in any order", () => {
  const { values, calls } = read('{"calls": {"9": [2], "1": []}, "values": {"12": {"3": "c"}, "0": {}}}');
  assert.deepStrictEqual([values.channels, values.text(12, 3), Object.keys(calls), calls[9][0]], [["0", "12"], "c", ["1", "9"], 2]);
});

test("a text in another form is read as any JSON is, and not packed", () => {
  for (const text of [
    '{"values": {"0": {"2": "b", "1": "a"}}}', '{"values": {"01": {"2": "b"}}}', '{"values": {"0": {"18446744073709551615": "b"}}}',
    '{"values": {"0 ": {}}}', '{"values": {"0": {"1": "a"}, "0": {"1": "b"}}}', '{"calls": {"0": [1], "0": [2]}}', '{"values": {"0": {"1": 2}}}', '{"values": [], "calls": {}}', '{"calls": {"0": [1.5]}}', '{"calls": {"0": [-1]}}',
    '{"calls": {"0": [4294967296]}}', '{"values": {}, "values": {"0": {"1": "a"}}}', "[]", "7", '"values"',
  ]) {
    const { tables, values, calls } = read(text);
    assert.deepStrictEqual([tables, values, calls], [JSON.parse(text), undefined, undefined], text);
  }
});

test("what is no JSON is refused as it is elsewhere", () => {
  for (const text of [
    "", "{", '{"values": {"0": {"1": "a}}}', '{"values": {"0": {"1": "\\x"}}}', '{"values": {"0": {"1": "\\u12g4"}}}', '{"values": {"0": {"1": "a\nb"}}}',
    '{"calls": {"0": [n u l l]}}', '{"calls": {"0": [01]}}', '{"calls": {"0": [1,]}}', '{"values": {,}}', '{"values": {"0": {}},}', '{"values": {}} x',
    '{"actors": {"0": nothing}, "values": {"0": {"1": "a"}}}', '{"actors": }', '{"values": {"0":\u0000{}}}',
  ]) {
    const wanted = (() => { try { return JSON.parse(text); } catch (fault) { return fault; } })();
    assert.ok(wanted instanceof SyntaxError, text);
    assert.throws(() => read(text), { name: "SyntaxError", message: wanted.message }, text);
  }
});

test("a file that is cut anywhere, or has another byte, has the names of the whole text as JSON", () => {
  const whole = bytesOf(JSON.stringify({ ...REST, values: VALUES, calls: CALLS }));
  const outcome = make => { try { return make(); } catch (fault) { return fault.message; } };
  const flat = ({ tables, values, calls }) => ({
    ...tables,
    ...values && { values: Object.fromEntries(values.channels.map(channel => [channel, tableOf(values, channel)])) },
    ...calls && { calls: Object.fromEntries(Object.entries(calls).map(([channel, list]) => [channel, Array.from(list, it => (it === 2 ** 32 - 1 ? null : it))])) },
  });
  for (let at = 0; at < whole.length; at++) {
    for (const more of ["", ...'"\\{}[],: 0n'].map(it => [...bytesOf(it), ...whole.subarray(at + 1)]).concat([[]])) {
      const bytes = Uint8Array.from([...whole.subarray(0, at), ...more]);
      const text = new TextDecoder().decode(bytes);
      assert.deepStrictEqual(outcome(() => flat(readTables(bytes))), outcome(() => JSON.parse(text)), text);
    }
  }
});

test("a text is found in the texts of values as they are shown, in any case of its letters", () => {
  const texts = ["", "Order 12", "order \"12\"", "a \\ b", "\\\\\"", "\\", "n", "line\nnext", "a/b", "TAB\there", "ÄRGER é", "\u202eleft", "K \u212a", "İstanbul", "~{}[]", "x\u007fy", "\", \"7\": \"z"];
  const table = Object.fromEntries(texts.map((text, i) => [3 * i, text]));
  const [packed, solidus] = [JSON.stringify({ values: { 0: table } }), JSON.stringify({ values: { 0: table } }).replaceAll("/", "\\/")].map(text => read(text).values);
  const parts = texts.flatMap(text => Array.from(text, (_, from) => [1, 2, 3, 9].map(length => text.slice(from, from + length))).flat());
  const shown = texts.map(text => visible(text).toLowerCase());
  for (const text of new Set([...parts, ...shown, "ORDER", "é", "É", "u+202e", "↵ NEXT", "k", "i", "\":", "12\"", "\\\"", ", ", "3", "order 12\"", "nothing has it"])) {
    const wanted = Object.keys(table).filter(number => visible(table[number]).toLowerCase().includes(visible(text).toLowerCase()));
    for (const values of [packed, solidus, new ReadTexts({ 0: table })]) assert.deepStrictEqual(numbersWith(values, 0, text), wanted, text);
  }
  const great = new ReadTexts({ 0: { "18446744073709551615": "a", "1000000000000000000": "a", "20": "a", "01": "a", "x": "a" } });
  assert.deepStrictEqual([numbersWith(great, 0, "A"), numbersWith(great, 1, "a")], [["20", "1000000000000000000"], []]);
});
