// Names of actors, channels and handles, texts of values, and places in sources: from a file of names if there is one, else numbers. What hides
// in them is written out. Such a file may also have a note on the core that answered the calls, and the calls that waited when it was written.

import { nth } from "../base/numbers.js";
import { visible, visibleLines } from "../base/text.js";
import { isAccount, known } from "./account.js";
import { ReadTexts, readTables } from "./packed_names.js";
import { areTasks } from "./tasks.js";

const NEWEST = 5;

function isText(value) {
  return typeof value === "string";
}

function isNumber(value) {
  return Number.isSafeInteger(value) && value >= 0;
}

function isTable(value, isPart) {
  return typeof value === "object" && value !== null && !Array.isArray(value) && Object.values(value).every(isPart);
}

function isList(value, isPart) {
  return Array.isArray(value) && value.every(isPart);
}

function isLocation(value) {
  return isList(value, () => true) && value.length === 3 && isText(value[0]) && isNumber(value[1]) && isNumber(value[2]);
}

function isNumberOrNull(value) {
  return value === null || isNumber(value);
}

function isChannelWindow(value) {
  return isTable(value, () => true) && isNumber(value.lead) && isNumber(value.calls) && isNumberOrNull(value.sent ?? null) && isList(value.handles, isNumberOrNull)
    && isTable(value.lags ?? {}, isNumber);
}

function isWindow(value) {
  return isTable(value, () => true) && isText(value.reason) && isNumberOrNull(value.at) && isNumber(value.lead) && isTable(value.channels, isChannelWindow);
}

function isTime(value) {
  return isList(value, isNumber) && value.length === 3;
}

function isWait(value) {
  return isTable(value, () => true) && isText(value.call) && ["actor", "channel", "handle", "since"].every(key => isNumber(value[key]));
}

// Each key that the page uses, with the test of its value, and what is wrong where that fails. Other keys are ignored: some are for a
// replay, and later writers add keys within a version. What says how a test ended is used as far as it has its form.
const KEYS = {
  version: [isNumber, "its version is no number"],
  core: [isText, "its note on the core is no text"],
  actors: [value => isTable(value, isText), "its actors are no names by number"],
  channels: [value => isTable(value, isText), "its channels are no names by number"],
  values: [value => isTable(value, table => isTable(table, isText)), "its values are no texts by number, by channel"],
  handles: [value => isTable(value, table => isTable(table, isText)), "its handles are no names by number, by channel"],
  locations: [value => isList(value, isLocation), "its locations are no files with line and column"],
  made: [value => isTable(value, table => isTable(table, isNumber)), "its key \"made\" has no numbers of locations by handle, by channel"],
  calls: [value => isTable(value, list => isList(list, it => it === null || isNumber(it))), "its calls are no lists of locations by channel"],
  tasks: [value => isTable(value, isNumber), "its tasks are no numbers of locations by actor"],
  waiting: [value => isList(value, isWait), "its waiting calls have no actor, channel, handle, call and stamp"],
  root: [isText, "its folder of the sources is no text"],
  waited: [value => isTable(value, list => isList(list, isNumber)), "its key \"waited\" has no lists of calls by channel"],
  window: [isWindow, "its window has no \"reason\", \"at\", \"lead\" and \"channels\""],
  times: [value => isList(value, isTime), "its times are no lists of a stamp and two times"],
  journal: [isText, "its checksum of the journal is no text"],
  tasks_seen: [areTasks, "its key \"tasks_seen\" has no \"places\", and \"tasks\" with \"polls\""],
  account: [isAccount, "its key \"account\" has no \"facts\" with \"text\" and \"places\""],
};

// What a call that waits is to users, where the journal has the word of a call that doesn't.
const WAITED = { "receiver-count": "closed", update: "wait_for" };

// What was read of texts of names, by their bytes: that of a long run takes a while, and is needed before the run is read and after it.
const read = new WeakMap();

// Reads the bytes of a file of names, or throws an error that says what is wrong with it.
export function namesIn(bytes) {
  if (!read.has(bytes)) read.set(bytes, tablesIn(bytes));
  const names = new Names(read.get(bytes));
  names.bytes = bytes;
  return names;
}

// The same of a text.
export function readNames(text) {
  return new Names(tablesIn(new TextEncoder().encode(text)));
}

// The version is looked at first, since a later one may have other keys.
function tablesIn(bytes) {
  const { tables, values, calls } = readTables(bytes);
  if (!isTable(tables, () => true)) throw new Error("it is no object");
  if (tables.version > NEWEST) throw new Error(`it has version ${tables.version}, and this page reads versions up to ${NEWEST}`);
  const keys = Object.keys(tables);
  const known = keys.filter(key => Object.hasOwn(KEYS, key));
  if (keys.length > 0 && known.length === 0) throw new Error("it has none of the keys that names have");
  for (const key of known) {
    const [isRight, wrong] = KEYS[key];
    if (!isRight(tables[key])) throw new Error(wrong);
  }
  return { ...tables, values: values ?? new ReadTexts(tables.values), calls: calls ?? tables.calls };
}

// How a test ended, and what of it wasn't recorded.
function endingOf({ panics, returned, test, unrecorded, journal = null, failed, hangs }) {
  const isPanic = it => isTable(it, () => true) && isNumber(it.since) && (it.actor === null || isNumber(it.actor));
  const counts = isTable(unrecorded, () => true) ? Object.entries(unrecorded).filter(([, count]) => isNumber(count) || count === true) : [];
  return {
    panics: isList(panics, isPanic) ? panics : [],
    returned: isTable(returned, () => true) && isNumber(returned.since) ? returned : null,
    test: isTable(test, isText) ? test.thread : undefined,
    unrecorded: Object.fromEntries(counts), journal, hasFailed: failed === true, hangs: hangs === true,
  };
}

function lookUp(table, key) {
  return table !== undefined && Object.hasOwn(table, key) ? table[key] : undefined;
}

// What channels without a name are called, by number: after the place that creates each, with the number where several are created there. The
// account calls them so too.
function calledByPlace({ channels, locations, made }) {
  const lines = new Map();
  for (const [channel, handles] of Object.entries(made)) {
    const at = Object.hasOwn(channels, channel) ? undefined : locations[lookUp(handles, 0)];
    if (at !== undefined) lines.set(channel, `${at[0]}:${at[1]}`);
  }
  const counts = new Map();
  for (const line of lines.values()) counts.set(line, (counts.get(line) ?? 0) + 1);
  return new Map([...lines].map(([channel, line]) => [channel, counts.get(line) === 1 ? `channel of ${line}` : `channel ${channel} of ${line}`]));
}

const NO_BYTES = new Uint8Array();

function named(table, number, otherwise) {
  return visible(lookUp(table, number) ?? otherwise);
}

// What names have for a thread without a name, which the account calls by its number alone.
const UNNAMED_THREAD = /^ThreadId\(\d+\)$/;

// A value may have a number that the browser's own would round.
function ordinal(number) {
  return nth(BigInt(number) + 1n);
}

export class Names {
  /** @param {any} tables */
  constructor(tables = {}) {
    // The text that the engine reads them from, which is empty where there is none.
    this.bytes = NO_BYTES;
    const { core = "", actors = {}, channels = {}, values = new ReadTexts(), handles = {}, locations = [], made = {}, calls = {}, tasks = {} } = tables;
    const { waiting = [], journal = null, root = null, window = null, times = [], tasks_seen: tasksSeen = null } = tables;
    // Why the run begins in a window, and what was before it; and when some of its calls were made.
    this.window = window;
    this.times = times;
    // What was seen of the test's tasks.
    this.tasksSeen = tasksSeen;
    this.tables = { actors, channels, values, handles, locations, made, calls, tasks };
    // What says how calls are written, as a file of names of its own.
    this.ofCalls = JSON.stringify({ version: tables.version, waited: tables.waited, window: tables.window });
    this.placed = calledByPlace({ channels, locations, made });
    this.core = visible(core);
    /** @type {Account | null} what was found in the run, in words */
    this.account = known(tables.account);
    // By channel, which of its entries are of calls that wait.
    this.waited = new Map(Object.entries(tables.waited ?? {}).map(([channel, entries]) => [Number(channel), new Set(entries)]));
    this.ending = endingOf(tables);
    /** @type {string | null} the folder that the files of sources are relative to */
    this.root = root;
    /** @type {string | null} the checksum of the journal that these are the names of */
    this.journal = journal;
    /** @type {{ actor: number, channel: number, handle: number, call: string, since: number, location?: number, woken?: boolean }[]} */
    this.waiting = waiting;
    // The names that the run's own script gives to handles.
    this.bindings = {};
  }

  // Without a name, an actor that is a task has the place of its first call beside its number.
  actor(number) {
    const task = this.location(lookUp(this.tables.tasks, number));
    return this.shortActor(number) + (task && !Object.hasOwn(this.tables.actors, number) ? `, ${task}` : "");
  }

  // The same without that place.
  shortActor(number) {
    const name = named(this.tables.actors, number, `actor ${number}`);
    return UNNAMED_THREAD.test(name) ? `thread ${name.slice(9, -1)}` : name;
  }

  channel(number) {
    return named(this.tables.channels, number, this.placed.get(String(number)) ?? `channel ${number}`);
  }

  // Returns undefined for a handle without a name of its own.
  handle(channel, number) {
    const found = [this.tables.handles, this.bindings].map(tables => lookUp(lookUp(tables, channel), number)).find(name => name !== undefined);
    return found && visible(found);
  }

  // A value by its text, or by what it is called without one.
  value(channel, number) {
    return visible(this.tables.values.text(channel, number) ?? (this.isOrdinal(channel, number) ? `its ${ordinal(number)} value` : String(number)));
  }

  // The same where there is little room.
  shortValue(channel, number) {
    return this.isOrdinal(channel, number) ? ordinal(number) : this.value(channel, number);
  }

  // Whether a value is called by which of its channel's it is. The crate numbers those from 0; in other journals a number is the value.
  isOrdinal(channel, number) {
    return this.journal !== null && this.tables.values.text(channel, number) === undefined;
  }

  // The same with its lines below each other.
  valueLines(channel, number) {
    return visibleLines(this.tables.values.text(channel, number) ?? this.value(channel, number));
  }

  // A place in the sources by its number, as `src/bus.rs:15`, or undefined.
  location(number) {
    const found = this.place(number);
    return found && visible(`${found[0]}:${found[1]}`);
  }

  // The same as file, line and column.
  /** @returns {[string, number, number] | undefined} */
  place(number) {
    return number === undefined || number === null ? undefined : this.tables.locations[number];
  }

  // Where a handle was made in the sources, as file, line and column, or undefined.
  madeAt(channel, handle) {
    return this.place(lookUp(lookUp(this.tables.made, channel), handle));
  }

  // Where one of a channel's calls was made in the sources, as file, line and column, or undefined.
  calledAt(channel, index) {
    return this.place(lookUp(this.tables.calls, channel)?.[index]);
  }

  // The name of a channel's call, which is its word but for two calls that wait.
  method(channel, index, word) {
    return (this.waited.get(channel)?.has(index) && WAITED[word]) || word;
  }

  get hasCalls() {
    return Object.keys(this.tables.calls).length > 0;
  }
}
