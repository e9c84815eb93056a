// An opened run: its entries, and the states that are loaded.

import { isolated } from "../base/text.js";
import { completed } from "./account.js";
import { Actors } from "./actors.js";
import { placeUpTo, readEntry } from "./entries.js";
import { behindLead, lostBefore, numberOf, timeOf, windowOf } from "./lead.js";
import { Losses, lossesIn } from "./losses.js";
import { KINDS } from "./kinds.js";
import { MARK_NAMES } from "./marks.js";
import { readStates } from "./states.js";
import { Values } from "./values.js";
import { waitingActors, waitsOf } from "./waiting.js";

const SENT = MARK_NAMES.indexOf("sent");
// Past every place and every actor.
const NONE = 2 ** 32 - 1;
// How many numbers the list has for each handle: its channel and number, its kind, where and by whom it was made, where it was dropped, and the index
// past its callers.
const OF_HANDLE = 7;

// The list of a run's handles, by channel, and then by number. `callers` has pairs: an actor, and how many calls it made with the handle.
class Listed {
  // Takes over what the list says of each of these handles. Those that were never dropped live to the place past the last.
  /** @param {Life[][]} lives */
  constructor(handles, callers, lives, past) {
    this.handles = handles;
    this.callers = callers;
    for (let at = 0; at < handles.length; at += OF_HANDLE) {
      const life = lives[handles[at]][handles[at + 1]];
      life.kind = KINDS[handles[at + 2]];
      life.from = handles[at + 3];
      life.maker = handles[at + 4] === NONE ? null : handles[at + 4];
      life.to = handles[at + 5] === NONE ? past : handles[at + 5];
      life.listedAt = at;
    }
  }

  // How many calls each actor made with a handle.
  callersOf({ listedAt }) {
    const [start, end] = [this.handles[listedAt - 1] ?? 0, this.handles[listedAt + OF_HANDLE - 1]];
    return Array.from({ length: (end - start) / 2 }, (_, i) => ({ actor: this.callers[start + 2 * i], calls: this.callers[start + 2 * i + 1] }));
  }
}

// In numbers: the answer to one request, the states that are kept, and as a first guess a state.
const MOST_ASKED = 2 << 20;
const MOST_KEPT = 4 << 20;
const STATE = 1000;

// Of one entry in so many the order in its channel is stored.
const COUNTED = 1024;

// Of one entry in so many the columns have where its line begins, from the first on.
const LINES = 16;
const LINE_END = 10;

const decoder = new TextDecoder();

// How many entries of its channel come before each entry. Of one entry in many it is stored, of all channels, and from there on it is counted.
class Orders {
  constructor(channels, count) {
    this.channels = channels;
    this.count = count;
    this.stored = new Uint32Array(count * Math.ceil(channels.length / COUNTED));
    const counts = new Uint32Array(count);
    for (let number = 0; number < channels.length; number++) {
      if (number % COUNTED === 0) this.stored.set(counts, count * number / COUNTED);
      if (number > 0) counts[channels[number]]++;
    }
  }

  of(number) {
    const { channels, count, stored } = this;
    const from = number - number % COUNTED;
    let order = stored[count * from / COUNTED + channels[number]];
    for (let before = Math.max(from, 1); before < number; before++) if (channels[before] === channels[number]) order++;
    return order;
  }
}

export class Run {
  constructor(client, opened, names) {
    this.client = client;
    this.lastPlace = opened.lastPlace;
    /** @type {Uint8Array} the journal text, whose lines are the entries */
    this.journal = opened.journal;
    this.columns = opened.columns;
    /** @type {Life[][]} by channel, and then by the handle's number */
    this.lives = opened.lives;
    /** @type {ChannelState[]} */
    this.channels = opened.opening.channels;
    // The call of a script that would wait, with its line, or null.
    this.waiting = null;
    this.waits = [];
    this.isCut = false;
    // Whether `journal` is the text that was opened, and not that of a script's run or of what is left of one.
    this.isWholeJournal = false;
    // Whether only the first calls are read so far, so that nothing can be counted.
    this.isBeginning = opened.isBeginning ?? false;
    /** @type {Orders | null} once they are needed */
    this.orders = null;
    /** @type {number[][] | null} the places of each channel's calls that are drawn from far too, once they are needed */
    this.rareCalls = null;
    this.values = new Values(this);
    // How many entries lead to the window in which the run begins, or 0.
    this.lead = 0;
    /** @type {Set<number> | null} in a window, the actors that made calls */
    this.callers = null;
    const losses = lossesIn(opened.losses, this.lastPlace);
    // It isn't known whether those that are open at the end of a beginning will be told.
    this.allLosses = this.isBeginning ? losses.filter(({ end }) => end !== "open") : losses;
    this.losses = new Losses(this, this.allLosses);
    /** @type {RunState} */
    this.ending = opened.ending;
    // What is counted in the whole run, once it is loaded.
    /** @type {Closings} */
    this.closings = { places: this.channels.map(() => null), told: this.channels.map(() => new Map()), readOn: [] };
    /** @type {Totals[] | null} */
    this.totals = null;
    /** @type {Listed | null} */
    this.listed = null;
    /** @type {Promise<void> | undefined} */
    this.finding = undefined;
    this.receiverCounts = this.countReceivers();
    this.bindings = {};
    // The text of names that the engine has for the run, and the request that passed it on.
    this.named = { bytes: names.bytes, request: Promise.resolve() };
    this.rename(names);
    this.states = new Map(opened.states.map(state => [state.place, state]));
    this.states.set(0, opened.opening);
    this.states.set(this.lastPlace, opened.ending);
    this.stateLength = STATE;
  }

  rename(names) {
    this.names = names;
    this.actorCount = Math.max(this.columns.actorCount, ...waitingActors(names).map(actor => actor + 1));
    if (names.window) this.beginBehind(names.window);
    /** @type {Account | null} what was found in the run, in words: of the names, or else made once it is needed */
    this.account = names.account;
    this.actors = new Actors(this.actorCount, names);
    names.bindings = this.bindings;
    this.waits = this.waiting ? [this.waiting] : waitsOf(this);
  }

  // How many receivers each channel had, without those that the lead alone has.
  countReceivers() {
    return this.lives.map(lives => lives.filter(life => life.kind === "receiver" && !this.isOfLead(life)).length);
  }

  // Whether the lead alone has a handle.
  isOfLead({ to }) {
    return to <= this.lead;
  }

  // Begins the run behind the lead of a window: what the lead has is none of what anybody did.
  beginBehind(window) {
    this.lead = Math.min(window.lead, this.lastPlace);
    const { channels, marks } = this.columns;
    /** @type {number[][]} */
    const sends = this.channels.map(() => []);
    for (let place = 1; place < marks.length; place++) if (marks[place] === SENT) sends[channels[place]].push(place);
    this.losses = new Losses(this, behindLead(window, this.allLosses).map(loss => {
      const [before, here] = lostBefore(window, sends[loss.channel], loss);
      return { ...loss, lost: loss.lost - here + before, before, here };
    }));
    this.receiverCounts = this.countReceivers();
    this.callers = new Set([...new Set(this.columns.actors.subarray(this.lead + 1)), ...waitingActors(this.names)]);
  }

  // The number by which texts call a handle.
  numberOf(channel, handle) {
    return numberOf(this.names.window, channel, handle);
  }

  // Whether not all of a channel's calls are there.
  isWindow(channel) {
    return windowOf(this.names.window, channel) !== undefined;
  }

  // When a call was made, in words, or null.
  timeOf({ stamp }) {
    return timeOf(this.names.window, this.names.times, Number(stamp));
  }

  // By how many values a receiver lags in a state.
  lagOf(channel, { handle, lag }) {
    const [{ before = 0, here = 0 } = {}] = this.losses.of(channel, handle);
    return lag && lag + before - here;
  }

  // How many calls each actor made with a handle, once they are listed. Those of the lead are none.
  callersOf(life) {
    const { actors, handles, channels } = this.columns;
    const channel = this.lives.findIndex(lives => lives[life.handle] === life);
    const counts = new Map(this.listed.callersOf(life).map(({ actor, calls }) => [actor, calls]));
    for (let place = 1; place <= this.lead; place++) {
      if (channels[place] === channel && handles[place] === life.handle) counts.set(actors[place], counts.get(actors[place]) - 1);
    }
    return [...counts].filter(([, calls]) => calls > 0).map(([actor, calls]) => ({ actor, calls }));
  }

  // Whether an actor is one of the run: in a window, it has made a call or waits in one.
  isCaller(actor) {
    return this.callers === null || this.callers.has(actor);
  }

  // How many actors there are.
  get callerCount() {
    return this.callers?.size ?? this.actorCount;
  }

  // The last column that is drawn. Where calls wait at the end, there is one after the last place.
  get lastColumn() {
    return this.lastPlace + (this.waits.length > 0 ? 1 : 0);
  }

  // Returns the actor that used a handle last, or null. Nobody has made the calls of a lead.
  userOf({ user, last }) {
    return this.lead > 0 && last <= this.lead ? null : user;
  }

  // Returns whose a handle is: its own name where it has one, else that of the actor that used it last, if one did.
  ownerOf(channel, life) {
    const user = this.userOf(life);
    return this.names.handle(channel, life.handle) ?? (user === null ? undefined : this.names.actor(user));
  }

  // A handle's name in a text: whose it is, its kind and number.
  titleOf(channel, handle) {
    const life = this.lifeOf(channel, handle);
    const owner = this.ownerOf(channel, life);
    return `${owner === undefined ? "" : `${isolated(owner)} · `}${life.kind} ${this.numberOf(channel, handle)}`;
  }

  /** @returns {Life} */
  lifeOf(channel, handle) {
    return this.lives[channel][handle];
  }

  /** @returns {Entry} */
  entry(number) {
    return readEntry(this.line(number));
  }

  // The name of an entry's call, as users write it where it is one that waits.
  methodOf({ number, channel, word }) {
    return this.names.waited.has(channel) ? this.names.method(channel, this.orderOf(number), word) : word;
  }

  // Where the call of an entry stands in the sources, as file, line and column, if the names say so: they have one item for each of a channel's
  // entries.
  sourceOf(number) {
    return this.names.hasCalls ? this.names.calledAt(this.columns.channels[number], this.orderOf(number)) : undefined;
  }

  // How many entries of its channel come before an entry.
  orderOf(number) {
    this.orders ??= new Orders(this.columns.channels, this.channels.length);
    return this.orders.of(number);
  }

  // The last place up to a stamp, behind the lead.
  placeOf(stamp) {
    return placeUpTo(stamp, this.lead, this.lastPlace, place => this.entry(place));
  }

  // The channel and the number of the value that was sent at a place.
  /** @returns {[number, string]} */
  sentAt(place) {
    const { channel, rest } = this.entry(place);
    return [channel, rest.split(" ")[0]];
  }

  // The text of that value.
  valueSent(place) {
    return this.names.value(...this.sentAt(place));
  }

  // An entry's line, as the console writes it.
  line(number) {
    const { journal, columns } = this;
    let start = columns.starts[Math.floor((number - 1) / LINES)];
    for (let before = (number - 1) % LINES; before > 0; before--) start = journal.indexOf(LINE_END, start) + 1;
    return `#${number} ${decoder.decode(journal.subarray(start, journal.indexOf(LINE_END, start)))}`;
  }

  // Returns the state at a place, if it is loaded.
  /** @returns {RunState | undefined} */
  state(place) {
    return this.states.get(place);
  }

  missing(places) {
    return places.filter(place => !this.states.has(place));
  }

  // Loads the states at these places that aren't loaded yet.
  async load(places) {
    for (const state of await this.statesAt(this.missing(places))) this.states.set(state.place, state);
    this.forget(new Set(places));
  }

  // Removes states that aren't needed, the oldest first, while there are too many.
  forget(needed) {
    for (const place of this.states.keys()) {
      if (this.states.size * this.stateLength <= MOST_KEPT) return;
      if (!needed.has(place)) this.states.delete(place);
    }
  }

  // Loads what is found in the whole run, and goes on after each part of it, which is drawn then.
  async *findings() {
    yield await this.find();
    yield await this.findAccount();
  }

  // Loads what is found by one reading of the whole journal. It is asked for once.
  find() {
    this.finding ??= this.client.request("found").then(found => this.take(found));
    return this.finding;
  }

  take({ closings, totals, handles, callers, columns }) {
    this.closings = closings;
    this.totals = totals;
    this.listed = new Listed(handles, callers, this.lives, this.lastPlace + 1);
    this.values.take(columns);
  }

  // Makes the account of a run whose names have none.
  async findAccount() {
    const { names } = this;
    if (this.account !== null) return;
    const made = completed(JSON.parse(await this.askNamed("account")));
    if (this.waiting) made.waiting.push({ text: `${names.actor(this.waiting.actor)} would wait in line ${this.waiting.line}: ${this.waiting.text}`, since: this.lastPlace });
    if (this.names === names) this.account = made;
  }

  // Loads what is found in the beginning of a run. Losses that are open at its end are left out, so their channels aren't known.
  async findBeginning() {
    this.finding = this.client.request("found").then(({ closings, columns }) => {
      this.closings = closings;
      this.values.take(columns);
    });
    await this.finding;
  }

  async statesAt(places) {
    const states = [];
    for (let done = 0; done < places.length;) {
      const some = places.slice(done, done + Math.ceil(MOST_ASKED / this.stateLength));
      const numbers = await this.client.request("states", some);
      this.stateLength = Math.max(this.stateLength, numbers.length / some.length);
      states.push(...readStates(numbers, this.channels.length, this.lastPlace));
      done += some.length;
    }
    return states;
  }

  // Requests something for which the engine needs the names of the run: it gets them once.
  async askNamed(request, ...values) {
    const { bytes } = this.names;
    if (this.named.bytes !== bytes) this.named = { bytes, request: this.client.name(bytes) };
    await this.named.request;
    return this.client.request(request, ...values);
  }

  // Returns a bit for each place, which is set where a call has a text in its words, in those of its reply, or in a name.
  search(wanted) {
    return this.client.request("search", { ...wanted, names: this.names.ofCalls });
  }

  // Returns how the run differs from another one, which is opened too.
  against(other) {
    return this.askNamed("against", other.journal, other.names.bytes);
  }

  // Returns what these commands write, as in the console.
  ask(commands) {
    return this.client.request("ask", commands);
  }
}
