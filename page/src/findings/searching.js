// Searches for a condition or a text, one after the other, each from the place where the one before has ended.

import { byId, outside } from "../base/dom.js";
import { during } from "../base/notice.js";
import { countOf, grouped } from "../base/numbers.js";
import { Hits } from "../run/hits.js";
import { hitsOfCondition, seek } from "./conditions.js";
import { hitsOf } from "./text_search.js";

// Where a search has gone on that found nothing up to its end.
const FROM = { rforward: ", from the start again", rback: ", from the end again" };

export class Searching {
  // `placeNow` returns the current place, `jump` goes to a place that was found, and `onHits` marks hits that are found later.
  constructor(run, shown, { placeNow, jump, onHits }, onFault) {
    this.run = run;
    this.shown = shown;
    this.placeNow = placeNow;
    this.jump = jump;
    this.onHits = onHits;
    this.onFault = onFault;
    this.last = Promise.resolve();
    this.stops = 0;
    // The last search that found a place: where it began, its command, and the place.
    this.found = null;
    // The search for all hits of a condition, while it goes on.
    this.counting = null;
    this.tell();
  }

  // Discards the searches that were asked for so far, and what they have reported.
  stop() {
    this.stops++;
    this.tell();
  }

  // Asks for the nearest place where one of some conditions holds.
  ask(word, ...conditions) {
    const { stops } = this;
    const isOver = () => this.stops !== stops;
    this.last = this.last.then(() => this.search(word, conditions, isOver)).catch(this.onFault);
  }

  async search(word, conditions, isOver) {
    if (isOver()) return;
    const more = conditions.length > 1 ? `, or ${conditions.length - 1} like it` : "";
    const what = ["searching ", word === "rback" ? "back" : "on", " for ", outside(conditions[0]), more];
    const start = this.placeNow();
    const found = await during(what, () => this.seekAround(start, word, conditions));
    if (isOver()) return;
    if (found.place !== null) {
      this.found = { start: found.start, command: `${found.word} ${found.condition}`, place: found.place };
      this.jump(found.place);
    }
    this.tell(found.place === null, found.place === null ? found.answer : `hit at call ${grouped(found.place)}${found.around}`);
    if (conditions.length === 1) this.countHits(found, isOver).catch(this.onFault);
  }

  // Searches from a place on, and from the other end of the run where nothing is found up to this one. Returns also by which search it was found.
  async seekAround(start, word, conditions) {
    const last = this.run.lastPlace;
    // A search back finds no hit at its own place, so the last place is looked for from the one before it.
    const others = word === "rback" ? [[last - 1, "rforward"], [last, "rback"]] : [[0, "rforward"]];
    let first = null;
    for (const [from, way] of [[start, word], ...others.filter(([from, way]) => from >= 0 && (from !== start || way !== word))]) {
      const found = await seek(this.run, from, way, conditions);
      if (found.place !== null) return { ...found, start: from, word: way, around: first === null ? "" : FROM[word] };
      first ??= found;
    }
    return { ...first, start, word, around: "" };
  }

  // Marks and counts all hits of a condition, once they are found.
  async countHits({ condition, place }, isOver) {
    if (this.shown.hits.text !== condition) {
      const isOther = () => this.counting?.text !== condition;
      if (isOther()) this.counting = { text: condition, hits: hitsOfCondition(this.run, condition, isOther) };
      const hits = await this.counting.hits;
      if (hits === null) return;
      this.shown.hits = { text: condition, places: Hits.of(hits.places), isAll: hits.isAll };
      this.onHits();
    }
    if (isOver()) return;
    const { places, isAll } = this.shown.hits;
    const index = places.indexOf(place);
    const count = countOf(places.length, "hit") + (isAll ? "" : " and more");
    byId("hit-count").textContent = places.length === 0 ? "" : index < 0 ? count : `${grouped(index + 1)} of ${count}`;
  }

  // Says what was found, or that nothing was.
  tell(isNothing = false, ...parts) {
    byId("found").classList.toggle("lag", isNothing);
    byId("found").replaceChildren(...parts);
    byId("hit-count").textContent = "";
  }

  // Asks for the nearest call that has a text.
  askText(word, text) {
    const { stops } = this;
    const isOver = () => this.stops !== stops;
    this.last = this.last.then(() => this.searchText(word, text, isOver)).catch(this.onFault);
  }

  async searchText(word, text, isOver) {
    if (isOver()) return;
    if (this.shown.hits.text !== text) {
      const places = await during(["searching for ", outside(text)], () => hitsOf(this.run, text, isOver));
      if (places === null) return;
      this.shown.hits = { text, places };
    }
    const { places } = this.shown.hits;
    const here = this.placeNow();
    const index = word === "rback" ? places.upTo(here - 1) - 1 : places.upTo(here);
    // Past the last one it goes on at the other end.
    const isAround = places.at(index) === undefined;
    const hit = !isAround ? index : word === "rback" ? places.length - 1 : 0;
    this.found = null;
    if (places.length === 0) return this.tell(true, "no call has ", outside(text));
    this.jump(places.at(hit));
    this.tell(false, `hit ${grouped(hit + 1)} of ${grouped(places.length)}${isAround ? FROM[word] : ""}`);
  }

  // Forgets the hits of the last search.
  forget() {
    this.shown.hits = { text: "", places: new Hits() };
    this.counting = null;
  }

  // Returns the commands by which the last search led to this place, or null if it led elsewhere.
  wayTo(place) {
    return this.found?.place === place ? [`goto ${this.found.start}`, this.found.command] : null;
  }
}
