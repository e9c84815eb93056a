// What the page tells in words at a place: the call, the calls around it, the state, the stops that are offered there, and what the
// console writes.

import { byId, element, fieldOf } from "../base/dom.js";
import { Latest } from "../base/latest.js";
import { grouped } from "../base/numbers.js";
import { conditionsAt } from "./conditions.js";
import { lossCard, lossPeek } from "./loss_card.js";
import { atTheStart, sentence, shortLine } from "./sentence.js";
import { statePanel } from "./state_panel.js";
import { valueCard } from "./value_life.js";
import { wholeCall } from "./whole_call.js";

// Returns this many calls around the place as buttons that go there, with some before the place, as far as there are any.
function callsAround(run, place, { shown, before }) {
  const least = place < run.lead ? 1 : run.lead + 1;
  const first = Math.max(least, Math.min(place - before, run.lastPlace - shown + 1));
  const width = grouped(run.lastPlace).length;
  const lines = [];
  for (let number = first; number <= Math.min(run.lastPlace, first + shown - 1); number++) {
    const entry = run.entry(number);
    const line = element("button", { "data-place": number, class: number > run.lead ? entry.reply : "mute", tabindex: -1 },
      run.actors.badge(entry.actor), ` ${grouped(number).padStart(width)}  `, ...shortLine(entry, run));
    if (number === place) line.setAttribute("aria-current", "step");
    lines.push(element("li", {}, line));
  }
  return lines;
}

const MOST_CHIPS = 8;

// How many calls are listed, and how many of them are before the place.
const CALLS = { shown: 12, before: 5 };
// Rows for fingers are higher.
const FEW_CALLS = { shown: matchMedia("(pointer: coarse)").matches ? 3 : 4, before: 1 };

// How wide a letter of the place is, in widths of a digit.
const LETTER = 0.95;

// A place is after a call, whose number it has, or before the first one, which may be in a lead.
function placeText(place, { lastPlace: last, lead }) {
  if (place === lead) return last === lead ? "no calls" : `before call ${grouped(lead + 1)}`;
  if (place < lead) return `${grouped(place)} of ${grouped(lead)} that lead to it`;
  return `call ${grouped(place)} of ${grouped(last)}`;
}

// Whether no call of the run has been made.
function isStart({ lead }, place) {
  return place === 0 || place === lead;
}

// A text as it is read out, without the codes of actors.
function spokenText(box) {
  const copy = box.cloneNode(true);
  for (const badge of copy.querySelectorAll(".badge")) badge.remove();
  return copy.textContent.replace(/\s+/g, " ").trim();
}

export class Telling {
  // `losses` are the moves by losses, and `table` the table of receivers.
  constructor(run, view, screen, losses, table, onFault) {
    this.shown = view.shown;
    this.losses = losses;
    this.table = table;
    this.run = run;
    this.view = view;
    this.screen = screen;
    this.console = new Latest(() => this.askConsole(), onFault);
    this.isLeft = false;
    this.calls = byId("calls-part");
    fieldOf("slider").max = run.lastPlace;
    // As wide as the longest place, so that nothing moves while the place changes.
    const longest = Math.max(...[0, run.lead, run.lastPlace].map(place => placeText(place, run).length));
    byId("place").style.minWidth = `${longest * LETTER}ch`;
  }

  // The channels in the order of the panel: first that of the call that led to the place.
  get channels() {
    const { channels } = this.screen.folds;
    if (this.view.place <= this.run.lead) return channels;
    const first = this.run.columns.channels[this.view.place];
    return [first, ...channels.filter(channel => channel !== first)];
  }

  // After this nothing more is told.
  stop() {
    this.isLeft = true;
    this.console.stop();
  }

  // Tells what needs no state.
  show() {
    const { run, view } = this;
    const { place } = view;
    const { here, areNamed } = this.losses;
    byId("sentence").replaceChildren(...(isStart(run, place) ? atTheStart(run) : sentence(run.entry(place), run, areNamed ? here : [])));
    fieldOf("slider").valueAsNumber = place;
    byId("slider").setAttribute("aria-valuetext", `${place <= run.lead ? "" : "after "}${placeText(place, run)}: ${spokenText(byId("sentence"))}`);
    byId("place").textContent = placeText(place, run);
    byId("calls").replaceChildren(...callsAround(run, place, this.screen.isNarrow ? FEW_CALLS : CALLS));
    byId("copied").textContent = "";
    this.losses.forgetSaid();
    this.table.mark(here[0] ?? null);
    const isPeek = here.length > 0 && areNamed;
    byId("peek").hidden = !isPeek;
    if (isPeek) byId("peek").replaceChildren(...lossPeek(run, here, place));
    this.tellWhole();
    this.tellConsole();
  }

  // Shows the call in whole over what is below the sentence, or no more.
  turnWhole(isWhole = byId("whole-call").hidden) {
    byId("whole-call").hidden = !isWhole;
    this.tellWhole();
  }

  tellWhole() {
    const { place } = this.view;
    if (byId("whole-call").hidden) return;
    byId("whole-call").replaceChildren(...(isStart(this.run, place) ? atTheStart(this.run) : wholeCall(this.run.entry(place), this.run)));
  }

  // Tells the state at the place, if it is loaded, and so are the values that are lost there.
  describe() {
    const { run, view } = this;
    const state = run.state(view.place);
    if (state === undefined || !this.losses.areNamed) return;
    const { isNarrow } = this.screen;
    const calls = isNarrow ? [] : [this.calls];
    if (isNarrow) byId("dock").replaceChildren(this.calls);
    const life = this.shown.life === null ? [] : [valueCard(run, this.shown.life)];
    const card = [...life, ...lossCard(run, this.losses.here, view.place, this.shown.isAllValues)];
    byId("state").replaceChildren(...statePanel(state, run, this.channels, this.shown.turned, calls, card));
    byId("state").dataset.place = String(view.place);
    this.offer(conditionsAt(state, run));
    byId("picture").setAttribute("aria-label", `${view.from === run.lead ? `The start and calls ${run.lead + 1}` : `Calls ${view.from}`} to ${Math.min(view.to, run.lastPlace)}, drawn.`);
  }

  // Offers conditions to choose from, unless they are those of the place before, as they mostly are.
  offer(offers) {
    const offered = JSON.stringify(offers);
    if (this.offered === offered) return;
    this.offered = offered;
    byId("chips").replaceChildren(...offers.slice(0, MOST_CHIPS).map(([condition, meaning]) =>
      element("button", { type: "button", "data-condition": condition, title: meaning }, condition)));
    byId("conditions").replaceChildren(...offers.map(([condition, meaning]) => element("option", { value: condition }, meaning)));
  }

  tellConsole() {
    if (byId("told").hasAttribute("open")) this.console.ask();
  }

  // Shows the call and the state as the console writes them.
  async askConsole() {
    const told = await this.run.ask(`goto ${this.view.place}\nstep\nstate\n`);
    if (!this.isLeft) byId("told-text").textContent = told;
  }
}
