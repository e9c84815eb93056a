// The losses first: one line that says what was lost, and a table of all receivers below it. A row of it leads to the receiver's worst loss.

import { byId, element, outside } from "../base/dom.js";
import { countOf, grouped } from "../base/numbers.js";
import { rowName } from "../draw/row_names.js";
import { receiversOf } from "./receivers.js";

// As in the style sheet: fingers need higher rows.
const ROW = matchMedia("(pointer: coarse)").matches ? 44 : 22;

// As in the style sheet.
const NARROW = 720;

// Rows that are made above and below those in sight.
const SPARE = 6;

/** @type {{ key: string, head: string, isText?: boolean }[]} */
const COLUMNS = [
  { key: "name", head: "channel", isText: true }, { key: "title", head: "receiver", isText: true },
  { key: "received", head: "received" }, { key: "told", head: "told" }, { key: "lost", head: "lost" }, { key: "greatest", head: "worst lag" },
  { key: "rest", head: "to read at the end" }, { key: "never", head: "not told" }, { key: "ending", head: "at the end", isText: true },
];

// On a narrow screen, who lost what comes first.
const NARROW_ORDER = ["title", "lost", "never", "name", "greatest", "told", "received", "rest", "ending"];

// Says how many values were lost in the run: which loss comes first is in the account. Where not all of it is known, it doesn't say that nothing was.
function lineOf(run, receivers) {
  const { account } = run;
  const losers = receivers.filter(({ lost }) => lost > 0);
  const none = account !== null && account.unknown.length > 0 ? "" : "no value was lost: ";
  if (losers.length === 0) return [none + countOf(receivers.length, "receiver")];
  const lost = losers.reduce((sum, it) => sum + it.lost, 0);
  return [element("b", {}, `${countOf(losers.length, "receiver")} lost ${countOf(lost, "value")}`)];
}

function cell(run, receiver, column) {
  const { key, isText } = column;
  const value = receiver[key];
  if (key === "title") return element("td", {}, ...rowName(run, receiver.channel, receiver.life));
  if (isText) return element("td", {}, outside(value));
  const look = !value ? "zero" : key === "never" ? "untold" : key === "lost" || key === "greatest" ? "lag" : "";
  return element("td", { class: look }, element("span", {}, value === null ? "–" : grouped(value)));
}

function compared(a, b) {
  return typeof a === "string" ? a.localeCompare(b, "en", { numeric: true }) : (a ?? -1) - (b ?? -1);
}

export class LossTable {
  // How the table is unfolded and sorted is in `state`.
  /** @param {import("../run/shown.js").Shown["table"]} state */
  constructor(run, state) {
    this.run = run;
    this.state = state;
    /** @type {Loss | null} */
    this.chosen = null;
    this.fill();
  }

  // Makes line and table, with the names that the run has now.
  fill() {
    const { isBeginning, totals } = this.run;
    this.receivers = totals === null ? [] : receiversOf(this.run);
    const line = isBeginning ? ["the first calls: what was lost is counted when all of them are read"]
      : totals === null ? ["what was lost is being counted"] : lineOf(this.run, this.receivers);
    byId("loss-line").replaceChildren(element("span", {}, ...line), element("span", { id: "fold-word" }));
    byId("loss-line").classList.toggle("none", isBeginning || this.run.losses.all.length === 0);
    this.turn(this.state.isOpen);
    this.sort(this.state.key, this.state.isDown);
  }

  get columns() {
    return innerWidth < NARROW ? NARROW_ORDER.map(key => COLUMNS.find(it => it.key === key)) : COLUMNS;
  }

  // Unfolds the table, or folds it.
  turn(isOpen = !this.state.isOpen) {
    this.state.isOpen = isOpen;
    byId("losses").classList.toggle("is-open", isOpen);
    byId("loss-line").setAttribute("aria-expanded", String(isOpen));
    byId("fold-word").textContent = this.run.totals === null ? "" : isOpen ? "fold" : `show ${countOf(this.receivers.length, "receiver")}`;
  }

  // Sorts by a column: numbers first from the greatest on, and a second time the other way.
  sort(key, isDown = this.state.key === key ? !this.state.isDown : !COLUMNS.find(it => it.key === key).isText) {
    Object.assign(this.state, { key, isDown });
    const sign = isDown ? -1 : 1;
    const held = (a, b) => (this.state.isAtFirst ? Number(a.isHeld) - Number(b.isHeld) : 0);
    this.rows = [...this.receivers].sort((a, b) => held(a, b) || sign * compared(a[key], b[key]) || a.channel - b.channel || a.life.handle - b.life.handle);
    byId("table-head").replaceChildren(element("tr", {}, ...this.columns.map(it => this.headCell(it))));
    this.shown = null;
    this.draw();
  }

  // The same by hand.
  sortBy(key) {
    this.state.isAtFirst = false;
    this.sort(key);
  }

  headCell(column) {
    const { key, head, isText } = column;
    const order = this.state.key !== key ? {} : { "aria-sort": this.state.isDown ? "descending" : "ascending" };
    return element("th", { class: isText ? "" : "number", scope: "col", ...order }, element("button", { type: "button", "data-sort": key }, head));
  }

  // How many rows are still to come. They have their room from the first on, so that nothing moves when they come.
  get awaited() {
    const { isBeginning, totals, receiverCounts } = this.run;
    return isBeginning || totals !== null ? 0 : receiverCounts.reduce((sum, count) => sum + count, 0);
  }

  // Makes the rows in sight, between two others that are as high as those that aren't made. Rows that are there stay, since one may be pressed.
  draw() {
    const box = byId("table-box");
    const first = Math.max(0, Math.floor(box.scrollTop / ROW) - SPARE);
    const end = Math.min(this.rows.length, first + Math.ceil((box.clientHeight || innerHeight) / ROW) + 2 * SPARE);
    const wanted = `${first} ${end}`;
    if (this.shown === wanted) return;
    this.shown = wanted;
    const made = this.rows.slice(first, end).map(it => this.row(it));
    byId("table-rows").replaceChildren(gap(first), ...made, gap(this.rows.length - end + this.awaited));
  }

  row(receiver) {
    const { channel, life } = receiver;
    const isChosen = this.chosen?.channel === channel && this.chosen.receiver === life.handle;
    const made = element("tr", { "data-receiver": `${channel} ${life.handle}`, tabindex: 0, ...(isChosen ? { "aria-current": "true" } : {}) });
    made.append(...this.columns.map(column => cell(this.run, receiver, column)));
    return made;
  }

  // Marks the row of the loss that is shown, if there is one.
  mark(loss) {
    if (loss?.channel === this.chosen?.channel && loss?.receiver === this.chosen?.receiver) return;
    this.chosen = loss;
    for (const row of byId("table-rows").querySelectorAll("tr[data-receiver]")) {
      const isChosen = loss !== null && row.getAttribute("data-receiver") === `${loss.channel} ${loss.receiver}`;
      if (isChosen) row.setAttribute("aria-current", "true");
      else row.removeAttribute("aria-current");
    }
  }

  // What a row of the table is of.
  find(channel, receiver) {
    return this.receivers.find(it => it.channel === channel && it.life.handle === receiver);
  }
}

function gap(rows) {
  const made = element("tr", { class: "gap" });
  made.style.height = `${rows * ROW}px`;
  return made;
}
