// The walk over an opened run: its place, and the moves.

import { byId, fieldOf } from "../base/dom.js";
import { Latest } from "../base/latest.js";
import { isTabbed, leaveAnswer, showTab } from "../base/tabs.js";
import { showAccount } from "../findings/answer.js";
import { showDifference } from "../findings/difference.js";
import { firstPlace } from "../run/account.js";
import { unseenConditions } from "../findings/conditions.js";
import { Searching } from "../findings/searching.js";
import { Telling } from "../findings/telling.js";
import { conditionOf } from "../findings/text_search.js";
import { wholeCall } from "../findings/whole_call.js";
import { forgetAddress, pushAddress, putIntoAddress } from "./address.js";
import { LossMoves } from "./loss_moves.js";
import { LossesHere } from "./losses_here.js";

const NEIGHBOURS = 24;

export class Walk {
  constructor(run, view, screen, table, onFault) {
    this.run = run;
    this.view = view;
    this.screen = screen;
    this.table = table;
    /** @type {import("../run/shown.js").Shown} */
    this.shown = view.shown;
    this.shown.stop = fieldOf("condition").value.trim();
    this.losses = new LossesHere(run, view, this.shown);
    this.lossMoves = new LossMoves(this);
    this.telling = new Telling(run, view, screen, this.losses, table, onFault);
    this.drawing = new Latest(() => this.draw(), onFault);
    this.levelling = new Latest(() => this.drawLevels(), onFault);
    this.onFault = onFault;
    const hands = { placeNow: () => view.place, jump: place => this.jump(() => this.stand(place)), onHits: () => this.redraw() };
    this.searching = new Searching(run, this.shown, hands, onFault);
    this.isLeft = false;
    // Whether the address names no place, and the account, which has the place to begin at, is still to come.
    this.isStarting = false;
    // Whether the account is shown.
    this.hasAccount = false;
  }

  // Called when another run is opened. Replies that arrive after that are not shown.
  leave() {
    this.isLeft = true;
    byId("losses").removeAttribute("aria-busy");
    this.telling.turnWhole(false);
    showDifference(null);
    forgetAddress();
    this.searching.stop();
    this.searching.forget();
    this.drawing.stop();
    this.levelling.stop();
    this.telling.stop();
  }

  // Returns what the page's address has to keep.
  /** @returns {Address} */
  get address() {
    const { folds } = this.screen;
    return this.shown.address(folds.text, folds.firstText);
  }

  // Goes where an address leads, or without a place to where the account says. One with a place alone leaves folds and filter as they are. A run that is
  // opened there has the place in the middle.
  /** @param {Address} address */
  restore({ place, view, fold, filter, order, stop, against }, isOpening = false) {
    const { folds } = this.screen;
    this.searching.stop();
    this.isStarting = place === null && this.run.account === null;
    if (stop !== null) fieldOf("condition").value = this.shown.stop = stop;
    this.shown.against = against;
    if (view !== null) {
      folds.text = fold ?? folds.firstText;
      fieldOf("filter").value = folds.filter = filter ?? "";
      this.order(order === "number");
    }
    if (place === null) this.begin();
    else this.view.restore(place, view);
    if (isOpening && place !== null && view === null) this.view.centre(this.view.place);
    this.chooseTold();
    this.reveal();
    this.render();
  }

  // Goes to the place that is worth looking at first, and what is around it.
  begin() {
    const { view } = this;
    const place = firstPlace(this.run.account, this.run.lead);
    view.go(place);
    if (place > 0) view.centre(place);
    this.chooseTold();
  }

  // Chooses the loss that the account tells of first, where that begins.
  chooseTold() {
    const { run, view } = this;
    const [fact] = run.account?.facts ?? [];
    if (fact?.kind !== "loss" || this.shown.loss !== null) return;
    this.shown.loss = run.losses.at(view.place).find(it => it.channel === fact.channel && it.receiver === fact.receiver && (it.from === view.place || it.from <= run.lead)) ?? null;
  }

  // Shows the account once it is made, and returns whether it is new. Where nobody has moved yet, it leads to where the run begins.
  showAccount() {
    if (this.run.account === null || this.hasAccount) return false;
    this.hasAccount = true;
    showAccount(this.run);
    if (!this.isStarting) return true;
    this.isStarting = false;
    this.begin();
    this.reveal();
    this.render();
    return true;
  }

  // Gives the run other names.
  rename(names) {
    this.run.rename(names);
    this.searching.forget();
    this.hasAccount = false;
    this.run.findAccount().then(() => this.isLeft || this.showFindings()).catch(this.onFault);
    this.view.lastColumn = this.lastColumn;
    this.view.show(this.view.from, this.view.width);
    this.table.fill();
    this.loadWhole();
  }

  // The last column that is drawn: of this run, or of one that it is compared with.
  get lastColumn() {
    return Math.max(this.run.lastColumn, Math.ceil(this.shown.other?.compared.axis.lastColumn ?? 0));
  }

  // Shows another run below this one, or none any more. `against` says which run that is. It goes to the first call that differs, unless the other run
  // is that of the address, which has a place of its own.
  /** @param {Address["against"]} against */
  compare(other, against = null) {
    const isOfAddress = this.shown.other === null && against?.digest === this.shown.against?.digest;
    Object.assign(this.shown, { other, against });
    this.view.lastColumn = this.lastColumn;
    showDifference(other?.compared ?? null, against?.name);
    this.view.show(this.view.from, this.view.width);
    this.screen.resize();
    const first = other?.compared.first;
    if (first && !isOfAddress) this.jumpTo(Math.floor(first.here ?? other.compared.axis.at(first.there)));
    else this.render();
    // What differs is said there.
    if (other !== null && isTabbed()) showTab("answer", this);
  }

  // To the next call that differs from the other run, or the one before.
  toDifference(isBack) {
    const { other } = this.shown;
    if (!other) return;
    const { differing } = other.compared;
    const { place } = this.view;
    const next = isBack ? differing.findLast(it => it < place) : differing.find(it => it > place);
    if (next !== undefined) this.jumpTo(next);
  }

  // Shows all texts again, such as for another editor.
  renew() {
    showAccount(this.run);
    this.render();
  }

  // Changes the place, which what follows shows.
  stand(place) {
    this.shown.isAllValues = false;
    this.view.go(place);
  }

  // The same by hand. It discards earlier searches.
  standByHand(place) {
    this.isStarting = false;
    this.searching.stop();
    this.stand(place);
  }

  // Goes to a place, without a step of the browser's history, and without scrolling the rows.
  go(place) {
    this.stand(place);
    this.render();
  }

  // The same by hand.
  to(place) {
    this.standByHand(place);
    this.render();
  }

  // It ends where a window begins. Scrolls before anything is changed, since the browser lays out the page for it.
  by(places) {
    this.isStarting = false;
    this.searching.stop();
    this.shown.isAllValues = false;
    this.view.go(Math.max(this.view.least, this.view.place + places));
    this.reveal();
    this.render();
  }

  // Scrolls in the row of the call that led to the place. Drawing it is left to what follows.
  reveal() {
    const { channels, handles } = this.run.columns;
    const { place } = this.view;
    if (place > this.run.lead) this.screen.reveal(channels[place], handles[place]);
  }

  // Jumps, and scrolls in where that led, before it is shown. Each jump is a step of the browser's history.
  jump(move) {
    leaveAnswer(this);
    this.step(move);
    this.reveal();
    this.render();
  }

  // Makes a step of the browser's history of a change of the place.
  step(move) {
    const from = this.address;
    move();
    pushAddress(from, this.address);
  }

  jumpTo(place) {
    this.jump(() => this.standByHand(place));
  }

  toEnd() {
    this.jump(() => {
      this.view.show(this.view.lastColumn - this.view.width, this.view.width);
      this.standByHand(this.run.lastPlace);
    });
  }

  turn(pages) {
    this.view.scroll(pages * this.view.width);
    this.by(pages * this.view.width);
  }

  // A press on a band's head folds or unfolds it, and one on a receiver's name goes to its worst loss. Elsewhere it goes to the nearest call
  // in the row, or to the place, with the loss there.
  pressPicture(x, y) {
    const key = this.screen.headAt(x, y);
    if (key !== null) return this.refold(folds => folds.turn(key));
    const { row, channel, isName } = this.screen.rowAt(x, y);
    if (isName && row.kind === "receiver" && row.lives.length === 1) return this.lossMoves.toReceiver(channel, row.lives[0].handle);
    const place = this.screen.callAt(x, y) ?? this.screen.placeInPicture(x);
    this.shown.loss = this.run.losses.at(place).find(it => it.channel === channel && row?.lives.some(life => life.handle === it.receiver)) ?? null;
    this.step(() => this.to(place));
  }

  // Shows the call near a point of the picture in whole, beside it, or none.
  tip(x, y) {
    const place = x === null ? null : this.screen.callAt(x, y);
    byId("tip").hidden = place === null;
    if (place === null) return;
    byId("tip").replaceChildren(...wholeCall(this.run.entry(place), this.run));
    this.screen.standTip(place, y);
  }

  toPointInPicture(x) {
    this.to(this.screen.placeInPicture(x));
  }

  // Changes what is folded or filtered.
  refold(change) {
    change(this.screen.folds);
    byId("fold-all").setAttribute("aria-pressed", String(this.screen.folds.areAll));
    this.screen.arrange();
    this.render();
  }

  // Folds or unfolds the band of the call that led here, or at the start the first one, and scrolls it in.
  turnBand() {
    const { place } = this.view;
    const key = place > this.run.lead ? this.run.columns.channels[place] : this.screen.folds.channels[0];
    this.refold(folds => folds.turn(key));
    this.reveal();
    this.render();
  }

  // Changes the order of the channels, in strip, picture and panel.
  reorder() {
    this.order(!this.screen.folds.isByNumber);
    this.reveal();
    this.render();
  }

  order(isByNumber) {
    this.screen.folds.isByNumber = isByNumber;
    byId("order").setAttribute("aria-pressed", String(isByNumber));
    this.screen.resize();
  }

  pressStrip(x) {
    this.jump(() => this.standInStrip(x));
  }

  // Brings the place into view, with what is around it.
  toPointInStrip(x) {
    this.standInStrip(x);
    this.render();
  }

  standInStrip(x) {
    const place = this.screen.placeInStrip(x);
    this.view.centre(place);
    this.standByHand(place);
  }

  scroll(columns) {
    if (columns === 0) return;
    this.view.scroll(columns);
    this.render();
  }

  // Moves what is in view from one point of the picture to another, by whole columns. Returns how far that is.
  pan(x, last) {
    const { column } = this.screen.frame;
    const columns = Math.trunc((last - x) / column);
    this.scroll(columns);
    return -columns * column;
  }

  // Scrolls by a share of what is in view.
  scrollShare(share) {
    this.scroll(Math.sign(share) * Math.max(1, Math.round(this.view.width * Math.abs(share))));
  }

  zoom(factor) {
    this.view.zoom(factor);
    this.render();
  }

  // Zooms so that the place under a point of the picture stays there.
  zoomAtPoint(factor, x) {
    this.view.zoomAt(factor, this.screen.frame.shareAt(x));
    this.render();
  }

  whole() {
    this.view.whole();
    this.render();
  }

  ask() {
    byId("stops").classList.add("is-open");
    fieldOf("condition").select();
  }

  // Searches for a condition, by numbers or names, or for a text, and jumps to where it holds or stands.
  seek(word, text) {
    const condition = conditionOf(this.run, text);
    if (condition === null) return this.searching.askText(word, text);
    if (this.shown.hits.text !== condition) this.forgetHits();
    this.searching.ask(word, condition);
  }

  // Takes the marks of the last search from the strip.
  forgetHits() {
    this.searching.forget();
    this.redraw();
  }

  // Folds or unfolds a channel in the panel.
  turnChannel(channel) {
    const { turned } = this.shown;
    if (!turned.delete(channel)) turned.add(channel);
    this.render();
  }

  // Shows the life of a value beside the picture, or no more.
  async showLife(value) {
    if (value) await this.run.find();
    if (this.isLeft) return;
    this.shown.life = value;
    this.render();
  }

  // Searches for the nearest place where a receiver of a watch begins to have a value that it hasn't seen.
  toUnseen(isBack) {
    const conditions = unseenConditions(this.run);
    if (conditions.length > 0) this.searching.ask(isBack ? "rback" : "rforward", ...conditions);
  }

  // The commands that lead a console to this place, as the last search did if it led here.
  commands() {
    return [...(this.searching.wayTo(this.view.place) ?? [`goto ${this.view.place}`]), "step", "state", ""].join("\n");
  }

  // Shows what is to be shown: the texts at once, and the picture when its states are loaded.
  render() {
    this.telling.show();
    if (!this.isStarting) putIntoAddress(this.address);
    this.drawing.ask();
  }

  // Returns the places whose states are needed. If the state of the current place isn't loaded, its neighbours are included.
  neededPlaces() {
    const { run, view } = this;
    const places = new Set(view.drawnPlaces());
    const reach = run.state(view.place) ? 0 : NEIGHBOURS;
    const last = Math.min(run.lastPlace, view.place + reach);
    for (let place = Math.max(0, view.place - reach); place <= last; place++) places.add(place);
    return [...places];
  }

  // The state at the place is shown before the levels from far are loaded, which takes longer.
  async draw() {
    const places = this.neededPlaces();
    if (this.run.missing(places).length > 0) await this.run.load(places);
    const { other } = this.shown;
    if (other && other.missing.length > 0) await other.run.load(other.missing);
    if (this.isLeft) return;
    this.redraw();
    if (!this.losses.areNamed) await this.nameLost();
    if (this.isLeft) return;
    this.telling.describe();
    this.levelling.ask();
  }

  // Loads the values that are lost at the place, and tells the call with them.
  async nameLost() {
    await this.losses.name();
    if (!this.isLeft && this.losses.areNamed) this.telling.show();
  }

  async drawLevels() {
    if (this.screen.missingLevels.length === 0) return;
    await this.screen.loadLevels();
    if (!this.isLeft) this.redraw();
  }

  // Loads what isn't there yet of the whole run. The debugger makes the account only after the findings, so what is needed last is asked for last.
  async loadAll() {
    await this.loadFindings();
    if (!this.isLeft) await this.loadWhole();
  }

  // Loads what is counted in the whole run, and shows it: closings, the table, and the sends that overwrote values.
  async loadFindings() {
    byId("losses").setAttribute("aria-busy", "true");
    try {
      for await (const _ of this.run.findings()) {
        if (this.isLeft) return;
        this.showFindings();
      }
    } catch (fault) {
      this.onFault(fault);
    }
    byId("losses").removeAttribute("aria-busy");
  }

  showFindings() {
    const { table, screen, run } = this;
    if (this.showAccount() || (run.totals !== null && table.receivers.length === 0)) table.fill();
    screen.drawStrip();
    screen.drawn = null;
    this.redraw();
  }

  // Loads what the strip shows of the whole run. It is needed last.
  async loadWhole() {
    try {
      await this.screen.loadWhole();
    } catch (fault) {
      this.onFault(fault);
    }
    if (!this.isLeft) this.redraw();
  }

  // Draws after the rows were scrolled, or have another height, unless that was drawn when they were scrolled from here.
  scrolled() {
    this.tip(null, null);
    if (!this.screen.measure()) return;
    this.redraw();
    this.levelling.ask();
  }

  // Draws what is loaded.
  redraw() {
    this.screen.loss = this.losses.current;
    this.screen.drawView();
    this.screen.drawPlace();
    this.shown.other?.draw();
  }
}
