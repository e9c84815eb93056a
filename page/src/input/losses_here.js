// The losses at the place of a walk, and which of them is chosen: the moves by losses and the card ask it, and it changes the choice and the view alone.

import { byId } from "../base/dom.js";
import { grouped } from "../base/numbers.js";

// How much wider than a loss the view is that shows it, and how wide at least.
const AROUND = 1.5;
const LEAST = 90;
const NARROW_LEAST = 40;

export class LossesHere {
  /** @param {import("../run/shown.js").Shown} shown */
  constructor(run, view, shown) {
    this.run = run;
    this.view = view;
    this.shown = shown;
    // The losses at a place, once they are found.
    this.known = null;
    /** @type {{ text: string, place: number } | null} what was said last of losses, and at which place it is so */
    this.said = null;
  }

  // The losses at the place: the chosen one first, then that of the call's receiver, those that begin there, and the largest.
  get here() {
    const { place } = this.view;
    if (this.known?.place !== place || this.known.chosen !== this.shown.loss) this.known = { place, chosen: this.shown.loss, losses: this.lossesAt(place) };
    return this.known.losses;
  }

  // Nobody loses anything in a lead.
  lossesAt(place) {
    if (place < this.run.lead) return [];
    const { channels, handles } = this.run.columns;
    const rank = loss => [loss === this.shown.loss, loss.channel === channels[place] && loss.receiver === handles[place],
      loss.from === place || loss.to === place, loss.channel === channels[place]].reduce((sum, is) => 2 * sum + Number(is), 0);
    return this.run.losses.at(place).sort((a, b) => rank(b) - rank(a) || b.lost - a.lost);
  }

  // Whether the values of the losses at the place are loaded.
  get areNamed() {
    return this.here.length === 0 || this.run.values.areThere;
  }

  // Loads them.
  async name() {
    if (this.here.length > 0) await this.run.find();
  }

  /** @returns {Loss | null} */
  get current() {
    return this.here[0] ?? null;
  }

  // Chooses the loss that begins or ends at the next place where one does, and returns that place, or null if there is none.
  next(isBack) {
    const place = this.run.losses.next(this.view.place, isBack);
    byId("found").classList.toggle("lag", place === null);
    if (place === null) {
      this.say(`no loss begins or ends ${isBack ? "before" : "after"} it`, this.view.place);
      return null;
    }
    const those = this.run.losses.at(place).filter(({ from, to }) => from === place || to === place);
    [this.shown.loss] = those.sort((a, b) => b.lost - a.lost);
    const begins = those.filter(({ from }) => from === place).length;
    this.say([[begins, "begin"], [those.length - begins, "end"]].filter(([count]) => count > 0)
      .map(([count, word]) => (count === 1 ? `a loss ${word}s` : `${grouped(count)} losses ${word}`)).join(", "), place);
    return place;
  }

  // Says what begins or ends at a place, which is so there alone.
  say(text, place) {
    byId("found").textContent = text;
    this.said = { text, place };
  }

  // Says it no more elsewhere.
  forgetSaid() {
    if (this.said === null || this.said.place === this.view.place) return;
    if (byId("found").textContent === this.said.text) byId("found").textContent = "";
    this.said = null;
  }

  // Chooses the next receiver that lags at the place, in the order of channels and receivers.
  turn() {
    const those = [...this.here].sort((a, b) => a.channel - b.channel || a.receiver - b.receiver);
    const index = those.indexOf(this.current);
    this.shown.loss = those[(index + 1) % those.length] ?? null;
  }

  // Brings a loss into view, with what is around it.
  show(loss, isNarrow) {
    const end = Math.min(loss.to, this.run.lastPlace);
    const from = Math.max(loss.from, this.run.lead);
    const width = Math.max(Math.ceil((end - from) * AROUND), isNarrow ? NARROW_LEAST : LEAST);
    this.view.show(Math.round((from + end - width) / 2), width);
  }
}
