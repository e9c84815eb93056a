// The jumps to losses that keys and buttons make: each chooses a loss, of those in losses_here.js, and moves the walk to its place.

import { leaveAnswer } from "../base/tabs.js";
import { storyOf } from "../draw/story.js";

export class LossMoves {
  constructor(walk) {
    this.walk = walk;
    this.losses = walk.losses;
  }

  // To the next place where a loss begins or ends, or to the last one before. From far, it comes near.
  next(isBack) {
    const { view, screen, searching } = this.walk;
    searching.stop();
    const isFar = view.isWhole && !screen.frame.isNear;
    const place = this.losses.next(isBack);
    if (place !== null) this.show(this.walk.shown.loss, place, isFar);
  }

  // To a place with a loss chosen, whose row scrolls in. `isAll` brings all of it into view.
  show(loss, place, isAll = false) {
    const { walk, losses } = this;
    leaveAnswer(walk);
    walk.step(() => {
      walk.shown.loss = loss;
      if (isAll) losses.show(loss, walk.screen.isNarrow);
      walk.go(place);
    });
    this.reveal(loss.channel, loss.receiver);
  }

  reveal(channel, receiver) {
    this.walk.screen.reveal(channel, receiver);
    this.walk.redraw();
  }

  // The place where a loss ends, or the last one.
  endOf(loss) {
    return Math.min(loss.to, this.walk.run.lastPlace);
  }

  toCause() {
    const loss = this.losses.current;
    if (loss) this.show(loss, Math.max(loss.from, this.walk.run.lead));
  }

  toEnd() {
    const loss = this.losses.current;
    if (loss) this.show(loss, this.endOf(loss));
  }

  // To a place that the card of the loss at this place names.
  to(place) {
    this.walk.shown.loss = this.losses.current;
    this.walk.jumpTo(place);
  }

  // To a step that the account tells of, with the loss of this receiver chosen that it is in, if it is in one.
  toStep(place, channel, receiver) {
    const loss = this.walk.run.losses.at(place).find(it => it.channel === channel && it.receiver === receiver);
    if (loss) return this.show(loss, place);
    this.walk.jumpTo(place);
  }

  // To the next receiver that lags at the place.
  turn() {
    this.losses.turn();
    const loss = this.losses.current;
    if (loss) this.show(loss, this.walk.view.place);
  }

  // To the worst loss of a receiver, or to its last call if it lost nothing.
  toReceiver(channel, receiver) {
    const { walk } = this;
    const found = walk.table.find(channel, receiver);
    if (found === undefined) return;
    const { worst, life } = found;
    walk.searching.stop();
    if (worst) return this.show(worst, this.endOf(worst), true);
    walk.jumpTo(life.last);
    this.reveal(channel, receiver);
  }

  // Draws the story of the loss at the place, all of it in view, or no more.
  turnStory() {
    const { walk, losses } = this;
    const loss = losses.current;
    if (!loss || !walk.run.values.areThere) return;
    walk.shown.isCause = !walk.shown.isCause;
    if (!walk.shown.isCause) return walk.render();
    const places = storyOf(walk.run, loss).map(({ place }) => place);
    const [first, last] = [Math.min(...places), Math.max(...places)];
    if (first < walk.view.from || last > walk.view.to) walk.view.show(first - 1, last - first + 3);
    this.reveal(loss.channel, loss.receiver);
    walk.render();
  }

  // Shows all values of the loss in its card.
  showAll() {
    this.walk.shown.isAllValues = true;
    this.walk.render();
  }

  // Unfolds the table of receivers, or folds it. The strip is lower below it.
  turnTable() {
    const { table, screen } = this.walk;
    table.turn();
    screen.resize();
    table.draw();
    this.walk.render();
  }
}
