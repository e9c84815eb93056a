// What is shown of a run, as one object: the call, what is in view, folded, filtered, chosen and searched for. All that is drawn and said follows from
// it and from the run, by the walk's `render`. A link has it too, as far as it is more than how a run is shown at first.

import { Hits } from "./hits.js";

const LAG = "reply lagged";

export class Shown {
  constructor() {
    this.place = 0;
    // The columns in view.
    this.from = 0;
    this.to = 0;
    /** @type {Set<number | string>} the folded bands */
    this.folded = new Set();
    this.filter = "";
    this.isByNumber = false;
    /** @type {Loss | null} the loss that is chosen, if one is */
    this.loss = null;
    // Whether its card has all values, and whether its cause is drawn.
    this.isAllValues = false;
    this.isCause = false;
    /** @type {{ channel: number, number: number } | null} the value whose life is shown */
    this.life = null;
    /** @type {Set<number>} the channels that are folded in the panel other than by themselves */
    this.turned = new Set();
    // What stands in the field of the search, and the hits of the last one.
    this.stop = LAG;
    /** @type {{ text: string, places: Hits, isAll?: boolean }} */
    this.hits = { text: "", places: new Hits() };
    // The table of receivers: whether it is unfolded, and by what it is sorted. At first, receivers that lost values and were never read by come last.
    this.table = { isOpen: false, isAtFirst: true, key: "lost", isDown: true };
    /** @type {import("../draw/other_picture.js").OtherPicture | null} the run that this one is compared with */
    this.other = null;
    /** @type {Address["against"]} which run that is, or would be if the browser had it */
    this.against = null;
  }

  // What a link keeps, where the bands are folded as at first as this text says.
  /** @returns {Address} */
  address(folds, firstFolds) {
    const { place, from, to, filter, isByNumber, stop, against } = this;
    return {
      place, view: [from, to], fold: folds === firstFolds ? null : folds, filter: filter || null, order: isByNumber ? "number" : null,
      stop: stop === LAG ? null : stop, against,
    };
  }
}
