// The changes of a watch that a receiver never looked at.

import { MARK_NAMES } from "../run/marks.js";

const SENT = MARK_NAMES.indexOf("sent");

// The calls that changed a watch while this receiver lived, and at whose values it never looked. Those of a window's lead are none.
export function unlookedBy(run, channel, receiver) {
  const { channels, handles, marks } = run.columns;
  const { from, to } = run.lifeOf(channel, receiver);
  const changes = new Set();
  let last = 0;
  for (let place = Math.max(from, run.lead) + 1; place <= Math.min(to, run.lastPlace); place++) {
    if (channels[place] !== channel) continue;
    if (marks[place] === SENT) changes.add(last = place);
    else if (handles[place] === receiver && run.entry(place).reply === "value") changes.delete(last);
  }
  return [...changes];
}
