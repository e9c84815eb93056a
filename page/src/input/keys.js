// The keys, and what each does.

import { byId, element, fieldOf } from "../base/dom.js";

const FAR = 10;
const ROWS = 60;

// Each key with its names in events, the name that is shown, what it does in words, and the move.
const KEYS = [
  { keys: ["ArrowRight"], shown: "→, with Shift ten", does: "the next call", move: (walk, far) => walk.by(far ? FAR : 1) },
  { keys: ["ArrowLeft"], shown: "←, with Shift ten", does: "the call before", move: (walk, far) => walk.by(far ? -FAR : -1) },
  { keys: ["Home"], shown: "Home", does: "the start", move: walk => walk.jumpTo(walk.run.lead) },
  { keys: ["End"], shown: "End", does: "the end", move: walk => walk.toEnd() },
  { keys: ["l", "L"], shown: "L, with Shift back", does: "the next call at which a loss begins or ends", move: (walk, back) => walk.lossMoves.next(back) },
  { keys: ["c", "C"], shown: "C", does: "the cause of the loss: the send that overwrote first", move: walk => walk.lossMoves.toCause() },
  { keys: ["e", "E"], shown: "E", does: "the end of the loss: the call that lagged, or the drop", move: walk => walk.lossMoves.toEnd() },
  { keys: ["n", "N"], shown: "N", does: "the next receiver that lags here", move: walk => walk.lossMoves.turn() },
  { keys: ["p", "P"], shown: "P", does: "the cause of the loss in the picture, or no more", move: walk => walk.lossMoves.turnStory() },
  { keys: ["d", "D"], shown: "D, with Shift back", does: "the next call that differs from the other run", move: (walk, back) => walk.toDifference(back) },
  { keys: ["u", "U"], shown: "U, with Shift back", does: "next change that a receiver of a watch hasn't seen", move: (walk, back) => walk.toUnseen(back) },
  { keys: ["t", "T"], shown: "T", does: "unfold or fold the table of receivers", move: walk => walk.lossMoves.turnTable() },
  { keys: ["i", "I"], shown: "I", does: "the call in whole, uncut; Escape closes it", move: walk => walk.telling.turnWhole() },
  { keys: ["Escape"], move: walk => walk.telling.turnWhole(false) },
  { keys: ["PageDown"], shown: "Page Down", does: "the calls after those in view", move: walk => walk.turn(1) },
  { keys: ["PageUp"], shown: "Page Up", does: "the calls before those in view", move: walk => walk.turn(-1) },
  { keys: ["+", "="], shown: "+", does: "nearer", move: walk => walk.zoom(0.5) },
  { keys: ["-"], shown: "−", does: "farther", move: walk => walk.zoom(2) },
  { keys: ["0"], shown: "0", does: "the whole run", move: walk => walk.whole() },
  { keys: ["ArrowDown"], shown: "↓, ↑", does: "scroll the rows", move: () => byId("pane").scrollBy(0, ROWS) },
  { keys: ["ArrowUp"], move: () => byId("pane").scrollBy(0, -ROWS) },
  { keys: ["f", "F"], shown: "F", does: "into the field that filters the rows by name; Escape empties it", move: () => fieldOf("filter").select() },
  { keys: ["z", "Z"], shown: "Z", does: "fold or unfold all", move: walk => walk.refold(folds => folds.turnAll()) },
  { keys: ["x", "X"], shown: "X", does: "fold or unfold the channel of the call", move: walk => walk.turnBand() },
  { keys: ["o", "O"], shown: "O", does: "the channels that lost most first, or all by number", move: walk => walk.reorder() },
  { keys: ["/"], shown: "/", does: "into the search; Enter there goes on, with Shift back", move: walk => walk.ask() },
];

// Whether a key belongs to a field, or to the help that is shown.
function isTaken(target) {
  return byId("help").hasAttribute("open") || (target.tagName === "INPUT" && target.type !== "range");
}

// Not its first field has the focus, but all of it, so that it is seen from its top on and no key changes anything.
export function showHelp() {
  /** @type {HTMLDialogElement} */ (byId("help")).showModal();
  byId("help").focus();
}

// `page.walk` is the walk over the opened run, if there is one.
export function listenToKeys(page) {
  document.addEventListener("keydown", event => {
    if (event.ctrlKey || event.metaKey || event.altKey || isTaken(event.target)) return;
    if (event.key === "?") {
      // Else the key would be a letter in the first field of the help.
      event.preventDefault();
      return showHelp();
    }
    const found = KEYS.find(({ keys }) => keys.includes(event.key));
    if (!found || !page.walk) return;
    event.preventDefault();
    found.move(page.walk, event.shiftKey);
  });
}

export function keyRows() {
  const rows = [...KEYS, { shown: "?", does: "the keys" }];
  return rows.filter(({ shown }) => shown).map(({ shown, does }) =>
    element("div", {}, element("dt", {}, element("kbd", {}, shown)), element("dd", {}, does)));
}
