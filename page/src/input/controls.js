// Buttons, fields, mouse, touch and wheel.

import { byId, fieldOf } from "../base/dom.js";
import { leaveAnswer, showTab } from "../base/tabs.js";
import { closeKeyLine } from "../draw/legend.js";
import { copyCommands, copyReport, saveDrawing, savePicture } from "../share/sharing.js";

const STILL = 8;

// Mouse and touch on a drawing. The mouse goes to the place under it at once, and dragging follows. A finger that moves pans, and one that
// is lifted where it was laid goes to the place under it.
// `hand.press(x, y)` is called for a press or a tap, `hand.follow(x)` while the mouse is dragged, and `hand.pan(x, last)` pans from a point
// to another, as far as whole columns fit, and returns how far that is. `hand.hover(x, y)` is called where the mouse points or a finger taps, and
// `hand.leave()` where it no longer does.
function pointed(box, hand) {
  const at = event => event.clientX - box.getBoundingClientRect().left;
  const height = event => event.clientY - box.getBoundingClientRect().top;
  const press = event => hand.press(at(event), height(event));
  let finger = null;
  const lay = event => { finger = { start: at(event), last: at(event), isPanning: false }; };
  const move = event => {
    if (Math.abs(at(event) - finger.start) > STILL) finger.isPanning = true;
    if (finger.isPanning) finger.last += hand.pan(at(event), finger.last);
  };
  box.addEventListener("pointerdown", event => {
    if (event.button !== 0) return;
    box.setPointerCapture(event.pointerId);
    if (event.pointerType === "touch") lay(event);
    else press(event);
  });
  box.addEventListener("pointermove", event => {
    if (event.pointerType !== "touch" && event.buttons === 0) hand.hover(at(event), height(event));
    if (!box.hasPointerCapture(event.pointerId)) return;
    if (event.pointerType !== "touch") hand.follow(at(event));
    else if (finger) move(event);
  });
  box.addEventListener("pointerup", event => {
    if (finger && !finger.isPanning) {
      press(event);
      hand.hover(at(event), height(event));
    }
    finger = null;
  });
  box.addEventListener("pointerleave", event => event.pointerType !== "touch" && hand.leave());
  box.addEventListener("pointercancel", () => { finger = null; });
}

// The share of the view that one turn of the wheel scrolls, and the factor by which one zooms.
const WHEEL_SHARE = 0.1;
const WHEEL_ZOOM = 1.25;

// `page.walk` is the walk over the opened run, if there is one.
function press(page, id, move) {
  byId(id).addEventListener("click", () => page.walk && move(page.walk));
}

// Calls `choose` with the data of the element that is clicked in a list, if it has such data.
export function chosenIn(id, name, choose) {
  byId(id).addEventListener("click", event => {
    const target = /** @type {HTMLElement} */ (event.target);
    /** @type {HTMLElement} */
    const found = target.closest(`[data-${name}]`);
    if (found) choose(found.dataset[name]);
  });
}

// A channel's head in the panel folds or unfolds it. Its content is made when it is shown.
function turnChannel(page, event) {
  const head = event.target.closest("summary");
  if (!head) return;
  event.preventDefault();
  page.walk?.turnChannel(Number(head.parentElement.dataset.channel));
}

// The steps that the account tells of, and the failure above it. One of a loss has the loss chosen.
function listenToAnswer(page) {
  for (const id of ["failed", "answer-box"]) byId(id).addEventListener("click", event => {
    const target = /** @type {HTMLElement} */ (event.target);
    /** @type {HTMLElement} */
    const link = target.closest("[data-place]");
    if (!link) return;
    event.preventDefault();
    const [channel, receiver] = (link.dataset.receiver ?? "").split(" ").map(Number);
    page.walk?.lossMoves.toStep(Number(link.dataset.place), channel, receiver);
  });
}

// The table of receivers: its line folds it, a head sorts it, and a row goes to its receiver.
function listenToTable(page) {
  const box = byId("table-box");
  press(page, "loss-line", walk => walk.lossMoves.turnTable());
  chosenIn("table-box", "sort", key => page.walk?.table.sortBy(key));
  box.addEventListener("scroll", () => page.walk?.table.draw());
  const go = row => {
    const [channel, receiver] = row.split(" ").map(Number);
    showTab("picture", page.walk);
    page.walk?.lossMoves.toReceiver(channel, receiver);
  };
  chosenIn("table-box", "receiver", go);
  box.addEventListener("keydown", event => {
    const row = /** @type {HTMLElement} */ (event.target).dataset.receiver;
    if (event.key === "Enter" && row) go(row);
  });
}

function listenToButtons(page) {
  press(page, "first", walk => walk.jumpTo(walk.run.lead));
  press(page, "back", walk => walk.by(-1));
  press(page, "forward", walk => walk.by(1));
  press(page, "last", walk => walk.toEnd());
  press(page, "loss-before", walk => walk.lossMoves.next(true));
  press(page, "loss-after", walk => walk.lossMoves.next(false));
  press(page, "difference-before", walk => walk.toDifference(true));
  press(page, "difference-after", walk => walk.toDifference(false));
  press(page, "against-close", walk => walk.compare(null));
  chosenIn("against-box", "place", place => page.walk?.jumpTo(Number(place)));
  press(page, "farther", walk => walk.zoom(2));
  press(page, "nearer", walk => walk.zoom(0.5));
  press(page, "whole", walk => walk.whole());
  press(page, "open-stops", walk => walk.ask());
  byId("key-close").addEventListener("click", closeKeyLine);
  press(page, "copy", copyCommands);
  press(page, "report", walk => copyReport(walk, page.source.name));
  press(page, "save", walk => savePicture(walk, page.source.name));
  press(page, "save-svg", walk => saveDrawing(walk, page.source.name));
  chosenIn("state", "place", place => page.walk?.lossMoves.to(Number(place)));
  chosenIn("dock", "place", place => page.walk?.jumpTo(Number(place)));
  byId("state").addEventListener("click", event => turnChannel(page, event));
  chosenIn("state", "value", value => {
    const [channel, number] = value.split(" ").map(Number);
    page.walk?.showLife(value === "" ? null : { channel, number });
  });
  chosenIn("state", "loss", what => {
    const moves = page.walk?.lossMoves;
    if (what === "all") moves?.showAll();
    else if (what === "story") moves?.turnStory();
    else moves?.turn();
  });
  press(page, "said", walk => walk.telling.turnWhole());
  press(page, "peek", walk => showTab("state", walk));
  byId("told").addEventListener("toggle", () => page.walk?.telling.tellConsole());
}

// Dragging the slider is one jump, from where it began.
function listenToSlider(page) {
  const slider = fieldOf("slider");
  let isDragged = false;
  slider.addEventListener("input", () => {
    if (isDragged) page.walk?.to(slider.valueAsNumber);
    else page.walk?.jumpTo(slider.valueAsNumber);
    isDragged = true;
  });
  slider.addEventListener("change", () => { isDragged = false; });
}

function listenToStops(page) {
  const field = fieldOf("condition");
  const closeStops = () => {
    byId("stops").classList.remove("is-open");
    field.blur();
  };
  const seek = word => field.value.trim() && page.walk?.seek(word, field.value.trim());
  byId("stops").addEventListener("submit", event => {
    event.preventDefault();
    seek(/** @type {HTMLButtonElement} */ (event.submitter).value);
  });
  field.addEventListener("input", () => {
    if (!page.walk) return;
    page.walk.shown.stop = field.value.trim();
    if (field.value === "") page.walk.forgetHits();
  });
  field.addEventListener("keydown", event => {
    if (event.key === "Escape") closeStops();
    if (event.key !== "Enter") return;
    event.preventDefault();
    seek(event.shiftKey ? "rback" : "rforward");
  });
  chosenIn("chips", "condition", condition => {
    field.value = condition;
    if (page.walk) page.walk.shown.stop = condition;
    seek("rforward");
  });
}

// With Ctrl the wheel zooms, over the picture around the pointer. Sideways or with Shift it scrolls, and over the strip in every direction.
function wheeled(page, box, isStrip) {
  box.addEventListener("wheel", event => {
    if (!event.ctrlKey && !event.shiftKey && !isStrip && Math.abs(event.deltaX) <= Math.abs(event.deltaY)) return;
    event.preventDefault();
    const turned = event.deltaX + event.deltaY;
    const factor = turned > 0 ? WHEEL_ZOOM : 1 / WHEEL_ZOOM;
    if (!event.ctrlKey) page.walk?.scrollShare(Math.sign(turned) * WHEEL_SHARE);
    else if (isStrip) page.walk?.zoom(factor);
    else page.walk?.zoomAtPoint(factor, event.clientX - box.getBoundingClientRect().left);
  }, { passive: false });
}

// The rows' own scrolling, their filter and their folds.
function listenToRows(page) {
  const filter = fieldOf("filter");
  let isWaiting = false;
  byId("pane").addEventListener("scroll", () => {
    if (isWaiting) return;
    isWaiting = true;
    requestAnimationFrame(() => {
      isWaiting = false;
      page.walk?.scrolled();
    });
  });
  byId("other-pane").addEventListener("scroll", () => page.walk?.shown.other?.draw());
  byId("strip-box").addEventListener("scroll", () => page.walk?.screen.measureStrip());
  new ResizeObserver(() => page.walk?.scrolled()).observe(byId("pane"));
  filter.addEventListener("input", () => page.walk?.refold(folds => { folds.filter = filter.value; }));
  filter.addEventListener("keydown", event => {
    if (event.key !== "Escape") return;
    // Some browsers empty the field for this key, and tell nobody if it is left meanwhile.
    event.preventDefault();
    filter.value = "";
    page.walk?.refold(folds => { folds.filter = ""; });
    filter.blur();
  });
  press(page, "order", walk => walk.reorder());
  press(page, "fold-all", walk => walk.refold(folds => folds.turnAll()));
}

// The link before all others leads to the walk, and not to another address.
function listenToSkip(page) {
  byId("skip").addEventListener("click", event => {
    event.preventDefault();
    if (!page.walk) return;
    leaveAnswer(page.walk);
    byId("slider").focus();
  });
}

export function listenToHands(page) {
  listenToSkip(page);
  listenToButtons(page);
  listenToSlider(page);
  listenToStops(page);
  chosenIn("tabs", "tab", tab => showTab(tab, page.walk));
  listenToTable(page);
  listenToAnswer(page);
  pointed(byId("picture-box"), {
    press: (x, y) => page.walk?.pressPicture(x, y),
    follow: x => page.walk?.toPointInPicture(x),
    pan: (x, last) => page.walk?.pan(x, last) ?? 0,
    hover: (x, y) => page.walk?.tip(x, y),
    leave: () => page.walk?.tip(null, null),
  });
  pointed(byId("strip-box"), { press: x => page.walk?.pressStrip(x), follow: x => page.walk?.toPointInStrip(x), pan: () => 0, hover: () => {}, leave: () => {} });
  wheeled(page, byId("pane"), false);
  wheeled(page, byId("strip-box"), true);
  listenToRows(page);
}
