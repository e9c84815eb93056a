// In a window that is narrow or low, the answer, the picture, the state and the receivers are shown one at a time. Where there is room below the answer, the
// rows of the picture are there too.

import { byId } from "./dom.js";

// As in the style sheet.
const TABBED = matchMedia("(max-width: 899px), (max-height: 499px)");

const HAS_ROWS_BELOW = matchMedia("(max-width: 899px) and (min-height: 700px)");

export function isTabbed() {
  return TABBED.matches;
}

// Whether the answer is alone in the window.
export function isAlone() {
  return TABBED.matches && !HAS_ROWS_BELOW.matches;
}

// Shows a part, and what `walk` has to show in it.
export function showTab(tab, walk) {
  document.body.dataset.tab = tab;
  for (const button of byId("tabs").children) {
    if (button.getAttribute("data-tab") === tab) button.setAttribute("aria-current", "true");
    else button.removeAttribute("aria-current");
  }
  walk?.table.draw();
  if (!walk || !isTabbed() || byId("pane").clientWidth === 0) return;
  walk.screen.resize();
  walk.reveal();
  walk.render();
  walk.scrolled();
}

// A move leads from the answer to the picture.
export function leaveAnswer(walk) {
  if (isTabbed() && document.body.dataset.tab === "answer") showTab("picture", walk);
}
