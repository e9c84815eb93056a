// How the opened run differs from another one of the same test: the first call that differs, in the words of `yovanelum why --against`.

import { byId, element } from "../base/dom.js";
import { isTabbed } from "../base/tabs.js";
import { visible } from "../base/text.js";
import { aligned, worded } from "./account_text.js";

const CALL = /^  (here|there) +call (\d+)/;

// A line of a call, with a link to it. One that is only there leads to where it stands on the axis of this run.
function callLine(text, { axis }) {
  const found = CALL.exec(text);
  if (found === null) return element("bdi", { class: "line" }, ...worded(text));
  const [lead, side, number] = found;
  const column = side === "here" ? Number(number) : Math.floor(axis.at(Number(number)));
  const go = element("button", { type: "button", "data-place": column, title: "go there" }, ...worded(lead.trim()));
  return element("bdi", { class: "line step" }, "  ", go, ...worded(aligned(text).slice(lead.length)));
}

// Shows what was found beside another run with this name, or hides it again.
export function showDifference(compared, name) {
  byId("against").hidden = compared === null;
  byId("other").hidden = compared === null;
  if (compared === null) return;
  // Both pictures need the room of the answer.
  if (!isTabbed()) byId("answer").removeAttribute("open");
  const [head, ...lines] = compared.lines;
  byId("against-line").replaceChildren(...worded(head));
  byId("against-box").replaceChildren(...lines.map(text => callLine(text, compared)));
  byId("other-line").replaceChildren(`${compared.run}: `, element("bdi", {}, visible(name)));
}
