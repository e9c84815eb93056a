// The actors of a run: each has a name, a colour, an edge and a code of its own, so that none is told apart by its colour alone.

import { element } from "../base/dom.js";
import { ACTOR_COLOURS, CODE, actorColour } from "../base/palette.js";

const EDGES = ["filled", "line", "dashed"];
const WORDS = /[\p{L}\p{N}]+/gu;
const NUMBER = /^\d{1,3}$/;
const BADGE_WIDTH = 28;
const BADGE_HEIGHT = 15;

// Short codes for a name, the best first: the initials of its parts, or the first letter with the number at its end.
function codesFor(name) {
  const parts = (name.toLowerCase().match(WORDS) ?? ["a"]).map(part => [...part]);
  const [first, second = first.slice(1)] = parts;
  const last = parts.at(-1).join("");
  if (parts.length > 1 && NUMBER.test(last)) return [first[0] + last, first.slice(0, 2).join("") + last];
  return [[0, 1], [0, 2], [1, 1], [1, 2]].map(([more, of]) => [...first.slice(0, 1 + more), ...second.slice(0, of)].join(""));
}

// Returns a code for each name, no two the same.
function codesOf(names) {
  const taken = new Set();
  return names.map((name, number) => {
    const code = codesFor(name).find(it => !taken.has(it)) ?? `#${number}`;
    taken.add(code);
    return code;
  });
}

export class Actors {
  constructor(count, names) {
    this.names = Array.from({ length: count }, (_, number) => names.actor(number));
    this.codes = codesOf(this.names.map((_, number) => names.shortActor(number)));
  }

  get count() {
    return this.names.length;
  }

  // An actor's badge, as an element.
  badge(number) {
    const made = element("span", { class: `badge ${EDGES[edgeOf(number)]}`, "aria-hidden": "true" }, this.codes[number]);
    made.style.setProperty("--colour", actorColour(number));
    return made;
  }

  // Draws an actor's badge. Its left upper point is given.
  drawBadge(pen, palette, number, x, y) {
    const edge = edgeOf(number);
    pen.save();
    pen.beginPath();
    pen.roundRect(x + 0.75, y + 0.75, BADGE_WIDTH - 1.5, BADGE_HEIGHT - 1.5, 3);
    pen.lineWidth = 1.5;
    pen.strokeStyle = pen.fillStyle = palette.actor(number);
    if (edge === 0) pen.fill();
    if (edge === 2) pen.setLineDash([3, 2]);
    pen.stroke();
    if (edge === 0) pen.fillStyle = palette["on-actor"];
    pen.font = CODE;
    pen.textAlign = "center";
    pen.fillText(this.codes[number], x + BADGE_WIDTH / 2, y + BADGE_HEIGHT / 2 + 0.5, BADGE_WIDTH - 4);
    pen.restore();
  }
}

function edgeOf(number) {
  return Math.floor(number / ACTOR_COLOURS) % EDGES.length;
}
