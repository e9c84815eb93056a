// The tasks of the fact that is told at the place, below the picture and on its axis: a lane for each, with its polls as boxes, its waits as lines with what
// it waits for, and a dashed line where it is ready and not polled yet. An arrow is a wake, from the lane of who wakes.

import { byId } from "../base/dom.js";
import { BOLD, SMALL, SMALL_BOLD } from "../base/palette.js";
import { factAt } from "../run/tasks.js";
import { cleared, fitted, fittedName, line } from "./canvas.js";

export const LANE = 30;
export const LANES_HEAD = 18;
const NAME_LINE = 14;
const BOX = 10;
const LEAST_BOX = 3;
const ARROW = 4;
const LEAST_TEXT = 24;
const BADGE_ROOM = 40;

function clipped({ left, right }, x) {
  return Math.max(left, Math.min(x, right));
}

function colourOf(palette, { actor }) {
  return actor === null ? palette.mute : palette.actor(actor);
}

export class Lanes {
  constructor(tasks, isNarrow) {
    this.tasks = tasks;
    this.row = LANE + (isNarrow ? NAME_LINE : 0);
    this.height = tasks.most === 0 ? 0 : LANES_HEAD + tasks.most * this.row;
  }

  // The middle of a lane.
  middle(index) {
    return LANES_HEAD + (index + 1) * this.row - LANE / 2 + 4;
  }

  lanesAt(place) {
    const fact = factAt(this.tasks.facts, place);
    return fact === undefined ? [] : this.tasks.lanesOf(fact);
  }

  // Shows the canvas, if there is something to draw.
  stand() {
    byId("lanes").hidden = this.height === 0;
  }

  draw(drawing) {
    if (this.height > 0) this.drawOn({ ...drawing, pen: cleared(byId("lanes"), drawing.frame.width, this.height) });
  }

  drawOn({ pen, view, frame, palette }) {
    const lanes = this.lanesAt(view.place);
    pen.fillStyle = palette["place-line"];
    if (view.place >= view.from && view.place <= view.to) pen.fillRect(frame.middle(view.place) - 1, 0, 2, this.height);
    pen.font = SMALL_BOLD;
    pen.fillStyle = palette.mute;
    pen.textAlign = "left";
    pen.fillText("what tasks did", 6, LANES_HEAD / 2);
    lanes.forEach((lane, index) => this.drawLane({ pen, frame, palette }, lane, index));
    lanes.forEach((lane, index) => this.drawWakes({ pen, frame, palette }, lane, index));
  }

  drawLane({ pen, frame, palette }, lane, index) {
    const y = this.middle(index);
    this.drawName({ pen, frame, palette }, lane, frame.left ? y : y - LANE / 2 - 3);
    for (const stretch of lane.stretches) {
      const [x, to] = [stretch.from, stretch.to].map(end => clipped(frame, end.stamp === Infinity ? frame.right : frame.middle(end.column)));
      if (to <= frame.left || x >= frame.right) continue;
      if (stretch.doing === "polled") this.drawPoll({ pen, palette }, lane, { x, to, y });
      else this.drawPause({ pen, palette }, stretch, { x, to, y });
    }
  }

  drawName({ pen, frame, palette }, { actor, name, index }, y) {
    if (actor !== null) this.tasks.run.actors.drawBadge(pen, palette, actor, 6, y - 8);
    pen.font = frame.left ? BOLD : SMALL_BOLD;
    pen.fillStyle = palette.ink;
    pen.textAlign = "left";
    pen.fillText(fittedName(pen, name || `task ${index}`, (frame.left || frame.width) - BADGE_ROOM - 10), BADGE_ROOM, y);
  }

  drawPoll({ pen, palette }, lane, { x, to, y }) {
    pen.fillStyle = colourOf(palette, lane);
    pen.fillRect(x, y - BOX / 2, Math.max(LEAST_BOX, to - x), BOX);
  }

  // A wait is a line with what it waits for above it, as far as there is room. Where the task is ready, the line is dashed.
  drawPause({ pen, palette }, { doing, text }, { x, to, y }) {
    pen.strokeStyle = doing === "ready" ? palette["lag-ink"] : palette.mute;
    pen.lineWidth = 2;
    pen.setLineDash(doing === "ready" ? [3, 3] : []);
    line(pen, x, y, to, y);
    pen.setLineDash([]);
    if (text === "" || to - x < LEAST_TEXT) return;
    pen.font = SMALL;
    pen.fillStyle = palette.ink;
    pen.textAlign = "left";
    pen.fillText(fitted(pen, text, to - x - 2 * LEAST_BOX), x + LEAST_BOX, y - 11);
  }

  // An arrow from the lane of who wakes, or from above, with the word for what wakes.
  drawWakes({ pen, frame, palette }, { wakes }, index) {
    for (const { column, from, word } of wakes) {
      const x = frame.middle(column);
      if (x < frame.left || x > frame.right || (from < 0 && word === "")) continue;
      const tip = this.middle(index);
      const start = from < 0 ? tip - LANE / 2 + 2 : this.middle(from);
      const side = Math.sign(start - tip) || -1;
      pen.strokeStyle = pen.fillStyle = palette["lag-ink"];
      pen.lineWidth = 1.4;
      line(pen, x, start, x, tip);
      pen.beginPath();
      pen.moveTo(x, tip);
      pen.lineTo(x - ARROW, tip + side * 2 * ARROW);
      pen.lineTo(x + ARROW, tip + side * 2 * ARROW);
      pen.closePath();
      pen.fill();
      this.drawWord({ pen, frame }, word, x, tip);
    }
  }

  drawWord({ pen, frame }, word, x, y) {
    if (word === "") return;
    pen.font = SMALL;
    pen.textAlign = "left";
    const width = pen.measureText(word).width;
    pen.fillText(word, Math.max(frame.left, Math.min(x + ARROW + 2, frame.right - width)), y + 11);
  }
}
