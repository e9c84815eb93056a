// The shapes of marks, each around a point. They show the result of a call.

import { line } from "./canvas.js";

function triangle(pen, x, y, size, up) {
  const tip = up ? -size : size;
  pen.beginPath();
  pen.moveTo(x - size, y - tip);
  pen.lineTo(x + size, y - tip);
  pen.lineTo(x, y + tip);
  pen.closePath();
}

function circle(pen, x, y, size) {
  pen.beginPath();
  pen.arc(x, y, size, 0, 2 * Math.PI);
}

function diamond(pen, x, y, size) {
  pen.beginPath();
  pen.moveTo(x - size, y);
  pen.lineTo(x, y - size);
  pen.lineTo(x + size, y);
  pen.lineTo(x, y + size);
  pen.closePath();
}

// A flag on a mast.
function pennant(pen, x, y, size) {
  pen.fillRect(x - size, y - size, 2, 2 * size);
  pen.beginPath();
  pen.moveTo(x - size + 1, y - size);
  pen.lineTo(x + size, y - size / 3);
  pen.lineTo(x - size + 1, y + size / 3);
  pen.fill();
}

function cross(pen, x, y, size) {
  line(pen, x - size, y - size, x + size, y + size);
  line(pen, x + size, y - size, x - size, y + size);
}

export const SHAPES = {
  sent: (pen, x, y, size) => { triangle(pen, x, y, size, true); pen.fill(); },
  unsent: (pen, x, y, size) => { triangle(pen, x, y, size, true); pen.stroke(); },
  received: (pen, x, y, size) => { triangle(pen, x, y, size, false); pen.fill(); },
  asked: (pen, x, y, size) => { circle(pen, x, y, size - 0.8); pen.stroke(); },
  made: (pen, x, y, size) => { circle(pen, x, y, size - 0.6); pen.fill(); },
  dropped: (pen, x, y, size) => { pen.lineWidth = 2.4; cross(pen, x, y, size); },
  lagged: (pen, x, y, size) => pennant(pen, x, y, size + 0.6),
  closed: (pen, x, y, size) => pen.fillRect(x - size, y - size, 2 * size, 2 * size),
  refused: (pen, x, y, size) => { diamond(pen, x, y, size); pen.stroke(); },
};
