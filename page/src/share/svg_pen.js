// A pen that draws as one of a canvas does, and writes SVG: shapes as paths, and texts as texts. It has what the drawings of this page use.

const STATE = ["fillStyle", "strokeStyle", "lineWidth", "font", "textAlign", "globalAlpha", "dash", "left", "top", "groups"];
const ANCHORS = { left: "start", center: "middle", right: "end" };
const FONT = /^(bold )?(\d+)px (.*)$/;

const ESCAPES = { "&": "&amp;", "<": "&lt;", ">": "&gt;", '"': "&quot;" };

// What XML has no sign for: controls, halves of pairs, and two numbers that are no characters.
const UNWRITABLE = /[\u0000-\u0008\u000b\u000c\u000e-\u001f\ufffe\uffff]|[\ud800-\udbff](?![\udc00-\udfff])|(?<![\ud800-\udbff])[\udc00-\udfff]/g;

export function escaped(text) {
  return text.replace(UNWRITABLE, "\ufffd").replace(/[&<>"]/g, it => ESCAPES[it]);
}

// A number with two digits behind its point at most.
function short(number) {
  return String(Math.round(number * 100) / 100);
}

function attributes(values) {
  return Object.entries(values).filter(([, value]) => value !== null).map(([name, value]) => ` ${name}="${escaped(String(value))}"`).join("");
}

export class SvgPen {
  // `measure` returns the width of a text in a font.
  constructor(measure) {
    this.measure = measure;
    this.parts = [];
    this.definitions = [];
    this.saved = [];
    this.path = [];
    this.fillStyle = this.strokeStyle = "#000";
    this.lineWidth = 1;
    this.font = "10px sans-serif";
    this.textAlign = "left";
    this.globalAlpha = 1;
    this.dash = [];
    this.left = this.top = 0;
    // How many groups are open since the state was saved.
    this.groups = 0;
  }

  save() {
    this.saved.push(Object.fromEntries(STATE.map(key => [key, this[key]])));
    this.groups = 0;
  }

  restore() {
    this.parts.push("</g>".repeat(this.groups));
    Object.assign(this, this.saved.pop());
  }

  translate(x, y) {
    this.left += x;
    this.top += y;
  }

  setLineDash(dash) {
    this.dash = dash;
  }

  point(x, y) {
    return `${short(x + this.left)} ${short(y + this.top)}`;
  }

  beginPath() {
    this.path = [];
  }

  moveTo(x, y) {
    this.path.push(`M${this.point(x, y)}`);
  }

  lineTo(x, y) {
    this.path.push(`${this.path.length ? "L" : "M"}${this.point(x, y)}`);
  }

  quadraticCurveTo(bendX, bendY, x, y) {
    this.path.push(`Q${this.point(bendX, bendY)} ${this.point(x, y)}`);
  }

  closePath() {
    this.path.push("Z");
  }

  // The drawings have whole circles alone.
  arc(x, y, radius) {
    const half = `A${short(radius)} ${short(radius)} 0 0 1 `;
    this.path.push(`M${this.point(x - radius, y)}${half}${this.point(x + radius, y)}${half}${this.point(x - radius, y)}Z`);
  }

  rect(x, y, width, height) {
    this.path.push(`M${this.point(x, y)}h${short(width)}v${short(height)}h${short(-width)}Z`);
  }

  roundRect(x, y, width, height, radius) {
    const corner = (dx, dy) => `a${short(radius)} ${short(radius)} 0 0 1 ${short(dx)} ${short(dy)}`;
    const [across, down] = [width - 2 * radius, height - 2 * radius];
    this.path.push(`M${this.point(x + radius, y)}h${short(across)}${corner(radius, radius)}v${short(down)}${corner(-radius, radius)}`
      + `h${short(-across)}${corner(-radius, -radius)}v${short(-down)}${corner(radius, -radius)}Z`);
  }

  get opacity() {
    return this.globalAlpha === 1 ? null : this.globalAlpha;
  }

  get stroked() {
    return {
      fill: "none", stroke: this.strokeStyle, "stroke-width": short(this.lineWidth),
      "stroke-dasharray": this.dash.length ? this.dash.join(" ") : null, opacity: this.opacity,
    };
  }

  fill() {
    this.parts.push(`<path${attributes({ d: this.path.join(""), fill: this.fillStyle, opacity: this.opacity })}/>`);
  }

  stroke() {
    this.parts.push(`<path${attributes({ d: this.path.join(""), ...this.stroked })}/>`);
  }

  // All until the state is restored is seen only inside of the path.
  clip() {
    const id = `clip${this.definitions.length}`;
    this.definitions.push(`<clipPath id="${id}"><path${attributes({ d: this.path.join("") })}/></clipPath>`);
    this.parts.push(`<g clip-path="url(#${id})">`);
    this.groups++;
  }

  box(x, y, width, height) {
    return { x: short(x + this.left), y: short(y + this.top), width: short(width), height: short(height) };
  }

  fillRect(x, y, width, height) {
    if (width <= 0 || height <= 0) return;
    this.parts.push(`<rect${attributes({ ...this.box(x, y, width, height), fill: this.fillStyle, opacity: this.opacity })}/>`);
  }

  strokeRect(x, y, width, height) {
    this.parts.push(`<rect${attributes({ ...this.box(x, y, width, height), ...this.stroked })}/>`);
  }

  measureText(text) {
    return { width: this.measure(this.font, text) };
  }

  // A text is centred on its height, as the drawings have theirs. One that is wider than `most` is narrowed.
  fillText(text, x, y, most = Infinity) {
    const words = String(text);
    if (words === "") return;
    const [, bold, size, family] = FONT.exec(this.font);
    const values = {
      x: short(x + this.left), y: short(y + this.top), fill: this.fillStyle, "font-family": family, "font-size": size, "font-weight": bold ? "bold" : null,
      "text-anchor": ANCHORS[this.textAlign], "dominant-baseline": "central", textLength: this.measureText(words).width > most ? short(most) : null,
      lengthAdjust: this.measureText(words).width > most ? "spacingAndGlyphs" : null, opacity: this.opacity, "xml:space": "preserve",
    };
    this.parts.push(`<text${attributes(values)}>${escaped(words)}</text>`);
  }

  // The document, of a width and height, with a title.
  document(width, height, title, ground) {
    const size = { width: short(width), height: short(height), viewBox: `0 0 ${short(width)} ${short(height)}` };
    return `<svg xmlns="http://www.w3.org/2000/svg"${attributes(size)} role="img"><title>${escaped(title)}</title><defs>${this.definitions.join("")}</defs>`
      + `<rect width="100%" height="100%"${attributes({ fill: ground })}/>\n${this.parts.join("\n")}\n</svg>\n`;
  }
}
