// Elements made of texts: everything from a run or a file becomes text, never markup.

import { visible } from "./text.js";

export function byId(id) {
  return document.getElementById(id);
}

// The same for a field.
/** @returns {HTMLInputElement} */
export function fieldOf(id) {
  return /** @type {HTMLInputElement} */ (document.getElementById(id));
}

// Creates an element with these attributes, and with these elements and texts in it.
export function element(tag, attributes = {}, ...children) {
  const made = document.createElement(tag);
  for (const [name, value] of Object.entries(attributes)) made.setAttribute(name, value);
  made.append(...children);
  return made;
}

// A text from outside, whose direction leaves the text around it alone, with its hidden characters written out.
export function outside(text) {
  return element("bdi", {}, visible(text));
}

// The same for a name, which goes on in the next line behind a `_` where a line ends.
export function breakable(name) {
  const parts = visible(name).split(/(?<=_)(?!_)/);
  return element("bdi", {}, ...parts.flatMap((part, i) => (i > 0 ? [element("wbr"), part] : [part])));
}

// A text from outside between quotation marks, and uncut under the pointer.
export function quoted(text) {
  return element("q", { title: visible(text) }, outside(text));
}

// Creates an element with a text in the colour of an actor.
export function coloured(colour, ...children) {
  const made = element("span", { class: "actor" }, ...children);
  made.style.setProperty("color", colour);
  return made;
}
