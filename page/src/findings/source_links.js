// Places in the sources, as links into an editor. Which editor is a setting that the browser keeps: the form of its addresses.

import { byId, element, fieldOf, outside } from "../base/dom.js";
import { visible } from "../base/text.js";

const KEY = "yovanelum editor";

// `{file}` is the path without the `/` that it begins with, and `{path}` with it.
export const FORMS = [
  ["VS Code", "vscode://file/{file}:{line}:{column}"], ["VSCodium", "vscodium://file/{file}:{line}:{column}"], ["Cursor", "cursor://file/{file}:{line}:{column}"],
  ["Zed", "zed://file/{file}:{line}:{column}"], ["RustRover and IDEA", "idea://open?file={path}&line={line}&column={column}"],
  ["Sublime Text", "subl://open?url=file:///{file}&line={line}&column={column}"], ["TextMate", "txmt://open?url=file:///{file}&line={line}&column={column}"],
];

// The form of an editor's addresses: a scheme of its own, which is none that the browser itself runs or opens.
const EDITOR = /^(?!(?:javascript|data|blob|file|about|https?|view-source):)[a-z][a-z0-9.+-]*:/i;
const WINDOWS = /^([a-z]:[\\/]|\\\\)/i;

function isAbsolute(file) {
  return file.startsWith("/") || WINDOWS.test(file);
}

// The absolute path of a file with slashes, or null where the folder that it is relative to isn't known.
function pathOf(root, file) {
  if (!isAbsolute(file) && root === null) return null;
  const path = isAbsolute(file) ? file : `${root.replace(/[\\/]$/, "")}/${file}`;
  return WINDOWS.test(path) ? path.replaceAll("\\", "/") : path;
}

function encoded(path) {
  return encodeURI(path).replace(/[?#]/g, encodeURIComponent);
}

function kept() {
  try {
    return localStorage.getItem(KEY) ?? FORMS[0][1];
  } catch {
    return FORMS[0][1];
  }
}

function keep(form) {
  try {
    localStorage.setItem(KEY, form);
  } catch {
    return;
  }
}

// Returns the address of a place in the sources in the editor, or null where there is none.
export function editorAddress(root, [file, line, column], form = kept()) {
  const path = pathOf(root, file);
  if (path === null || !EDITOR.test(form)) return null;
  const parts = { file: encoded(path.replace(/^\//, "")), path: encoded(path), line: String(line), column: String(column) };
  return form.replace(/\{(file|path|line|column)\}/g, (_, name) => parts[name]);
}

// How many letters a line has where there is least room for it.
const LINE = 28;

// A place as a text. A long one may go on in the next line behind each folder.
function placeText(text) {
  if (text.length <= LINE) return outside(text);
  return element("bdi", {}, ...text.split(/(?<=\/)/).flatMap((part, i) => (i ? [element("wbr"), part] : [part])));
}

// A place in the sources as a link, with a button that copies it. `text` is what the link shows.
export function sourceLink(run, place, text = visible(`${place[0]}:${place[1]}`)) {
  const address = editorAddress(run.names.root, place);
  const whole = visible(place.join(":"));
  const shown = address === null ? placeText(text) : element("a", { href: address, title: `open ${whole} in the editor` }, placeText(text));
  return element("span", { class: text.length > LINE ? "source long" : "source" }, shown, element("button", { type: "button", class: "copy", "data-copy": place.join(":"), "aria-label": `copy ${whole}`, title: `copy ${whole}` }));
}

async function copy(button) {
  try {
    await navigator.clipboard.writeText(button.getAttribute("data-copy"));
    button.classList.add("done");
  } catch {
    button.classList.add("failed");
  }
}

// `onChange` is called where the editor is another one.
export function listenToSources(onChange) {
  const field = fieldOf("editor");
  field.value = kept();
  byId("editors").replaceChildren(...FORMS.map(([name, form]) => element("option", { value: form }, name)));
  field.addEventListener("change", () => {
    keep(field.value.trim());
    byId("editor-fault").hidden = field.value.trim() === "" || EDITOR.test(field.value.trim());
    onChange();
  });
  document.addEventListener("click", event => {
    const button = /** @type {HTMLElement} */ (event.target).closest(".copy");
    if (button) copy(button);
  });
}
