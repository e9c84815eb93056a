// What can be taken out of the page: the commands that lead a console to the place, a report as Markdown, and the picture as PNG or
// SVG.

import { byId } from "../base/dom.js";
import { visible } from "../base/text.js";
import { cleared } from "../draw/canvas.js";
import { failureLines } from "../findings/failure.js";
import { cardLines, composition, wordsOf } from "./composing.js";
import { SvgPen } from "./svg_pen.js";

// After this many milliseconds a download has begun.
const LONG_ENOUGH = 60_000;

async function copyText(text) {
  try {
    await navigator.clipboard.writeText(text);
    byId("copied").textContent = "copied";
  } catch {
    byId("copied").textContent = "the browser doesn't let it be copied";
  }
}

export function copyCommands(walk) {
  return copyText(walk.commands());
}

// What the account says, as the lines of a text.
function accountLines(account) {
  if (account === null) return ["what was found is being counted"];
  const { window, unknown, facts, rest, nothing, waiting, tasks } = account;
  return [
    ...(window ? [window.text] : []),
    ...(unknown.length > 0 ? [`not all is known: ${unknown.join("; ")}`] : []), ...facts.slice(0, rest.after).flatMap(({ text }) => text),
    ...[rest.text, nothing].filter(line => line !== null), ...waiting.map(({ text }) => `still waiting: ${text}`),
    ...tasks.map(({ text }) => `waits: ${text}`),
  ].map(visible);
}

// A fence that is longer than each run of backquotes in some lines.
function fenceOf(lines) {
  const longest = Math.max(2, ...lines.flatMap(line => line.match(/`+/g) ?? []).map(run => run.length));
  return "`".repeat(longest + 1);
}

// Where the page is, for others: its address, unless that is a file of this machine, of which they have the name.
function whereabouts() {
  if (location.protocol !== "file:") return `The page: <${location.href}>`;
  return `In the page \`${decodeURIComponent(location.pathname.split("/").at(-1)).replaceAll("`", "")}\`, at \`${location.hash.replaceAll("`", "")}\`.`;
}

// How the test failed, the account, how another run differs, the call at the place and the loss there, as Markdown, with where the page is.
export function copyReport(walk, name) {
  const { run, view } = walk;
  const failure = failureLines(run);
  const lines = [`${byId("place").textContent}: ${view.place <= run.lead ? "the start" : wordsOf(byId("sentence"))}`, ...cardLines()];
  const difference = walk.shown.other === null ? [] : [walk.shown.other.compared.lines.map(visible)];
  const blocks = [failure, accountLines(run.account), ...difference, lines].filter(those => those.length > 0).map(those => [fenceOf(those) + "text", ...those, fenceOf(those)].join("\n"));
  return copyText(`### ${visible(name).replace(/[\\`*_<>#[\]]/g, "\\$&")}\n\n${blocks.join("\n\n")}\n\n${whereabouts()}\n`);
}

// Has the browser save a file.
function download(blob, name, walk, end) {
  const link = document.createElement("a");
  link.href = URL.createObjectURL(blob);
  link.download = `${visible(name)}.call-${walk.view.place}.${end}`;
  link.click();
  setTimeout(() => URL.revokeObjectURL(link.href), LONG_ENOUGH);
}

// Saves the picture with its background as PNG, as sharp as the screen.
export function savePicture(walk, name) {
  const { width, height, ground, draw } = composition(walk, name);
  const canvas = document.createElement("canvas");
  const pen = cleared(canvas, width, height);
  pen.fillStyle = ground;
  pen.fillRect(0, 0, width, height);
  draw(pen);
  canvas.toBlob(blob => download(blob, name, walk, "png"));
}

// The same as SVG.
export function saveDrawing(walk, name) {
  const { width, height, caption, ground, draw } = composition(walk, name);
  const ruler = document.createElement("canvas").getContext("2d");
  const pen = new SvgPen((font, text) => {
    ruler.font = font;
    return ruler.measureText(text).width;
  });
  draw(pen);
  download(new Blob([pen.document(width, height, caption, ground)], { type: "image/svg+xml" }), name, walk, "svg");
}
