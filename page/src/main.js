// The page: opens what it is given, and shows it.

import { byId, fieldOf } from "./base/dom.js";
import { during, showPart, tell, tellFault } from "./base/notice.js";
import { listenToSources } from "./findings/source_links.js";
import { readAddress, runInHistory, setRun } from "./input/address.js";
import { chosenIn, listenToHands } from "./input/controls.js";
import { keyRows, listenToKeys, showHelp } from "./input/keys.js";
import { OWN, embeddedRun, exampleRun, hasEmbeddedRun, moduleBytes, workerText } from "./open/embedded.js";
import { WayIn } from "./open/file_choice.js";
import { filesChosenIn, filesDropped } from "./open/folders.js";
import { isOfRun } from "./open/reading.js";
import { Comparing } from "./open/comparing.js";
import { Opener } from "./open/opener.js";
import { recall } from "./open/stored_runs.js";
import { Client } from "./run/client.js";

const page = { walk: null, source: null };

function isOfFiles(event) {
  return event.dataTransfer.types.includes("Files");
}

// While files are dragged over the window, a sign covers it. It has no part of its own, so leaving it means leaving the window.
function listenToDrags(wayIn) {
  const sign = shown => { byId("drop-sign").hidden = !shown; };
  document.addEventListener("dragenter", event => isOfFiles(event) && sign(true));
  document.addEventListener("dragleave", event => event.relatedTarget === null && sign(false));
  document.addEventListener("dragover", event => event.preventDefault());
  document.addEventListener("drop", event => {
    event.preventDefault();
    sign(false);
    filesDropped(event.dataTransfer, isOfRun).then(files => wayIn.take(files)).catch(tellFault);
  });
}

// Empties the field, since it reports a chosen file only if it differs from the last, and the same file may have changed.
function chosenFiles(id) {
  const files = [...fieldOf(id).files];
  fieldOf(id).value = "";
  return files;
}

function chosenFolder(id) {
  const files = filesChosenIn([...fieldOf(id).files], isOfRun);
  fieldOf(id).value = "";
  return files;
}

// Opens the run that this step of the browser's history belongs to, and compares it with another as the address says.
async function openInHistory(opener, comparing) {
  const { against } = readAddress(location.href);
  await openKept(opener);
  if (against) await comparing.follow(against);
}

// Opens the page's own run, a kept one, or none.
async function openKept(opener) {
  const key = runInHistory();
  if (key === OWN) return opener.ask(embeddedRun());
  const kept = key && await during(["opening the run again"], () => recall(key));
  if (kept) return opener.ask({ ...kept, key });
  opener.leave();
  page.source = null;
  byId("facts").textContent = "";
  showPart("welcome");
  if (key) tell("The browser doesn't keep this run any more: drop it again.");
}

// An address that is written by hand means a place in the opened run.
function followHistory(opener, comparing) {
  if (runInHistory() === undefined) setRun(page.source?.key ?? null);
  if (runInHistory() === (page.source?.key ?? null)) {
    const address = readAddress(location.href);
    page.walk?.restore(address);
    comparing.follow(address.against).catch(tellFault);
  } else {
    // The run that is left has to leave the other's address alone from now on.
    page.walk?.leave();
    openInHistory(opener, comparing).catch(tellFault);
  }
}

function listen(opener, wayIn, comparing) {
  byId("choose").addEventListener("click", () => byId("file").click());
  byId("file").addEventListener("change", () => wayIn.take(chosenFiles("file")));
  byId("choose-folder").addEventListener("click", () => byId("folder").click());
  byId("folder").addEventListener("change", () => wayIn.take(chosenFolder("folder")));
  byId("compare").addEventListener("click", () => byId("other-file").click());
  byId("other-file").addEventListener("change", () => comparing.take(chosenFiles("other-file")).catch(tellFault));
  byId("compare-both").addEventListener("click", () => wayIn.compare().catch(tellFault));
  byId("runs").addEventListener("click", () => wayIn.turn());
  chosenIn("choice", "run", index => wayIn.choose(Number(index)));
  byId("example-button").addEventListener("click", () => opener.ask(exampleRun()));
  byId("help-button").addEventListener("click", showHelp);
  listenToDrags(wayIn);
  window.addEventListener("popstate", () => followHistory(opener, comparing));
  window.addEventListener("resize", () => opener.redraw());
  matchMedia("(prefers-color-scheme: dark)").addEventListener("change", () => opener.redraw());
  listenToSources(() => page.walk?.renew());
  listenToHands(page);
  listenToKeys(page);
}

// What the page offers to the browser's own console: what commands write, as text.
function answersOf(client) {
  return {
    ask: commands => client.request("ask", commands),
    debug: (journal, commands) => client.request("debug", journal, commands),
    session: input => client.request("session", input),
  };
}

// Opens the run in the page's own file, or after a reload the run that was dropped.
function openAtFirst(opener, comparing) {
  if (runInHistory() === undefined) setRun(hasEmbeddedRun() ? OWN : null);
  if (runInHistory() !== null) openInHistory(opener, comparing).catch(tellFault);
  else showPart("welcome");
}

// The sign that the page is being read appears after a delay, which this counts from when the page was requested. A page that is still loading at the
// first frame has a long run. A short one is loaded by then, and needs no sign.
function hurrySign() {
  if (document.readyState === "loading") for (const it of byId("busy").getAnimations()) it.currentTime = performance.now();
}

// Calls a function once the browser has read the page's file. Of a long run that takes a while.
async function onceRead(call) {
  const isRead = () => document.readyState !== "loading" || new Promise(done => document.addEventListener("DOMContentLoaded", done));
  await during(["reading the page"], isRead);
  call();
}

// The debugger starts while the browser still reads the run, which is after this script in the page's file.
function start() {
  requestAnimationFrame(hurrySign);
  byId("key-list").replaceChildren(...keyRows());
  if (typeof WebAssembly === "undefined") {
    byId("busy").hidden = true;
    tell("This browser has no WebAssembly, which the page needs. Some have it turned off, as Safari has in its Lockdown Mode.");
    return;
  }
  const client = new Client(workerText(), moduleBytes);
  client.started.catch(tellFault);
  const opener = new Opener(client, page);
  const comparing = new Comparing(page, () => new Client(workerText(), moduleBytes), source => opener.keep(source));
  listen(opener, new WayIn(page, opener, comparing), comparing);
  window.ttd = answersOf(client);
  onceRead(() => openAtFirst(opener, comparing));
}

start();
