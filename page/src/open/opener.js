// Opens a run: reads it with the debugger, and shows it, or why it is refused.

import { byId, outside } from "../base/dom.js";
import { Latest } from "../base/latest.js";
import { during, showPart, tell, tellFault } from "../base/notice.js";
import { countOf, grouped, sizeOf } from "../base/numbers.js";
import { readPalette } from "../base/palette.js";
import { showTab } from "../base/tabs.js";
import { isolated, visible } from "../base/text.js";
import { legend, showKeyLine } from "../draw/legend.js";
import { Screen } from "../draw/screen.js";
import { View, columnsThatFit, placesAtFirst } from "../draw/view.js";
import { plainText } from "../findings/account_text.js";
import { openAccount } from "../findings/answer.js";
import { firstPlace } from "../run/account.js";
import { LossTable } from "../findings/loss_table.js";
import { forgetPlace, pushRun, readAddress } from "../input/address.js";
import { Walk } from "../input/walk.js";
import { bindingsOf } from "../run/bindings.js";
import { windowText } from "../run/lead.js";
import { Names, namesIn } from "../run/names.js";
import { isJournal } from "../run/opened_text.js";
import { Run } from "../run/run.js";
import { Shown } from "../run/shown.js";
import { waitingCall } from "../run/waiting.js";
import { asBeginning, callsIn, firstLines, isLong } from "./beginning.js";
import { OWN } from "./embedded.js";
import { faultPanel, misfit } from "./refusals.js";
import { keep, newKey } from "./stored_runs.js";
import { unpacked } from "./unpacked.js";

// What these calls do, of which some may have been woken.
function waitVerb(waits) {
  if (waits.some(it => it.said === "was woken")) return "began to wait";
  return waits.length === 1 ? "waits" : "wait";
}

function factsOf(source, run) {
  const counts = [countOf(run.lastPlace - run.lead, "call"), countOf(run.channels.length, "channel"), countOf(run.callerCount, "actor")];
  const facts = [outside(source.name), ` · ${counts.join(" · ")}`];
  if (run.names.window) facts.push(" · ", outside(windowText(run.names.window, run.lastPlace, plainText)));
  if (source.notes.length > 0) facts.push(` · read from ${source.notes.join(", ")}`);
  if (run.waiting) facts.push(` · line ${run.waiting.line} would wait: `, outside(run.waiting.text));
  else if (run.waits.length > 0) facts.push(` · ${countOf(run.waits.length, "call")} ${waitVerb(run.waits)}: `, outside(run.waits.map(it => it.text).join("; ")));
  if (run.names.core !== "") facts.push(" · ", outside(run.names.core));
  return facts;
}

// The place in the address, or else the one that the account in the file of names says is worth looking at first, or the start.
function placeWanted({ names }) {
  const { place } = readAddress(location.href);
  if (place !== null || !names) return place ?? 0;
  try {
    const { account, window } = namesIn(names);
    return firstPlace(account, window?.lead);
  } catch {
    // What is wrong with them is said once the run is read.
    return 0;
  }
}

// Reads a file of names for a run. If that fails, or the names are those of another run, the notice says why, and the result is null. Whether they
// are isn't known at the beginning of a run.
export function namesFor(run, bytes, file, isBeginning = false) {
  const what = file === undefined ? "The file of names" : outside(file);
  try {
    const names = namesIn(bytes);
    const why = isBeginning ? null : misfit(names, run);
    if (why === null) return names;
    tell(what, ` isn't of this run: ${why}.`);
  } catch (fault) {
    tell(what, " isn't read: ", outside(fault.message), ".");
  }
  return null;
}

// Says above a run that its journal is truncated.
function tellCut({ kept, bytes }, run) {
  byId("cut").hidden = !run.isCut;
  if (!run.isCut) return;
  const sizes = `${grouped(kept)} of ${countOf(bytes.length, "byte")}`;
  byId("cut").textContent = `This journal is truncated. Its whole lines are shown: ${sizes}, with ${countOf(run.lastPlace, "call")}. What came after them isn't known.`;
}

// `page.walk` is the walk over the opened run, and `page.source` what was opened.
export class Opener {
  constructor(client, page) {
    this.client = client;
    this.page = page;
    this.next = null;
    // The walk over the beginning of a run, while all of it is read.
    this.beginning = null;
    this.opening = new Latest(() => this.openOrTell(this.next), tellFault);
  }

  // Opens sources one after the other. Of those that wait, only the last is opened.
  ask(source) {
    this.next = source;
    return this.opening.ask();
  }

  async openOrTell(source) {
    try {
      await this.open(source);
    } catch (fault) {
      this.leave();
      showPart("welcome");
      if (source.notes) tellFault(fault);
      else tell(outside(source.name), ` can't be read: ${fault.message}.`);
    }
  }

  // Leaves the opened run, so that none of it is shown under the name of the next one.
  leave() {
    this.page.walk?.leave();
    this.page.walk = null;
    this.leaveBeginning();
    byId("cut").hidden = true;
    byId("compare").hidden = true;
    showPart(null);
  }

  leaveBeginning() {
    this.beginning?.leave();
    this.beginning = null;
    byId("walk").removeAttribute("aria-busy");
  }

  // Opens a run at the place in the address. A run that is dropped or chosen gets an address of its own, without a place.
  async open(source) {
    tell(...(source.notice ?? []));
    source.notice = [];
    this.leave();
    this.page.source = source;
    byId("facts").replaceChildren(outside(source.name));
    document.title = `${isolated(visible(source.name))} · Yovanelum`;
    this.remember(source);
    const hasBegun = source.unpack && await this.unpack(source);
    if (!source.notes) Object.assign(source, await unpacked(source.bytes));
    const what = ["opening ", outside(source.name), `, ${sizeOf(source.bytes.length)}`];
    const opened = await during(what, async () => {
      if (!hasBegun) await this.showBeginning(source, source);
      return this.read(source);
    });
    this.leaveBeginning();
    if (opened.fault === undefined) return this.show(opened, source);
    byId("refusal").replaceChildren(...faultPanel(opened.fault, source.bytes));
    showPart("refusal");
  }

  // Unpacks the run in the page. Its beginning is shown before it goes on. Returns whether there is one that may be shown by then.
  async unpack(source) {
    let hasBegun = false;
    const begin = beginning => {
      hasBegun = true;
      return this.showBeginning(source, beginning);
    };
    await during(["unpacking ", outside(source.name)], async noted => Object.assign(source, await source.unpack(noted, begin), { unpack: null }));
    return hasBegun;
  }

  // Reads a run with the debugger. Of a truncated journal, what is left of it is read.
  async read(source) {
    const places = placesAtFirst(placeWanted(source));
    const opened = await this.openText(source.bytes, places);
    if (opened.fault?.text !== "truncated") return opened;
    const left = await this.client.request("salvage", source.bytes);
    const again = left && await this.openText(left.bytes, places);
    if (again === null || again.fault !== undefined) return opened;
    source.kept = left.kept;
    return again;
  }

  // Shows the first calls of a long journal, if the address leads there: of these bytes, of which there may be more. They can be walked once all is read.
  async showBeginning(source, { bytes, names, calls }) {
    if (!isJournal(bytes) || !(calls || isLong(bytes))) return;
    const address = readAddress(location.href);
    const places = placesAtFirst(placeWanted({ names }));
    const last = Math.max(...places, ...(address.view ?? []));
    const count = calls ?? callsIn(bytes);
    if (last > count) return;
    const opened = await this.openText(firstLines(bytes), places);
    if (opened.fault || last > opened.lastPlace) return;
    const run = new Run(this.client, asBeginning(opened, count), new Names());
    const itsNames = names && namesFor(run, names, source.namesFile, true);
    await run.findBeginning();
    // The calls that wait do so after the last call.
    if (itsNames) run.rename(Object.assign(itsNames, { waiting: [] }));
    byId("walk").setAttribute("aria-busy", "true");
    this.beginning = this.walkOver(run);
  }

  async openText(bytes, places) {
    const opened = await this.client.open(bytes, places);
    opened.journal ??= bytes;
    return opened;
  }

  show(opened, source) {
    const run = new Run(this.client, opened, new Names());
    run.isCut = source.kept !== undefined;
    run.isWholeJournal = isJournal(source.bytes) && !run.isCut;
    tellCut(source, run);
    if (!isJournal(source.bytes)) run.bindings = bindingsOf(source.bytes, run);
    if (opened.waitingLine) run.waiting = waitingCall(source.bytes, opened.waitingLine, run);
    run.rename(run.names);
    if (source.names) run.rename(namesFor(run, source.names, source.namesFile) ?? run.names);
    byId("facts").replaceChildren(...factsOf(source, run));
    this.page.walk = this.walkOver(run);
    this.page.walk.loadAll();
  }

  // Shows a run, or its beginning, at the place in the address.
  walkOver(run) {
    showPart("walk");
    byId("compare").hidden = run.isBeginning;
    const shown = new Shown();
    const view = new View(run.lastPlace, run.lastColumn, columnsThatFit(byId("picture-box").clientWidth || innerWidth), shown, run.lead);
    openAccount(run);
    showTab("answer", null);
    const table = new LossTable(run, shown.table);
    showKeyLine(run, readPalette());
    const screen = new Screen(run, view, shown);
    byId("legend").replaceChildren(...legend(run, screen.palette));
    const walk = new Walk(run, view, screen, table, tellFault);
    walk.restore(readAddress(location.href), true);
    return walk;
  }

  // Gives the opened run the names in a file, unless they are those of another run.
  rename({ name, bytes }) {
    const { walk, source } = this.page;
    const names = namesFor(walk.run, bytes, name);
    if (names === null) return;
    tell();
    if (names.window) return this.renewWith(names, bytes, name);
    walk.rename(names);
    openAccount(walk.run);
    byId("facts").replaceChildren(...factsOf(source, walk.run));
    source.names = bytes;
    source.namesFile = name;
    if (source.key !== OWN) this.keep(source);
    this.redraw();
  }

  // Opens the run again with the names of a window, since it begins elsewhere then: behind its lead, unless the place is there.
  renewWith({ window }, bytes, name) {
    if (this.page.walk.view.place <= window.lead) forgetPlace();
    const source = { ...this.page.source, names: bytes, namesFile: name };
    if (source.key !== OWN) this.keep(source);
    return this.ask(source);
  }

  // Draws all again, such as after a change of the window's size.
  redraw() {
    const { walk } = this.page;
    if (!walk) return;
    walk.screen.resize();
    byId("legend").replaceChildren(...legend(walk.run, walk.screen.palette));
    showKeyLine(walk.run, walk.screen.palette);
    walk.render();
  }

  // Keeps a new run for a reload, and for the steps back to it.
  remember(source) {
    if (source.key !== undefined) return;
    source.key = newKey();
    pushRun(source.key);
    this.keep(source);
  }

  keep({ key, name, bytes, names, namesFile }) {
    const onFault = fault => tell("This run won't survive a reload, since the browser doesn't keep it: ", fault.message);
    keep(key, { name, bytes, names, namesFile }).catch(onFault);
  }
}
