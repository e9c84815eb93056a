// What is chosen or dropped: runs, and files of names that come before, with or after their run.

import { byId, element, outside } from "../base/dom.js";
import { during, showPart, tell } from "../base/notice.js";
import { sizeOf } from "../base/numbers.js";
import { outcomeOf, paired, readFiles } from "./reading.js";

// Names in one line, with commas between them.
function listed(files) {
  return files.flatMap(({ name }, i) => (i ? [", ", outside(name)] : [outside(name)]));
}

// What is known of a run before it is opened: how its test ended, how long its file is, and whether it has names.
function runRow(run, index) {
  const outcome = outcomeOf(run);
  const facts = `${sizeOf(run.size)}${run.names ? ", with names" : ""}`;
  const mark = outcome === "" ? [] : [element("b", outcome === "passed" ? {} : { class: "lag" }, outcome), " "];
  return element("li", {}, element("button", { type: "button", "data-run": index }, outside(run.name)), " ", ...mark, element("small", {}, facts));
}

// Two runs to be compared: the one that failed first, if the names say so.
function inOrder(runs) {
  const hasFailed = run => Number(["failed", "hangs"].includes(outcomeOf(run)));
  return [...runs].sort((a, b) => hasFailed(b) - hasFailed(a));
}

export class WayIn {
  constructor(page, opener, comparing) {
    this.page = page;
    this.opener = opener;
    this.comparing = comparing;
    // The runs that were dropped together, and the files of names that no run has got yet.
    this.runs = [];
    this.names = [];
  }

  // Takes files. What is dropped may also be text, which has no files.
  async take(files) {
    if (files.length === 0) return;
    const { runs, names, unread } = await during(["reading ", ...listed(files)], () => readFiles(files));
    const notice = unread.flatMap(it => [outside(it.name), ` can't be read: ${it.fault}. `]);
    if (runs.length === 0) return this.takeNames(names, notice);
    if (names.length > 0) notice.push(...listed(names), " isn't beside a run of that name. ");
    if (runs.length > 1) return this.offer(runs, notice);
    this.open(runs[0], notice);
  }

  // Names are for the opened run. If there is none, they wait for the next.
  takeNames(names, notice) {
    tell(...notice);
    if (names.length === 0) return;
    if (this.page.walk && names.length === 1) return this.opener.rename(names[0]);
    this.names = names;
    tell(...notice, ...listed(names), " waits for its journal or script: drop that too.");
  }

  // Opens a run, with the names that were dropped before it, if it has none beside it.
  open(run, notice = []) {
    if (!run.names) this.names = paired([run], this.names);
    this.opener.ask({ ...run, notice });
  }

  // Shows a list of the runs that were dropped together.
  offer(runs, notice) {
    this.runs = runs;
    tell(...notice);
    byId("choice-head").textContent = `${runs.length} runs`;
    byId("choice-list").replaceChildren(...runs.map(runRow));
    byId("compare-both").hidden = runs.length !== 2;
    byId("runs").textContent = `all ${runs.length} runs`;
    byId("runs").hidden = false;
    showPart("choice");
  }

  // Shows the list again, or the opened run.
  turn() {
    showPart(byId("choice").hidden || !this.page.walk ? "choice" : "walk");
  }

  // Opens the first of two runs that were dropped together, and compares it with the other.
  async compare() {
    const [run, other] = inOrder(this.runs);
    this.open(run);
    await this.opener.opening.settled;
    if (this.page.source?.name === run.name) await this.comparing.compare(other);
  }

  choose(index) {
    this.open(this.runs[index]);
  }
}
