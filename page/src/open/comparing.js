// Compares the opened run with another one of the same test, which has a debugger of its own.

import { outside } from "../base/dom.js";
import { during, tell } from "../base/notice.js";
import { OtherPicture } from "../draw/other_picture.js";
import { Names } from "../run/names.js";
import { OtherAxis } from "../run/other_axis.js";
import { Run } from "../run/run.js";
import { namesFor } from "./opener.js";
import { readFiles } from "./reading.js";
import { wrongLine } from "./refusals.js";
import { newKey, recallByEnd } from "./stored_runs.js";

// The places of the calls that differ, or that have no partner.
function placesWhere(numbers, is) {
  return Array.from(numbers.keys()).filter(place => place > 0 && is(numbers[place]));
}

// What was found, with where the calls of the other run stand and which of them differ.
function placed(found, other) {
  const { kinds, partners, back } = found;
  const differing = placesWhere(kinds, kind => kind > 0);
  const only = placesWhere(back, place => place === 0).filter(place => place > other.lead);
  const partnersOfThem = differing.map(place => partners[place]).filter(place => place > 0);
  const [here = null, there = only[0] ?? null] = [differing[0], partners[differing[0]]];
  return {
    ...found, axis: new OtherAxis(partners, other.lastPlace), differing, differingThere: [...partnersOfThem, ...only].sort((a, b) => a - b),
    first: here === null && there === null ? null : { here, there },
  };
}

// The bytes as 14 hexadecimal digits, by which a link tells one run from another: two sums of them, each multiplied as FNV-1a does.
export function digestOf(bytes) {
  let low = 0x811c9dc5;
  let high = 0x1b873593;
  for (let i = 0; i < bytes.length; i++) {
    low = Math.imul(low ^ bytes[i], 0x01000193);
    high = Math.imul(high ^ bytes[i], 0x85ebca6b) + 1;
  }
  return ((high >>> 8).toString(16).padStart(6, "0") + (low >>> 0).toString(16).padStart(8, "0"));
}

export class Comparing {
  // `newClient` starts a debugger, and `keep` keeps a run for a reload. `page.walk` is the walk over the opened run.
  constructor(page, newClient, keep) {
    this.page = page;
    this.newClient = newClient;
    this.keep = keep;
    this.client = null;
  }

  // Shows the comparison that an address tells of, or none. The other run is one that this browser has kept, or else a file to be chosen.
  /** @param {Address["against"]} against */
  async follow(against) {
    const { walk } = this.page;
    const shown = walk?.shown.other?.compared.digest;
    if (!walk || against?.digest === shown) return;
    if (against === null) return walk.compare(null);
    const kept = await recallByEnd(against.digest).catch(() => undefined);
    if (walk !== this.page.walk) return;
    if (kept) return this.compare(kept);
    tell("This link compares with ", outside(against.name), ", which this browser doesn't have: choose that file by “compare…”.");
  }

  // Takes the file of another run, with its names beside it.
  async take(files) {
    if (files.length === 0 || !this.page.walk) return;
    const { runs, unread } = await during(["reading ", outside(files[0].name)], () => readFiles(files));
    if (runs.length === 1) return this.compare(runs[0]);
    const [fault] = unread;
    if (fault) tell(outside(fault.name), ` can't be read: ${fault.fault}.`);
    else tell("Choose the journal of one run, with its file of names.");
  }

  // Opens the other run, and shows it below the opened one.
  async compare(source) {
    const { walk } = this.page;
    tell();
    const other = await during(["comparing with ", outside(source.name)], () => this.opened(source));
    if (other === null || walk !== this.page.walk) return;
    const found = await during(["comparing with ", outside(source.name)], () => walk.run.against(other));
    if (walk !== this.page.walk) return;
    const compared = { ...placed(found, other), digest: digestOf(source.bytes) };
    this.show(new OtherPicture(other, walk.screen, compared), source);
  }

  // Shows the comparison, keeps the other run, and says so if that isn't the one of the link that was opened.
  show(picture, source) {
    const { walk } = this.page;
    const wanted = walk.shown.other ? null : walk.shown.against;
    const against = { digest: picture.compared.digest, name: source.name };
    if (wanted && wanted.digest !== against.digest) tell(outside(source.name), " isn't the run that the link compares with.");
    walk.compare(picture, against);
    this.keep({ ...source, key: newKey(against.digest) });
  }

  // Opens the other run with a debugger of its own, or says why not.
  async opened(source) {
    this.client?.stop();
    this.client = this.newClient();
    const opened = await this.client.open(source.bytes, []);
    if (opened.fault) {
      tell(outside(source.name), ` can't be compared. ${wrongLine(opened.fault, source.bytes).replace(/^l/, "L")}.`);
      return null;
    }
    opened.journal ??= source.bytes;
    const run = new Run(this.client, opened, new Names());
    run.isWholeJournal = true;
    const names = source.names && namesFor(run, source.names, source.namesFile);
    if (names) run.rename(names);
    await run.find();
    return run;
  }
}
