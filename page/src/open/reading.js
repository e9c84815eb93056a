// What files have: runs, names beside them, pages with a run inside, and folders and zips of all these.

import { sizeOf } from "../base/numbers.js";
import { MOST_UNPACKED } from "../base/unpacking.js";
import { isPage, runIn } from "./run_in_page.js";
import { unpacked } from "./unpacked.js";
import { filesInZip, isZip } from "./zip.js";

const GZIP_END = /\.gz$/;
const LAST_END = /\.[^.]*$/;
const NAMES_END = ".names";
const BRACE = 123;

// What is read of a folder or a zip, where much else may be. Archives made on a Mac have a second file for each.
const OF_RUNS = /\.(journal|names|ttd)(\.gz)?$|\.html$/;
const OF_MAC = /(^|\/)__MACOSX\//;


export function isOfRun(name) {
  return OF_RUNS.test(name) && !OF_MAC.test(name);
}

// The name by which a run and its names belong together: without `.gz`, and without the last ending.
function stemOf(name) {
  return name.replace(GZIP_END, "").replace(LAST_END, "");
}

// No journal and no script begins with a brace.
function isNames({ name, bytes, isOfPage }) {
  return !isOfPage && (name.replace(GZIP_END, "").endsWith(NAMES_END) || bytes[0] === BRACE);
}

async function bytesOf(file) {
  if (file.size > MOST_UNPACKED) throw new Error(`it has more than ${sizeOf(MOST_UNPACKED)}`);
  return file.read ? file.read() : new Uint8Array(await file.arrayBuffer());
}

// Of a page, its run and the names in it are read, and nothing of it is run.
async function readBytes({ name, size }, bytes) {
  if (!isPage(bytes)) return { name, size, ...await unpacked(bytes) };
  const run = await runIn(bytes);
  const names = run.names && (await unpacked(run.names)).bytes;
  return { name, size, isOfPage: true, ...await unpacked(run.bytes), ...(names ? { names, namesFile: name } : {}) };
}

// Reads a file, or all of a zip's, one after the other: they share what they may unpack to. A zip in a zip isn't opened.
async function readFile(file) {
  try {
    const bytes = await bytesOf(file);
    if (!isZip(bytes)) return [await readBytes(file, bytes)];
    const files = filesInZip(bytes, isOfRun);
    if (files.length === 0) throw new Error("it has no journal, script or page inside");
    const read = [];
    for (const it of files) read.push(...await readInZip(it));
    return read;
  } catch (fault) {
    return [{ name: file.name, fault: fault.message }];
  }
}

async function readInZip(file) {
  try {
    return [await readBytes(file, await file.read())];
  } catch (fault) {
    return [{ name: file.name, fault: fault.message }];
  }
}

// Gives each run the names beside it. A single run gets the only file of names, whatever it is called.
export function paired(runs, names) {
  const left = new Set(names);
  for (const run of runs) {
    const beside = names.find(it => stemOf(it.name) === stemOf(run.name)) ?? (runs.length === 1 && names.length === 1 ? names[0] : null);
    if (beside === null) continue;
    run.names = beside.bytes;
    run.namesFile = beside.name;
    left.delete(beside);
  }
  return [...left];
}

function areSame(a, b) {
  return a.length === b.length && a.every((byte, i) => byte === b[i]);
}

// A test leaves its journal and the page with the same journal inside, which count as one run.
function withoutPagesOf(runs) {
  const journals = runs.filter(it => !it.isOfPage);
  return runs.filter(run => !run.isOfPage || !journals.some(it => stemOf(it.name) === stemOf(run.name) && areSame(it.bytes, run.bytes)));
}

// Returns the runs among these files, with the names beside them, the files of names that are left, and the files that can't be read.
export async function readFiles(files) {
  const read = (await Promise.all(files.map(readFile))).flat();
  const whole = read.filter(it => it.fault === undefined);
  const runs = withoutPagesOf(whole.filter(it => !isNames(it)));
  const names = paired(runs, whole.filter(isNames));
  return { runs, names, unread: read.filter(it => it.fault !== undefined) };
}

// How the test of a run ended, where its names say so: `failed`, `hangs`, `passed`, or else an empty text.
export function outcomeOf({ names }) {
  if (!names) return "";
  try {
    const { failed, hangs, test, window } = JSON.parse(new TextDecoder().decode(names));
    return failed === true ? "failed" : hangs === true ? "hangs" : test && !window ? "passed" : "";
  } catch {
    // What is wrong with them is said once the run is opened.
    return "";
  }
}
