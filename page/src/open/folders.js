// The files in folders that are dropped or chosen.

import { grouped } from "../base/numbers.js";

// How many files of runs are taken, and how deep in a folder.
const MOST_FILES = 2000;
const DEEPEST = 8;

const EMPTY = "it is a folder without a journal, a script or a page";

function named(file, name) {
  return { name, size: file.size, read: async () => new Uint8Array(await file.arrayBuffer()) };
}

function refused(name, why) {
  return { name, size: 0, read: () => Promise.reject(new Error(why)) };
}

// What is in a folder, as Chromium has it: of a page from a disk, it refuses the other way.
async function* insideHandle(path, handle) {
  for await (const it of handle.values()) yield ofHandle(it, `${path}/${it.name}`);
}

function ofHandle(handle, path) {
  return { path, isFolder: handle.kind === "directory", inside: () => insideHandle(path, handle), file: () => handle.getFile() };
}

// The same as all browsers have it. A folder is read in parts, until one is empty.
async function* insideEntry(folder) {
  const reader = folder.createReader();
  for (;;) {
    const part = await new Promise((resolve, reject) => reader.readEntries(resolve, reject));
    if (part.length === 0) return;
    yield* part.map(ofEntry);
  }
}

function ofEntry(entry) {
  const file = () => new Promise((resolve, reject) => entry.file(resolve, reject));
  return { path: entry.fullPath.slice(1), isFolder: entry.isDirectory, inside: () => insideEntry(entry), file };
}

// Adds the files of a folder whose names are wanted, with the folders that they are in as part of their names.
async function addFiles(files, folder, isWanted, depth) {
  if (depth > DEEPEST) return files.push(refused(folder.path, `it is more than ${DEEPEST} folders deep`));
  for await (const it of folder.inside()) {
    if (files.length > MOST_FILES) return;
    if (it.isFolder) await addFiles(files, it, isWanted, depth + 1);
    else if (isWanted(it.path)) files.push(files.length < MOST_FILES ? named(await it.file(), it.path) : refused(it.path, tooMany()));
  }
}

function tooMany() {
  return `the folder has more than ${grouped(MOST_FILES)} files of runs`;
}

async function filesIn(folder, isWanted) {
  const files = [];
  try {
    await addFiles(files, folder, isWanted, 1);
    return files.length > 0 ? files : [refused(folder.path, EMPTY)];
  } catch (fault) {
    return [...files, refused(folder.path, fault.message)];
  }
}

// Begins to read an item, which can be done only while it is dropped.
async function begun(item, isWanted) {
  const entry = item.webkitGetAsEntry();
  if (!entry) return [];
  if (entry.isFile) return [item.getAsFile()];
  const handle = await item.getAsFileSystemHandle?.().catch(() => null);
  return filesIn(handle ? ofHandle(handle, handle.name) : ofEntry(entry), isWanted);
}

// Returns the files of what was dropped. Those in folders are the ones whose names are wanted.
export function filesDropped({ items, files }, isWanted) {
  const those = [...items];
  if (!those.some(item => item.webkitGetAsEntry?.()?.isDirectory)) return Promise.resolve([...files]);
  return Promise.all(those.map(item => begun(item, isWanted))).then(found => found.flat());
}

// Returns the same of a folder that was chosen.
export function filesChosenIn(files, isWanted) {
  const wanted = files.filter(file => isWanted(file.webkitRelativePath));
  const found = wanted.slice(0, MOST_FILES).map(file => named(file, file.webkitRelativePath));
  if (wanted.length > MOST_FILES) found.push(refused(wanted[MOST_FILES].webkitRelativePath, tooMany()));
  if (found.length === 0 && files.length > 0) found.push(refused(files[0].webkitRelativePath.split("/")[0], EMPTY));
  return found;
}
