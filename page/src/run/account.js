// What the page takes as the account of a run, from its names or from the worker (worker/account), and at which place it opens the run for it.

const VERSION = 1;

function isObject(value) {
  return typeof value === "object" && value !== null && !Array.isArray(value);
}

function isTextOrNull(value) {
  return value === null || typeof value === "string";
}

function areTexts(value) {
  return Array.isArray(value) && value.every(it => typeof it === "string");
}

function isLocationOrNone(value) {
  return value === undefined || value === null || (Array.isArray(value) && value.length === 3 && typeof value[0] === "string");
}

function arePlaces(value) {
  return Array.isArray(value) && value.every(it => isObject(it) && Number.isSafeInteger(it.place) && Number.isSafeInteger(it.line) && isLocationOrNone(it.location));
}

function isFact(value) {
  return isObject(value) && typeof value.kind === "string" && areTexts(value.text) && arePlaces(value.places);
}

function isWait(value) {
  return isObject(value) && typeof value.text === "string" && Number.isSafeInteger(value.since) && isLocationOrNone(value.location);
}

// Whether this is an account that the page can show, or one of another version.
export function isAccount(value) {
  if (!isObject(value)) return false;
  if (value.version !== VERSION) return Number.isSafeInteger(value.version);
  const hasLists = areTexts(value.unknown) && Array.isArray(value.facts) && value.facts.every(isFact) && Array.isArray(value.waiting) && value.waiting.every(isWait);
  return hasLists && isObject(value.rest) && Number.isSafeInteger(value.rest.after) && isTextOrNull(value.rest.text) && isTextOrNull(value.nothing);
}

function isFailed(value) {
  return isObject(value) && typeof value.text === "string" && Number.isSafeInteger(value.place) && isLocationOrNone(value.location);
}

function isPlaceOrNone(value) {
  return value === undefined || value === null || Number.isSafeInteger(value);
}

function isReplay(value) {
  return isObject(value) && typeof value.text === "string" && isPlaceOrNone(value.place);
}

function isStep(value) {
  return isObject(value) && typeof value.text === "string" && isPlaceOrNone(value.place);
}

function isRace(value) {
  return isObject(value) && typeof value.text === "string" && isStep(value.first) && isStep(value.then);
}

function isTask(value) {
  return isObject(value) && typeof value.text === "string";
}

// The place at which a run is opened: the one that is worth looking at first, or the start where nothing was found. A window starts with its first call
// behind its lead.
/** @param {Account | null} account */
export function firstPlace(account, lead = 0) {
  const start = lead === 0 ? 0 : lead + 1;
  if (account === null) return start;
  const { facts, failure, waiting, look } = account;
  return facts.length > 0 || waiting.length > 0 || Number.isSafeInteger(failure) ? look : start;
}

// Returns an account with the keys that it may lack: those that aren't told, or that accounts of earlier versions don't have.
/** @returns {Account} */
export function completed(account) {
  return {
    ...account, look: Number.isSafeInteger(account.look) ? account.look : 0,
    failed: isFailed(account.failed) ? account.failed : null, replay: isReplay(account.replay) ? account.replay : null, race: isRace(account.race) ? account.race : null,
    tasks: Array.isArray(account.tasks) ? account.tasks.filter(isTask) : [],
  };
}

// The same, or null if it has a version that the page doesn't know.
/** @returns {Account | null} */
export function known(account) {
  return account?.version === VERSION ? completed(account) : null;
}
