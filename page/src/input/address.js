// The page's address, as `#call=42&view=10-74&fold=0.3&filter=jobs&order=number&stop=lagging+0+2`, so that a link leads to a call and to what is in
// view there; and the steps of the browser's history. Each step belongs to a run, by its key. Where two runs are compared, `against` has the digest of
// the other one's bytes, and the name of its file.

const QUIET = 250;
const VIEW = /^(\d+)-(\d+)$/;
const NUMBER = /^\d+$/;
const AGAINST = /^([0-9a-f]{14}) (.+)$/;

let timer = 0;

// Returns the place in an address, and what else it has: the columns in view, the folded bands, the filter, the channels' order, the condition of a
// stop, and the run to compare with. A place that is no number is the start.
/** @returns {Address} */
export function readAddress(address) {
  const parts = new URLSearchParams(new URL(address).hash.slice(1));
  // Addresses of earlier pages have `place`.
  const place = parts.get("call") ?? parts.get("place");
  const view = VIEW.exec(parts.get("view") ?? "");
  const against = AGAINST.exec(parts.get("against") ?? "");
  return {
    place: place === null && !parts.has("view") ? null : NUMBER.test(place ?? "") ? Number(place) : 0,
    view: view && [Number(view[1]), Number(view[2])],
    fold: parts.get("fold"),
    filter: parts.get("filter"),
    order: parts.get("order"),
    stop: parts.get("stop"),
    against: against && { digest: against[1], name: against[2] },
  };
}

/** @param {Address} address */
export function hashOf({ place, view, fold, filter, order, stop, against }) {
  const parts = new URLSearchParams({ call: String(place), view: view.join("-") });
  const other = against && `${against.digest} ${against.name}`;
  for (const [name, text] of Object.entries({ fold, filter, order, stop, against: other })) if (text !== null) parts.set(name, text);
  return `#${parts}`;
}

// Browsers limit how often the address may change. Some throw an error above that: then a later change has to do.
function write(method, state, hash) {
  try {
    history[method](state, "", hash);
  } catch {
    return;
  }
}

// Changes the address when the walk pauses.
/** @param {Address} address */
export function putIntoAddress(address) {
  clearTimeout(timer);
  timer = setTimeout(() => write("replaceState", history.state, hashOf(address)), QUIET);
}

// Makes a step of the history, from one address to another, unless they are the same.
/**
 * @param {Address} from
 * @param {Address} to
 */
export function pushAddress(from, to) {
  clearTimeout(timer);
  if (hashOf(from) === hashOf(to)) return;
  write("replaceState", history.state, hashOf(from));
  write("pushState", history.state, hashOf(to));
}

// Discards a change of the address that waits, since the address leads elsewhere by now.
export function forgetAddress() {
  clearTimeout(timer);
}

// Discards the place in the address, so that the run is opened where it is worth looking at first.
export function forgetPlace() {
  clearTimeout(timer);
  write("replaceState", history.state, "#");
}

// Returns the key of the run that this step of the history belongs to, or undefined if the address was written by hand.
export function runInHistory() {
  return history.state?.run;
}

// Says which run this step of the history belongs to.
export function setRun(key) {
  write("replaceState", { run: key }, location.hash);
}

// Makes a step of the history for a run that is opened where it is worth looking at first.
export function pushRun(key) {
  clearTimeout(timer);
  write("pushState", { run: key }, "#");
}
