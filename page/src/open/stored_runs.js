// The runs that were dropped, in the browser's own storage, so that they survive a reload. Each has a key, which the page's history keeps. The key of one
// that another was compared with ends with the digest of its bytes.

const STORE = "runs";
const DAY = 24 * 60 * 60 * 1000;
const MOST_DAYS = 3;

function settled(request) {
  return new Promise((resolve, reject) => {
    request.onsuccess = () => resolve(request.result);
    request.onerror = () => reject(request.error);
  });
}

function opened() {
  const request = indexedDB.open("yovanelum", 1);
  request.onupgradeneeded = () => request.result.createObjectStore(STORE);
  return settled(request);
}

// Calls `work` with the store, and returns its result when it is written.
async function inStore(work) {
  const base = await opened();
  try {
    const transaction = base.transaction(STORE, "readwrite");
    const done = new Promise((resolve, reject) => {
      transaction.oncomplete = resolve;
      transaction.onabort = () => reject(transaction.error);
    });
    const result = await settled(work(transaction.objectStore(STORE)));
    await done;
    return result;
  } finally {
    base.close();
  }
}

// Removes the runs that are older than some days: keys begin with the time at which they were made.
async function tidy() {
  const last = String(Date.now() - MOST_DAYS * DAY);
  await inStore(store => store.delete(IDBKeyRange.upperBound(last)));
}

export function newKey(end = Math.random().toString(36).slice(2)) {
  return `${Date.now()} ${end}`;
}

export async function keep(key, source) {
  await tidy();
  await inStore(store => store.put(source, key));
}

// Returns the run that was kept under a key, or undefined.
export function recall(key) {
  return inStore(store => store.get(key));
}

// The same of the run whose key has this end.
export async function recallByEnd(end) {
  const keys = await inStore(store => store.getAllKeys());
  const key = keys.find(it => it.endsWith(` ${end}`));
  return key && recall(key);
}
