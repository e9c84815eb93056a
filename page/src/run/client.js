// The page's side of the debugger: each request returns a promise of its reply.

// In bytes: a piece of a text that is opened.
const PIECE = 1 << 20;

export class Client {
  // `moduleBytes` returns the debugger's module. It is called while the worker starts.
  constructor(workerText, moduleBytes) {
    this.waiting = new Map();
    this.count = 0;
    // The run that is open: its text, and that of its names once the engine has them. The worker keeps neither, since a long one takes much memory.
    /** @type {{ bytes: Uint8Array, names: Uint8Array | null } | null} */
    this.opened = null;
    /** @type {Promise<void> | null} */
    this.reopening = null;
    // The text that is passed on: one after the other.
    /** @type {Promise<any>} */
    this.passing = Promise.resolve();
    this.worker = new Worker(URL.createObjectURL(new Blob([workerText], { type: "text/javascript" })));
    this.worker.onmessage = ({ data }) => this.settle(data);
    this.worker.onerror = ({ message }) => this.waiting.forEach(({ reject }) => reject(new Error(message)));
    this.started = this.request("start", moduleBytes());
  }

  // Ends the worker. What was requested gets no reply.
  stop() {
    this.worker.terminate();
  }

  settle({ number, answer, fault, isClosed }) {
    const asked = this.waiting.get(number);
    this.waiting.delete(number);
    if (fault === undefined) asked.resolve(answer);
    else if (isClosed && this.opened && !asked.isAgain) this.askAgain(asked, this.opened);
    else asked.reject(Object.assign(new Error(fault), { isClosed }));
  }

  request(request, ...values) {
    return this.send({ request, values });
  }

  // Requests to open a run.
  async open(bytes, places) {
    this.opened = null;
    const opened = await this.passOn(bytes, "open", places);
    if (!opened.fault) this.opened = { bytes, names: null };
    return opened;
  }

  // Passes on the text of a file of names for the run.
  async name(bytes) {
    const { opened } = this;
    if (opened) opened.names = null;
    await this.passOn(bytes, "name").catch(async fault => {
      if (!fault.isClosed || !opened) throw fault;
      await this.reopen(opened);
      await this.passOn(bytes, "name");
    });
    if (opened) opened.names = bytes;
  }

  // Sends a text to the worker, and then a request that needs it. The request isn't sent again by itself, since a new worker doesn't have the text.
  passOn(bytes, request, ...values) {
    const pass = () => this.passPieces(bytes).then(() => this.send({ request, values, isAgain: true }));
    this.passing = this.passing.then(pass, pass);
    return this.passing;
  }

  // The pieces are in one buffer, which comes back each time: a worker keeps what it is handed until it collects its garbage.
  async passPieces(bytes) {
    let buffer = new ArrayBuffer(Math.min(PIECE, bytes.length));
    let at = 0;
    do {
      const part = bytes.subarray(at, at + PIECE);
      const piece = new Uint8Array(buffer, 0, part.length);
      piece.set(part);
      ({ buffer } = await this.send({ request: "piece", values: [piece, at, bytes.length] }, [buffer]));
      at += PIECE;
    } while (at < bytes.length);
  }

  // Asks once more for what the engine didn't answer, since a failure of an earlier request has closed the run.
  async askAgain({ request, values, resolve, reject }, opened) {
    try {
      await this.reopen(opened);
      resolve(await this.send({ request, values, isAgain: true }));
    } catch (fault) {
      reject(fault);
    }
  }

  // Opens the run again, once for all that wait for it.
  async reopen(opened) {
    this.reopening ??= this.openAgain(opened).finally(() => { this.reopening = null; });
    await this.reopening;
    if (this.opened !== opened) throw new Error("another run was opened");
  }

  async openAgain({ bytes, names }) {
    await this.passOn(bytes, "open", []);
    if (names) await this.passOn(names, "name");
  }

  // Sends a request, and hands over some of its buffers.
  send({ request, values, isAgain = false }, handedOver = []) {
    return new Promise((resolve, reject) => {
      const number = ++this.count;
      this.waiting.set(number, { resolve, reject, request, values, isAgain });
      this.worker.postMessage({ number, request, values }, { transfer: handedOver });
    });
  }
}
