// The engine: the exports of its module (page/engine/src/exports.rs). Inputs are copied into the module's memory, and the parts of an answer out of it,
// as typed arrays.

const TYPES = { 1: Uint8Array, 2: Uint16Array, 4: Uint32Array };

const encoder = new TextEncoder();
const decoder = new TextDecoder();

export class Engine {
  constructor(bytes) {
    this.module = new WebAssembly.Module(bytes);
    this.start();
  }

  // Opens a journal text or a script: this one, or else the one that was written in pieces. Returns the parts of its run, or throws its first fault.
  open(text = null) {
    if (text !== null) this.write(text, 0, text.length);
    this.isOpen = false;
    const parts = this.call("open");
    this.isOpen = true;
    return parts;
  }

  // Writes a piece of the text that is opened or taken next, which begins there in all of it. The first makes room for all.
  write(piece, at, length) {
    if (at === 0) this.room = this.exports.text(length);
    if (this.room === 0) throw new Error("no memory");
    this.copy(piece, this.room + at);
  }

  // Takes the text of a file of names for the opened run: this one, or else the one that was written in pieces. Throws what is wrong with it.
  name(names = null) {
    if (names !== null) this.write(names, 0, names.length);
    this.ofRun("name");
  }

  // Asks something of the opened run. After a trap none is: the engine keeps no text of it.
  ofRun(name, ...inputs) {
    if (!this.isOpen) throw new Closed("no run is open");
    return this.call(name, ...inputs);
  }

  // The same, where the answer is a text.
  textOf(name, ...inputs) {
    return decoder.decode(this.ofRun(name, ...inputs)[0]);
  }

  // Calls an export with some typed arrays or texts, and returns the parts of its answer. A trap leaves the memory half written. So after one the next
  // call uses a fresh instance.
  call(name, ...inputs) {
    try {
      for (const input of inputs) this.put(typeof input === "string" ? encoder.encode(input) : input);
      const isAnswer = this.exports[name]() === 0;
      const parts = this.parts();
      if (isAnswer) return parts;
      throw new Fault(decoder.decode(parts[0]));
    } catch (error) {
      if (error instanceof Fault) throw error;
      const isRefused = this.exports.refused() > 0;
      this.start();
      throw isRefused ? new Error("no memory") : error;
    }
  }

  start() {
    /** @type {any} */
    this.exports = new WebAssembly.Instance(this.module).exports;
    this.isOpen = false;
    // Where the text that is opened or taken next is written, or 0.
    this.room = 0;
  }

  put(input) {
    const at = this.exports.input(input.byteLength);
    if (at === 0) throw new Error("no memory");
    this.copy(input, at);
  }

  // When the memory grows, it becomes another buffer, so a view of it must be used at once.
  copy({ buffer, byteOffset, byteLength }, at) {
    new Uint8Array(this.exports.memory.buffer, at, byteLength).set(new Uint8Array(buffer, byteOffset, byteLength));
  }

  parts() {
    const { memory, parts, part_address: address, part_len: length, part_width: width, done } = this.exports;
    const made = Array.from({ length: parts() }, (_, i) => new TYPES[width(i)](memory.buffer, address(i), length(i)).slice());
    done();
    return made;
  }
}

// Why there is no answer, in the engine's words.
export class Fault extends Error {}

// That no run is open.
export class Closed extends Error {}
