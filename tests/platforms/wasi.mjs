// Runs a program of wasm32-wasip1 by node's WASI, as cargo's runner does: `node wasi.mjs PROGRAM WORDS..`. It gets the words, the standard streams
// and the environment. The current folder and that of temporary files, which TMPDIR names, are open to it.
import { readFile } from 'node:fs/promises';
import { WASI } from 'node:wasi';

const [program, ...words] = process.argv.slice(2);
const folders = [process.cwd(), process.env.TMPDIR ?? '/tmp'].map((folder) => [folder, folder]);
const wasi = new WASI({
  version: 'preview1',
  args: [program, ...words],
  env: process.env,
  preopens: { '.': '.', ...Object.fromEntries(folders) },
});
// Each call goes through a function of JavaScript. Where the program calls node's directly and its memory has grown, node 20 ends with a
// segmentation fault.
const calls = Object.entries(wasi.wasiImport).map(([name, call]) => [name, (...values) => call(...values)]);
const imports = { wasi_snapshot_preview1: Object.fromEntries(calls) };
const instance = await WebAssembly.instantiate(await WebAssembly.compile(await readFile(program)), imports);
process.exitCode = wasi.start(instance);
