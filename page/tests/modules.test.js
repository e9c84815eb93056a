// How the scripts' modules depend on each other.
import assert from "node:assert";
import { readFileSync, readdirSync } from "node:fs";
import { dirname, join, normalize } from "node:path";
import { test } from "node:test";
import { fileURLToPath } from "node:url";

const SOURCES = fileURLToPath(new URL("../src", import.meta.url));

// A folder imports only itself and those before it. What is at the top, `loader.js`, `main.js` and `worker.js`, imports all.
const FOLDERS = ["base", "run", "worker", "draw", "findings", "share", "input", "open", "."];

const modules = readdirSync(SOURCES, { recursive: true }).map(String).filter(name => name.endsWith(".js")).sort();

function importsOf(name) {
  const text = readFileSync(join(SOURCES, name), "utf8");
  return [...text.matchAll(/^import .* from "(\..*)";$/gm)].map(([, path]) => normalize(join(dirname(name), path)));
}

const imports = new Map(modules.map(name => [name, importsOf(name)]));

function folderOf(name) {
  return name.includes("/") ? name.split("/")[0] : ".";
}

test("each module is in a known folder, and imports modules that exist", () => {
  assert.ok(modules.length > 50);
  for (const [name, those] of imports) {
    assert.ok(FOLDERS.includes(folderOf(name)), name);
    for (const it of those) assert.ok(imports.has(it), `${name} imports ${it}`);
  }
});

test("a folder imports only those before it", () => {
  const rank = name => FOLDERS.indexOf(folderOf(name));
  const wrong = [...imports].flatMap(([name, those]) => those.filter(it => rank(it) > rank(name)).map(it => `${name} -> ${it}`));
  assert.deepStrictEqual(wrong, []);
});

test("modules don't depend on each other in a circle", () => {
  const done = new Set();
  const visit = (name, path) => {
    assert.ok(!path.includes(name), [...path, name].join(" -> "));
    if (done.has(name)) return;
    for (const it of imports.get(name)) visit(it, [...path, name]);
    done.add(name);
  };
  for (const name of modules) visit(name, []);
});

test("each module is imported by the page, its loader or its worker", () => {
  const reached = new Set();
  const visit = name => {
    if (reached.has(name)) return;
    reached.add(name);
    imports.get(name).forEach(visit);
  };
  ["loader.js", "main.js", "worker.js"].forEach(visit);
  assert.deepStrictEqual(modules.filter(name => !reached.has(name)), []);
});

test("the page doesn't import what runs in its worker", () => {
  const visit = (name, reached) => {
    if (reached.has(name)) return reached;
    reached.add(name);
    imports.get(name).forEach(it => visit(it, reached));
    return reached;
  };
  assert.deepStrictEqual([...visit("main.js", new Set())].filter(name => folderOf(name) === "worker"), []);
});
