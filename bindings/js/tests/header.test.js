// What host.js and host.d.ts have of bindings/c/edgebpf.h.
import assert from "node:assert/strict";
import { execFileSync } from "node:child_process";
import { readFile } from "node:fs/promises";
import { test } from "node:test";
import { Library, WORDS } from "../host.js";
import { checkout, moduleBytes } from "./module.js";

const [header, host, types] = await Promise.all(["c/edgebpf.h", "js/host.js", "js/host.d.ts"].map((name) => readFile(new URL(`bindings/${name}`, checkout), "utf8")));

test("each function of the header is called, and the module exports it", async () => {
  const declared = [...header.matchAll(/^(?:uint32_t|void) (edgebpf_\w+)\(/gm)].map(([, name]) => name);
  assert.ok(declared.length > 30);
  // `neighbours` asks for slices from a place on, which may be 0.
  const called = declared.filter((name) => name !== "edgebpf_version_lend");
  assert.deepEqual(called.filter((name) => !host.includes(`"${name}"`)), []);
  const exported = WebAssembly.Module.exports(new WebAssembly.Module(await moduleBytes())).map(({ name }) => name);
  assert.deepEqual(declared.filter((name) => !exported.includes(name)), []);
});

test("the module asks its host for its memory, and for products of 128 bits", async () => {
  const asked = WebAssembly.Module.imports(new WebAssembly.Module(await moduleBytes())).map(({ module, name }) => `${module}.${name}`);
  assert.deepEqual(asked.sort(), ["env.__multi3", "env.rattle_alloc", "env.rattle_dealloc", "env.rattle_realloc"]);
});

test("the words are the header's", () => {
  const words = header.match(/words\[\] = \{(.*?)\};/s)[1];
  assert.deepEqual([...words.matchAll(/"([^"]*)"/g)].map(([, text]) => text), WORDS);
});

test("the types have the methods of the classes, and no others", async () => {
  const library = await Library.load(await moduleBytes()), store = library.newStore(1), version = store.pin();
  const program = library.newProgram(library.assemble("mov r0, 0\nexit"));
  const own = { call: true, must: true, copy: true, takeCell: true, giveCell: true, constructor: true, cell: true };
  for (const [name, value] of Object.entries({ Library: library, Store: store, Version: version, Program: program })) {
    const type = types.match(new RegExp(`(?:class|interface) ${name}\\b.*?\\n}`, "s"))[0];
    const typed = [...type.matchAll(/^ {2}(\w+)\(/gm)].map(([, method]) => method).sort();
    const methods = [...Object.getOwnPropertyNames(Object.getPrototypeOf(value)), ...Object.keys(value)].filter((key) => typeof value[key] === "function");
    assert.deepEqual(methods.filter((method) => name === "Version" ? method !== "constructor" : !own[method]).sort(), typed, name);
  }
});

test("what README.md shows", async () => {
  const block = (await readFile(new URL("bindings/js/README.md", checkout), "utf8")).match(/```js\n(.*?)```/s)[1];
  const text = block.replace("./host.js", new URL("bindings/js/host.js", checkout).href);
  const said = execFileSync(process.execPath, ["--input-type=module", "--eval", text], { cwd: checkout, encoding: "utf8" });
  assert.ok(said.startsWith("5n\nprogram of 2 units, records of 16 bytes\n") && said.includes("\naccepted, bound 2, frames 1\n"), said);
});
