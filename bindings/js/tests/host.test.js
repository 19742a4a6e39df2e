// The calls of host.js, with answers that are worked out by hand or stand in docs/.
import assert from "node:assert/strict";
import { readFile } from "node:fs/promises";
import { beforeEach, test } from "node:test";
import { Failed, Library, MAX, MIN, Refused, SUM, Stopped, WORDS, WrongText, progress } from "../host.js";
import { checkout, moduleBytes } from "./module.js";

const NONE = 2n ** 64n - 1n;
const bytes = await moduleBytes();
let library;

beforeEach(async () => {
  library = await Library.load(bytes);
});

const hex = (text) => Uint8Array.from(text.match(/../g), (pair) => parseInt(pair, 16));
const programOf = (text, record = 16) => library.newProgram(library.assemble(text), record);
const failsBy = (status, call) => assert.throws(call, (error) => error instanceof Failed && error.status === status && error.message === WORDS[status]);

/** The last version of a store with these edges. */
function versionOf(vertices, edges) {
  const store = library.newStore(vertices);
  store.insert(edges.map(([source]) => source), edges.map(([, target]) => target));
  return store.pin();
}

const TARGET = "ldxw r0, [r1+4]\nexit";
const THREE = [[0, 1], [0, 2], [1, 2]];

test("the first program of docs/EMBEDDING.md", () => {
  const store = library.newStore(4);
  assert.deepEqual(store.apply([0, 0, 1], [1, 2, 2]), { added: 3n, removed: 0n, number: 1n });
  const version = store.pin();
  store.apply([0], [1], [1]);
  assert.deepEqual([...version.neighbours(0)], [1, 2]);
  const program = programOf(TARGET);
  assert.deepEqual([program.bound, program.frames, program.record], [2, 1, 16]);
  assert.deepEqual(version.run(program), { values: new BigUint64Array([3n, 2n, 0n, 0n]), edges: 3n, total: 5n });
  assert.deepEqual([...version.numbers(program)], [1n, 2n, 2n]);
  assert.deepEqual([...store.pin().neighbours(0)], [2]);
});

test("questions of a version", () => {
  const version = versionOf(4, THREE);
  assert.deepEqual(version.info(), { number: 1n, edges: 3n, epoch: 0n, vertices: 4 });
  assert.deepEqual([version.degree(0), version.degree(3), version.degree(9)], [2, 0, 0]);
  assert.deepEqual([version.hasEdge(0, 2), version.hasEdge(2, 0)], [true, false]);
  assert.equal(version.neighbour(0, 1), 2);
  assert.deepEqual([...version.degrees([1, 0, 7])], [1, 2, 0]);
  assert.deepEqual(version.lists([1, 3, 0]), { starts: new BigUint64Array([0n, 1n, 1n, 3n]), targets: new Uint32Array([2, 1, 2]) });
  assert.deepEqual(version.copy(), { starts: new BigUint64Array([0n, 2n, 3n, 3n, 3n]), targets: new Uint32Array([1, 2, 2]) });
});

test("a list in many slices is whole, and begins at its place", () => {
  const many = Array.from({ length: 5000 }, (_, at) => [0, (at * 7) % 5000]), version = versionOf(5000, many);
  assert.deepEqual([...version.neighbours(0)], Array.from({ length: 5000 }, (_, at) => at));
  assert.deepEqual([...version.neighbours(0, 4998)], [4998, 4999]);
  assert.deepEqual([...version.neighbours(0, 5000)], []);
});

test("branches, sorted edges, rebases and shares", () => {
  const version = versionOf(4, THREE), branch = version.branch();
  branch.apply([3], [0]);
  assert.deepEqual([version.info().edges, branch.pin().info().edges, branch.pin().info().number], [3n, 4n, 1n]);
  const sorted = library.storeFrom([0, 2, 3, 3, 3], [1, 2, 2]);
  assert.deepEqual(sorted.pin().copy(), version.copy());
  assert.equal(sorted.rebase(), 1n);
  assert.deepEqual(sorted.pin().info(), { number: 0n, edges: 3n, epoch: 1n, vertices: 4 });
  const share = version.share(), program = programOf(TARGET), same = program.share();
  version.close();
  program.close();
  assert.deepEqual([share.run(same).total, same.bound], [5n, 2]);
});

test("refusals and explanations", async () => {
  // README.md: a program that reads past its record.
  const past = hex("61100d00000000009500000000000000");
  assert.throws(() => library.newProgram(past), (error) => error instanceof Refused && error.cause === 11 && error.pc === 0 && error.status === 10);
  const lines = library.explain(past).split("\n");
  assert.deepEqual(lines.slice(0, 2), ["program of 2 units, records of 16 bytes", "0: ldxw r0, [r1+13]"]);
  assert.ok(lines.includes("refused at 0: ldxw r0, [r1+13]") && lines.some((line) => line.startsWith("rule 11: ")) && lines.some((line) => line.startsWith("what helps: ")));
  // An explanation that has more bytes than the first room.
  const long = library.explain(library.assemble(`${"add r2, 1\n".repeat(4000)}mov r0, r2\nexit`));
  assert.ok(long.length > 65536 && long.includes("accepted, bound 4002, frames 1"));
});

test("faults of texts, with their lines", () => {
  // docs/BPF.md, "Assembler text".
  const faults = [["foo ???", 1], ["foo r1", 2], ["mov r11, 1", 1], ["mov r0, 2147483648", 5], ["ja out", 4]];
  for (const [line, cause] of faults)
    assert.throws(() => library.assemble(`exit\n${line}`), (error) => error instanceof WrongText && error.line === 2 && error.cause === cause, line);
  assert.throws(() => library.assemble(hex("ff")), (error) => error instanceof WrongText && error.line === 0 && error.cause === 0);
  // docs/BPF.md has this text's code.
  assert.deepEqual(library.assemble("ja L2\nmov r0, 1\nL2:\nexit\n"), hex("0500010000000000b7000000010000009500000000000000"));
});

test("an argument, a table and a reduction", async () => {
  const version = versionOf(8, [[0, 1], [0, 2], [0, 3], [1, 4], [1, 6], [5, 7]]);
  const first = programOf("ldxb r0, [r1+16]\nldxw r2, [r1+4]\nadd r0, r2\nexit", 17);
  assert.equal(version.run(first, { argument: [100] }).total, 623n);
  assert.deepEqual([...version.run(first, { argument: [100], reduction: MAX, frontier: [5, 2, 0] }).values], [107n, 0n, 103n]);
  assert.deepEqual([...version.run(first, { argument: [100], reduction: MIN, frontier: [5, 2, 0] }).values], [107n, NONE, 101n]);
  // examples/table.script: 37 times the target, modulo 256.
  const image = (await readFile(new URL("examples/table.script", checkout), "utf8")).match(/^image weight (.*)$/m)[1], units = 5;
  const program = library.newProgram(hex(image).slice(10, 10 + 8 * units), 16, hex(image).slice(10 + 8 * units));
  assert.deepEqual([...version.numbers(program)], [37n, 74n, 111n, 148n, 222n, 3n]);
});

test("columns, and pushes of a search", () => {
  const version = versionOf(5, [[0, 1], [0, 2], [1, 3], [2, 3], [3, 0]]);
  const next = programOf("ldxdw r0, [r1+16]\nadd r0, 1\nexit", 32), steps = new BigUint64Array([0n, NONE, NONE, NONE, NONE]);
  for (const frontier of [[0], [1, 2], [3]]) version.push(next, steps, { columns: [steps.slice()], frontier, reduction: MIN });
  assert.deepEqual([...steps], [0n, 1n, 1n, 2n, NONE]);
  const target = programOf("ldxdw r0, [r1+24]\nexit", 32), columns = [[10, 11, 12, 13, NONE]];
  assert.deepEqual(version.pull(target, { columns }), { values: new BigUint64Array([23n, 13n, 13n, 10n, 0n]), edges: 5n, total: 59n });
});

test("work in steps gives what one call gives", () => {
  const version = versionOf(4, [...THREE, [3, 0], [3, 3]]), program = programOf(TARGET), columns = [[1, 2, 3, 4]];
  const withColumn = programOf("ldxdw r0, [r1+24]\nexit", 32), all = { reduction: SUM, columns };
  for (const [whole, step] of [
    [version.run(program), (at, values) => version.runSome(program, at, values)],
    [version.pull(withColumn, all), (at, values) => version.pullSome(withColumn, at, values, all)],
    [version.push(withColumn, new BigUint64Array(4), all), (at, values) => version.pushSome(withColumn, at, values, all)],
  ]) {
    const at = progress(0), values = new BigUint64Array(4);
    let steps = 0;
    for (; at.vertex < 4; steps++) step(at, values);
    assert.ok(steps > 4);
    assert.deepEqual([values, at.edges, at.total], [whole.values, whole.edges, whole.total]);
  }
  for (const [wanted, step] of [
    [[1n, 2n, 2n, 0n, 3n], (at, numbers) => version.numbersSome(program, at, numbers)],
    [[2n, 3n, 3n, 1n, 4n], (at, numbers) => version.numbersOf(withColumn, at, numbers, { columns })],
  ]) {
    const at = progress(0), numbers = new BigUint64Array(5);
    for (let count = 0; count < 5; ) count += step(at, numbers.subarray(count));
    assert.deepEqual([...numbers], wanted);
  }
});

test("pairs, which need not be edges", () => {
  const version = versionOf(4, THREE), place = programOf("ldxw r0, [r1+8]\nexit"), numbers = new BigUint64Array(3), at = progress(1000);
  version.pairs(place, at, numbers, { sources: [0, 0, 3], targets: [2, 3, 0] });
  // 2 is the second neighbour of 0; 0 has two neighbours, and 3 none.
  assert.deepEqual([[...numbers], at.vertex], [[1n, 2n, 0n], 3]);
  const ends = programOf("ldxdw r0, [r1+16]\nldxdw r2, [r1+24]\nsub r0, r2\nexit", 32);
  version.pairsOf(ends, progress(1000), numbers, { sources: [3, 0, 9], targets: [0, 0, 9], columns: [[1, 2, 3, 40]] });
  assert.deepEqual([...numbers], [39n, 0n, 0n]);
});

test("answers that a host computed", () => {
  const version = versionOf(4, [[0, 1], [1, 0], [1, 2], [2, 1]]), unfound = 0xffffffff;
  assert.deepEqual([version.isSearch(0, [0, 1, 2, unfound], [0, 0, 1, 0]), version.isSearch(0, [0, 1, 1, unfound], [0, 0, 0, 0])], [true, false]);
  assert.deepEqual([version.areComponents([0, 0, 0, 3], [0, 0, 1, 3], [0, 1, 2, 0]), version.areComponents([0, 0, 2, 3], [0, 0, 2, 3], [0, 1, 0, 0])], [true, false]);
  assert.deepEqual([version.areCores([1, 1, 1, 0], [1, 2, 3, 0]), version.areCores([1, 2, 1, 0], [1, 2, 3, 0])], [true, false]);
  assert.deepEqual([version.isIndependentSet([1, 0, 1, 1]), version.isIndependentSet([1, 0, 1, 0])], [true, false]);
});

test("each status, where it comes from", () => {
  const store = library.newStore(4), version = versionOf(4, THREE), program = programOf(TARGET), code = library.assemble(TARGET);
  failsBy(4, () => library.newStore(0));
  failsBy(5, () => store.apply([0], [4]));
  failsBy(6, () => store.apply(new Uint32Array(65537), new Uint32Array(65537)));
  failsBy(8, () => store.apply([0], [1], [0], 4));
  failsBy(9, () => store.apply([0, 1], [1]));
  failsBy(11, () => library.newProgram(code, 15));
  failsBy(12, () => library.newProgram([]));
  failsBy(12, () => library.explain(new Uint8Array(8 * 4097)));
  failsBy(13, () => version.run(program, { argument: [1] }));
  failsBy(14, () => version.run(program, { reduction: 3 }));
  failsBy(16, () => version.neighbour(0, 2));
  failsBy(18, () => library.newProgram(code, 16, new Uint8Array(4097)));
  failsBy(19, () => version.pull(program, { columns: [[1, 2, 3]] }));
  failsBy(20, () => version.runSome(program, { ...progress(1), vertex: 5 }, new BigUint64Array(4)));
  failsBy(21, () => library.storeFrom([0, 2, 1], [0, 1]));
  for (let batch = 0; batch < 4096; batch++) store.apply([0], [1]);
  failsBy(7, () => store.apply([0], [1]));
  failsBy(3, () => library.must("edgebpf_store_rebase", version, { array: new BigUint64Array(1), isWritten: true }));
  version.close();
  version.close();
  failsBy(2, () => version.info());
});

test("numbers that fit no argument are refused before the call", () => {
  const store = library.newStore(4);
  for (const call of [() => library.newStore(1.5), () => store.apply([-1], [0]), () => store.apply([0], [2 ** 32]), () => store.apply([0], [0], [256])])
    assert.throws(call, RangeError);
  assert.throws(() => versionOf(1, []).push(programOf(TARGET), new BigUint64Array(1), { columns: [[2n ** 64n]] }), RangeError);
});

test("a call that gets no memory changes nothing, and can be made again", async () => {
  library = await Library.load(bytes, 2 ** 22);
  const store = library.newStore(1000), held = library.memory.held;
  failsBy(1, () => library.newStore(2 ** 28));
  const sources = Uint32Array.from({ length: 60000 }, (_, at) => at % 1000), targets = Uint32Array.from({ length: 60000 }, (_, at) => (at * 7919) % 1000);
  failsBy(1, () => { for (;;) store.apply(sources, targets); });
  const { edges, number } = store.pin().info();
  assert.ok(number >= 0n && edges <= 60000n && library.memory.held >= held && library.memory.bytes <= 2 ** 22);
  assert.equal(store.rebase(), 1n);
  assert.equal(store.apply([0], [0]).number, 1n);
});

test("what is closed leaves no memory in use", () => {
  const store = library.newStore(100), version = versionOf(100, THREE), program = programOf(TARGET);
  assert.throws(() => programOf("mov r0, r1\nexit"), Refused);
  version.run(program);
  for (const handle of [store, version, program]) handle.close();
  // The store of `versionOf` is still open.
  const one = library.memory.held;
  const again = versionOf(100, THREE);
  assert.ok(one > 0 && library.memory.held > one);
  again.close();
});

test("calls and handles that are refused leave no memory in use", () => {
  const store = library.newStore(100), version = versionOf(100, THREE), program = programOf(TARGET), held = library.memory.held;
  for (let round = 0; round < 3; round++) {
    version.run(program);
    failsBy(13, () => version.run(program, { argument: [1] }));
    assert.throws(() => programOf("mov r0, r1\nexit"), Refused);
    failsBy(4, () => library.newStore(0));
  }
  assert.equal(library.memory.held, held);
  store.close();
});

test("products of 128 bits, which the compiler asks for", async () => {
  // A module with a memory, whose only function is the one that it imports: the types, the import, the memory, the heap's base and the exports.
  const named = (name) => [name.length, ...new TextEncoder().encode(name)];
  const sections = [
    [1, 1, 0x60, 5, 0x7e, 0x7e, 0x7e, 0x7e, 0x7e, 0], [2, 1, ...named("env"), ...named("__multi3"), 0, 0], [5, 1, 0, 1], [6, 1, 0x7f, 0, 0x41, 0x80, 8, 0x0b],
    [7, 3, ...named("memory"), 2, 0, ...named("__heap_base"), 3, 0, ...named("__multi3"), 0, 0],
  ].flatMap(([kind, ...content]) => [kind, content.length, ...content]);
  const small = await Library.load(Uint8Array.from([0, 0x61, 0x73, 0x6d, 1, 0, 0, 0, ...sections]));
  for (const [one, other] of [[3n, 5n], [NONE, NONE], [2n ** 100n + 7n, 2n ** 20n + 1n], [2n ** 128n - 1n, 9n]]) {
    small.call("__multi3", 16n, ...[one, one >> 64n, other, other >> 64n].map((half) => BigInt.asIntN(64, half)));
    const [low, high] = new BigUint64Array(small.copy(16, 16).buffer);
    assert.equal(low | (high << 64n), BigInt.asUintN(128, one * other));
  }
});

test("edges of which some have no target are refused before the first batch", () => {
  const store = library.newStore(4), sources = new Uint32Array(65537), targets = new Uint32Array(65536);
  failsBy(9, () => store.insert(sources, targets));
  assert.deepEqual([store.pin().info().number, store.pin().info().edges], [0n, 0n]);
});

test("a module that trapped answers no more", () => {
  const version = versionOf(4, THREE);
  assert.throws(() => library.call("edgebpf_version_info", version, 2n ** 32n - 8n), (error) => error instanceof Stopped && error.cause instanceof WebAssembly.RuntimeError);
  assert.throws(() => library.newStore(1), Stopped);
});
