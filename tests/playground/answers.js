// What the module answers to the cases of compare.py, which come on standard input: a line for each.
import { readFileSync } from "node:fs";
import { Failed, Library, Refused, WrongText, progress } from "../../bindings/js/host.js";
import { moduleBytes } from "../../bindings/js/tests/module.js";

const REDUCTIONS = [0, 1, 2], BUDGET = 500;
const { vertices, edges, sources, targets, cases } = JSON.parse(readFileSync(0, "utf8"));
const library = await Library.load(await moduleBytes());
const store = library.newStore(vertices);
store.insert(edges.map(([source]) => source), edges.map(([, target]) => target));
const version = store.pin();

const hexOf = (array) => Buffer.from(array.buffer, array.byteOffset, array.byteLength).toString("hex");
const bytesOf = (hex) => Uint8Array.from(Buffer.from(hex, "hex"));
const same = (one, other) => {
  if (JSON.stringify(one) !== JSON.stringify(other)) throw new Error(`calls of one module differ: ${JSON.stringify(one)} and ${JSON.stringify(other)}`);
  return one;
};

/** The numbers of all edges, by one call or in steps. */
function numbersOf(program, given) {
  const numbers = new BigUint64Array(edges.length), at = progress(0), isPlain = given.columns.length === 0;
  for (let count = 0; count < numbers.length; at.budget = BigInt(BUDGET)) {
    const rest = numbers.subarray(count);
    count += isPlain ? version.numbersSome(program, at, rest, given) : version.numbersOf(program, at, rest, given);
  }
  return isPlain ? same(hexOf(numbers), hexOf(version.numbers(program, given))) : hexOf(numbers);
}

/** The values, edges and total of a run: by one call, and the same in steps. */
function runOf(program, given) {
  const isPlain = given.columns.length === 0, values = new BigUint64Array(vertices), at = progress(0);
  const whole = isPlain ? version.run(program, given) : version.pull(program, given);
  const step = isPlain ? () => version.runSome(program, at, values, given) : () => version.pullSome(program, at, values, given);
  for (; at.vertex < vertices; at.budget = BigInt(BUDGET)) step();
  return same([hexOf(whole.values), String(whole.edges), String(whole.total)], [hexOf(values), String(at.edges), String(at.total)]);
}

function pushOf(program, given) {
  const [values, others] = [0, 1].map(() => BigUint64Array.from({ length: vertices }, (_, vertex) => BigInt(vertex))), at = progress(0);
  version.push(program, values, given);
  for (; at.vertex < vertices; at.budget = BigInt(BUDGET)) version.pushSome(program, at, others, given);
  return same(hexOf(values), hexOf(others));
}

function pairsOf(program, given) {
  const numbers = new BigUint64Array(sources.length), at = progress(0), ends = { ...given, sources, targets };
  const step = given.columns.length === 0 ? () => version.pairs(program, at, numbers, ends) : () => version.pairsOf(program, at, numbers, ends);
  for (; at.vertex < sources.length; at.budget = BigInt(BUDGET)) step();
  return hexOf(numbers);
}

function runsOf(program, { argument, columns }) {
  const given = { argument: bytesOf(argument), columns: columns.map((column) => new BigUint64Array(bytesOf(column).buffer)) };
  const reduced = REDUCTIONS.flatMap((reduction) => [...runOf(program, { ...given, reduction }), pushOf(program, { ...given, reduction })]);
  return [numbersOf(program, given), ...reduced, pairsOf(program, given)];
}

/** What a call answers, or the status of its failure. */
function statusOr(call) {
  try {
    return call();
  } catch (error) {
    if (error instanceof Failed) return error.status;
    throw error;
  }
}

function judged(code, each) {
  let program;
  try {
    program = library.newProgram(code, each.record, bytesOf(each.table ?? ""));
  } catch (error) {
    if (error instanceof Refused) return { verdict: [error.status, error.cause, error.pc] };
    if (error instanceof Failed) return { verdict: [error.status] };
    throw error;
  }
  const runs = each.given.map((given) => runsOf(program, given));
  program.close();
  return { verdict: [0, program.bound, program.frames], runs };
}

function answer(each) {
  let code;
  try {
    code = "code" in each ? bytesOf(each.code) : library.assemble(each.text);
  } catch (error) {
    if (error instanceof WrongText) return { fault: [error.line, error.cause] };
    throw error;
  }
  const explained = statusOr(() => library.explain(code, each.record, bytesOf(each.table ?? "")));
  return { code: hexOf(code), explained, ...judged(code, each) };
}

const held = library.memory.held;
for (const each of cases) process.stdout.write(`${JSON.stringify(answer(each))}\n`);
if (library.memory.held !== held) throw new Error(`${library.memory.held - held} bytes of the module's memory are left in use`);
