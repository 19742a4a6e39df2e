// The library as a WebAssembly module, called as C calls it: one method for each function of bindings/c/edgebpf.h, which says what they do.
// Arrays are copied in for each call, and out again. See README.md: the module is compared with the proved library, and not proved itself.
import { Heap } from "./heap.js";

export const SUM = 0;
export const MIN = 1;
export const MAX = 2;
const EMPTY = 2, LENGTHS = 9, REFUSED = 10, WRONG_TEXT = 15;
const MOST_CODE = 32768, MOST_EDITS = 65536, FIRST_ROOM = 65536, MOST_BYTES = 2 ** 31, SLICES = 64;
const U8 = 0xff, U16 = 0xffff, U32 = 0xffffffff;
const NO_BYTES = new Uint8Array(0), NO_COLUMNS = Object.freeze([]);

/** What a status says. */
export const WORDS = Object.freeze([
  "done",
  "out of memory",
  "the handle is empty",
  "the handle holds something of another kind",
  "the number of vertices is not from 1 to 268435456",
  "an edit names a vertex that the graph does not have",
  "there are more than 65536 edits",
  "4096 batches were applied, and there is room for no more before a rebase",
  "there is no such feed",
  "the lengths of the arrays do not fit together",
  "the verifier refuses the program",
  "the record length is not from 16 to 256",
  "the code is not 1 to 4096 units of 8 bytes",
  "the argument is not as long as the record less 16 bytes, and less 16 for each column",
  "there is no such reduction",
  "the text means no code",
  "the vertex has no neighbour at this place",
  "as many rebases were made as 64 bits count",
  "the table has more than 4096 bytes",
  "there are more than 8 columns, or one has not a number for each vertex",
  "the progress names no place of this frontier",
  "the arrays are not sorted",
]);

/** What a fault of a text says, by its number. */
export const FAULTS = Object.freeze([
  "the text is no UTF-8",
  "the line is no statement and no label, or these are not the arguments of its word",
  "no statement has this word",
  "an earlier line has this label",
  "no line has the label to which the statement goes",
  "a number is outside its range, or a label is too far away",
  "with this line the code has more than 4096 units",
  "out of memory",
]);

/** A call that did nothing. `status` is the header's number for the reason. */
export class Failed extends Error {
  constructor(status, words = WORDS[status]) {
    super(words);
    this.status = status;
  }
}

/** The verifier refused a program. `cause` is the rule, and `pc` the unit of the code that breaks it. */
export class Refused extends Failed {
  constructor(cause, pc) {
    super(REFUSED, `refused, cause ${cause} at unit ${pc}`);
    Object.assign(this, { cause, pc });
  }
}

/** A text is no program. `line` is counted from 1, and 0 if the text is no UTF-8. */
export class WrongText extends Failed {
  constructor(line, cause) {
    super(WRONG_TEXT, `line ${line}: ${FAULTS[cause]}`);
    Object.assign(this, { line, cause });
  }
}

/** The module trapped, and no call of it may be made any more: load it again. `cause` has the engine's error. */
export class Stopped extends Error {
  constructor(cause) {
    super(`the module stopped: ${cause.message}`, { cause });
  }
}

// What a call is given, besides numbers and handles: an array that it reads, an array that it writes, or a struct that it writes.
const read = (array) => ({ array, isCounted: true, isWritten: false });
const written = (array) => ({ array, isCounted: true, isWritten: true });
const struct = (array) => ({ array, isCounted: false, isWritten: true });

function whole(value, most, name) {
  if (!Number.isInteger(value) || value < 0 || value > most) throw new RangeError(`${name} is a whole number from 0 to ${most}, not ${value}`);
  return value;
}

const bytesOf = (values, name) => (values instanceof Uint8Array ? values : Uint8Array.from(values, (value) => whole(value, U8, name)));
const wordsOf = (values, name) => (values instanceof Uint32Array ? values : Uint32Array.from(values, (value) => whole(value, U32, name)));

function numbersOf(values, name) {
  if (values instanceof BigUint64Array) return values;
  return BigUint64Array.from(values, (value) => {
    const number = BigInt(value);
    if (BigInt.asUintN(64, number) !== number) throw new RangeError(`${name} is a number from 0 to 2^64 - 1, not ${value}`);
    return number;
  });
}

/** The beginning of work that goes on from call to call. */
export function progress(budget) {
  return { budget: BigInt(budget), edges: 0n, total: 0n, vertex: 0, place: 0 };
}

function packed(at) {
  const view = new DataView(new ArrayBuffer(32));
  [at.budget, at.edges, at.total].forEach((number, place) => view.setBigUint64(8 * place, BigInt(number), true));
  view.setUint32(24, whole(at.vertex, U32, "vertex"), true);
  view.setUint32(28, whole(at.place, U32, "place"), true);
  return new Uint8Array(view.buffer);
}

function unpack(bytes, at) {
  const view = new DataView(bytes.buffer);
  const [budget, edges, total] = [0, 8, 16].map((place) => view.getBigUint64(place, true));
  Object.assign(at, { budget, edges, total, vertex: view.getUint32(24, true), place: view.getUint32(28, true) });
}

/** A module's bytes, of the text by which the page has them: base64 of what gzip packed. */
export async function unpacked(text) {
  const bytes = Uint8Array.from(atob(text.replace(/\s/g, "")), (letter) => letter.charCodeAt(0));
  const stream = new Blob([bytes]).stream().pipeThrough(new DecompressionStream("gzip"));
  return new Uint8Array(await new Response(stream).arrayBuffer());
}

/** Writes the product of two numbers of 128 bits, of which each has two halves. The compiler asks for it where a product may overflow. */
function multiply(memory, out, ...halves) {
  const [low, high, otherLow, otherHigh] = halves.map((half) => BigInt.asUintN(64, half));
  const product = (low | (high << 64n)) * (otherLow | (otherHigh << 64n)), view = new DataView(memory.buffer, Number(out), 16);
  view.setBigUint64(0, BigInt.asUintN(64, product), true);
  view.setBigUint64(8, BigInt.asUintN(64, product >> 64n), true);
}

/** A module that was loaded. */
export class Library {
  #exports;
  #heap;
  #stopped = null;

  /** bytes: of the module. most: how many bytes its memory may have; a call that needs more fails with status 1. */
  static async load(bytes, most = MOST_BYTES) {
    const library = new Library();
    const imports = {};
    // The heap needs the module's memory, and the module is given the heap's functions.
    for (const name of ["rattle_alloc", "rattle_realloc", "rattle_dealloc"]) imports[name] = (...words) => library.#heap.imports[name](...words);
    imports.__multi3 = (...words) => multiply(library.#exports.memory, ...words);
    const { instance } = await WebAssembly.instantiate(bytes, { env: imports });
    const heap = new Heap(instance.exports.memory, Number(instance.exports.__heap_base.value), most);
    library.#exports = instance.exports;
    library.#heap = { blocks: heap, imports: heap.imports() };
    return library;
  }

  /** How many bytes the module's memory has, and how many of them are in use. */
  get memory() {
    return { bytes: this.#exports.memory.buffer.byteLength, held: this.#heap.blocks.held };
  }

  newStore(vertices) {
    return new Store(this, (out) => this.must("edgebpf_store_new", whole(vertices, U32, "vertices"), out));
  }

  storeFrom(starts, targets) {
    const vertices = Math.max(starts.length - 1, 0);
    const arrays = [read(numbersOf(starts, "a start")), read(wordsOf(targets, "a target"))];
    return new Store(this, (out) => this.must("edgebpf_store_from", vertices, ...arrays, out));
  }

  assemble(text) {
    const code = new Uint8Array(MOST_CODE), told = new Uint8Array(24), view = new DataView(told.buffer);
    const bytes = typeof text === "string" ? new TextEncoder().encode(text) : text;
    const status = this.call("edgebpf_assemble", read(bytes), written(code), struct(told));
    if (status === WRONG_TEXT) throw new WrongText(Number(view.getBigUint64(8, true)), view.getUint32(16, true));
    succeed(status);
    return code.slice(0, Number(view.getBigUint64(0, true)));
  }

  explain(code, record = 16, table = NO_BYTES) {
    const count = new BigUint64Array(1), given = [whole(record, U16, "record"), read(bytesOf(code, "code")), read(bytesOf(table, "table"))];
    for (let room = FIRST_ROOM; ; room = Number(count[0])) {
      const text = new Uint8Array(room);
      const status = this.call("edgebpf_explain", ...given, written(text), struct(count));
      if (status === LENGTHS && count[0] > room) continue;
      succeed(status);
      return new TextDecoder().decode(text.subarray(0, Number(count[0])));
    }
  }

  newProgram(code, record = 16, table = NO_BYTES) {
    const verdict = new Uint32Array(4), given = [whole(record, U16, "record"), read(bytesOf(code, "code")), read(bytesOf(table, "table"))];
    const program = new Program(this, (out) => {
      const status = this.call("edgebpf_program_new", ...given, struct(verdict), out);
      if (status === REFUSED) throw new Refused(verdict[2], verdict[3]);
      succeed(status);
    });
    return Object.assign(program, { bound: verdict[0], frames: verdict[1], record });
  }

  /** Calls a function of the library by its name, and returns its status. */
  call(name, ...parts) {
    if (this.#stopped) throw new Stopped(this.#stopped);
    const blocks = [];
    try {
      const words = parts.flatMap((part) => this.#words(part, blocks));
      const status = this.#run(name, words);
      for (const { at, array, isWritten } of blocks) if (isWritten) this.#bytes(array).set(this.#at(at, array.byteLength));
      return status;
    } finally {
      for (const { at } of blocks) this.#heap.blocks.give(at);
    }
  }

  must(name, ...parts) {
    succeed(this.call(name, ...parts));
  }

  /** The bytes at an address, copied. */
  copy(at, count) {
    return this.#at(at, count).slice();
  }

  /** Memory for a handle that is empty. */
  takeCell() {
    const at = this.#block(8);
    this.#at(at, 8).fill(0);
    return at;
  }

  giveCell(at) {
    this.#heap.blocks.give(at);
  }

  #run(name, words) {
    try {
      return this.#exports[name](...words);
    } catch (error) {
      this.#stopped = error;
      throw new Stopped(error);
    }
  }

  #at = (at, count) => new Uint8Array(this.#exports.memory.buffer, at, count);
  #bytes = (array) => new Uint8Array(array.buffer, array.byteOffset, array.byteLength);

  #block(bytes) {
    const at = this.#heap.blocks.take(bytes);
    if (at === 0) throw new Failed(1);
    return at;
  }

  /** The numbers by which a call is given a part. What is copied in for it is noted in `blocks`. */
  #words(part, blocks) {
    if (typeof part === "number" || typeof part === "bigint") return [part];
    if (part instanceof Handle) return [BigInt(part.cell())];
    if (part.columns) return this.#columns(part.columns, blocks);
    const at = this.#block(part.array.byteLength);
    blocks.push({ at, ...part });
    this.#at(at, part.array.byteLength).set(this.#bytes(part.array));
    return part.isCounted ? [BigInt(at), BigInt(part.count ?? part.array.length)] : [BigInt(at)];
  }

  #columns(columns, blocks) {
    const told = new BigUint64Array(columns.flatMap((column) => this.#words(read(column), blocks)));
    const [at] = this.#words(read(told), blocks);
    return [at, BigInt(columns.length)];
  }
}

function succeed(status) {
  if (status !== 0) throw new Failed(status);
}

/** What the library hands out. It holds something until it is closed. */
class Handle {
  #library;
  #at;

  constructor(library, fill) {
    this.#library = library;
    this.#at = library.takeCell();
    try {
      fill(this);
    } catch (error) {
      library.giveCell(this.#at);
      this.#at = 0;
      throw error;
    }
  }

  get library() {
    return this.#library;
  }

  /** Where the handle lies in the module's memory. */
  cell() {
    if (this.#at === 0) throw new Failed(EMPTY);
    return this.#at;
  }

  close() {
    if (this.#at === 0) return;
    this.#library.call("edgebpf_close", this);
    this.#library.giveCell(this.#at);
    this.#at = 0;
  }
}

/** A graph that batches change. */
export class Store extends Handle {
  apply(sources, targets, removes = null, feed = 0) {
    const change = new BigUint64Array(3), from = wordsOf(sources, "a source"), to = wordsOf(targets, "a target");
    const marks = removes === null ? new Uint8Array(from.length) : bytesOf(removes, "a mark");
    this.library.must("edgebpf_store_apply", this, whole(feed, U8, "feed"), read(from), read(to), read(marks), struct(change));
    return { added: change[0], removed: change[1], number: change[2] };
  }

  /** Puts edges in, by as many batches as that takes. */
  insert(sources, targets) {
    const from = wordsOf(sources, "a source"), to = wordsOf(targets, "a target");
    if (from.length !== to.length) throw new Failed(LENGTHS);
    for (let at = 0; at < from.length; at += MOST_EDITS) this.apply(from.subarray(at, at + MOST_EDITS), to.subarray(at, at + MOST_EDITS));
  }

  rebase() {
    const epoch = new BigUint64Array(1);
    this.library.must("edgebpf_store_rebase", this, struct(epoch));
    return epoch[0];
  }

  pin() {
    return new Version(this.library, (out) => this.library.must("edgebpf_store_pin", this, out));
  }
}

/** A program that the verifier accepted. `bound` is the most instructions of a run, and `frames` the most functions that are live at once. */
export class Program extends Handle {
  share() {
    const { bound, frames, record } = this;
    const other = new Program(this.library, (out) => this.library.must("edgebpf_program_share", this, out));
    return Object.assign(other, { bound, frames, record });
  }
}

/** What a run is given besides its program: the frontier, which is all vertices if there is none, the argument, columns and the reduction. */
function asked(version, given) {
  const { argument = NO_BYTES, columns = NO_COLUMNS, frontier, reduction = SUM } = given;
  return {
    argument: read(bytesOf(argument, "a byte")),
    columns: { columns: columns.map((column) => numbersOf(column, "a column's number")) },
    frontier: read(frontier === undefined ? version.all() : wordsOf(frontier, "a vertex")),
    reduction: whole(reduction, U32, "reduction"),
  };
}

/** A version of a store's graph, which stays as it is. */
export class Version extends Handle {
  #all;

  branch() {
    return new Store(this.library, (out) => this.library.must("edgebpf_store_of", this, out));
  }

  share() {
    return new Version(this.library, (out) => this.library.must("edgebpf_version_share", this, out));
  }

  info() {
    const told = new BigUint64Array(4);
    this.library.must("edgebpf_version_info", this, struct(told));
    return { number: told[0], edges: told[1], epoch: told[2], vertices: Number(told[3] & 0xffffffffn) };
  }

  /** All vertices, ascending. */
  all() {
    this.#all ??= Uint32Array.from({ length: this.info().vertices }, (_, vertex) => vertex);
    return this.#all;
  }

  #word(name, ...parts) {
    const told = new Uint32Array(1);
    this.library.must(name, this, ...parts, struct(told));
    return told[0];
  }

  degree = (vertex) => this.#word("edgebpf_version_degree", whole(vertex, U32, "vertex"));
  hasEdge = (source, target) => this.#word("edgebpf_version_has_edge", whole(source, U32, "source"), whole(target, U32, "target")) === 1;
  neighbour = (vertex, place) => this.#word("edgebpf_version_neighbour", whole(vertex, U32, "vertex"), whole(place, U32, "place"));

  /** The neighbours of a vertex from a place on, copied out of the slices that the library lends. */
  neighbours(vertex, place = 0) {
    const found = [], slices = new BigUint64Array(2 * SLICES), lent = new BigUint64Array(1);
    const room = { ...written(slices), count: SLICES };
    for (let next = whole(place, U32, "place"); ; ) {
      this.library.must("edgebpf_version_lend_from", this, whole(vertex, U32, "vertex"), next, room, struct(lent));
      for (let slice = 0; slice < Number(lent[0]); slice++) {
        const words = new Uint32Array(this.library.copy(Number(slices[2 * slice]), 4 * Number(slices[2 * slice + 1])).buffer);
        found.push(...words);
        next += words.length;
      }
      if (lent[0] < BigInt(SLICES)) return Uint32Array.from(found);
    }
  }

  copy() {
    const { vertices, edges } = this.info();
    const starts = new BigUint64Array(vertices + 1), targets = new Uint32Array(Number(edges));
    this.library.must("edgebpf_version_copy", this, written(starts), written(targets));
    return { starts, targets };
  }

  degrees(frontier) {
    const vertices = wordsOf(frontier, "a vertex"), counts = new Uint32Array(vertices.length);
    this.library.must("edgebpf_version_degrees", this, read(vertices), written(counts));
    return counts;
  }

  lists(frontier) {
    const vertices = wordsOf(frontier, "a vertex"), starts = new BigUint64Array(vertices.length + 1), count = new BigUint64Array(1);
    const list = (targets) => this.library.call("edgebpf_version_lists", this, read(vertices), written(starts), written(targets), struct(count));
    const first = list(new Uint32Array(0));
    if (first !== LENGTHS) succeed(first);
    const targets = new Uint32Array(Number(count[0]));
    succeed(list(targets));
    return { starts, targets };
  }

  run(program, given = {}) {
    const { argument, frontier, reduction } = asked(this, given);
    return this.#reduced("edgebpf_run", [program, argument, frontier, reduction], new BigUint64Array(frontier.array.length));
  }

  pull(program, given = {}) {
    const { argument, columns, frontier, reduction } = asked(this, given);
    return this.#reduced("edgebpf_pull", [program, argument, columns, frontier, reduction], new BigUint64Array(frontier.array.length));
  }

  /** values: one for each vertex of the graph, which the numbers of the edges that lead there are reduced into. */
  push(program, values, given = {}) {
    const { argument, columns, frontier, reduction } = asked(this, given);
    return this.#reduced("edgebpf_push", [program, argument, columns, frontier, reduction], values);
  }

  runSome(program, at, values, given = {}) {
    const { argument, frontier, reduction } = asked(this, given);
    this.#some("edgebpf_run_some", [program, argument, frontier, reduction], at, [written(values)]);
  }

  pullSome(program, at, values, given = {}) {
    const { argument, columns, frontier, reduction } = asked(this, given);
    this.#some("edgebpf_pull_some", [program, argument, columns, frontier, reduction], at, [written(values)]);
  }

  pushSome(program, at, values, given = {}) {
    const { argument, columns, frontier, reduction } = asked(this, given);
    this.#some("edgebpf_push_some", [program, argument, columns, frontier, reduction], at, [written(values)]);
  }

  numbers(program, given = {}) {
    const numbers = new BigUint64Array(Number(this.info().edges));
    this.library.must("edgebpf_numbers", this, program, asked(this, given).argument, written(numbers));
    return numbers;
  }

  /** Writes numbers of the next edges, as many as there is room for, and returns how many it wrote. */
  numbersSome(program, at, numbers, given = {}) {
    const { argument, frontier } = asked(this, given), count = new BigUint64Array(1);
    this.#some("edgebpf_numbers_some", [program, argument, frontier], at, [written(numbers), struct(count)]);
    return Number(count[0]);
  }

  numbersOf(program, at, numbers, given = {}) {
    const { argument, columns, frontier } = asked(this, given), count = new BigUint64Array(1);
    this.#some("edgebpf_numbers_of", [program, argument, columns, frontier], at, [written(numbers), struct(count)]);
    return Number(count[0]);
  }

  /** pairs: the sources and the targets. */
  pairs(program, at, numbers, { sources, targets, ...given }) {
    const ends = [read(wordsOf(sources, "a source")), read(wordsOf(targets, "a target"))];
    this.#some("edgebpf_pairs", [program, asked(this, given).argument, ...ends], at, [written(numbers)]);
  }

  pairsOf(program, at, numbers, { sources, targets, ...given }) {
    const ends = [read(wordsOf(sources, "a source")), read(wordsOf(targets, "a target"))], { argument, columns } = asked(this, given);
    this.#some("edgebpf_pairs_of", [program, argument, columns, ...ends], at, [written(numbers)]);
  }

  isSearch(root, levels, parents) {
    return this.#word("edgebpf_is_search", whole(root, U32, "root"), ...[levels, parents].map((array) => read(wordsOf(array, "a number")))) === 1;
  }

  areComponents(labels, parents, steps) {
    return this.#word("edgebpf_are_components", ...[labels, parents, steps].map((array) => read(wordsOf(array, "a number")))) === 1;
  }

  areCores(numbers, places) {
    return this.#word("edgebpf_are_cores", ...[numbers, places].map((array) => read(wordsOf(array, "a number")))) === 1;
  }

  isIndependentSet(marks) {
    return this.#word("edgebpf_is_independent_set", read(bytesOf(marks, "a mark"))) === 1;
  }

  #reduced(name, parts, values) {
    const totals = new BigUint64Array(2);
    this.library.must(name, this, ...parts, written(values), struct(totals));
    return { values, edges: totals[0], total: totals[1] };
  }

  /** A call that goes on with work: `at` is where it stands, and changes. */
  #some(name, parts, at, results) {
    const place = packed(at);
    this.library.must(name, this, ...parts, struct(place), ...results);
    unpack(place, at);
  }
}
