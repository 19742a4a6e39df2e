/** The types of host.js. bindings/c/edgebpf.h says what each call does, and when it fails. */

export type Words = Uint32Array | Iterable<number>;
export type Bytes = Uint8Array | Iterable<number>;
/** Numbers from 0 to 2^64 - 1. */
export type Numbers = BigUint64Array | Iterable<bigint | number>;

export const SUM: 0;
export const MIN: 1;
export const MAX: 2;
/** What a status says, by its number. */
export const WORDS: readonly string[];
/** What a fault of a text says, by its number. */
export const FAULTS: readonly string[];

/** A call that did nothing. */
export class Failed extends Error {
  status: number;
}
/** The verifier refused a program: the rule that is broken, and the unit of the code that breaks it. */
export class Refused extends Failed {
  cause: number;
  pc: number;
}
/** A text is no program: the line, from 1, and the fault. */
export class WrongText extends Failed {
  line: number;
  cause: number;
}
/** The module trapped: load it again. */
export class Stopped extends Error {
  cause: Error;
}

/** Work that goes on from call to call. It is done where `vertex` is as many as the frontier or the pairs have. */
export interface Progress {
  budget: bigint;
  edges: bigint;
  total: bigint;
  vertex: number;
  place: number;
}
export function progress(budget: bigint | number): Progress;

/** A module's bytes, of the text of a page's element `module`. */
export function unpacked(text: string): Promise<Uint8Array>;

export interface Argument {
  argument?: Bytes;
}
export interface Columns extends Argument {
  columns?: readonly Numbers[];
}
export interface Frontier {
  /** Vertices in any order; all of the graph if it is left out. */
  frontier?: Words;
}
export interface Reduction {
  reduction?: number;
}
export interface Pairs {
  sources: Words;
  targets: Words;
}
export interface Result {
  values: BigUint64Array;
  edges: bigint;
  total: bigint;
}
export interface Lists {
  starts: BigUint64Array;
  targets: Uint32Array;
}

export class Library {
  /** bytes: of the module. most: how many bytes its memory may have, 2^31 if it is left out. */
  static load(bytes: BufferSource, most?: number): Promise<Library>;
  readonly memory: { bytes: number; held: number };
  newStore(vertices: number): Store;
  storeFrom(starts: Numbers, targets: Words): Store;
  assemble(text: string | Uint8Array): Uint8Array;
  explain(code: Bytes, record?: number, table?: Bytes): string;
  newProgram(code: Bytes, record?: number, table?: Bytes): Program;
}

interface Handle {
  readonly library: Library;
  /** Drops what it holds. It may be called twice. */
  close(): void;
}

export interface Store extends Handle {
  apply(sources: Words, targets: Words, removes?: Bytes | null, feed?: number): { added: bigint; removed: bigint; number: bigint };
  insert(sources: Words, targets: Words): void;
  rebase(): bigint;
  pin(): Version;
}

export interface Program extends Handle {
  readonly bound: number;
  readonly frames: number;
  readonly record: number;
  share(): Program;
}

export interface Version extends Handle {
  branch(): Store;
  share(): Version;
  info(): { number: bigint; edges: bigint; epoch: bigint; vertices: number };
  all(): Uint32Array;
  degree(vertex: number): number;
  hasEdge(source: number, target: number): boolean;
  neighbour(vertex: number, place: number): number;
  neighbours(vertex: number, place?: number): Uint32Array;
  copy(): Lists;
  degrees(frontier: Words): Uint32Array;
  lists(frontier: Words): Lists;
  run(program: Program, given?: Argument & Frontier & Reduction): Result;
  pull(program: Program, given?: Columns & Frontier & Reduction): Result;
  push(program: Program, values: BigUint64Array, given?: Columns & Frontier & Reduction): Result;
  runSome(program: Program, at: Progress, values: BigUint64Array, given?: Argument & Frontier & Reduction): void;
  pullSome(program: Program, at: Progress, values: BigUint64Array, given?: Columns & Frontier & Reduction): void;
  pushSome(program: Program, at: Progress, values: BigUint64Array, given?: Columns & Frontier & Reduction): void;
  numbers(program: Program, given?: Argument): BigUint64Array;
  numbersSome(program: Program, at: Progress, numbers: BigUint64Array, given?: Argument & Frontier): number;
  numbersOf(program: Program, at: Progress, numbers: BigUint64Array, given?: Columns & Frontier): number;
  pairs(program: Program, at: Progress, numbers: BigUint64Array, given: Argument & Pairs): void;
  pairsOf(program: Program, at: Progress, numbers: BigUint64Array, given: Columns & Pairs): void;
  isSearch(root: number, levels: Words, parents: Words): boolean;
  areComponents(labels: Words, parents: Words, steps: Words): boolean;
  areCores(numbers: Words, places: Words): boolean;
  isIndependentSet(marks: Bytes): boolean;
}
