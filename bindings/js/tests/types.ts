// What host.d.ts allows, and what it refuses. .ci/playground has tsc read it, where there is one; nothing runs it.
import { FAULTS, Failed, Library, MIN, Refused, Stopped, WORDS, WrongText, progress, unpacked } from "../host.js";

export async function use(packed: string) {
  const library = await Library.load(await unpacked(packed), 2 ** 30);
  const store = library.newStore(4), change = store.apply([0, 1], new Uint32Array([1, 2]), null, 0), version = store.pin();
  const program = library.newProgram(library.assemble("exit"), 32), at = progress(5);
  const { values, total } = version.pull(program, { columns: [[1n, 2]], reduction: MIN, frontier: [0] });
  version.pullSome(program, at, values, { columns: [new BigUint64Array(4)] });
  version.pairsOf(program, at, values, { sources: [0], targets: [1], columns: [] });
  const sum: bigint = total + change.added + at.total, words: readonly string[] = [...WORDS, ...FAULTS];
  // @ts-expect-error a run takes no columns
  version.run(program, { columns: [] });
  // @ts-expect-error a progress has numbers of 64 bits
  version.runSome(program, { ...at, budget: 1 }, values);
  // @ts-expect-error vertices are no bigint
  version.degree(1n);
  for (const handle of [version, program, store]) handle.close();
  return { sum, words, errors: [Refused, WrongText, Failed, Stopped], text: library.explain([1]), held: library.memory.held };
}
