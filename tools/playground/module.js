// The page's host in a file: the library as a WebAssembly module verifies and runs, on the edges that are typed.
import { FAULTS, Failed, Library, Refused, Stopped, WrongText, progress, unpacked } from "../../bindings/js/host.js";
import { begin, by, counted, pause, reductionWord, say } from "./page.js";
import { Told, readArgument, readColumns, readEdges, recordOf, testColumns } from "./reading.js";

const MOST_MEMORY = 2 ** 29, BUDGET = 4_000_000;

class ModuleHost {
  fields = { program: "", edges: "", argument: "", columns: "", reduction: "0" };
  causes = "BPF.md#each-cause-and-a-program-that-meets-it";
  #library;
  // What the last turn has left: the program that was accepted, and the graph.
  #program;
  #opened = [];

  async load() {
    try {
      await this.#loadModule();
    } catch (error) {
      throw new Told(`This browser cannot run the page, which needs WebAssembly with numbers of 64 bits, and DecompressionStream: ${error.message}`);
    }
  }

  async #loadModule() {
    this.#library = await Library.load(await unpacked(by("module").textContent), MOST_MEMORY);
  }

  listen() {}

  read(field) {
    this.#closeAll();
    const argument = field("argument", readArgument), graph = field("edges", readEdges), columns = field("columns", readColumns);
    const fitting = columns && graph && field("columns", () => { testColumns(columns, graph.vertices); return columns; });
    const record = argument && columns && recordOf(argument, columns.length);
    return { argument, record, graph, columns: fitting, reduction: Number(by("reduction").value) };
  }

  lacking({ graph, columns }) {
    if (!graph) return "No run: the edges are not read yet.";
    return columns ? null : "No run: the columns do not fit.";
  }

  verify(text, given) {
    return this.#told(() => this.#verdict(text, given.record.length));
  }

  #verdict(text, length) {
    let code;
    try {
      code = this.#library.assemble(text);
    } catch (error) {
      if (error instanceof WrongText) return { fault: { line: error.line, words: FAULTS[error.cause] } };
      throw error;
    }
    if (code.length === 0) return { words: "There is no program yet." };
    const explanation = this.#library.explain(code, length);
    try {
      const { bound, frames } = (this.#program = this.#keep(this.#library.newProgram(code, length)));
      return { explanation, accepted: true, bound, frames };
    } catch (error) {
      if (error instanceof Refused) return { explanation, accepted: false, unit: error.pc };
      throw error;
    }
  }

  look({ graph }) {
    return this.#told(() => (graph ? this.#seen(graph) : null));
  }

  #seen({ vertices, sources, targets }) {
    const store = this.#keep(this.#library.newStore(vertices));
    store.insert(sources, targets);
    const version = this.#keep(store.pin()), { starts, targets: sorted } = version.copy(), edges = [], degrees = [];
    for (let source = 0; source < vertices; source++) {
      degrees.push(Number(starts[source + 1] - starts[source]));
      for (const target of sorted.subarray(Number(starts[source]), Number(starts[source + 1]))) edges.push({ source, target });
    }
    return { vertices: degrees.map((_, vertex) => vertex), degrees, edges, version };
  }

  run(_text, { version }, given, signal) {
    return this.#told(() => this.#steps(version, this.#program, given, signal));
  }

  /** Runs a program in steps, so that the page answers meanwhile. */
  async #steps(version, program, given, signal) {
    const { vertices, edges } = version.info(), numbers = new BigUint64Array(Number(edges)), values = new BigUint64Array(vertices);
    const listed = progress(0), reduced = progress(0);
    let count = 0;
    const steps = [
      [listed, () => { count += version.numbersOf(program, listed, numbers.subarray(count), given); }],
      [reduced, () => version.pullSome(program, reduced, values, given)],
    ];
    for (const [at, step] of steps) {
      while (at.vertex < vertices && (at === reduced || count < numbers.length)) {
        at.budget = BigInt(BUDGET);
        step();
        if (at.vertex === vertices) break;
        say("state", `The run goes on: ${at.edges} of ${edges} edges.`);
        await pause();
        signal.throwIfAborted();
      }
    }
    const total = `${counted(numbers.length, "edge")}; the ${reductionWord()} of all numbers is ${reduced.total}.`;
    return { numbers, values, words: numbers.length === 0 ? "There is no edge, so there is no number." : total };
  }

  #keep(handle) {
    this.#opened.push(handle);
    return handle;
  }

  /** Drops what the turn before has left. */
  #closeAll() {
    for (const handle of this.#opened.splice(0).reverse()) handle.close();
  }

  /** What a function returns. After an error the module is loaded again, since what it holds may be anything. */
  async #told(work) {
    try {
      return await work();
    } catch (error) {
      if (!(error instanceof Stopped || error instanceof Failed)) throw error;
      this.#opened = [];
      await this.#loadModule();
      const stopped = `This is an error of the page: ${error.message}. What you typed stays: change it to go on.`;
      throw new Told(error instanceof Stopped ? stopped : `The library could not do it: ${error.message}.`);
    }
  }
}

begin(new ModuleHost());
