// The page's host over HTTP: a service verifies and runs, on the last version of its graph.
import { MOST_EDGES, MOST_VERTICES, table } from "./drawing.js";
import { begin, by, counted, pause, reductionWord, say } from "./page.js";
import { Told, readArgument, readNames, readVertex, recordOf } from "./reading.js";

const REDUCTIONS = ["sum", "min", "max"], EMPTY = [0n, 2n ** 64n - 1n, 0n];
// Who types on sends no request for each letter; the version is asked so often; a run goes on so often if its version was dropped meanwhile.
const QUIET = 150, LOOK = 2000, MOST_AGAIN = 3;
const MOST_ROWS = 15, MOST_READ = 2 ** 20, RECORD = 16, KEY_BYTES = 16;
const NO_ANSWER = "The service does not answer.";
const KEPT = "kept: ";

const hexOf = (bytes) => Array.from(bytes, (byte) => byte.toString(16).padStart(2, "0")).join("");
const pathOf = (path, query = {}) => `${path}?${new URLSearchParams(query)}`;

/** A request that was answered by an error. */
class Refusal extends Told {
  constructor(status, told, words = told.words) {
    super(words);
    Object.assign(this, { status, told });
  }
}

class ServiceHost {
  fields = { program: "", vertex: null, steps: null, argument: "", columns: "", reduction: "0" };
  causes = null;
  // In memory alone: the address, which may be sent, does not have it.
  #token = "";
  // How often something was taken for a token: what was asked before says nothing of it.
  #taken = 0;
  #show;
  #isIdle;
  // What is shown: a version, how many vertices it has, and what was run on it, or null. `#key` is what the fields had.
  #version = null;
  #vertices = 0;
  #asked = null;
  #key = "";
  // An edit that was not answered is sent again under its id.
  #edit = null;

  load() {
    return this.#learn();
  }

  listen(show, isIdle) {
    [this.#show, this.#isIdle] = [show, isIdle];
    by("token-part").addEventListener("submit", (event) => this.#on(event, () => this.#takeToken()));
    by("editing").addEventListener("submit", (event) => this.#on(event, () => this.#change(false)));
    by("remove").addEventListener("click", (event) => this.#on(event, () => this.#change(true)));
    by("refresh").addEventListener("click", (event) => this.#on(event, () => this.#begin()));
    by("whole").addEventListener("click", (event) => this.#on(event, () => this.#runWhole()));
    this.#follow();
  }

  async #on(event, work) {
    event.preventDefault();
    await work();
  }

  /** Shows all again, with what the token may and what the service keeps. */
  async #begin() {
    await this.#learn();
    await this.#show();
  }

  async #takeToken() {
    const text = by("token").value.trim();
    this.#taken++;
    if (!/^[!-~]*$/.test(text)) return say("token-wrong", "A token has letters, digits and signs of ASCII, and no blanks.");
    this.#token = text;
    await this.#begin();
  }

  /** Learns what the token may do, and which programs and columns the service keeps. */
  async #learn() {
    try {
      const { roles } = await this.#json("GET", "token");
      by("token-part").hidden = this.#token === "";
      say("token-wrong", "");
      by("editing").hidden = !roles.includes("write");
      say("may", roles.includes("write") ? "" : "This token may not edit the graph: it has not the role write.");
      if (roles.includes("read")) await this.#learnNames();
    } catch (error) {
      if (!(error instanceof Told)) throw error;
      by("editing").hidden = true;
    }
  }

  async #learnNames() {
    const [{ programs }, { columns }] = await Promise.all([this.#json("GET", "programs"), this.#json("GET", "columns")]);
    by("kept").replaceChildren(...programs.map(({ name }) => new Option(name, KEPT + name)));
    by("kept").hidden = programs.length === 0;
    const names = columns.map(({ name }) => name).join(", ");
    say("columns-help", names ? `The service has: ${names}.` : "The service has no columns.");
  }

  /** The fields of a program that the service keeps. */
  async choose(value) {
    try {
      const { text, record, table: bytes } = await this.#json("GET", `programs/${encodeURIComponent(value.slice(KEPT.length))}`);
      if (text === undefined || bytes !== "") throw new Told("This program is kept as code, or with a table, which this page does not show.");
      return { program: text, argument: "00".repeat(record - RECORD) };
    } catch (error) {
      if (!(error instanceof Told)) throw error;
      return { program: `; ${error.message}` };
    }
  }

  read(field) {
    const argument = field("argument", readArgument), columns = field("columns", readNames), vertex = field("vertex", readVertex);
    const record = argument && columns && recordOf(argument, columns.length), reduction = Number(by("reduction").value);
    this.#forget(["program", "argument", "columns", "reduction"].map((name) => by(name).value).join("\n"));
    return { argument, columns, vertex, record, reduction, steps: Number(by("steps").value) };
  }

  lacking({ vertex, argument, columns }) {
    if (vertex === null) return "No run: the vertex is not read yet.";
    return argument && columns ? null : "No run: the argument or the columns are not read yet.";
  }

  async verify(text, { record }, signal) {
    if (!/^\s*[^;\s]/m.test(text)) return { words: "There is no program yet." };
    await pause(QUIET);
    signal.throwIfAborted();
    try {
      return await this.#json("POST", "explain", { text, record: record.length }, signal);
    } catch (error) {
      if (!error.told?.line) throw error;
      const { line, words } = error.told;
      return { fault: { line, words: words.replace(/^line \d+: /, "") } };
    }
  }

  async look({ vertex, steps }, signal) {
    if (vertex === null) return null;
    const told = await this.#json("GET", pathOf(`around/${vertex}`, { steps, limit: MOST_VERTICES }), undefined, signal);
    const graph = cut(told);
    [this.#version, this.#vertices] = [told.version, told.graph.vertices];
    say("about", `Version ${told.version}: ${told.graph.vertices} vertices and ${counted(told.graph.edges, "edge")}.`);
    say("drawn", wordsOf(graph, told, { vertex, steps }));
    return { ...graph, version: told.version };
  }

  async run(text, graph, given, signal) {
    const asked = { text, record: given.record.length, argument: hexOf(given.argument), columns: given.columns };
    let at = graph;
    for (let left = MOST_AGAIN; ; left--) {
      try {
        return await this.#runOn(at, asked, given, signal);
      } catch (error) {
        // So many batches came that the version was dropped.
        if (error.status !== 410 || left === 0) throw error;
        at = Object.assign(graph, await this.look(given, signal));
      }
    }
  }

  async #runOn(graph, asked, { reduction }, signal) {
    const query = { version: graph.version, format: "bytes" }, pairs = graph.edges.map(({ source, target }) => [source, target]);
    const [numbers, rows] = await Promise.all([
      this.#numbers(pathOf("pairs", query), { ...asked, pairs }, signal),
      this.#numbers(pathOf("runs", query), { ...asked, reduction: REDUCTIONS[reduction], frontier: graph.vertices }, signal),
    ]);
    const edges = rows.heads.get("X-Edges"), total = rows.heads.get("X-Total");
    this.#asked = { ...asked, reduction: REDUCTIONS[reduction] };
    by("whole").disabled = false;
    const words = `${edges} ${edges === "1" ? "edge begins" : "edges begin"} at the vertices that are drawn; the ${reductionWord()} of their numbers is ${total}.`;
    return { numbers: numbers.values, values: rows.values, words: edges === "0" ? "No edge begins at the vertices that are drawn." : words };
  }

  /** Nothing was run yet on what the fields have now. A run over all vertices stays if they have what they had. */
  #forget(key) {
    this.#asked = null;
    by("whole").disabled = true;
    if (key === this.#key) return;
    this.#key = key;
    by("whole-rows").replaceChildren();
    say("whole-state", "");
  }

  /** Runs the program that is shown over all vertices, and shows the greatest rows. */
  async #runWhole() {
    const asked = this.#asked, key = this.#key, { value: reduction } = by("reduction");
    by("whole").disabled = true;
    try {
      if (this.#vertices > MOST_READ) throw new Told(`The graph has more than ${MOST_READ} vertices, whose rows this page does not read: POST /runs has them.`);
      say("whole-state", "The run goes on.");
      const { values, heads } = await this.#numbers(pathOf("runs", { format: "bytes" }), asked);
      if (key !== this.#key) return;
      const rows = greatest(values, EMPTY[reduction]), edges = heads.get("X-Edges");
      by("whole-rows").replaceChildren(table(`The greatest ${MOST_ROWS} rows of all vertices`, ["vertex", reductionWord()], rows));
      say("whole-state", `Version ${heads.get("X-Version")}: ${edges} edges in all; the ${reductionWord()} of their numbers is ${heads.get("X-Total")}.`);
    } catch (error) {
      if (!(error instanceof Told)) throw error;
      if (key === this.#key) say("whole-state", error.message);
    }
    by("whole").disabled = this.#asked === null;
  }

  /** Puts an edge in, or takes it out. */
  async #change(isOut) {
    const ends = ["source", "target"].map((name) => by(name).value.trim());
    if (!ends.every((end) => /^\d{1,9}$/.test(end))) return say("edited", "Each end is a whole number from 0 on.");
    const edits = [[...ends.map(Number), ...(isOut ? [1] : [])]], same = JSON.stringify(edits);
    if (this.#edit?.same !== same) this.#edit = { same, id: hexOf(crypto.getRandomValues(new Uint8Array(KEY_BYTES))) };
    try {
      const { version, added, removed } = await this.#json("POST", "batches", { edits }, undefined, { "Idempotency-Key": this.#edit.id });
      this.#edit = null;
      const done = added ? "the edge was put in" : removed ? "the edge was taken out" : isOut ? "the edge was not there" : "the edge was there";
      say("edited", `Version ${version}: ${done}.`);
      await this.#show();
    } catch (error) {
      if (!(error instanceof Told)) throw error;
      if (error instanceof Refusal) this.#edit = null;
      say("edited", error instanceof Refusal ? error.message : `${NO_ANSWER} Whether it took the edit is in doubt: send it again, and it takes effect once.`);
    }
  }

  /** Looks for versions without end: a new one is shown, or named if the box is not checked. */
  async #follow() {
    for (let isLost = false; ; await pause(LOOK)) {
      if (document.hidden || this.#version === null || !this.#isIdle()) continue;
      try {
        const { version } = await this.#json("GET", "healthz");
        const isNew = version !== this.#version;
        if (isNew && !by("follow").checked) say("about", `Version ${this.#version} is shown, and the last one is ${version}.`);
        else if (isNew || isLost) await this.#show();
        isLost = false;
      } catch (error) {
        if (!(error instanceof Told)) throw error;
        isLost = true;
        say("about", `${error.message} Version ${this.#version} is shown.`);
      }
    }
  }

  /** Numbers of 64 bits, which those of JSON in a browser are not, so that they come as bytes. */
  async #numbers(path, body, signal) {
    const answer = await this.#ask("POST", path, body, signal);
    return { values: new BigUint64Array(await this.#whole(answer.arrayBuffer(), signal)), heads: answer.headers };
  }

  async #json(method, path, body, signal, heads) {
    return this.#whole((await this.#ask(method, path, body, signal, heads)).json(), signal);
  }

  /** What is read of an answer, which may be cut off. */
  async #whole(content, signal) {
    try {
      return await content;
    } catch (error) {
      signal?.throwIfAborted();
      throw new Told("The answer of the service was cut off.");
    }
  }

  async #ask(method, path, body, signal, heads = {}) {
    const headers = { ...heads, ...(body && { "Content-Type": "application/json" }), ...(this.#token && { Authorization: `Bearer ${this.#token}` }) };
    const taken = this.#taken;
    let answer;
    try {
      answer = await fetch(path, { method, headers, body: body && JSON.stringify(body), signal, cache: "no-store" });
    } catch (error) {
      signal?.throwIfAborted();
      throw new Told(NO_ANSWER);
    }
    if (!answer.ok) throw await this.#refusal(answer, taken);
    return answer;
  }

  async #refusal(answer, taken) {
    const told = await answer.json().catch(() => ({ words: `The answer has status ${answer.status}.` }));
    if (answer.status !== 401) return new Refusal(answer.status, told, `The service refuses it: ${told.words}.`);
    by("token-part").hidden = false;
    const words = this.#token ? "The service does not know this token." : "The service wants a token: type it above.";
    if (taken === this.#taken) say("token-wrong", this.#token ? words : "");
    return new Refusal(answer.status, told, words);
  }
}

/** The first vertices of a neighbourhood, as many as a drawing has edges for, and the edges between them. */
function cut({ vertices, degrees, edges }) {
  for (let count = vertices.length; ; count--) {
    const among = new Set(vertices.slice(0, count)), found = edges.filter((ends) => ends.every((end) => among.has(end)));
    if (count > 1 && found.length > MOST_EDGES) continue;
    return { vertices: vertices.slice(0, count), degrees: degrees.slice(0, count), edges: found.map(([source, target]) => ({ source, target })) };
  }
}

/** What is drawn of a graph, in words. */
function wordsOf(graph, told, { vertex, steps }) {
  const others = graph.vertices.length - 1, within = `within ${counted(steps, "step")}`, isAll = told.complete && others + 1 === told.vertices.length;
  if (isAll && others === 0) return `Drawn: vertex ${vertex}, whose edges lead to no other one.`;
  if (isAll) return `Drawn: vertex ${vertex} and all ${others} that its edges lead to ${within}.`;
  const limit = `a drawing has ${MOST_VERTICES} vertices and ${MOST_EDGES} edges at most`;
  return `Drawn: vertex ${vertex} and the ${others} nearest that its edges lead to ${within}. There are more, and ${limit}.`;
}

/** The rows of the greatest values, without those of vertices that have no edges. */
function greatest(values, empty) {
  const rows = [];
  values.forEach((value, vertex) => {
    if (value === empty || (rows.length === MOST_ROWS && value <= rows.at(-1)[1])) return;
    const place = rows.findIndex((row) => row[1] < value);
    rows.splice(place < 0 ? rows.length : place, 0, [vertex, value]);
    rows.length = Math.min(rows.length, MOST_ROWS);
  });
  return rows;
}

begin(new ServiceHost());
