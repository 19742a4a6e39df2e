// The page: what a person types is verified and run at each key. All answers are a host's; the page only shows them.
//
// A host runs the programs: module.js by the library in this page, service.js by requests to a service. It has
//   fields       the fields that the page's address keeps, each with what it has if nothing is said
//   causes       where the causes of refusals stand, or null
//   load()       begins
//   read(field)  what the fields say, each read by `field`: the argument, the record, and what the host needs besides
//   verify(text, given, signal)      the verdict: { words }, { fault: { line, words } }, or { explanation, accepted, bound, frames, unit }
//   look(given, signal)              the graph that is drawn: { vertices, degrees, edges }, or null
//   lacking(given)                   why nothing is run, in words, or null
//   run(text, graph, given, signal)  the numbers of these edges, the values of these vertices, and their total, in words
//   choose(value)                    what the fields have for a choice that is no example; a host that offers none needs it not
//   listen(show, isIdle)             listens to what it has of its own; `show` shows all again, and `isIdle` tells if nothing is under way
// Each may raise Told. Of a turn that something else has followed `signal` is aborted, and what it answers is shown no more.
import { draw, isDrawn, make, table } from "./drawing.js";
import { Told, Wrong, linesOfUnits, readExplanation } from "./reading.js";

const EXAMPLES = JSON.parse(document.getElementById("examples").textContent);
const QUIET = 400;
const OWN = "of your own";
const WORDS = ["sum", "least", "greatest"];

export const by = (id) => document.getElementById(id);
export const counted = (count, word) => `${count} ${word}${count === 1 ? "" : "s"}`;
export const pause = (milliseconds = 0) => new Promise((resolve) => setTimeout(resolve, milliseconds));
let host, running = null, timer;

/** Sets a text that a screen reader reads out, if it is another one. */
export function say(id, words) {
  if (by(id).textContent !== words) by(id).textContent = words;
}

/** What the numbers of a vertex's edges become, in a word. */
export const reductionWord = () => WORDS[by("reduction").value];

function judge(kind, words) {
  say("verdict", words);
  by("verdict").className = kind;
}

/** What a field says, or null if it is wrong; then the reason stands below it. */
function readField(name, read) {
  const wrong = by(`${name}-wrong`);
  let answer = null, words = "";
  try {
    answer = read(by(name).value);
  } catch (error) {
    if (!(error instanceof Wrong)) throw error;
    words = error.message;
  }
  say(wrong.id, words);
  wrong.hidden = words === "";
  by(name).setAttribute("aria-invalid", String(words !== ""));
  return answer;
}

/** A line of the program, as it stands in the list. */
function lineItem(line, statement, isBroken) {
  return make("li", isBroken ? { class: "broken" } : {}, make("span", { class: "line" }, String(line)), make("span", { class: "statement" }, statement));
}

/** What is known before a line. What was not known before the line above is marked. */
function knownParts(known, before) {
  const parts = known.map((part) => make("span", before && !before.has(part) ? { class: "changed" } : {}, part));
  return make("span", { class: "known" }, ...parts.flatMap((part) => [part, " "]));
}

/** The list of lines, each with what is known before it. */
function showLines(text, { units, refused }) {
  const lines = linesOfUnits(text), lineOf = (unit) => lines.get(unit)?.line ?? "";
  let before = null;
  by("lines").replaceChildren(...units.map(({ unit, statement, known, calls }) => {
    const item = lineItem(lineOf(unit), lines.get(unit)?.statement ?? statement, unit === refused);
    if (calls.length > 0) item.prepend(make("span", { class: "called" }, `as it is called at line ${calls.map(lineOf).join(", and there at line ")}`));
    if (known.length > 0) {
      item.append(knownParts(known, calls.length > 0 ? null : before));
      before = new Set(known);
    }
    if (unit === refused) item.append(make("span", { class: "here" }, "refused here"));
    return item;
  }));
}

function reasonTitle(name) {
  if (!name.startsWith("rule ")) return name[0].toUpperCase() + name.slice(1);
  const words = `Rule ${name.slice(5)}`;
  return host.causes ? make("a", { href: host.causes }, words) : words;
}

function showReasons(reasons) {
  by("reasons").replaceChildren(...reasons.map(({ name, words }) => make("p", {}, make("b", {}, reasonTitle(name), ":"), ` ${words}`)));
}

function showNothing() {
  by("lines").replaceChildren();
  by("reasons").replaceChildren();
  say("text", "");
}

/** Shows what the verifier says of a program, and returns whether it is accepted. */
function showVerdict(text, told) {
  showNothing();
  if (told.fault) {
    const { line, words } = told.fault;
    by("lines").replaceChildren(lineItem(line, text.split("\n")[line - 1] ?? "", true));
    judge("bad", `Line ${line}: ${words}`);
  }
  if (told.words) judge("bad", told.words);
  if (!told.explanation) return false;
  const parts = readExplanation(told.explanation), broken = linesOfUnits(text).get(told.unit);
  say("text", told.explanation);
  showLines(text, parts);
  showReasons(parts.reasons);
  if (told.accepted) judge("good", `Accepted: at most ${counted(told.bound, "instruction")} for an edge, ${counted(told.frames, "frame")}`);
  else judge("bad", broken ? `Refused at line ${broken.line}: ${broken.statement}` : `Refused at unit ${told.unit}`);
  return told.accepted;
}

/** Has a program verified, and returns whether it is accepted. */
async function verify(text, given, signal) {
  if (!given.record) {
    showNothing();
    judge("bad", "Not verified: how long a record is depends on the argument and the columns.");
    return false;
  }
  try {
    const told = await host.verify(text, given, signal);
    return !signal.aborted && showVerdict(text, told);
  } catch (error) {
    if (!(error instanceof Told) || signal.aborted) throw error;
    showNothing();
    judge("bad", error.message);
    return false;
  }
}

/** Shows a graph, with the numbers of a run if there is one. */
function showGraph({ vertices, degrees, edges }, result) {
  const drawn = isDrawn(vertices.length, edges.length);
  const words = `No drawing: ${vertices.length} vertices and ${edges.length} edges are too many for one.`;
  const numbered = edges.map((edge, place) => ({ ...edge, number: result ? result.numbers[place] : null }));
  by("graph").replaceChildren(drawn ? draw(vertices, numbered) : make("p", { class: "help" }, words));
  by("numbers").hidden = !result;
  by("rows").replaceChildren();
  by("numbers-table").replaceChildren();
  if (!result) return;
  const rows = [...result.values].map((value, place) => [vertices[place], degrees[place], value]).filter((row) => row[1] > 0);
  by("rows").append(table("Each vertex that has edges", ["vertex", "edges", reductionWord()], rows));
  by("numbers-table").append(table("Each edge", ["source", "target", "number"], numbered.map((edge) => [edge.source, edge.target, edge.number])));
  if (!drawn) by("numbers").open = true;
  say("state", result.words);
}

/** No graph is shown, and why. */
function showNoGraph(words) {
  by("graph").replaceChildren();
  by("rows").replaceChildren();
  by("numbers").hidden = true;
  say("state", words);
}

async function showRun(text, isAccepted, given, signal) {
  const graph = await host.look(given, signal);
  if (signal.aborted) return;
  const reason = host.lacking(given) ?? (isAccepted ? null : "No run: only an accepted program is run.");
  if (!graph) return showNoGraph(reason);
  if (reason) {
    showGraph(graph, null);
    return say("state", reason);
  }
  const result = await host.run(text, graph, given, signal);
  if (!signal.aborted) showGraph(graph, result);
}

/** Has verified and run what the fields have. */
async function show() {
  running?.abort();
  const { signal } = (running = new AbortController()), text = by("program").value;
  try {
    const given = host.read(readField);
    say("record", given.record ? given.record.words : "");
    const isAccepted = await verify(text, given, signal);
    if (!signal.aborted) await showRun(text, isAccepted, given, signal);
  } catch (error) {
    if (signal.aborted) return;
    if (!(error instanceof Told)) throw error;
    showNoGraph(error.message);
  } finally {
    if (running?.signal === signal) running = null;
  }
}

/** Keeps the fields in the page's address, so that they can be bookmarked and sent. */
function remember() {
  const values = Object.keys(host.fields).map((name) => [name, by(name).value]);
  clearTimeout(timer);
  timer = setTimeout(() => history.replaceState(null, "", `#${new URLSearchParams(values)}`), QUIET);
}

function fill(values) {
  for (const [name, otherwise] of Object.entries(host.fields)) {
    const field = by(name);
    field.value = values[name] ?? otherwise ?? field.value;
    // An address may have a choice that there is not.
    if (field.selectedIndex === -1) field.selectedIndex = 0;
  }
}

/** Fills the fields with what the address has: an example's name, or the fields, or else the first example and the fields that it does not have. */
function fillFromAddress() {
  const words = new URLSearchParams(location.hash.slice(1)), named = EXAMPLES.find(({ name }) => name === words.get("example"));
  const own = words.has("program") ? { name: OWN, ...Object.fromEntries(words) } : null, taken = own ?? named ?? EXAMPLES[0];
  by("example").value = taken.name;
  fill({ ...Object.fromEntries(words), ...taken });
  return show();
}

/** Fills the fields with an example, or with what else the host offers there. */
async function choose() {
  const { value } = by("example");
  const chosen = EXAMPLES.find(({ name }) => name === value) ?? (value === OWN ? null : await host.choose(value));
  if (chosen) fill(chosen);
  remember();
  return show();
}

function listen() {
  by("example").prepend(...EXAMPLES.map(({ name }) => make("option", { value: name }, name)), make("option", { value: OWN }, OWN));
  by("example").addEventListener("change", choose);
  for (const name of Object.keys(host.fields)) by(name).addEventListener("input", () => {
    by("example").value = OWN;
    remember();
    return show();
  });
  addEventListener("hashchange", fillFromAddress);
  host.listen(show, () => running === null);
}

export async function begin(one) {
  host = one;
  try {
    await host.load();
  } catch (error) {
    if (!(error instanceof Told)) throw error;
    return judge("bad", error.message);
  }
  listen();
  await fillFromAddress();
  document.body.dataset.shown = "yes";
}
