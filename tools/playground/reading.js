// What a person typed, as arrays; and an explanation of the library, by lines of the program's text.

const MOST_EDGES = 4096, MOST_VERTICES = 65536, MOST_ARGUMENT = 240, MOST_COLUMNS = 8, EDGE_BYTES = 16, COLUMN_BYTES = 16;

/** What is wrong with a field, in words. */
export class Wrong extends Error {}

/** What a host could not do, in words for the reader. */
export class Told extends Error {}

const withoutComment = (line) => line.replace(/[;#].*/, "").trim();

/** The sources and targets of lines with two numbers each, and how many vertices there are: those up to the greatest. */
export function readEdges(text) {
  const sources = [], targets = [];
  text.split("\n").forEach((line, place) => {
    const words = withoutComment(line).split(/[\s,]+/).filter(Boolean);
    if (words.length === 0) return;
    if (words.length !== 2 || !words.every((word) => /^\d{1,5}$/.test(word) && Number(word) < MOST_VERTICES))
      throw new Wrong(`Line ${place + 1} is not two vertices, each a number from 0 to ${MOST_VERTICES - 1}.`);
    sources.push(Number(words[0]));
    targets.push(Number(words[1]));
  });
  if (sources.length > MOST_EDGES) throw new Wrong(`This page takes ${MOST_EDGES} edges at most; there are ${sources.length}.`);
  const greatest = [...sources, ...targets].reduce((one, other) => Math.max(one, other), 0);
  return { sources, targets, vertices: greatest + 1 };
}

export function readArgument(text) {
  const digits = text.replace(/\s/g, "");
  if (!/^([0-9a-f]{2})*$/i.test(digits)) throw new Wrong("An argument is pairs of the digits 0 to 9 and a to f.");
  const bytes = Uint8Array.from(digits.match(/../g) ?? [], (pair) => parseInt(pair, 16));
  if (bytes.length > MOST_ARGUMENT) throw new Wrong(`An argument has ${MOST_ARGUMENT} bytes at most; this one has ${bytes.length}.`);
  return bytes;
}

/** A column for each line that has a number. A name before a colon is for the reader. */
export function readColumns(text) {
  const columns = [];
  text.split("\n").forEach((line, place) => {
    const words = withoutComment(line).replace(/^[^:]*:/, "").split(/[\s,]+/).filter(Boolean);
    if (words.length === 0) return;
    if (!words.every((word) => /^\d{1,20}$/.test(word) && BigInt(word) < 2n ** 64n))
      throw new Wrong(`Line ${place + 1}: each number is from 0 to 18446744073709551615, without a sign.`);
    columns.push(BigUint64Array.from(words, BigInt));
  });
  if (columns.length > MOST_COLUMNS) throw new Wrong(`There are ${MOST_COLUMNS} columns at most.`);
  return columns;
}

/** The names of columns that a service has. */
export function readNames(text) {
  const names = text.split(/[\s,]+/).filter(Boolean), wrong = names.find((name) => !/^[A-Za-z_][A-Za-z0-9_-]{0,63}$/.test(name));
  if (wrong !== undefined) throw new Wrong(`${wrong} is no name of a column.`);
  if (names.length > MOST_COLUMNS) throw new Wrong(`There are ${MOST_COLUMNS} columns at most.`);
  return names;
}

/** A vertex of a service's graph. The service knows how many it has. */
export function readVertex(text) {
  if (!/^\d{1,9}$/.test(text.trim())) throw new Wrong("A vertex is a whole number from 0 on.");
  return Number(text);
}

/** Tells if a column has not exactly one number for each vertex. */
export function testColumns(columns, vertices) {
  columns.forEach((column, place) => {
    if (column.length !== vertices)
      throw new Wrong(`Column ${place + 1} has ${column.length} number${column.length === 1 ? "" : "s"}, and the graph ${vertices} vertices.`);
  });
}

/** How long the record of a run with so many columns is, and what stands where in it, in words. */
export function recordOf(argument, columns) {
  const length = EDGE_BYTES + argument.length + COLUMN_BYTES * columns;
  const parts = ["the edge's source at 0, its target at 4, the target's place among the source's neighbours at 8, and how many these are at 12"];
  if (argument.length > 0) parts.push(`the argument from ${EDGE_BYTES} on`);
  for (let place = 0; place < columns; place++) {
    const at = EDGE_BYTES + argument.length + COLUMN_BYTES * place;
    parts.push(`of column ${place + 1} the source's number at ${at} and the target's at ${at + 8}, eight bytes each`);
  }
  return { length, words: `A record has ${length} bytes: ${parts.join("; ")}.` };
}

/** For each unit of the code at which an instruction begins, the line of the text that it is of, from 1, and its statement. */
export function linesOfUnits(text) {
  const statements = text.split("\n").map((line, place) => ({ line: place + 1, statement: line.replace(/;.*/, "").trim() }))
    .filter(({ statement }) => statement !== "" && !/^[A-Za-z_]\w*:$/.test(statement));
  const found = new Map();
  let unit = 0;
  for (const each of statements) {
    found.set(unit, each);
    unit += /^lddw\b/.test(each.statement) ? 2 : 1;
  }
  return found;
}

/** The parts of an explanation: what is known before each unit, where it is refused, and why. `calls` are units whose calls are open there. */
export function readExplanation(text) {
  const units = [], reasons = [];
  let refused = null, calls = [];
  for (const line of text.split("\n").slice(1)) {
    const unit = line.match(/^(\d+): (.*)$/), at = line.match(/^refused at (\d+)/), called = line.match(/^called at (\d+)/), reason = line.match(/^([^:]+): (.*)$/);
    if (unit) {
      units.push({ unit: Number(unit[1]), statement: unit[2], known: [], calls });
      calls = [];
    } else if (line.startsWith("    ") && units.length > 0) units.at(-1).known.push(...line.trim().split(/ {2,}/));
    else if (called) calls.push(Number(called[1]));
    else if (at) refused = Number(at[1]);
    else if (reason) reasons.push({ name: reason[1], words: reason[2] });
  }
  return { units, refused, reasons };
}
