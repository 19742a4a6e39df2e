// The graph as a drawing: vertices in a circle, and an arrow for each edge with its number.

/** A drawing has no more vertices, and no more edges. */
export const MOST_VERTICES = 24;
export const MOST_EDGES = 72;
const WIDTH = 440, HEIGHT = 380, RADIUS = 13, BEND = 16, LOOP = 44, LONG = 9;
// An edge's number stands at this part of its arrow, since the middles of many arrows lie in one place.
const PART = 0.4;
const SPACE = "http://www.w3.org/2000/svg";

/** An element with attributes and what stands in it: elements or text. */
export function make(name, attributes = {}, ...inside) {
  const element = document.createElement(name);
  for (const [key, value] of Object.entries(attributes)) element.setAttribute(key, value);
  element.append(...inside);
  return element;
}

function shape(name, attributes = {}, ...inside) {
  const element = document.createElementNS(SPACE, name);
  for (const [key, value] of Object.entries(attributes)) element.setAttribute(key, value);
  element.append(...inside);
  return element;
}

export const isDrawn = (vertices, edges) => vertices <= MOST_VERTICES && edges <= MOST_EDGES;

/** A long number without its middle. */
export function shortened(number) {
  const digits = String(number);
  return digits.length <= LONG ? digits : `${digits.slice(0, 4)}…${digits.slice(-3)}`;
}

/** Where the vertex stands that is the one so far among so many. */
function placeOf(number, count) {
  if (count === 1) return { x: WIDTH / 2, y: HEIGHT / 2 };
  const turn = (2 * Math.PI * number) / count - Math.PI / 2;
  return { x: WIDTH / 2 + (WIDTH / 2 - 46) * Math.cos(turn), y: HEIGHT / 2 + (HEIGHT / 2 - 42) * Math.sin(turn) };
}

const rounded = (number) => number.toFixed(1);
const point = ({ x, y }) => `${rounded(x)} ${rounded(y)}`;

/** The way of an arrow from a vertex to itself, outside of the circle. */
function loopWay(from) {
  const away = Math.atan2(from.y - HEIGHT / 2, from.x - WIDTH / 2);
  const at = (turn, far) => ({ x: from.x + far * Math.cos(away + turn), y: from.y + far * Math.sin(away + turn) });
  const [begin, left, right, end] = [at(-0.7, RADIUS), at(-0.75, LOOP), at(0.75, LOOP), at(0.7, RADIUS + 2)];
  return { path: `M${point(begin)}C${point(left)} ${point(right)} ${point(end)}`, number: at(0, 0.75 * LOOP) };
}

/** The way of an arrow from one vertex to another, a little bent so that two opposite ones lie apart. */
function arrowWay(from, to) {
  const far = Math.hypot(to.x - from.x, to.y - from.y), across = { x: (from.y - to.y) / far, y: (to.x - from.x) / far };
  const middle = { x: (from.x + to.x) / 2 + BEND * across.x, y: (from.y + to.y) / 2 + BEND * across.y };
  const edgeOf = (vertex, gap) => {
    const length = Math.hypot(middle.x - vertex.x, middle.y - vertex.y);
    return { x: vertex.x + ((middle.x - vertex.x) * gap) / length, y: vertex.y + ((middle.y - vertex.y) * gap) / length };
  };
  const mixed = (axis) => (1 - PART) ** 2 * from[axis] + 2 * PART * (1 - PART) * middle[axis] + PART ** 2 * to[axis];
  const path = `M${point(edgeOf(from, RADIUS))}Q${point(middle)} ${point(edgeOf(to, RADIUS + 2))}`;
  return { path, number: { x: mixed("x"), y: mixed("y") } };
}

function numberOf({ source, target, number }, { x, y }) {
  const whole = shape("title", {}, `${source} to ${target}: ${number}`);
  return shape("text", { x: rounded(x), y: rounded(y), class: "number" }, whole, shortened(number));
}

/** A drawing of a graph. edges: pairs of its vertices, each with its number, or null if no run gave one. */
export function draw(vertices, edges) {
  const places = new Map(vertices.map((vertex, number) => [vertex, placeOf(number, vertices.length)]));
  const words = `Drawing of ${vertices.length} vertices and ${edges.length} edges. The tables have its numbers.`;
  const svg = shape("svg", { viewBox: `0 0 ${WIDTH} ${HEIGHT}`, role: "img", "aria-label": words });
  const tip = { id: "tip", viewBox: "0 0 8 8", refX: 7, refY: 4, markerWidth: 7, markerHeight: 7, orient: "auto" };
  const numbers = [];
  svg.append(shape("defs", {}, shape("marker", tip, shape("path", { d: "M0 0L8 4L0 8z", class: "tip" }))));
  for (const edge of edges) {
    const from = places.get(edge.source);
    const way = edge.source === edge.target ? loopWay(from) : arrowWay(from, places.get(edge.target));
    svg.append(shape("path", { d: way.path, class: "edge", "marker-end": "url(#tip)" }));
    if (edge.number !== null) numbers.push(numberOf(edge, way.number));
  }
  for (const [vertex, { x, y }] of places) {
    const at = { x: rounded(x), y: rounded(y) };
    svg.append(shape("circle", { cx: at.x, cy: at.y, r: RADIUS, class: "vertex" }), shape("text", { ...at, class: "name" }, String(vertex)));
  }
  svg.append(...numbers);
  return svg;
}

/** A table with a caption, heads and rows; of more than `most` rows it has the first ones, and says so. */
export function table(caption, heads, rows, most = 200) {
  const cell = (word, place) => (place === 0 ? make("th", { scope: "row" }, String(word)) : make("td", {}, String(word)));
  const head = make("tr", {}, ...heads.map((word) => make("th", { scope: "col" }, word)));
  const body = rows.slice(0, most).map((row) => make("tr", {}, ...row.map(cell)));
  if (rows.length > most) body.push(make("tr", {}, make("td", { colspan: heads.length }, `and ${rows.length - most} more`)));
  return make("table", {}, make("caption", {}, caption), make("thead", {}, head), make("tbody", {}, ...body));
}
