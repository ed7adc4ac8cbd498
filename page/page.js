// The page: what is typed, shown and taken away. The graph itself is in the worker.
import { placesOf } from "./layout.js";

const EXAMPLES = [
  "petersen()", "board(8,8,0,0,5,0,0)", "board(6,9,0,0,1,3,0)", "board(3,4,5,0,1,0,0)", "simplex(8,-2,0,0,0,0,0)",
  "complete(9)", "wheel(12,1,0)", "product(circuit(12),circuit(5),0,0)", "lines(complete(5),0)",
  "board(1000000000,0,0,0,1,0,0)",
];
const FORMS = [
  ["board(8,8,0,0,1,0,0)", "sizes n1 n2 n3 n4, piece, wrap, directed"],
  ["simplex(8,-2,0,0,0,0,0)", "n, sizes n0 to n4, directed"],
  ["subsets(2,1,-4,0,0,0,0x1,0)", "n, sizes n0 to n4, size_bits, directed"],
  ["complete(5)", "n"], ["transitive(5)", "n"],
  ["empty(5)", "n"], ["circuit(5)", "n"], ["cycle(5)", "n"], ["disjoint_subsets(5,2)", "n, k"], ["petersen()", ""],
  ["complement(petersen(),0,0,0)", "graph, copy, loops, directed"],
  ["gunion(circuit(5),complete(3),0,0)", "graph, graph, multi, directed"],
  ["intersection(complete(5),circuit(5),0,0)", "graph, graph, multi, directed"],
  ["lines(complete(4),0)", "graph, directed"],
  ["product(circuit(3),circuit(4),0,0)", "graph, graph, type, directed"],
  ["induced(complete(3),[1,2,1],0,0,0)", "graph, weights or graphs, flags"],
  ["bi_complete(3,4,0)", "n1, n2, directed"], ["wheel(6,1,0)", "n, n1, directed"], ["stdin", "a .gb file"],
];
// what is made of two graphs: a call of the package, with the kind of a product
const OPERATIONS = [
  ["gunion", "union"], ["intersection", "intersection"], ["product cartesian", "cartesian product"],
  ["product direct", "direct product"], ["product strong", "strong product"], ["", "nothing: the graph above alone"],
];
const COUNT = 100;
const DRAWN = { vertices: 3000, arcs: 60_000 };
const SIDE = 1000;
const SVG = "http://www.w3.org/2000/svg";

const at = (id) => document.getElementById(id);
let worker = null;
let waiting = new Map();
let ticket = 0;
let begun = 0;
let input = new ArrayBuffer(0);
let second = null;
let head = null;
let picture = null;
let chosen = null;
let view = null;

function begin() {
  worker?.terminate();
  waiting.forEach(({ reject }) => reject({ name: "Stopped", message: "stopped" }));
  waiting = new Map();
  worker = new Worker("worker.js", { type: "module" });
  worker.onmessage = ({ data }) => {
    const { resolve, reject } = waiting.get(data.ticket);
    waiting.delete(data.ticket);
    data.fault ? reject(data.fault) : resolve(data.answer);
  };
}

function ask(what, words) {
  ticket += 1;
  worker.postMessage({ ticket, what, words });
  return new Promise((resolve, reject) => waiting.set(ticket, { resolve, reject }));
}

// Runs what takes its time, while the stop button works, and tells how it ended, unless something else has begun.
async function busily(said, work) {
  begun += 1;
  const own = begun;
  at("state").textContent = said;
  at("stop").disabled = false;
  const fault = await work().then(() => null, (why) => why);
  if (own === begun) {
    at("state").textContent = "";
    at("stop").disabled = true;
    if (fault) {
      tell(fault);
    }
  }
}

function tell({ name, message, byte, code }) {
  if (name === "Stopped") {
    at("state").textContent = "Stopped.";
    at("answer").hidden = true;
    return;
  }
  const text = at("text").value;
  let mark = "";
  if (byte !== null && byte !== undefined) {
    const place = new TextDecoder().decode(new TextEncoder().encode(text).slice(0, byte)).length;
    const from = Math.max(0, place - 40);
    const said = place < text.length ? "here" : "more is wanted here";
    mark = `\n${text.slice(from, place + 40)}\n${" ".repeat(place - from)}^ ${said}`;
  }
  const isWithoutFile = code === 10 && input.byteLength === 0 && text.includes("stdin");
  at("fault").textContent = isWithoutFile ? "stdin is a .gb file: drop one on this page, or choose it" : message + mark;
  at("fault").hidden = false;
}

async function make() {
  const text = at("text").value;
  const { first } = fromAddress();
  const address = `#${new URLSearchParams({ e: text, v: first })}`;
  if (location.hash !== address) {
    history.pushState(null, "", address);
  }
  begin();
  at("fault").hidden = true;
  at("answer").hidden = true;
  await busily("Making the graph ..", async () => {
    head = await ask("open", { text, input, pair: pairOf() });
    at("id").textContent = head.id;
    at("counts").textContent = `${head.n} vertices and ${head.m} arcs`;
    for (const id of ["take-list", "take-file"]) {
      at(id).disabled = !head.isWhole;
    }
    at("answer").hidden = false;
    await draw();
    await turn(first);
  });
}

// What is to be made with the second file, if there is one.
function pairOf() {
  const [name, kind] = at("operation").value.split(" ");
  return second && name ? { second, name, kind, multi: at("multi").checked, directed: at("directed").checked } : null;
}

// The lists from a vertex on.
async function turn(first) {
  const from = Math.min(Math.max(0, Math.trunc(first) || 0), Math.max(0, head.n - 1));
  const lists = await ask("lists", { first: from, count: Math.min(COUNT, head.n - from) });
  at("first").value = from;
  at("before").disabled = from === 0;
  at("after").disabled = from + COUNT >= head.n;
  at("blocks").replaceChildren(...lists.map((lines, k) => {
    const item = document.createElement("li");
    item.textContent = lines.join("\n");
    item.dataset.vertex = from + k;
    item.onpointerenter = () => choose(from + k, false);
    return item;
  }));
  history.replaceState(null, "", `#${new URLSearchParams({ e: at("text").value, v: from })}`);
}

function made(name, attributes, text) {
  const element = document.createElementNS(SVG, name);
  Object.entries(attributes).forEach(([key, value]) => element.setAttribute(key, value));
  if (text !== undefined) {
    element.textContent = text;
  }
  return element;
}

async function draw() {
  picture = null;
  chosen = null;
  const isDrawn = head.isWhole && head.n > 0 && head.n <= DRAWN.vertices && Number(head.m) <= DRAWN.arcs;
  at("drawing").toggleAttribute("hidden", !isDrawn);
  at("zoom").hidden = !isDrawn;
  at("take-svg").disabled = !isDrawn;
  at("drawn").textContent = "";
  if (!isDrawn) {
    at("drawn").textContent = `Drawn are graphs of at most ${DRAWN.vertices} vertices and ${DRAWN.arcs} arcs.`;
    at("drawing").replaceChildren();
    return;
  }
  const graph = await ask("drawing", {});
  const places = placesOf(head.id, graph).map((place) => place.map((x) => SIDE * x));
  // what is one pixel of the screen
  const unit = SIDE / Math.max(200, at("drawing").clientWidth);
  const radius = Math.max(1.2, Math.min(6 * unit, 160 / Math.sqrt(head.n)));
  picture = { ...graph, places, radius, unit };
  const lines = [];
  for (let v = 0; v < head.n; v++) {
    for (let k = graph.starts[v]; k < graph.starts[v + 1]; k++) {
      lines.push(lineOf(v, graph.tips[k]));
    }
  }
  const circles = places.map(([cx, cy], v) => {
    const circle = made("circle", { class: "vertex", cx: cx.toFixed(1), cy: cy.toFixed(1), r: radius });
    circle.append(made("title", {}, graph.names[v]));
    circle.onpointerenter = () => choose(v, true);
    return circle;
  });
  picture.circles = circles;
  picture.over = made("g", { class: "over" });
  const names = head.n > 120 ? [] : places.map(([x, y], v) => nameAt(x, y, graph.names[v]));
  const edges = made("path", { class: "edges", d: lines.join("") });
  at("drawing").replaceChildren(edges, ...circles, ...names, picture.over);
  look({ x: 0, y: 0, side: SIDE });
}

function nameAt(x, y, name) {
  const size = Math.min(13 * picture.unit, Math.max(9, 5 * picture.radius));
  const place = { x: x.toFixed(1), y: (y - picture.radius - 4).toFixed(1) };
  return made("text", { class: "label", ...place, "font-size": size, "stroke-width": size / 5 }, name);
}

// The line of an arc; a loop is a small round beside its vertex.
function lineOf(v, tip) {
  const [[x, y], [a, b]] = [picture.places[v], picture.places[tip]];
  const r = 2.5 * picture.radius;
  const begun = `M${x.toFixed(1)} ${y.toFixed(1)}`;
  return v === tip ? `${begun}a${r} ${r} 0 1 1 .1 .1` : `${begun}L${a.toFixed(1)} ${b.toFixed(1)}`;
}

// Shows a vertex: its arcs with their places in its list, and its lines in the listing.
function choose(v, isScrolled) {
  document.querySelectorAll(".chosen").forEach((element) => element.classList.remove("chosen"));
  const item = at("blocks").querySelector(`[data-vertex="${v}"]`);
  item?.classList.add("chosen");
  if (isScrolled) {
    item?.scrollIntoView({ block: "nearest" });
  }
  chosen = v;
  if (!picture) {
    return;
  }
  const { starts, tips, places, radius, circles, names } = picture;
  circles[v].classList.add("chosen");
  const parts = [];
  for (let k = starts[v]; k < starts[v + 1]; k++) {
    const [[x, y], [a, b]] = [places[v], places[tips[k]]];
    parts.push(made("path", { class: "arc", d: lineOf(v, tips[k]) }));
    const [far, size] = [0.6, 15 * picture.unit];
    const place = { x: x + far * (a - x), y: y + far * (b - y) };
    const word = { class: "label number", ...place, "font-size": size, "stroke-width": size / 4 };
    parts.push(made("text", word, k - starts[v] + 1));
  }
  parts.push(nameAt(...places[v], names[v]));
  picture.over.replaceChildren(...parts);
  at("drawn").textContent = `${names[v]}: arcs in the order of its list`;
}

function look({ x, y, side }) {
  view = { x, y, side };
  at("drawing").setAttribute("viewBox", `${x} ${y} ${side} ${side}`);
}

function zoom(by, x = view.x + view.side / 2, y = view.y + view.side / 2) {
  const side = Math.min(4 * SIDE, Math.max(SIDE / 100, view.side * by));
  const share = side / view.side;
  look({ x: x - (x - view.x) * share, y: y - (y - view.y) * share, side });
}

function take(name, blob) {
  const link = document.createElement("a");
  link.href = URL.createObjectURL(blob);
  link.download = name;
  link.click();
  setTimeout(() => URL.revokeObjectURL(link.href), 1000);
}

function svgText() {
  const copy = at("drawing").cloneNode(true);
  copy.setAttribute("xmlns", SVG);
  const lines = ".edges{stroke:#888;fill:none}.arc{stroke:#0b57d0;fill:none}";
  copy.prepend(made("style", {}, `${lines}.label{text-anchor:middle;font-family:sans-serif}`));
  return new XMLSerializer().serializeToString(copy);
}

function fromAddress() {
  const words = new URLSearchParams(location.hash.slice(1));
  return { text: words.get("e"), first: Number(words.get("v")) || 0 };
}

function follow() {
  const { text } = fromAddress();
  at("text").value = text ?? EXAMPLES[0];
  make();
}

// Another graph begins at its first vertex.
function makeAnew(text) {
  at("text").value = text;
  history.pushState(null, "", `#${new URLSearchParams({ e: text, v: 0 })}`);
  make();
}

async function giveFile(file, other) {
  input = await file.arrayBuffer();
  at("given").textContent = `${file.name}, ${input.byteLength} bytes`;
  if (other) {
    await keepSecond(other);
  }
  makeAnew(at("text").value.includes("stdin") ? at("text").value : "stdin");
}

async function keepSecond(file) {
  second = await file.arrayBuffer();
  at("given-second").textContent = `${file.name}, ${second.byteLength} bytes`;
  at("pair").hidden = false;
}

async function giveSecond(file) {
  await keepSecond(file);
  makeAnew(at("text").value);
}

at("forms").append(...FORMS.map(([value, label]) => Object.assign(document.createElement("option"), { value, label })));
at("operation").append(...OPERATIONS.map(([value, textContent]) => {
  return Object.assign(document.createElement("option"), { value, textContent });
}));
for (const id of ["operation", "multi", "directed"]) {
  at(id).onchange = () => makeAnew(at("text").value);
}
at("examples").append(...EXAMPLES.map((text) => {
  const button = Object.assign(document.createElement("button"), { type: "button", textContent: text });
  button.onclick = () => makeAnew(text);
  return button;
}));
at("form").onsubmit = (event) => {
  event.preventDefault();
  makeAnew(at("text").value);
};
at("turn").onsubmit = (event) => {
  event.preventDefault();
  busily("", () => turn(Number(at("first").value)));
};
at("before").onclick = () => busily("", () => turn(Number(at("first").value) - COUNT));
at("after").onclick = () => busily("", () => turn(Number(at("first").value) + COUNT));
at("stop").onclick = begin;
at("closer").onclick = () => zoom(0.7);
at("farther").onclick = () => zoom(1 / 0.7);
at("whole").onclick = () => look({ x: 0, y: 0, side: SIDE });
at("take-list").onclick = () => busily("Writing the listing ..", async () => take("graph.txt", await ask("list", {})));
at("take-file").onclick = () => busily("Writing the file ..", async () => take("graph.gb", await ask("save", {})));
at("take-svg").onclick = () => take("graph.svg", new Blob([svgText()], { type: "image/svg+xml" }));
at("drawing").onwheel = (event) => {
  event.preventDefault();
  const box = at("drawing").getBoundingClientRect();
  const [x, y] = [(event.clientX - box.left) / box.width, (event.clientY - box.top) / box.height];
  zoom(event.deltaY < 0 ? 0.85 : 1 / 0.85, view.x + x * view.side, view.y + y * view.side);
};
at("drawing").onpointermove = (event) => {
  if (event.buttons === 1) {
    const share = view.side / at("drawing").getBoundingClientRect().width;
    look({ ...view, x: view.x - event.movementX * share, y: view.y - event.movementY * share });
  }
};
at("drawing").onkeydown = (event) => {
  const step = { ArrowRight: 1, ArrowDown: 1, ArrowLeft: -1, ArrowUp: -1 }[event.key];
  if (step && picture) {
    event.preventDefault();
    choose(((chosen ?? -1) + step + head.n) % head.n, true);
  }
};
at("file").onchange = () => at("file").files[0] && giveFile(at("file").files[0]);
at("second").onchange = () => at("second").files[0] && giveSecond(at("second").files[0]);
document.ondragover = (event) => event.preventDefault();
document.ondrop = (event) => {
  event.preventDefault();
  if (event.dataTransfer.files[0]) {
    giveFile(event.dataTransfer.files[0], event.dataTransfer.files[1]);
  }
};
window.onpopstate = follow;
follow();
