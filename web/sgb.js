/** Graphs of the Stanford GraphBase, by their official names, as arrays.
 *
 *     import { load } from "sgb";
 *
 *     const sgb = await load();
 *     const graph = sgb.graph("petersen()");
 *     graph.n, graph.m;        // 10, 30
 *     graph.neighbors(0);      // where the arcs of vertex 0 lead
 *     graph.names()[0];        // "0.0.0.1.1"
 *     const own = sgb.fromEdges([[0, 1], [1, 2]]);
 *     sgb.product(graph, own.lines(), "strong").id;
 *     graph.close();
 *
 * The graphs are made by sgb.wasm, the library for C (sgb.h) in another form. This file has no dependency. Its types,
 * with a word on each, are in sgb.d.ts.
 */

const FIELDS = "uvwxyz";
const BAD_EXPRESSION = 1000;
// what the library's answers mean
const WORDS = {
  1: "out of memory",
  10: "the head of the .gb file is wrong",
  11: "the end of the .gb file is wrong",
  20: "a record of the .gb file is wrong",
  30: "parameters that make no sense",
  40: "parameters that ask for too much",
  60: "a graph that the operation cannot take",
  100: "the expression is too large",
  101: "an array has another length than it must have",
  102: "there is no such field, or it holds no integers",
  103: "a uniform draw has a bound from 1 to 2^31",
  104: "a graph is open",
  105: "no graph is open",
  106: "there are not so many vertices",
  107: "a name or an id is no text",
  108: "more vertices or arcs than a graph may have",
};
// the products by their names
const PRODUCTS = { cartesian: 0n, direct: 1n, strong: 2n };

/** Why there is no graph. */
export class GraphError extends Error {
  constructor(code) {
    const byte = code >= BAD_EXPRESSION ? code - BAD_EXPRESSION : null;
    const words = byte === null ? (WORDS[code] ?? "something went wrong") : `bad expression at byte ${byte}`;
    super(byte === null ? `${words} (code ${code})` : words);
    this.name = "GraphError";
    this.code = code;
    this.byte = byte;
    this.words = words;
  }
}

/** Memory was refused: what stood before stands after. */
export class MemoryError extends Error {
  constructor() {
    super(`${WORDS[1]} (code 1)`);
    this.name = "MemoryError";
    this.code = 1;
    this.words = WORDS[1];
  }
}

/** Loads the module: its bytes or where they are, else the file beside this one. */
export async function load(source = new URL("./sgb.wasm", import.meta.url), { limit } = {}) {
  const module = source instanceof WebAssembly.Module ? source : await WebAssembly.compile(await bytesOf(source));
  const library = new Library((await WebAssembly.instantiate(module, {})).exports);
  if (limit !== undefined) {
    library.call("sgb_limit", word(limit, 64, "a limit"));
  }
  return new Sgb(library);
}

async function bytesOf(source) {
  if (source instanceof ArrayBuffer || ArrayBuffer.isView(source)) {
    return source;
  }
  const url = new URL(source, globalThis.location?.href ?? import.meta.url);
  if (url.protocol === "file:" && globalThis.process?.versions?.node) {
    const { readFile } = await import(/* @vite-ignore */ /* webpackIgnore: true */ "node:fs/promises");
    return readFile(url);
  }
  const answer = await fetch(url);
  if (!answer.ok) {
    throw new Error(`${url}: ${answer.status} ${answer.statusText}`);
  }
  return answer.arrayBuffer();
}

// a number as a word of so many bits
function word(value, bits, what, isSigned = false) {
  const number = BigInt(value);
  if (number !== (isSigned ? BigInt.asIntN(bits, number) : BigInt.asUintN(bits, number))) {
    throw new RangeError(`${what} is no integer of ${bits} bits${isSigned ? " with its sign" : ""}: ${value}`);
  }
  return number;
}

// an integer from 0 up to 2^32 - 1
function count(value, what) {
  return Number(word(value, 32, what));
}

// a number where it is exact, else a bigint
function exact(number) {
  return number <= BigInt(Number.MAX_SAFE_INTEGER) ? Number(number) : number;
}

function textOf(text) {
  if (typeof text !== "string") {
    throw new TypeError("an expression is a string");
  }
  return new TextEncoder().encode(text);
}

function inputOf(input) {
  if (input instanceof ArrayBuffer) {
    return new Uint8Array(input);
  }
  if (!ArrayBuffer.isView(input)) {
    throw new TypeError("the bytes of a .gb file are an ArrayBuffer or a view of one");
  }
  return new Uint8Array(input.buffer, input.byteOffset, input.byteLength);
}

// The module: its calls, and arrays that are handed to it.
class Library {
  #wasm;
  #stopped = null;

  constructor(wasm) {
    this.#wasm = wasm;
  }

  // A call. A module that once trapped, or ran out of the machine's stack, is not called again.
  call(name, ...words) {
    if (this.#stopped) {
      throw new Error("the module has stopped: load it again", { cause: this.#stopped });
    }
    try {
      return this.#wasm[name](...words);
    } catch (error) {
      this.#stopped = error;
      throw new Error("the module has stopped", { cause: error });
    }
  }

  // A call that answers with a number: 0 where all is well.
  must(name, ...words) {
    const answer = Number(BigInt.asUintN(64, this.call(name, ...words)));
    if (answer === 1) {
      throw new MemoryError();
    }
    if (answer !== 0) {
      throw new GraphError(answer);
    }
  }

  get size() {
    return this.#wasm.memory.buffer.byteLength;
  }

  // Room for so many bytes in the module's memory.
  take(size) {
    const place = this.call("sgb_take", BigInt(size));
    if (place === 0n) {
      throw new MemoryError();
    }
    return place;
  }

  // Room as `take` gives it, for the time that the body runs.
  lend(sizes, body) {
    const places = [];
    try {
      for (const size of sizes) {
        places.push(this.take(size));
      }
      return body(...places);
    } finally {
      places.forEach((place) => this.release("sgb_give", place));
    }
  }

  // Bytes that lie in the module's memory while the body runs, which is handed their place and their number.
  hand(bytes, body) {
    return this.lend([bytes.length], (place) => {
      this.bytes(place, bytes.length).set(bytes);
      return body(place, BigInt(bytes.length));
    });
  }

  // What the module fills: arrays of these types and lengths, each handed over as its place and its length.
  fill(arrays, body) {
    const sizes = arrays.map(([type, length]) => BigInt(length) * BigInt(type.BYTES_PER_ELEMENT));
    return this.lend(sizes, (...places) => {
      body(...places.flatMap((place, k) => [place, BigInt(arrays[k][1])]));
      return arrays.map(([type, length], k) => this.copied(type, places[k], Number(length)));
    });
  }

  // Numbers that the module writes.
  numbers(many, body) {
    return this.lend([8 * many], (place) => {
      body(...Array.from({ length: many }, (_, k) => place + BigInt(8 * k)));
      return [...this.copied(BigUint64Array, place, many)];
    });
  }

  bytes(place, length) {
    return new Uint8Array(this.#wasm.memory.buffer, Number(place), length);
  }

  copied(type, place, length) {
    try {
      return new type(this.#wasm.memory.buffer, Number(place), length).slice();
    } catch (error) {
      throw error instanceof RangeError ? new MemoryError() : error;
    }
  }

  // Arrays that lie in the module's memory while the body runs, each handed over as its place and its length.
  handAll(arrays, body) {
    return this.lend(arrays.map((array) => array.byteLength), (...places) => {
      arrays.forEach((array, k) => {
        const bytes = new Uint8Array(array.buffer, array.byteOffset, array.byteLength);
        this.bytes(places[k], bytes.length).set(bytes);
      });
      return body(...places.flatMap((place, k) => [place, BigInt(arrays[k].length)]));
    });
  }

  // A handle that a call fills, or no memory of it where that throws.
  made(call) {
    const handle = this.take(16);
    try {
      this.bytes(handle, 16).fill(0);
      call(handle);
      return handle;
    } catch (error) {
      this.release("sgb_give", handle);
      throw error;
    }
  }

  close(handle) {
    this.release("sgb_close", handle);
    this.release("sgb_give", handle);
  }

  // A call that gives something back, where the module can still be called.
  release(name, place) {
    if (!this.#stopped) {
      this.call(name, place);
    }
  }
}

// Where a graph is held, for calls of this module on it. It is set by the class.
let handleOf;

// graphs that were not closed, when nothing leads to them any more
const forgotten = new FinalizationRegistry(({ library, handle }) => library.close(handle));

// Places in arrays, as numbers of 32 bits: all that the module's memory can hold has room there.
function placesOf(starts) {
  return Uint32Array.from(starts, Number);
}

// The names that these bytes hold, one from each of the places up to the next one.
function namesOf(starts, bytes) {
  const decoder = new TextDecoder();
  // one text of all, and parts of it, where it is not longer than a text may be
  const whole = bytes.length < 2 ** 28 ? decoder.decode(bytes) : null;
  return Array.from({ length: starts.length - 1 }, (_, v) => {
    const [begin, end] = [starts[v], starts[v + 1]];
    return whole === null ? decoder.decode(bytes.subarray(begin, end)) : whole.slice(begin, end);
  });
}

/** The lists of arcs of a run of vertices, one after another. The module holds nothing of them. */
export class Rows {
  #graph;
  #names = null;

  constructor(graph, first, starts, tips, lengths) {
    this.#graph = graph;
    this.text = graph.text;
    this.first = first;
    this.n = starts.length - 1;
    this.starts = starts;
    this.tips = tips;
    this.lengths = lengths;
  }

  #place(v) {
    const k = v - this.first;
    if (!(k in this.starts) || k === this.n) {
      throw new RangeError(`no vertex ${v}: there are ${this.n} from vertex ${this.first} on`);
    }
    return [this.starts[k], this.starts[k + 1]];
  }

  neighbors(v) {
    return this.tips.subarray(...this.#place(v));
  }

  lengthsOf(v) {
    if (this.lengths === null) {
      throw new Error("the lengths were not asked for");
    }
    return this.lengths.subarray(...this.#place(v));
  }

  degree(v) {
    const [begin, end] = this.#place(v);
    return end - begin;
  }

  *arcs() {
    for (let v = this.first; v < this.first + this.n; v++) {
      const [tips, lengths] = [this.neighbors(v), this.lengthsOf(v)];
      for (let k = 0; k < tips.length; k++) {
        yield { v, tip: tips[k], length: lengths[k] };
      }
    }
  }

  names() {
    this.#names ??= this.#graph.names(this.first, this.n);
    return this.#names;
  }
}

/** A graph that is open: its lists of arcs as arrays, in the order of its vertices. */
export class Graph {
  #library;
  #handle;
  #kept = new Map();

  static {
    handleOf = (graph, library) => {
      if (!(graph instanceof Graph)) {
        throw new TypeError("an operand is a graph that is open");
      }
      if (graph.#library !== library) {
        throw new TypeError("an operand is a graph of another module");
      }
      if (graph.#handle === null) {
        throw new Error("the graph is closed");
      }
      return graph.#handle;
    };
  }

  // A graph that the module holds.
  constructor(library, text, handle) {
    try {
      const [n, idLength] = library.numbers(2, (place) => library.must("sgb_sizes", handle, place));
      const [id] = library.fill([[Uint8Array, idLength]], (...words) => library.must("sgb_id", handle, ...words));
      this.text = text;
      this.id = new TextDecoder().decode(id);
      this.n = Number(n);
    } catch (error) {
      library.close(handle);
      throw error;
    }
    this.#library = library;
    this.#handle = handle;
    forgotten.register(this, { library, handle }, this);
  }

  // What is asked once: it stays when the graph is closed.
  #fetched(what, fetch) {
    if (!this.#kept.has(what)) {
      this.#kept.set(what, fetch());
    }
    return this.#kept.get(what);
  }

  // A call on the graph.
  #must(name, ...words) {
    if (this.#handle === null) {
      throw new Error("the graph is closed");
    }
    this.#library.must(name, this.#handle, ...words);
  }

  #number(name, ...words) {
    return this.#library.numbers(1, (place) => this.#must(name, ...words, place))[0];
  }

  #filled(arrays, name, ...words) {
    return this.#library.fill(arrays, (...places) => this.#must(name, ...words, ...places));
  }

  // A first vertex and a number of vertices that are there.
  #run(first, many) {
    const length = many === undefined ? this.n - first : many;
    if (![first, length].every(Number.isSafeInteger) || first < 0 || length < 0 || first + length > this.n) {
      throw new RangeError(`no ${length} vertices from vertex ${first} on: there are ${this.n}`);
    }
    return [first, length];
  }

  get closed() {
    return this.#handle === null;
  }

  get m() {
    return this.#fetched("m", () => exact(this.#number("sgb_arcs")));
  }

  get kinds() {
    const fetch = () => new TextDecoder().decode(this.#filled([[Uint8Array, 14]], "sgb_kinds")[0]);
    return this.#fetched("kinds", fetch);
  }

  rows(first = 0, many = undefined, { lengths = true } = {}) {
    const run = this.#run(first, many);
    const size = this.#number("sgb_rows_size", ...run);
    const arrays = [[BigUint64Array, run[1] + 1], [Uint32Array, size]];
    const found = lengths
      ? this.#filled([...arrays, [BigInt64Array, size]], "sgb_rows", ...run)
      : this.#filled(arrays, "sgb_tips", ...run);
    return new Rows(this, first, placesOf(found[0]), found[1], found[2] ?? null);
  }

  chunks({ size = 65536, first = 0, count: many, lengths = true } = {}) {
    const [begin, length] = this.#run(first, many);
    if (!Number.isSafeInteger(size) || size < 1) {
      throw new RangeError(`no chunks of ${size} vertices`);
    }
    return this.#each(size, begin, begin + length, lengths);
  }

  *#each(size, first, end, lengths) {
    for (let begin = first; begin < end; begin += size) {
      yield this.rows(begin, Math.min(size, end - begin), { lengths });
    }
  }

  // All lists.
  get #whole() {
    return this.#fetched("rows", () => this.rows());
  }

  get starts() {
    return this.#whole.starts;
  }

  get tips() {
    return this.#whole.tips;
  }

  get lengths() {
    return this.#whole.lengths;
  }

  // Lists among which that of vertex v is: all, where these are there, else it alone.
  #with(v, lengths) {
    this.#vertex(v);
    return this.#kept.get("rows") ?? this.rows(v, 1, { lengths });
  }

  #vertex(v) {
    if (!Number.isSafeInteger(v) || v < 0 || v >= this.n) {
      throw new RangeError(`no vertex ${v}: there are ${this.n}`);
    }
  }

  neighbors(v) {
    return this.#with(v, false).neighbors(v);
  }

  lengthsOf(v) {
    return this.#with(v, true).lengthsOf(v);
  }

  degree(v) {
    this.#vertex(v);
    return Number(this.#kept.get("rows")?.degree(v) ?? this.#number("sgb_rows_size", v, 1));
  }

  *arcs() {
    for (const rows of this.#kept.has("rows") ? [this.#whole] : this.chunks({ size: 4096 })) {
      yield* rows.arcs();
    }
  }

  names(first = 0, many = undefined) {
    const [begin, length] = this.#run(first, many);
    if (this.#kept.has("names") || length === this.n) {
      const all = this.#fetched("names", () => this.#namesOf(0, this.n));
      return length === this.n ? all : all.slice(begin, begin + length);
    }
    return this.#namesOf(begin, length);
  }

  #namesOf(first, many) {
    const size = this.#number("sgb_names_size", first, many);
    const arrays = [[BigUint64Array, many + 1], [Uint8Array, size]];
    const [starts, bytes] = this.#filled(arrays, "sgb_names", first, many);
    return namesOf(placesOf(starts), bytes);
  }

  name(v) {
    this.#vertex(v);
    return this.names(v, 1)[0];
  }

  vertex(name) {
    for (let first = 0; first < this.n; first += 65536) {
      const k = this.names(first, Math.min(65536, this.n - first)).indexOf(name);
      if (k >= 0) {
        return first + k;
      }
    }
    return null;
  }

  ints(field, first = 0, many = undefined) {
    const place = typeof field === "string" && field.length === 1 ? FIELDS.indexOf(field) : -1;
    if (place < 0) {
      throw new RangeError(`no field ${field}: one of u v w x y z`);
    }
    const [begin, length] = this.#run(first, many);
    const fetch = (from, count) => this.#filled([[BigInt64Array, count]], "sgb_ints", place, from, count)[0];
    if (this.#kept.has(`ints ${field}`) || length === this.n) {
      return this.#fetched(`ints ${field}`, () => fetch(0, this.n)).subarray(begin, begin + length);
    }
    return fetch(begin, length);
  }

  complement({ copy = false, selfLoops = false, directed = false } = {}) {
    return operated(this.#library, "sgb_complement", [this], copy, selfLoops, directed);
  }

  lines({ directed = false } = {}) {
    return operated(this.#library, "sgb_lines", [this], directed);
  }

  save() {
    if (this.#handle === null) {
      throw new Error("the graph is closed, and cannot be saved");
    }
    return this.#filled([[Uint8Array, this.#number("sgb_file_size")]], "sgb_file")[0];
  }

  *blocks() {
    const { n, starts, tips, lengths } = this;
    const names = this.names();
    yield `  The graph whose official name is\n${this.id}\n  has ${n} vertices and ${this.m} arcs:\n\n`;
    for (let v = 0; v < n; v++) {
      let block = `${names[v]}\n`;
      for (let k = starts[v]; k < starts[v + 1]; k++) {
        block += `  -> ${names[tips[k]]}, length ${lengths[k]}\n`;
      }
      yield block;
    }
  }

  list() {
    return [...this.blocks()].join("");
  }

  close() {
    if (this.#handle !== null) {
      const handle = this.#handle;
      this.#handle = null;
      forgotten.unregister(this);
      this.#library.close(handle);
    }
  }
}

// The graph that a call makes of these graphs; a flag is a word of 0 or 1.
function operated(library, name, graphs, ...words) {
  const handles = graphs.map((graph) => handleOf(graph, library));
  const plain = words.map((value) => (typeof value === "bigint" ? value : Number(Boolean(value))));
  return new Graph(library, "stdin", library.made((made) => library.must(name, ...handles, ...plain, made)));
}

// An operation on two graphs: one that comes twice has a call of its own.
function operatedOnTwo(library, name, first, second, ...words) {
  const [graphs, end] = first === second ? [[first], "_self"] : [[first, second], "_of"];
  return operated(library, name + end, graphs, ...words);
}

// The names of vertices as the module takes them: all one after another, and where each begins and ends.
function packedNames(names) {
  const encoder = new TextEncoder();
  const all = names.map((name) => {
    if (typeof name !== "string") {
      throw new TypeError(`a name is a string: ${name}`);
    }
    return encoder.encode(name);
  });
  const starts = new BigUint64Array(all.length + 1);
  all.forEach((bytes, v) => (starts[v + 1] = starts[v] + BigInt(bytes.length)));
  const together = new Uint8Array(Number(starts[all.length]));
  all.forEach((bytes, v) => together.set(bytes, Number(starts[v])));
  return [starts, together];
}

// Numbers as an array of this type; one that is such an array is taken as it is.
function column(type, values, convert) {
  return values instanceof type ? values : type.from(values, convert);
}

/** What `load` gives: the calls of one module, with a memory of its own. */
export class Sgb {
  #library;

  constructor(library) {
    this.#library = library;
  }

  graph(text, input = new Uint8Array()) {
    const [words, given] = [textOf(text), inputOf(input)];
    const library = this.#library;
    return new Graph(library, text, library.made((made) => {
      library.hand(words, (...of) => library.hand(given, (...bytes) => library.must("sgb_open", ...of, ...bytes, made)));
    }));
  }

  make({ n, names, from, to, lengths, directed = false, id = "own" }) {
    const called = names === undefined ? Array.from({ length: count(n ?? 0, "a number of vertices") }, (_, v) => String(v)) : [...names];
    const ends = [from, to].map((values) => column(Uint32Array, values, (value) => count(value, "an end of an arc")));
    const sizes = lengths === undefined
      ? new BigInt64Array(ends[0].length).fill(1n)
      : column(BigInt64Array, lengths, (value) => word(value, 64, "a length", true));
    if (typeof id !== "string") {
      throw new TypeError("an id is a string");
    }
    const library = this.#library;
    const title = new TextEncoder().encode(id);
    return new Graph(library, "stdin", library.made((made) => {
      library.handAll([...packedNames(called), ...ends, sizes, title], (...words) => {
        library.must("sgb_make", ...words.slice(0, 10), Number(Boolean(directed)), ...words.slice(10), made);
      });
    }));
  }

  fromEdges(edges, { n, names, directed = false, id = "own" } = {}) {
    // each list has the last one that the module is handed first
    const turned = [...edges].reverse();
    const ends = turned.flatMap(([v, tip]) => [v, tip]);
    const most = names?.length ?? n ?? ends.reduce((found, end) => Math.max(found, Number(end) + 1), 0);
    const columns = { from: turned.map(([v]) => v), to: turned.map(([, tip]) => tip), lengths: turned.map(([, , length]) => length ?? 1) };
    return this.make({ n: most, names, ...columns, directed, id });
  }

  gunion(first, second, { multi = false, directed = false } = {}) {
    return operatedOnTwo(this.#library, "sgb_gunion", first, second, multi, directed);
  }

  intersection(first, second, { multi = false, directed = false } = {}) {
    return operatedOnTwo(this.#library, "sgb_intersection", first, second, multi, directed);
  }

  product(first, second, kind = "cartesian", { directed = false } = {}) {
    if (!Object.hasOwn(PRODUCTS, kind)) {
      throw new RangeError(`no product ${kind}: one of ${Object.keys(PRODUCTS).join(", ")}`);
    }
    return operatedOnTwo(this.#library, "sgb_product", first, second, PRODUCTS[kind], directed);
  }

  induced(graph, entries, { selfLoops = false, multi = false, directed = false } = {}) {
    const library = this.#library;
    handleOf(graph, library);
    return library.lend([16], (list) => {
      library.bytes(list, 16).fill(0);
      try {
        for (const entry of entries) {
          if (entry instanceof Graph) {
            library.must("sgb_entries_graph", list, handleOf(entry, library));
          } else {
            library.must("sgb_entries_number", list, word(entry, 64, "an entry", true));
          }
        }
        return operated(library, "sgb_induced_by", [graph], list, selfLoops, multi, directed);
      } finally {
        library.release("sgb_entries_close", list);
      }
    });
  }

  biComplete(n1, n2, { directed = false } = {}) {
    const sizes = [n1, n2].map((size) => word(size, 64, "a number of vertices", true));
    return operated(this.#library, "sgb_bi_complete", [], ...sizes, directed);
  }

  wheel(n, n1 = 1, { directed = false } = {}) {
    const sizes = [n, n1].map((size) => word(size, 64, "a number of vertices", true));
    return operated(this.#library, "sgb_wheel", [], ...sizes, directed);
  }

  wheelAround(middle, n, { directed = false } = {}) {
    const [around, flag] = [word(n, 64, "a number of vertices", true), Number(Boolean(directed))];
    handleOf(middle, this.#library);
    // too many vertices are refused before anything is built
    const size = around > 1_000_000_000n - BigInt(middle.n) ? 1_000_000_001n : around;
    const rim = this.graph(`board(${size < 0n ? 0n : size},0,0,0,1,1,${flag})`);
    const pair = this.graph(`board(2,0,0,0,1,0,${flag})`);
    try {
      return this.induced(pair, [middle, rim], { directed });
    } finally {
      rim.close();
      pair.close();
    }
  }

  get version() {
    const number = Number(this.#library.call("sgb_version"));
    return [Math.floor(number / 1e6), Math.floor(number / 1e3) % 1e3, number % 1e3].join(".");
  }

  flip(start, skip = 0, many = 1, m = 0) {
    const words = [word(start, 64, "a start", true), word(skip, 64, "a skip")];
    const [length, bound] = [word(many, 53, "a count"), count(m, "a bound")];
    const library = this.#library;
    return library.fill([[Uint32Array, length]], (...places) => {
      if (bound === 0) {
        library.call("sgb_draws", ...words, ...places);
      } else {
        library.must("sgb_uniform_draws", ...words, bound, ...places);
      }
    })[0];
  }

  get memory() {
    return { size: this.#library.size, taken: Number(this.#library.call("sgb_taken")) };
  }
}
