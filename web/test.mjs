/* Tests of the package, for Node: web/test.mjs FOLDER, where FOLDER has sgb.js and sgb.wasm; else this file's own.
 *
 * The graphs and refusals are those of conformance/graphs.tsv. The last line is `N passed, M failed`. */
import { createHash } from "node:crypto";
import { readFile } from "node:fs/promises";
import { resolve } from "node:path";
import { pathToFileURL } from "node:url";
import { setFlagsFromString } from "node:v8";
import { runInNewContext } from "node:vm";

const here = new URL(".", import.meta.url);
const folder = process.argv[2] ? pathToFileURL(`${resolve(process.argv[2])}/`) : here;
const { Graph, GraphError, MemoryError, Rows, load } = await import(new URL("sgb.js", folder));

const FILE = `* GraphBase graph (util_types ZZZZZZZZZZZZZZ,2V,2A)
"two",2,2
* Vertices
"left",A0
"right",A1
* Arcs
V1,0,7
V0,0,-3
* Checksum -1
`;
const MANY = FILE.replace('"two",2,2', '"two",2,99999999999999999');
const GRAPHS = [
  "petersen()", "board(3,4,0,0,1,0,0)", "board(0,0,0,0,-1,0,0)", "complete(1)", "transitive(6)", "circuit(2)",
  "simplex(3,-3,0,0,0,0,0)", "disjoint_subsets(6,3)", "board(20,20,0,0,1,1,0)",
];
// a module of one call, sgb_take, which traps
const TRAP = Uint8Array.of(
  0, 97, 115, 109, 1, 0, 0, 0, 1, 6, 1, 96, 1, 126, 1, 126, 3, 2, 1, 0, 5, 3, 1, 0, 1, 7, 21, 2, 6,
  ...bytes("memory"), 2, 0, 8, ...bytes("sgb_take"), 0, 0, 10, 5, 1, 3, 0, 0, 11,
);
const GREAT = "board(1000000000,0,0,0,1,0,0)";

let passed = 0;
let failed = 0;

function check(isSo, what) {
  if (isSo) {
    passed += 1;
  } else {
    failed += 1;
    console.log(`failed: ${what}`);
  }
}

function same(got, wanted, what) {
  const [a, b] = [got, wanted].map((value) => (value && typeof value === "object" ? [...value].join() : value));
  check(a === b, `${what}: gave ${String(a).slice(0, 300)}, and not ${String(b).slice(0, 300)}`);
}

// What a call throws, or null.
function thrown(call) {
  try {
    call();
    return null;
  } catch (error) {
    return error;
  }
}

function refused(call, code, what) {
  const error = thrown(call);
  check(error instanceof GraphError, `${what}: threw ${error}`);
  same(error?.code, code, `${what}: the code`);
  same(error?.byte, code >= 1000 ? code - 1000 : null, `${what}: the byte`);
  check(error?.words && !error.words.startsWith("something"), `${what}: said ${error?.words}`);
}

function digest(bytes) {
  return createHash("sha256").update(bytes).digest("hex");
}

function bytes(text) {
  return new TextEncoder().encode(text);
}

async function rows() {
  const text = await readFile(new URL("../conformance/graphs.tsv", here), "ascii");
  return text.split("\n").filter((line) => line && !line.startsWith("#")).map((line) => line.split("\t"));
}

// The code of the line that the program writes.
function codeOf(line) {
  const found = /^Something went wrong \(panic code (\d+)\)!$|^sgb: bad expression at byte (\d+)$/.exec(line);
  if (!found) {
    return line === "sgb: expression too large" ? 100 : null;
  }
  return found[1] ? Number(found[1]) : 1000 + Number(found[2]);
}

const shown = (text) => (text.length < 60 ? text : `${text.slice(0, 40)} ..`);

const tests = {
  async conformance() {
    const sgb = await load();
    const [graphs, refusals] = [[], []];
    for (const row of await rows()) {
      (row[3] === "-" ? refusals : graphs).push(row);
    }
    check(graphs.length > 100 && refusals.length > 20, "the table has fewer rows");
    for (const [text, n, m, names, list, save] of graphs) {
      const graph = sgb.graph(text);
      same(`${graph.n} ${graph.m}`, `${n} ${m}`, `${text}: n and m`);
      same(digest(graph.names().map((name) => `${name}\n`).join("")), names, `${text}: names`);
      same(digest(graph.list()), list, `${text}: list`);
      same(digest(graph.save()), save, `${text}: save`);
      graph.close();
    }
    for (const [written, , line] of refusals) {
      const times = /^(\d+) x (.)$/.exec(written);
      const text = times ? times[2].repeat(Number(times[1])) : written;
      refused(() => sgb.graph(text), codeOf(line), shown(text));
    }
    same(sgb.memory.taken, 0, "taken after the table");
  },

  async files() {
    const sgb = await load();
    const graph = sgb.graph("stdin", bytes(FILE));
    same(graph.names(), ["left", "right"], "names of a file");
    same(graph.lengths, [7n, -3n], "lengths of a file");
    same(graph.tips, [1, 0], "tips of a file");
    check(graph.list().endsWith("right\n  -> left, length -3\n"), "the listing of a file");
    check(new TextDecoder().decode(graph.save()).startsWith(FILE.slice(0, FILE.indexOf("-1"))), "a file saved again");
    same(sgb.graph("stdin", bytes(FILE).buffer).id, "two", "an ArrayBuffer");
    same(sgb.graph("stdin", new DataView(bytes(` ${FILE}`).buffer, 1)).id, "two", "a view");
    same(sgb.graph("stdin", bytes(MANY)).m, 99999999999999999n, "an m above 2^53");
    for (const text of GRAPHS) {
      const first = sgb.graph(text);
      const again = sgb.graph("stdin", first.save());
      same(again.list(), first.list(), `${text}: the listing of its file`);
      same(again.kinds, first.kinds, `${text}: the kinds of its file`);
    }
    refused(() => sgb.graph("stdin"), 10, "no file");
    refused(() => sgb.graph("stdin", bytes(FILE.slice(0, -14))), 11, "a file without its end");
    refused(() => sgb.graph("stdin", bytes(FILE.replace("A0", "B0"))), 20, "a file with a wrong record");
    check(thrown(() => sgb.graph("stdin", FILE)) instanceof TypeError, "a file that is a string");
  },

  async fields() {
    const sgb = await load();
    const board = sgb.graph("board(2,3,0,0,1,0,0)");
    same(board.kinds, "ZZZIIIZZZZZZZZ", "kinds of a board");
    same(board.ints("x"), [0n, 0n, 0n, 1n, 1n, 1n], "its rows");
    same(board.ints("y"), [0n, 1n, 2n, 0n, 1n, 2n], "its columns");
    refused(() => board.ints("u"), 102, "a field without integers");
    for (const field of ["", "xy", "a", 3, undefined]) {
      check(thrown(() => board.ints(field)) instanceof RangeError, `the field ${field}`);
    }
    same(board.neighbors(0), [3, 1], "neighbors of a corner");
    for (const v of [-1, 6, 0.5]) {
      check(thrown(() => board.neighbors(v)) instanceof RangeError, `neighbors of ${v}`);
    }
    same([...board.blocks()].length, 7, "blocks of a board");
    const { starts, tips, lengths } = board;
    const types = [starts, tips, lengths].map((array) => array.constructor.name);
    same(types, ["Uint32Array", "Uint32Array", "BigInt64Array"], "the types of the arrays");
    check(board instanceof Graph, "the type of a graph");
    same(board.ints("y", 1, 3), [1n, 2n, 0n], "integers of some vertices");
    same(board.lengthsOf(0), [1n, 1n], "the lengths of a corner");
    same([...board.arcs()].map(({ v, tip, length }) => [v, tip, length].join()), board.list().split("\n").slice(4, -1)
      .reduce((found, line) => {
        const arc = /^  -> (.*), length (.*)$/.exec(line);
        const v = board.vertex(arc ? arc[1] : line);
        return arc ? { ...found, arcs: [...found.arcs, [found.v, v, arc[2]].join()] } : { ...found, v };
      }, { v: null, arcs: [] }).arcs, "the arcs of a board");
    same([board.vertex("1.2"), board.vertex("2.2"), board.name(4), board.degree(4)], [5, null, "1.1", 3], "a vertex");
    same(sgb.version, JSON.parse(await readFile(new URL("package.json", here), "utf8")).version, "the version");
    same(board.closed, false, "whether a graph is closed");
    // what was fetched stays, and the arrays do
    board.names();
    board.close();
    board.close();
    same(board.closed, true, "whether a closed graph is");
    same(board.names()[5], "1.2", "names after the graph was closed");
    same([board.names(4, 2).join(" "), board.name(3), board.m], ["1.1 1.2", "1.0", 14], "what was asked for before");
    same(board.tips.length, 14, "tips after the graph was closed");
    same(board.ints("x").length, 6, "integers that were fetched");
    for (const call of [() => board.save(), () => board.ints("z"), () => board.rows(0, 1)]) {
      check(/closed/.test(thrown(call)?.message), "a call on a closed graph");
    }
  },

  async runs() {
    const sgb = await load();
    for (const text of [...GRAPHS, "wheel(5,1,0)", "lines(complete(4),0)", "stdin"]) {
      const graph = sgb.graph(text, bytes(FILE));
      const [whole, names] = [graph.rows(), graph.names()];
      let [v, k, seen] = [0, 0, []];
      for (const rows of graph.chunks({ size: 7 })) {
        same(rows.first, v, `${text}: where a chunk begins`);
        same(rows.starts, whole.starts.subarray(v, v + rows.n + 1).map((at) => at - k), `${text}: starts of a chunk`);
        same(rows.tips, whole.tips.subarray(k, k + rows.tips.length), `${text}: tips of a chunk`);
        same(rows.lengths, whole.lengths.subarray(k, k + rows.tips.length), `${text}: lengths of a chunk`);
        same(rows.neighbors(v), whole.neighbors(v), `${text}: neighbors in a chunk`);
        same(rows.lengthsOf(v), whole.lengthsOf(v), `${text}: lengths of a vertex in a chunk`);
        same(graph.neighbors(v), whole.neighbors(v), `${text}: neighbors of a vertex`);
        same(graph.degree(v), whole.degree(v), `${text}: the degree of a vertex`);
        const bare = graph.rows(v, rows.n, { lengths: false });
        same([bare.tips.join(), bare.starts.join(), bare.lengths], [rows.tips.join(), rows.starts.join(), null],
          `${text}: a run without lengths`);
        seen = seen.concat(rows.names());
        [v, k] = [v + rows.n, k + rows.tips.length];
      }
      same(v, graph.n, `${text}: vertices of all chunks`);
      same(seen, names, `${text}: names of all chunks`);
      same(graph.starts, whole.starts, `${text}: starts`);
      graph.close();
    }
    const great = sgb.graph(GREAT);
    same(great.n, 1e9, "vertices of a great board");
    same(great.m, 2e9 - 2, "arcs of a great board");
    const last = great.rows(999_999_990, 10);
    check(last instanceof Rows, "the type of a run");
    same(last.names(), Array.from({ length: 10 }, (_, k) => 999_999_990 + k), "the last names of a great board");
    same(last.neighbors(999_999_999), [999_999_998], "the last list of a great board");
    same([...great.neighbors(999_999_995)].sort(), [999_999_994, 999_999_996], "a list of a great board");
    same([...great.chunks({ first: 999_000_000 })].reduce((sum, rows) => sum + rows.tips.length, 0), 1_999_999,
      "the arcs of the last million vertices");
    same(great.arcs().next().value.tip, 1, "the first arc of a great board");
    same(sgb.graph("board(1000000000,0,0,0,-1,0,0)").m, 999_999_999_000_000_000n, "more arcs than 2^53");
    const small = sgb.graph("petersen()");
    for (const range of [{ size: 0 }, { first: -1 }, { first: 11 }, { first: 5, count: 6 }, { size: 1.5 }]) {
      const error = thrown(() => small.chunks(range));
      check(error instanceof RangeError, `chunks with ${JSON.stringify(range)}: threw ${error}`);
    }
    for (const run of [[-1, 1], [999_999_991, 10], [0, -1], [0.5, 1]]) {
      const calls = ["rows", "names"].map((name) => () => great[name](...run)).concat(() => great.ints("x", ...run));
      for (const call of calls) {
        check(thrown(call) instanceof RangeError, `a run of ${run}`);
      }
    }
    for (const v of [-1, 1e9, 0.5, "x"]) {
      for (const name of ["neighbors", "lengthsOf", "degree", "name"]) {
        check(thrown(() => great[name](v)) instanceof RangeError, `${name} of vertex ${v}`);
      }
    }
    check(thrown(() => last.neighbors(999_999_989)) instanceof RangeError, "a vertex before a run");
    small.close();
    great.close();
  },

  async operations() {
    const sgb = await load();
    const [board, ring, arcs] = ["board(3,3,0,0,1,0,0)", "circuit(4)", "transitive(3)"].map((text) => sgb.graph(text));
    const before = digest(board.save()) + digest(ring.save()) + digest(arcs.save());
    const like = (made, text) => {
      const wanted = sgb.graph(text);
      same([made.id, made.n, made.m, made.text].join(), [wanted.id, wanted.n, wanted.m, "stdin"].join(), text);
      same(digest(made.save()) + digest(made.list()), digest(wanted.save()) + digest(wanted.list()), `${text}: listing and file`);
      made.close();
      wanted.close();
    };
    like(board.complement(), "complement(board(3,3,0,0,1,0,0),0,0,0)");
    like(board.complement({ copy: true }), "complement(board(3,3,0,0,1,0,0),1,0,0)");
    like(board.complement({ selfLoops: true }), "complement(board(3,3,0,0,1,0,0),0,1,0)");
    like(board.complement({ directed: true }), "complement(board(3,3,0,0,1,0,0),0,0,1)");
    like(board.lines(), "lines(board(3,3,0,0,1,0,0),0)");
    like(arcs.lines({ directed: true }), "lines(transitive(3),1)");
    like(sgb.gunion(board, ring), "gunion(board(3,3,0,0,1,0,0),circuit(4),0,0)");
    like(sgb.gunion(ring, board, { multi: true }), "gunion(circuit(4),board(3,3,0,0,1,0,0),1,0)");
    like(sgb.gunion(ring, ring, { multi: true, directed: true }), "gunion(circuit(4),circuit(4),1,1)");
    like(sgb.intersection(ring, board), "intersection(circuit(4),board(3,3,0,0,1,0,0),0,0)");
    like(sgb.intersection(ring, ring, { directed: true }), "intersection(circuit(4),circuit(4),0,1)");
    for (const [number, kind] of ["cartesian", "direct", "strong"].entries()) {
      like(sgb.product(ring, arcs, kind), `product(circuit(4),transitive(3),${number},0)`);
      like(sgb.product(arcs, arcs, kind, { directed: true }), `product(transitive(3),transitive(3),${number},1)`);
    }
    like(sgb.product(ring, arcs), "product(circuit(4),transitive(3),0,0)");
    like(sgb.induced(arcs, [1, 2n, ring]), "induced(transitive(3),[1,2,circuit(4)],0,0,0)");
    like(sgb.induced(arcs, [-1, arcs, -1], { selfLoops: true, directed: true }), "induced(transitive(3),[-1,transitive(3),-1],1,0,1)");
    like(sgb.induced(arcs, [-1, 1, -1], { multi: true }), "induced(transitive(3),[-1,1,-1],0,1,0)");
    like(sgb.biComplete(2, 3), "bi_complete(2,3,0)");
    like(sgb.wheel(5), "wheel(5,1,0)");
    like(sgb.wheel(5n, 2, { directed: true }), "wheel(5,2,1)");
    like(sgb.wheelAround(ring, 5), "induced(board(2,0,0,0,1,0,0),[circuit(4),board(5,0,0,0,1,1,0)],0,0,0)");
    like(sgb.wheelAround(ring, 5, { directed: true }), "induced(board(2,0,0,0,1,0,1),[circuit(4),board(5,0,0,0,1,1,1)],0,0,1)");
    like(sgb.wheelAround(ring, -(10n ** 18n)), "induced(board(2,0,0,0,1,0,0),[circuit(4),board(0,0,0,0,1,1,0)],0,0,0)");
    same(digest(board.save()) + digest(ring.save()) + digest(arcs.save()), before, "operands after operations");
    const many = sgb.graph("empty(40000)");
    refused(() => arcs.lines(), 60, "lines of arcs");
    refused(() => sgb.product(many, many), 40, "a product of too many vertices");
    refused(() => sgb.induced(arcs, [1]), 30, "too few entries");
    refused(() => sgb.biComplete(-1, 1), 30, "a number below 0");
    refused(() => sgb.wheelAround(arcs, 10n ** 18n), 40, "a rim that is too large");
    refused(() => sgb.wheelAround(arcs, 10 ** 9 - 2), 40, "a rim that is too large with the middle");
    const other = (await load()).graph("circuit(4)");
    for (const call of [
      () => sgb.gunion(board, "circuit(4)"), () => sgb.gunion(null, board), () => sgb.gunion(board, other), () => sgb.induced(board, [other]),
    ]) {
      check(thrown(call) instanceof TypeError, "an operand that is no graph of this module");
    }
    for (const call of [() => sgb.product(ring, ring, "tensor"), () => sgb.wheel(2n ** 63n), () => sgb.induced(arcs, [1, 0.5, 1])]) {
      check(thrown(call) instanceof RangeError, "a kind or a number that is none");
    }
    for (const graph of [board, many]) {
      graph.close();
    }
    for (const call of [() => board.lines(), () => sgb.gunion(ring, board), () => sgb.induced(ring, [1, 1, 1, board]), () => sgb.wheelAround(board, 3)]) {
      check(/closed/.test(thrown(call)?.message), "an operation on a closed graph");
    }
    ring.close();
    arcs.close();
    same(sgb.memory.taken, 0, "taken after operations");
    // memory is refused somewhere in each of them, and all is given back
    const module = await WebAssembly.compile(await readFile(new URL("sgb.wasm", folder)));
    let [refusals, answers] = [0, 0];
    for (let limit = 65_536; limit < 1_000_000; limit += 65_536) {
      const small = await load(module, { limit });
      const [one, two] = [small.graph("board(6,6,0,0,1,0,0)"), small.graph("complete(40)")];
      const held = small.memory.taken;
      for (const k of [0, 1, 4, 8, 12, 16, 20]) {
        const part = () => small.induced(two, [...Array(k).fill(1), ...Array(39 - k).fill(0), one]);
        for (const call of [part, () => small.product(one, one, k % 2 ? "direct" : "strong"), () => small.gunion(two, two)]) {
          const fault = thrown(() => call().close());
          refusals += fault instanceof MemoryError;
          answers += fault === null;
          check(fault === null || fault instanceof MemoryError, `an operation in ${limit} bytes: threw ${fault}`);
          same(small.memory.taken, held, `taken after an operation in ${limit} bytes`);
        }
      }
    }
    check(refusals > 10 && answers > 10, `operations were refused memory ${refusals} times, and answered ${answers} times`);
  },

  async own() {
    const sgb = await load();
    const made = sgb.make({ names: ["a", "", "c"], from: [0, 0, 2], to: Uint32Array.of(1, 2, 2), lengths: [1, -(2n ** 63n), 5], directed: true, id: "made" });
    same([made.id, made.n, made.m, made.names().join("|")], ["made", 3, 3, "a||c"], "a graph that is made");
    same(made.neighbors(0), [2, 1], "later arcs come first");
    same(made.lengthsOf(0), [-(2n ** 63n), 1n], "their lengths");
    same(sgb.make({ n: 2, from: [0], to: [1] }).list().split("\n").slice(4).join(), "0,  -> 1, length 1,1,  -> 0, length 1,", "an edge");
    const own = sgb.fromEdges([[1, 0, 5], [1, 2], [1, 1, 7n]]);
    same([own.n, own.names().join()], [3, "0,1,2"], "a graph of edges");
    same(own.neighbors(1), [0, 2, 1, 1], "lists of edges in their order");
    same(own.lengthsOf(1), [5n, 1n, 7n, 7n], "the lengths of edges");
    same(sgb.fromEdges([[1, 0], [1, 2]], { directed: true }).neighbors(1), [0, 2], "lists of arcs in their order");
    same(sgb.fromEdges([], { n: 4 }).n, 4, "a graph of vertices alone");
    same(sgb.fromEdges([[0, 1]], { names: ["x", "y", "z"] }).names(), ["x", "y", "z"], "names");
    same(sgb.graph("stdin", own.save()).list(), own.list(), "the file of a graph of edges");
    refused(() => sgb.fromEdges([[0, 3]], { n: 3 }), 106, "an end that is no vertex");
    refused(() => sgb.make({ names: ['"'], from: [], to: [] }), 107, "a name that is no text");
    refused(() => sgb.make({ names: ["\u00e9"], from: [], to: [] }), 107, "a name beyond ASCII");
    refused(() => sgb.make({ n: 1, from: [], to: [], id: "x".repeat(161) }), 107, "a long id");
    refused(() => sgb.make({ n: 2, from: [0], to: [] }), 101, "ends that are not as many");
    refused(() => sgb.make({ n: 2, from: [0], to: [1], lengths: [] }), 101, "lengths that are not as many");
    for (const edges of [[[-1, 0]], [[0, 2 ** 32]], [[0, 0.5]], [[0, 0, 2n ** 63n]], [[0, 0, 1.5]]]) {
      check(thrown(() => sgb.fromEdges(edges, { n: 2 })) instanceof RangeError, `an edge ${edges}`);
    }
    for (const given of [{ n: 1, from: [], to: [], id: 5 }, { names: [5], from: [], to: [] }]) {
      check(thrown(() => sgb.make(given)) instanceof TypeError, "a name or an id that is no string");
    }
  },

  async flips() {
    const sgb = await load();
    // the values of test_flip in GB_FLIP
    same(sgb.flip(-314159), [119318998], "the first draw");
    same(sgb.flip(-314159n, 134n, 1, 0x55555555), [748103812], "a uniform draw");
    same(sgb.flip(1, 0, 2, 10), [1, 3], "two draws below 10");
    same(sgb.flip(5, 7, 3), sgb.flip(5, 0, 10).subarray(7), "draws that are left out");
    same(sgb.flip(5, 0, 0), [], "no draws");
    same(sgb.flip(5, 0, 3, 1), [0, 0, 0], "draws below 1");
    refused(() => sgb.flip(1, 0, 1, 2 ** 31 + 1), 103, "a bound above 2^31");
    for (const words of [[2n ** 63n], [0, -1], [0, 0, -1], [0, 0, 1, 2 ** 32], [0.5]]) {
      check(thrown(() => sgb.flip(...words)) instanceof RangeError, `flip(${words})`);
    }
    same(sgb.memory.taken, 0, "taken by flips");
  },

  async errors() {
    const sgb = await load();
    refused(() => sgb.graph("x".repeat(65_536)), 1000, "a long text");
    refused(() => sgb.graph("x".repeat(65_537)), 100, "a longer text");
    refused(() => sgb.graph("petersen() "), 1010, "a space behind");
    refused(() => sgb.graph("é"), 1000, "a letter beyond ASCII");
    const error = thrown(() => sgb.graph("board(3,"));
    same(`${error}`, "GraphError: bad expression at byte 8", "what a bad expression says");
    const senseless = thrown(() => sgb.graph("board(2,-251,0,0,1,0,0)"));
    same(senseless.message, "parameters that make no sense (code 30)", "what a code says");
    check(error instanceof Error, "a refusal is an Error");
    for (const text of [undefined, null, 5, ["petersen()"]]) {
      check(thrown(() => sgb.graph(text)) instanceof TypeError, `the expression ${text}`);
    }
    same(sgb.memory.taken, 0, "taken by refusals");
    // as deep as an expression may be
    const depth = 63;
    const nested = `${"complement(".repeat(depth)}petersen()${",0,0,0)".repeat(depth)}`;
    same(sgb.graph(nested).m, 60, "a nested expression");
    refused(() => sgb.graph(`complement(${nested},0,0,0)`), 100, "one that is nested deeper");
  },

  async memory() {
    const most = 12 << 20;
    const sgb = await load(undefined, { limit: most });
    const before = sgb.memory;
    const great = thrown(() => sgb.graph("complement(empty(2000),0,0,0)"));
    check(great instanceof MemoryError && great.code === 1, `a graph that is too large: threw ${great}`);
    same(sgb.memory.taken, 0, "taken after a graph that is too large");
    // that of a generator's call is not built: its arrays are too large
    const complete = sgb.graph("complete(2000)");
    for (const call of [() => complete.tips, () => complete.rows(), () => complete.save()]) {
      const error = thrown(call);
      check(error instanceof MemoryError, `what is too large of a graph: threw ${error}`);
    }
    same(complete.rows(1999, 1).tips.length, 1999, "the last list of a graph that is too large");
    complete.close();
    same(sgb.memory.taken, 0, "taken after a graph whose arrays are too large");
    check(sgb.memory.size <= before.size + most + 65536, "more memory than the limit");
    same(sgb.graph("petersen()").m, 30, "a graph after one that is too large");
    // the limit is somewhere in each of the calls that a graph takes: all is given back, and the next one is whole
    const wanted = digest((await load()).graph("board(30,30,0,0,1,0,0)").list());
    let [refusals, answers] = [0, 0];
    const module = await WebAssembly.compile(await readFile(new URL("sgb.wasm", folder)));
    for (let limit = 0; limit < 600_000; limit += 4_096) {
      const small = await load(module, { limit });
      const error = thrown(() => {
        const graph = small.graph("board(30,30,0,0,1,0,0)");
        check(digest(graph.list()) === wanted, `a graph in ${limit} bytes`);
        graph.save();
        answers += 1;
        graph.close();
      });
      if (error) {
        check(error instanceof MemoryError, `in ${limit} bytes: threw ${error}`);
        refusals += 1;
      }
    }
    check(refusals > 20 && answers > 20, `memory was refused ${refusals} times, and enough ${answers} times`);
    // more than any memory has
    const free = await load();
    for (const many of [2 ** 30, 2 ** 40, 2 ** 53 - 1]) {
      check(thrown(() => free.flip(1, 0, many)) instanceof MemoryError, `${many} draws`);
    }
    same(free.graph("petersen()").m, 30, "a graph after such draws");
    check(thrown(() => free.graph(GREAT).rows(0, 1_000_000_000)) instanceof MemoryError, "all of a great graph");
  },

  async closing() {
    const sgb = await load();
    const { size } = sgb.memory;
    // graphs of mixed sizes, some open at a time: the heap has at most twice what they had at once
    const open = [];
    let [most, seed] = [0, 1];
    const random = (n) => {
      seed = (Math.imul(seed, 1_103_515_245) + 12_345) >>> 0;
      return (seed >>> 16) % n;
    };
    for (let k = 0; k < 100_000; k++) {
      const [place, n] = [random(64), 2 + random([4, 4, 4, 8, 8, 20, 60, 120][random(8)])];
      open[place]?.close();
      const texts = [
        `complement(empty(${n}),0,0,0)`, `lines(board(${n},3,0,0,1,0,0),0)`, `product(circuit(${n}),petersen(),0,0)`,
        `complete(${n})`,
      ];
      open[place] = sgb.graph(texts[k % 4]);
      most = Math.max(most, sgb.memory.taken);
      if (k % 100 === 0) {
        open[place].names();
        open[place].save();
        thrown(() => sgb.graph("board(3,"));
      }
    }
    open.forEach((graph) => graph.close());
    const had = sgb.memory.size - size;
    check(had <= 2 * most, `the heap took ${had} bytes for graphs that had ${most} at once`);
    same(sgb.memory.taken, 0, "taken after 100000 graphs");
    // graphs that are open at once, and closed in another order
    const graphs = Array.from({ length: 100 }, (_, k) => sgb.graph(`complete(${k + 1})`));
    for (const k of graphs.keys()) {
      graphs[(k * 37) % 100].close();
    }
    same(sgb.memory.taken, 0, "taken after 100 graphs at once");
    // graphs that nobody closes
    setFlagsFromString("--expose-gc");
    const collect = runInNewContext("gc");
    (() => Array.from({ length: 50 }, () => sgb.graph("petersen()")))();
    check(sgb.memory.taken > 0, "nothing taken by graphs");
    for (let k = 0; k < 50 && sgb.memory.taken > 0; k++) {
      collect();
      await new Promise((done) => setTimeout(done, 10));
    }
    same(sgb.memory.taken, 0, "taken by graphs that nothing leads to");
  },

  async loading() {
    const place = new URL("sgb.wasm", folder);
    const file = await readFile(place);
    const copy = new Uint8Array(file).buffer;
    for (const source of [file, copy, place, place.href, new WebAssembly.Module(file)]) {
      same((await load(source)).graph("petersen()").n, 10, "a module from bytes or an address");
    }
    const [one, other] = [await load(), await load()];
    const graph = one.graph("petersen()");
    same(other.memory.taken, 0, "two modules have memories of their own");
    graph.close();
    // a module that traps is not called again
    const trap = await load(TRAP);
    const stops = [0, 1].map(() => thrown(() => trap.graph("petersen()")));
    const said = stops.map((error) => error?.message);
    same(said, ["the module has stopped", "the module has stopped: load it again"], "a trap");
    check(stops.every((error) => error?.cause instanceof WebAssembly.RuntimeError), "what a trap tells of");
    // nor one in which the machine's stack ends, or it still answers right
    const deep = await load();
    const descend = () => {
      try {
        descend();
      } catch {
        deep.graph("complement(petersen(),0,0,0)");
      }
    };
    thrown(descend);
    let m = null;
    const after = thrown(() => (m = deep.graph("petersen()").m));
    check(m === 30 || /has stopped/.test(after?.message), `after the stack ended: gave ${m}, threw ${after}`);
    const missing = await load("file:///nowhere/sgb.wasm").then(() => null, (error) => error);
    check(missing?.code === "ENOENT", `a file that is not there: threw ${missing}`);
  },
};

for (const [name, test] of Object.entries(tests)) {
  const start = performance.now();
  try {
    await test();
  } catch (error) {
    failed += 1;
    console.log(`failed: ${name}:`, error);
  }
  console.log(`  ${name.padEnd(12)} ${((performance.now() - start) / 1000).toFixed(1)} s`);
}
console.log(`${passed} passed, ${failed} failed`);
process.exitCode = failed ? 1 : 0;
