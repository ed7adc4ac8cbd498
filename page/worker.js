// The graph of the page, in a worker: it is made here, and asked for in parts.
import { load } from "./sgb.js";

// The lists and names of a graph with more vertices or arcs are asked for one by one.
const WHOLE = { vertices: 100_000, arcs: 4_000_000 };
// What is shown of a list of arcs.
const ARCS = 60;

const loaded = load();
let shown = null;

// A graph that is shown: what of a vertex is said, whether from arrays of all vertices or asked for alone.
function showing(graph) {
  const isWhole = graph.n <= WHOLE.vertices && graph.m <= WHOLE.arcs;
  const [names, all] = isWhole ? [graph.names(), graph.rows()] : [null, null];
  const nameOf = (v) => names?.[v] ?? graph.name(v);
  return {
    head: { id: graph.id, n: graph.n, m: String(graph.m), isWhole },
    block: (v) => {
      const rows = all ?? graph.rows(v, 1);
      return { name: nameOf(v), tips: rows.neighbors(v), lengths: rows.lengthsOf(v), nameOf };
    },
    graph,
    all,
  };
}

function linesOf({ name, tips, lengths, nameOf }) {
  const lines = [name];
  for (let k = 0; k < Math.min(tips.length, ARCS); k++) {
    lines.push(`  -> ${nameOf(tips[k])}, length ${lengths[k]}`);
  }
  return tips.length > ARCS ? [...lines, `  .. and ${tips.length - ARCS} more`] : lines;
}

// The coordinates in the fields x, y, z, as far as they hold integers.
function coordinatesOf(graph) {
  const fields = ["x", "y", "z"].filter((_, k) => graph.kinds[3 + k] === "I");
  return fields.map((field) => Array.from(graph.ints(field), Number));
}

// The graph of the expression; with a second file what is made of both.
function made(sgb, { text, input, pair }) {
  const first = sgb.graph(text, input);
  if (!pair) {
    return first;
  }
  const { second, name, kind, multi, directed } = pair;
  let other = null;
  try {
    other = sgb.graph("stdin", second);
    return name === "product" ? sgb.product(first, other, kind, { directed }) : sgb[name](first, other, { multi, directed });
  } finally {
    other?.close();
    first.close();
  }
}

const answers = {
  async open(words) {
    const sgb = await loaded;
    shown?.graph.close();
    shown = null;
    const graph = made(sgb, words);
    try {
      shown = showing(graph);
    } catch (error) {
      graph.close();
      throw error;
    }
    return shown.head;
  },
  lists: ({ first, count }) => Array.from({ length: count }, (_, k) => linesOf(shown.block(first + k))),
  drawing: () => {
    const { graph, all } = shown;
    return { starts: all.starts, tips: all.tips, names: graph.names(), coordinates: coordinatesOf(graph) };
  },
  list: () => new Blob([...shown.graph.blocks()], { type: "text/plain" }),
  save: () => new Blob([shown.graph.save()]),
};

onmessage = async ({ data: { ticket, what, words } }) => {
  try {
    postMessage({ ticket, answer: await answers[what](words) });
  } catch ({ name, message, code, byte }) {
    postMessage({ ticket, fault: { name, message, code, byte } });
  }
};
