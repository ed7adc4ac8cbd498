/** Graphs of the Stanford GraphBase, by their official names, as arrays. */

/** Why there is no graph. */
export class GraphError extends Error {
  /** The library's answer: GraphBase's panic code where it is below 100. */
  readonly code: number;
  /** Of a bad expression the length of the longest prefix that begins one, else null. */
  readonly byte: number | null;
  /** What the code means. */
  readonly words: string;
}

/** Memory was refused. What stood before stands after, and the module can be used again. */
export class MemoryError extends Error {
  readonly code: 1;
  readonly words: string;
}

/** A utility field of the vertices. */
export type Field = "u" | "v" | "w" | "x" | "y" | "z";

/** An arc of a graph. */
export interface Arc {
  /** The vertex on whose list it is. */
  readonly v: number;
  /** The vertex that it leads to. */
  readonly tip: number;
  readonly length: bigint;
}

/** The lists of arcs of a run of vertices: `n` of them, from vertex `first` on. The list of vertex first + k is what
 * stands from starts[k] up to starts[k + 1]. The arrays belong to the caller, and the module holds nothing of them.
 * Vertices are numbers of the whole graph; one that is not in the run gives a RangeError. */
export class Rows {
  private constructor();
  /** The expression. */
  readonly text: string;
  readonly first: number;
  readonly n: number;
  /** Where the lists begin, and where the last one ends: n + 1 places. */
  readonly starts: Uint32Array;
  /** Where the arcs lead. */
  readonly tips: Uint32Array;
  /** The lengths of the arcs; null where they were not asked for. */
  readonly lengths: BigInt64Array | null;
  /** Where the arcs of vertex v lead, in the order of its list, a part of `tips`. */
  neighbors(v: number): Uint32Array;
  /** The lengths of the arcs of vertex v, a part of `lengths`. An Error where these were not asked for. */
  lengthsOf(v: number): BigInt64Array;
  /** How many arcs are on the list of vertex v. */
  degree(v: number): number;
  /** The arcs in the order of the lists. */
  arcs(): Generator<Arc, void, undefined>;
  /** The names of the vertices, fetched when they are first asked for. */
  names(): string[];
}

/** What comes in the place of a vertex of `induced`: 0 drops it, 1 keeps it, a greater number makes so many of it, one below
 * 0 merges it with all others of that number; a graph comes with its arcs, as a copy. */
export type Entry = number | bigint | Graph;

/** A graph that is open. A generator's graph is not built, and may have 10^9 vertices: what is asked for is made alone.
 * All others are built, and held as they are.
 *
 * The module holds the graph until `close`, or until nothing leads to this object any more. What was asked for of all
 * vertices stays; what was not gives an Error once the graph is closed. Vertices that are not there give a RangeError,
 * want of memory a MemoryError. */
export class Graph {
  private constructor();
  /** The expression. */
  readonly text: string;
  /** The graph's official name. */
  readonly id: string;
  /** How many vertices it has. */
  readonly n: number;
  /** How many arcs it counts, found when it is first asked for; an edge is two arcs. 2^64 - 1 also where there are
   * more. A bigint where that is above 2^53 - 1. */
  readonly m: number | bigint;
  /** What the utility fields hold, 14 letters of Z I V S A: of vertices u v w x y z, of arcs a b, of the graph uu vv ww
   * xx yy zz. I is an integer, and Z a field that is not used. */
  readonly kinds: string;
  /** Whether it is closed. */
  readonly closed: boolean;
  /** The lists of arcs of all vertices, made when they are first asked for: that of vertex v is what stands from
   * starts[v] up to starts[v + 1] in `tips` and `lengths`. */
  readonly starts: Uint32Array;
  readonly tips: Uint32Array;
  readonly lengths: BigInt64Array;
  /** The lists of `count` vertices from vertex `first` on; without `count`, of all from there on. Without lengths they
   * take less time. */
  rows(first?: number, count?: number, choice?: { lengths?: boolean }): Rows;
  /** The vertices in chunks of `size`, 65,536 if it is not said; each is made when its turn comes. */
  chunks(range?: { size?: number; first?: number; count?: number; lengths?: boolean }): Generator<Rows, void, undefined>;
  /** Where the arcs of vertex v lead, in the order of its list. No other list is made. */
  neighbors(v: number): Uint32Array;
  /** The lengths of the arcs of vertex v. */
  lengthsOf(v: number): BigInt64Array;
  /** How many arcs are on the list of vertex v. */
  degree(v: number): number;
  /** The arcs in the order of the lists. */
  arcs(): Generator<Arc, void, undefined>;
  /** The names of `count` vertices from vertex `first` on; without `count`, of all from there on. */
  names(first?: number, count?: number): string[];
  /** The name of vertex v. */
  name(v: number): string;
  /** The first vertex that has this name, or null. */
  vertex(name: string): number | null;
  /** The integers in a utility field of some vertices; those of a board are the coordinates. GraphError 102 where the
   * field holds none. */
  ints(field: Field, first?: number, count?: number): BigInt64Array;
  /** The same vertices with the arcs that are not there; with `copy` those that are, each once and of length 1. */
  complement(choice?: { copy?: boolean; selfLoops?: boolean; directed?: boolean }): Graph;
  /** The line graph: a vertex for each edge, or for each arc where it is directed. GraphError 60 where edges are wanted and the
   * arcs are none. */
  lines(choice?: { directed?: boolean }): Graph;
  /** The bytes of the graph's .gb file. A generator's graph is built for it. */
  save(): Uint8Array;
  /** The listing, as `sgb list` writes it. */
  list(): string;
  /** The listing in parts, for great graphs: its head, and then a part for each vertex. */
  blocks(): Generator<string, void, undefined>;
  /** Gives back what the module holds of the graph. */
  close(): void;
}

/** The calls of one module, with a memory of its own. A call runs to its end: a page makes great graphs in a worker. */
export class Sgb {
  private constructor();
  /** The graph that an expression names. `input` is the bytes of a .gb file, for the expression `stdin`. */
  graph(text: string, input?: ArrayBuffer | ArrayBufferView): Graph;
  /** The graph that GraphBase makes of these arcs, or edges, one after another: each leads the lists of its ends, so that a
   * list has its arcs in the other order. `names` are those of the vertices, else they are the numbers of n; lengths are 1 if
   * they are not said. Its expression, as that of all graphs that are made of others, is `stdin`, which its file stands for.
   * GraphError 106 where an end is no vertex, 107 where a name or the id is no text of a graph, 101 where there are not as
   * many of each. */
  make(given: {
    n?: number; names?: Iterable<string>; from: ArrayLike<number> | Iterable<number>; to: ArrayLike<number> | Iterable<number>;
    lengths?: BigInt64Array | Iterable<number | bigint>; directed?: boolean; id?: string;
  }): Graph;
  /** The graph of these edges, or arcs: each list has its arcs in the order in which they are given. Without n and names there
   * are as many vertices as the ends want. */
  fromEdges(
    edges: Iterable<readonly [number, number] | readonly [number, number, number | bigint]>,
    choice?: { n?: number; names?: readonly string[]; directed?: boolean; id?: string },
  ): Graph;
  /** The vertices of the first graph with the arcs of both; parallel ones are one of the least length, unless `multi`. The
   * operands stay open and as they are, and one graph may be both; so with the others. */
  gunion(first: Graph, second: Graph, choice?: { multi?: boolean; directed?: boolean }): Graph;
  /** The vertices of the first graph with the arcs that both have; of parallel ones there is one, unless `multi`. */
  intersection(first: Graph, second: Graph, choice?: { multi?: boolean; directed?: boolean }): Graph;
  /** The pairs of vertices; a step in one of the graphs, in both, or in one or both. GraphError 40 where they are too many. */
  product(first: Graph, second: Graph, kind?: "cartesian" | "direct" | "strong", choice?: { directed?: boolean }): Graph;
  /** The graph with an entry in the place of each vertex; GraphError 30 where there is not one for each. */
  induced(
    graph: Graph, entries: Iterable<Entry>, choice?: { selfLoops?: boolean; multi?: boolean; directed?: boolean },
  ): Graph;
  /** n1 vertices, each joined to each of n2 others. */
  biComplete(n1: number | bigint, n2: number | bigint, choice?: { directed?: boolean }): Graph;
  /** n1 vertices in the middle, 1 if it is not said, each joined to each of n in a circle. */
  wheel(n: number | bigint, n1?: number | bigint, choice?: { directed?: boolean }): Graph;
  /** The wheel with a graph in its middle. */
  wheelAround(middle: Graph, n: number | bigint, choice?: { directed?: boolean }): Graph;
  /** The version: three numbers with points between them. */
  readonly version: string;
  /** Random numbers of GB_FLIP: started from `start`, `skip` draws left out, then `count` of them, 1 if it is not said.
   * With a bound m from 1 to 2^31 they are uniform draws below m. */
  flip(start: number | bigint, skip?: number | bigint, count?: number, m?: number): Uint32Array;
  /** The bytes that the module's memory has, and those that graphs take of it. It never shrinks, but what is given back
   * is taken again. */
  readonly memory: { readonly size: number; readonly taken: number };
}

/** Loads the module.
 *
 * @param source Its bytes, their address, or a compiled module; else the file sgb.wasm beside sgb.js. An address that
 * is no whole URL is meant from the page, in Node from sgb.js.
 * @param options `limit`: so many bytes may be taken, and no more. Without it, 4 GB.
 */
export function load(
  source?: ArrayBuffer | ArrayBufferView | WebAssembly.Module | URL | string,
  options?: { limit?: number | bigint },
): Promise<Sgb>;
