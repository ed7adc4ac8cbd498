"""Graphs as texts of other programs: the forms of examples/listings/convert.awk, of arrays and not of a listing."""

from __future__ import annotations

import re
from typing import TYPE_CHECKING, Iterator, Sequence

from ._others import Arc, _uncollected, paired

if TYPE_CHECKING:
    from ._graph import Graph

FORMS = ("dot", "edges", "dimacs", "metis", "mtx", "graphml", "graph6", "sparse6", "digraph6")


class _Lists:
    """What a form is made of: names, arcs in the order of the lists, and of each edge the arc that comes first."""

    def __init__(self, graph: Graph, directed: bool, lengths: bool) -> None:
        self.id, self.n, self.names, self.directed = graph.id, graph.n, list(graph.names()), directed
        self.arcs = list(graph.arcs())
        self.edges = self.arcs if directed else paired(self.arcs)
        self.lengths = lengths or any(length != 1 for _, _, length in self.arcs)

    def by_vertex(self, arcs: Sequence[Arc]) -> Iterator[tuple[int, Sequence[Arc]]]:
        """Each vertex, with those of these arcs that begin there."""
        at = 0
        for v in range(self.n):
            first = at
            while at < len(arcs) and arcs[at][0] == v:
                at += 1
            yield v, arcs[first:at]

    def numbered(self, sign: str) -> Iterator[str]:
        """Comments: the id, and the name of each number, from 1."""
        yield f"{sign} {self.id}\n"
        for number, name in enumerate(self.names, 1):
            yield f"{sign} vertex {number} is {name}\n"

    def refuse_loops(self, form: str) -> None:
        for u, v, _ in self.edges:
            if u == v:
                raise ValueError(f"{form} has no loops, and there is one at {self.names[u]}")

    def refuse_parallel(self, form: str) -> None:
        met: set[tuple[int, int]] = set()
        for u, v, _ in self.edges:
            ends = (u, v) if self.directed or u <= v else (v, u)
            if ends in met:
                raise ValueError(f"{form} has no parallel edges, and there are some from {self.names[u]} to {self.names[v]}")
            met.add(ends)


def _escaped(text: str) -> str:
    return text.replace("&", "&amp;").replace("<", "&lt;").replace(">", "&gt;")


def _dot(lists: _Lists) -> Iterator[str]:
    if len(set(lists.names)) < lists.n:
        raise ValueError("dot has names alone, and two vertices have the same")
    names, join = lists.names, '" -> "' if lists.directed else '" -- "'
    yield f'{"digraph" if lists.directed else "graph"} "{lists.id}" {{\n'
    for v, edges in lists.by_vertex(lists.edges):
        yield f'  "{names[v]}";\n'
        for _, tip, length in edges:
            label = f' [label="{length}"]' if lists.lengths else ""
            yield f'  "{names[v]}{join}{names[tip]}"{label};\n'
    yield "}\n"


def _in_quotes(name: str) -> str:
    """The name, in quotes where it could be taken for something else."""
    return name if re.fullmatch("[^#% ][^ ]*", name) else f'"{name}"'


def _is_like_head(lists: _Lists) -> bool:
    """Whether the first line can be taken for the head of a table: its names stand in no other, and are no numbers."""
    v, tip, _ = lists.edges[0]
    ends = [end for u, w, _ in lists.edges for end in (u, w)]
    is_alone = v != tip and ends.count(v) == ends.count(tip) == 1
    return is_alone and not any(re.fullmatch("-?[0-9]+", lists.names[end]) for end in (v, tip))


def _edges(lists: _Lists, numbers: bool) -> Iterator[str]:
    if not numbers and len(set(lists.names)) < lists.n:
        raise ValueError("two vertices have one name: numbers=True tells them apart")
    shown = [str(number) for number in range(1, lists.n + 1)] if numbers else [_in_quotes(name) for name in lists.names]
    met = {tip for _, tip, _ in lists.arcs} | {v for v, _, _ in lists.arcs}
    is_begun = numbers or lists.lengths or lists.n < 3 or not lists.edges or not _is_like_head(lists)
    for v, edges in lists.by_vertex(lists.edges):
        alone = f"{v + 1}\n" if numbers else f'"{lists.names[v]}"\n'
        if v not in met or edges and not is_begun:
            yield alone
            is_begun = True
        for _, tip, length in edges:
            yield f"{shown[v]}\t{shown[tip]}\t{length}\n" if lists.lengths else f"{shown[v]}\t{shown[tip]}\n"


def _dimacs(lists: _Lists) -> Iterator[str]:
    is_edges = not lists.directed and not lists.lengths
    yield from lists.numbered("c")
    if is_edges:
        yield f"p edge {lists.n} {len(lists.edges)}\n"
        yield from (f"e {v + 1} {tip + 1}\n" for v, tip, _ in lists.edges)
    else:
        yield f"p sp {lists.n} {len(lists.arcs)}\n"
        yield from (f"a {v + 1} {tip + 1} {length}\n" for v, tip, length in lists.arcs)


def _metis(lists: _Lists) -> Iterator[str]:
    lists.refuse_loops("metis")
    lists.refuse_parallel("metis")
    for v, _, length in lists.arcs:
        if length < 1:
            raise ValueError(f"metis has no lengths below 1, and there is one at {lists.names[v]}")
    yield from lists.numbered("%")
    yield f"{lists.n} {len(lists.edges)}{' 001' if lists.lengths else ''}\n"
    for _, arcs in lists.by_vertex(lists.arcs):
        yield " ".join(f"{tip + 1} {length}" if lists.lengths else str(tip + 1) for _, tip, length in arcs) + "\n"


def _mtx(lists: _Lists) -> Iterator[str]:
    lists.refuse_parallel("mtx")
    yield "%%MatrixMarket matrix coordinate " + ("integer " if lists.lengths else "pattern ")
    yield "general\n" if lists.directed else "symmetric\n"
    yield from lists.numbered("%")
    yield f"{lists.n} {lists.n} {len(lists.edges)}\n"
    for v, tip, length in lists.edges:
        row, column = (v, tip) if lists.directed else (tip, v)
        yield f"{row + 1} {column + 1} {length}\n" if lists.lengths else f"{row + 1} {column + 1}\n"


def _graphml(lists: _Lists) -> Iterator[str]:
    yield '<?xml version="1.0" encoding="UTF-8"?>\n<graphml xmlns="http://graphml.graphdrawing.org/xmlns">\n'
    yield '  <key id="id" for="graph" attr.name="name" attr.type="string"/>\n'
    yield '  <key id="name" for="node" attr.name="name" attr.type="string"/>\n'
    if lists.lengths:
        yield '  <key id="weight" for="edge" attr.name="weight" attr.type="long"/>\n'
    yield f'  <graph edgedefault="{"directed" if lists.directed else "undirected"}">\n    <data key="id">{_escaped(lists.id)}</data>\n'
    for v, name in enumerate(lists.names):
        yield f'    <node id="n{v}"><data key="name">{_escaped(name)}</data></node>\n'
    for v, tip, length in lists.edges:
        weight = f'><data key="weight">{length}</data></edge>' if lists.lengths else "/>"
        yield f'    <edge source="n{v}" target="n{tip}"{weight}\n'
    yield "  </graph>\n</graphml>\n"


def _size(n: int) -> str:
    """The number of vertices, as the forms of nauty have it."""
    sixes = 1 if n < 63 else 3 if n < 258048 else 6
    return {1: "", 3: "~", 6: "~~"}[sixes] + "".join(chr((n >> 6 * place & 63) + 63) for place in reversed(range(sixes)))


def _letters(bits: bytearray, count: int) -> Iterator[str]:
    """So many bits, six a letter; bits that are missing in the last one stand behind them."""
    for at in range(0, count, 6):
        yield chr(63 + sum(bit << 5 - place for place, bit in enumerate(bits[at:at + 6])))
    yield "\n"


def _graph6(lists: _Lists) -> Iterator[str]:
    lists.refuse_loops("graph6")
    lists.refuse_parallel("graph6")
    # a bit for each pair, those of (0, 1), (0, 2), (1, 2), (0, 3) ..
    n = lists.n
    bits = bytearray(n * (n - 1) // 2 + 5)
    for v, tip, _ in lists.edges:
        low, high = (v, tip) if v < tip else (tip, v)
        bits[high * (high - 1) // 2 + low] = 1
    yield _size(n)
    yield from _letters(bits, n * (n - 1) // 2)


def _sparse6(lists: _Lists) -> Iterator[str]:
    # the edges by their greater ends: a bit, whether to go on to the next vertex, and a vertex: a greater one is gone to,
    # and any other is the smaller end of an edge
    n, wide, now = lists.n, (lists.n - 1).bit_length(), 0
    parts: list[str] = []
    for high, low in sorted((max(v, tip), min(v, tip)) for v, tip, _ in lists.edges):
        if high > now + 1:
            parts.append(f"1{high:0{wide}b}")
            now = high
        parts.append(f"{high - now}{low:0{wide}b}" if wide else "0")
        now = high
    bits = bytearray(map(int, "".join(parts)))
    # ones fill the last letter; after a zero where they would be a loop of the last vertex
    missing = -len(bits) % 6
    filling = [1] * missing
    if missing > wide and n == 1 << wide and now == n - 2:
        filling[0] = 0
    yield ":" + _size(n)
    yield from _letters(bits + bytearray(filling), len(bits))


def _digraph6(lists: _Lists) -> Iterator[str]:
    lists.refuse_parallel("digraph6")
    # a bit for each pair, row by row
    n = lists.n
    bits = bytearray(n * n + 5)
    for v, tip, _ in lists.edges:
        bits[v * n + tip] = 1
    yield "&" + _size(n)
    yield from _letters(bits, n * n)


def convert(graph: Graph, to: str, directed: bool = False, numbers: bool = False, lengths: bool = False) -> str:
    """The graph as text of another program, as examples/listings/convert.awk writes it of a listing.

    Parameters
    ----------
    to : str
        "dot" (Graphviz), "edges" (a line each, with tabs), "dimacs", "metis", "mtx" (Matrix Market), "graphml", or
        nauty's "graph6", "sparse6" (loops and parallel edges, too) or "digraph6" (arcs), which have no names and lengths.
    directed : bool
        Whether arcs are meant: else two arcs of one length, there and back, are an edge, and so is a loop.
    numbers : bool
        Of "edges": a vertex is the number of its place, from 1, and not its name.
    lengths : bool
        Whether lengths are written also where all are 1.

    Returns
    -------
    str

    Raises
    ------
    ValueError
        Where arcs do not come in pairs, unless `directed`; where the form has no such graph.
    """
    if to not in FORMS:
        raise ValueError(f"the forms are {', '.join(FORMS)}, and not {to!r}")
    if directed and to in ("metis", "graph6", "sparse6"):
        raise ValueError(f"{to} has no arcs")
    if not directed and to == "digraph6":
        raise ValueError("digraph6 has arcs alone: directed=True")
    if numbers and to != "edges":
        raise ValueError("numbers=True is for edges")
    with _uncollected():
        lists = _Lists(graph, directed, lengths)
        parts = _edges(lists, numbers) if to == "edges" else globals()["_" + to](lists)
        return "".join(parts)
