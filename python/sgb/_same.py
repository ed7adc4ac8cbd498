"""How a graph is shown, which graphs are the same, and how one is copied: methods of `Graph`."""

from __future__ import annotations

from typing import TYPE_CHECKING, Any

from . import _lookups, _operations

if TYPE_CHECKING:
    from ._graph import Graph
    from ._rows import Rows

# of a text, or an id, so much is shown
SHOWN = 80
# the arcs of a generator's graph of so many vertices, with so many coordinates, are counted at once
COUNTED = 65_536, 8


def shown(graph: Graph) -> str:
    """The text, or the id of what `stdin` is in, then n, and m where that was counted before or takes no time.

    To count the arcs of a generator's graph may take minutes: of one with more vertices or coordinates ask for `m` first.
    """
    name = graph.id if "stdin" in graph.text else graph.text
    parts = [name if len(name) <= SHOWN else name[:SHOWN] + "..", f"n={graph.n}"]
    if "number of arcs" in graph._kept or _is_soon_counted(graph):
        parts.append(f"m={graph.m}")
    return f"<sgb.Graph {', '.join(parts + ['closed'] * graph.closed)}>"


def _is_soon_counted(graph: Graph) -> bool:
    if graph.closed or graph.n > COUNTED[0]:
        return False
    return all(name.count(".") < COUNTED[1] for name in graph.names(0, min(graph.n, 1)))


def same_as(graph: Graph, other: Graph) -> bool:
    """Whether another graph is the same in all: id, n, m, names, lists of arcs in their order, lengths and utility fields.

    (`==` says whether both are one object.) Graphs are gone through, some lists at a time, up to the first difference. Where they
    have utility fields other than integers of vertices, which graphs of files may have, their `.gb` files are compared, where
    the records of arcs have an order too.

    Raises
    ------
    ValueError
        Where a graph is closed, and what is compared was not asked for before.
    TypeError
        Where the other is no graph.
    """
    _operations._held(other)
    if graph is other or (graph.text == other.text and "stdin" not in graph.text):
        return True
    if any(getattr(graph, what) != getattr(other, what) for what in ("n", "id", "kinds", "m")):
        return False
    if graph.kinds[6:].strip("Z") or graph.kinds[:6].strip("ZI"):
        return graph.save() == other.save()
    return all(_parts(graph, rows) == _parts(other, other.rows(rows.first, rows.n)) for rows in _lookups.pieces(graph))


def _parts(graph: Graph, rows: Rows) -> list[Any]:
    """All that the graph has of the vertices of these rows."""
    arrays: list[Any] = [rows.starts, rows.tips, rows.lengths]
    arrays += [graph.ints(field, rows.first, rows.n) for field, kind in zip("uvwxyz", graph.kinds) if kind == "I"]
    return [rows.names(), *(array.tobytes() for array in arrays)]


def reduced(graph: Graph) -> Any:
    """What makes the graph again: its text, or its file where the text has `stdin`."""
    return (type(graph), ("stdin", graph.save())) if "stdin" in graph.text else (type(graph), (graph.text,))
