"""Which vertex has a name, which graphs are generators', and lists in pieces."""

from __future__ import annotations

import bisect
from typing import TYPE_CHECKING, Any, Iterator, Optional, Sequence

if TYPE_CHECKING:
    from ._graph import Graph
    from ._rows import Rows

# the calls of generators: their vertices are vectors in their order, each once
GENERATORS = (
    "board", "simplex", "subsets", "complete", "transitive", "empty", "circuit", "cycle", "disjoint_subsets", "petersen",
)
# a graph of no more than so many vertices and arcs is fetched whole when a list of it is asked for
FEW = 65_536, 1_048_576
# the names that are looked at at once
MANY = 65_536


def is_generated(graph: Graph) -> bool:
    """Whether the graph is that of a generator's call."""
    return graph.text.split("(")[0] in GENERATORS


def pieces(graph: Graph) -> Iterator[Rows]:
    """All lists of a graph, few vertices and arcs at once."""
    first = 0
    while first < graph.n:
        count = min(FEW[0], graph.n - first)
        while count > 1 and graph._size(first, count) > FEW[1]:
            count //= 2
        yield graph.rows(first, count)
        first += count


def places(names: Sequence[str]) -> dict[str, int]:
    """The vertex of each name, the first one where several have it."""
    found: dict[str, int] = {}
    for v, name in enumerate(names):
        found.setdefault(name, v)
    return found


def searched(graph: Graph, name: str) -> Optional[int]:
    """The first vertex that has this name, of a graph whose names are too many for a dictionary."""
    if is_generated(graph):
        return _bisected(graph, name)
    for first in range(0, graph.n, MANY):
        names = graph.names(first, min(MANY, graph.n - first))
        if name in names:
            return first + names.index(name)
    return None


def _bisected(graph: Graph, name: str) -> Optional[int]:
    try:
        wanted = _vector(name)
    except ValueError:
        return None
    vectors: Any = _Vectors(graph)
    place = bisect.bisect_left(vectors, wanted)
    return place if place < graph.n and graph.name(place) == name else None


def _vector(name: str) -> list[int]:
    return [int(part) for part in name.split(".")]


class _Vectors:
    """The vectors of a generator's vertices, in order."""

    def __init__(self, graph: Graph) -> None:
        self._graph = graph

    def __len__(self) -> int:
        return self._graph.n

    def __getitem__(self, v: int) -> list[int]:
        return _vector(self._graph.name(v))
