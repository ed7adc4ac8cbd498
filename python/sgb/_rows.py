"""The lists of arcs of some vertices."""

from __future__ import annotations

import operator
from typing import TYPE_CHECKING, Any, Iterator, Optional, SupportsIndex

from . import _library
from ._names import Names

if TYPE_CHECKING:
    import numpy
    from numpy.typing import NDArray

    from ._graph import Graph


class Rows:
    """The lists of arcs of a run of vertices of a graph: `n` of them, one after another from vertex `first` on.

    `Graph.rows` and `Graph.chunks` make them. The list of vertex first + k is what stands from starts[k] up to
    starts[k + 1] in `tips` and `lengths`. Vertices are numbers of the whole graph everywhere: `rows[v]` is where the
    arcs of vertex v lead, and `for v in rows` goes over the vertices of the run, `len(rows)` of them.

    They can be pickled. Names that were not asked for before are then not there.

    Attributes
    ----------
    text : str
        The expression of the graph.
    first, n : int
        The first vertex, and how many there are.
    starts : uint64 array of shape (n + 1,)
        Where the lists begin, and where the last one ends: starts[0] is 0.
    tips : uint32 array of shape (starts[n],)
        Where the arcs lead: numbers of vertices of the whole graph.
    lengths : int64 array of shape (starts[n],), or None
        The lengths of the arcs, or None where they were not asked for.
    """

    text: str
    first: int
    n: int
    starts: NDArray[numpy.uint64]
    tips: NDArray[numpy.uint32]
    lengths: Optional[NDArray[numpy.int64]]

    def __init__(self, text: str, first: int, starts: Any, tips: Any, lengths: Any, graph: Optional[Graph] = None) -> None:
        self.text, self.first, self.n = text, first, len(starts) - 1
        self.starts, self.tips, self.lengths = starts, tips, lengths
        self._graph = graph
        self._names: Optional[Names] = None

    def __len__(self) -> int:
        return self.n

    def __repr__(self) -> str:
        return f"sgb.graph({self.text!r}).rows({self.first}, {self.n})"

    def __iter__(self) -> Iterator[int]:
        return iter(range(self.first, self.first + self.n))

    def __contains__(self, v: object) -> bool:
        try:
            return 0 <= operator.index(v) - self.first < self.n  # type: ignore[arg-type]
        except TypeError:
            return False

    def __getitem__(self, v: SupportsIndex) -> NDArray[numpy.uint32]:
        return self.neighbors(v)

    def _place(self, v: SupportsIndex) -> slice:
        k = operator.index(v) - self.first
        if not 0 <= k < self.n:
            raise IndexError(f"no vertex {v}: there are {self.n} from vertex {self.first} on")
        return slice(int(self.starts[k]), int(self.starts[k + 1]))

    def neighbors(self, v: SupportsIndex) -> NDArray[numpy.uint32]:
        """Where the arcs of vertex v lead, in the order of its list, a part of `tips`; `rows[v]` is the same.

        IndexError where the vertex is not in the run.
        """
        return self.tips[self._place(v)]

    def lengths_of(self, v: SupportsIndex) -> NDArray[numpy.int64]:
        """The lengths of the arcs of vertex v, in the order of its list, a part of `lengths`.

        IndexError where the vertex is not in the run, ValueError where lengths were not asked for.
        """
        return self._lengths()[self._place(v)]

    def _lengths(self) -> Any:
        if self.lengths is None:
            raise ValueError("the lengths were not asked for")
        return self.lengths

    def degree(self, v: SupportsIndex) -> int:
        """How many arcs are on the list of vertex v. IndexError where the vertex is not in the run."""
        place = self._place(v)
        return place.stop - place.start

    def arcs(self) -> Iterator[tuple[int, int, int]]:
        """The arcs (v, tip, length), int each, in the order of the lists.

        ValueError where lengths were not asked for.
        """
        lengths = self._lengths().tolist()
        starts = self.starts.tolist()
        tails = (v for v, a, b in zip(self, starts, starts[1:]) for _ in range(a, b))
        return zip(tails, self.tips.tolist(), lengths)

    def names(self) -> Names:
        """The names of the run's vertices, a sequence of n str, which are fetched when they are first asked for.

        ValueError where they were not asked for before the graph was closed, or before these rows were pickled.
        """
        if self._names is None:
            if self._graph is None:
                raise ValueError("the names were not asked for before the rows were pickled")
            self._names = self._graph.names(self.first, self.n)
        return self._names

    def __reduce__(self) -> Any:
        parts: tuple[Any, ...] = self.starts, self.tips, self.lengths
        arrays = [None if part is None else part.tobytes() for part in parts]
        return _made_again, (self.text, self.first, *arrays, self._names)


def _made_again(text: str, first: int, starts: bytes, tips: bytes, lengths: Optional[bytes], names: Any) -> Rows:
    """The rows that were pickled, in another process."""
    seen = None if lengths is None else _library.array_of("q", lengths)
    rows = Rows(text, first, _library.array_of("Q", starts), _library.array_of("I", tips), seen)
    rows._names = names
    return rows
