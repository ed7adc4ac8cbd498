"""A graph that is open, as arrays."""

from __future__ import annotations

import operator
from typing import TYPE_CHECKING, Any, Callable, Iterator, Optional, SupportsIndex

from . import _library, _lookups, _names, _operations, _others, _same
from ._names import Names
from ._rows import Rows

if TYPE_CHECKING:
    import numpy
    from numpy.typing import NDArray

FIELDS = "uvwxyz"
# how many vertices may be looked up by a dictionary of all names
NAMED = 1_048_576


class Graph:
    """A graph, open by its official name. `sgb.graph` makes it.

    A generator's graph (board, simplex, subsets, and the short names of such, as complete(5)) is not built: it may have
    10^9 vertices, and what is asked for is made alone. All others are built, and held as they are.

    It is gone through as graphs of networkx are: `for v in g` goes over its vertices, the numbers 0 to n - 1,
    `len(g)` of them; `g[v]` is where the arcs of vertex v lead. Its arrays have the lists of arcs one after another:
    the list of vertex v is what stands from starts[v] up to starts[v + 1] in `tips` and `lengths`. They are made when
    they are first asked for, and cannot be changed. `rows` and `chunks` give the lists of some vertices.

    Graphs are equal, and have one hash, where they are one object; `same_as` compares all that two graphs have. A graph can be
    pickled and copied: it is made again from its text, or from its .gb file where the text has `stdin`.

    The library holds the graph until `close`, the end of a `with`, or the end of this object. What was asked for
    before stays; what was not is then a ValueError. A vertex is any integer, numpy's too: where there is no such
    vertex, it is an IndexError. Want of memory is a MemoryError.

    Attributes
    ----------
    text, id : str
        The expression, and the id: the graph's official name.
    n : int
        How many vertices it has.
    """

    text: str
    id: str
    n: int

    def __init__(self, text: str, input: Any = None) -> None:  # noqa: A002 (the expression `stdin` is this input)
        words = _library.expression(text)
        given = input.save() if isinstance(input, Graph) else _library.input_bytes(input)
        self._begin(_library.Held("sgb_open", words, len(words), given, len(given)), text)

    @classmethod
    def _of(cls, held: _library.Held) -> Graph:
        """The graph that a call has made."""
        graph = cls.__new__(cls)
        graph._begin(held, "stdin")
        return graph

    def _begin(self, held: _library.Held, text: str) -> None:
        self._held = held
        self._kept: dict[str, Any] = {}
        sizes = _library.Sizes()
        held.call("sgb_sizes", sizes)
        self.text, self.n = text, sizes.vertices
        name = _library.Array("B", sizes.id)
        held.call("sgb_id", *name.words)
        self.id = name.bytes().decode(errors="surrogateescape")
        if not _lookups.is_generated(self):
            # where a graph is built they are counted
            self._kept["number of arcs"] = held.number("sgb_arcs")

    def close(self) -> None:
        """Gives back what the library holds of the graph."""
        self._held.close()

    @property
    def closed(self) -> bool:
        """Whether the graph was closed, a bool."""
        return not self._held.is_open

    def __enter__(self) -> Graph:
        return self

    def __exit__(self, *_: object) -> None:
        self.close()

    def __len__(self) -> int:
        return self.n

    def __iter__(self) -> Iterator[int]:
        return iter(range(self.n))

    def __contains__(self, v: object) -> bool:
        try:
            return 0 <= operator.index(v) < self.n  # type: ignore[arg-type]
        except TypeError:
            return False

    __repr__, __reduce__, same_as = _same.shown, _same.reduced, _same.same_as

    def _fetched(self, what: str, fetch: Callable[[], Any]) -> Any:
        if what not in self._kept:
            with self._held.lock:
                if what not in self._kept:
                    self._kept[what] = fetch()
        return self._kept[what]

    @property
    def m(self) -> int:
        """How many arcs the graph counts, an int: 2^64 - 1 also where there are more. An edge counts as two.

        A generator's arcs are counted without their lists: of a board by its displacements, of a simplex at once;
        subsets are gone through where their sum and the wanted sizes are great, which takes long where they are many.
        """
        return self._fetched("number of arcs", lambda: self._held.number("sgb_arcs"))

    @property
    def kinds(self) -> str:
        """What the utility fields hold, a str of 14 letters of Z I V S A.

        Of vertices u v w x y z, of arcs a b, of the graph uu vv ww xx yy zz. I is an integer, and Z a field that is not
        used.
        """
        return self._fetched("kinds", self._fetch_kinds)

    def _fetch_kinds(self) -> str:
        letters = _library.Array("B", 14)
        self._held.call("sgb_kinds", *letters.words)
        return letters.bytes().decode()

    @property
    def starts(self) -> NDArray[numpy.uint64]:
        """Where the lists begin, and where the last one ends: uint64 array of shape (n + 1,)."""
        return self._whole.starts

    @property
    def tips(self) -> NDArray[numpy.uint32]:
        """Where the arcs lead, numbers of vertices: uint32 array of shape (starts[n],)."""
        return self._whole.tips

    @property
    def lengths(self) -> NDArray[numpy.int64]:
        """The lengths of the arcs: int64 array of shape (starts[n],)."""
        return self._fetched("lengths", self._fetch_lengths)

    def _fetch_lengths(self) -> Any:
        starts, tips, lengths = self._lists(0, self.n, True)
        # where the lists are there, they stay what they are
        self._kept.setdefault("lists", Rows(self.text, 0, starts, tips, None))
        return lengths

    @property
    def _whole(self) -> Rows:
        """All lists, without their lengths. They do not lead back here, so that the graph ends with its last use."""
        return self._fetched("lists", lambda: Rows(self.text, 0, *self._lists(0, self.n, False)))

    # runs of vertices

    def _run(self, first: SupportsIndex, count: Optional[SupportsIndex]) -> tuple[int, int]:
        """A first vertex and a number of vertices that are there."""
        begin = operator.index(first)
        if not 0 <= begin <= self.n:
            raise IndexError(f"no vertex {begin}: there are {self.n}")
        many = self.n - begin if count is None else operator.index(count)
        if not 0 <= many <= self.n - begin:
            raise IndexError(f"no {many} vertices from vertex {begin} on: there are {self.n}")
        return begin, many

    def _size(self, first: int, count: int) -> int:
        """How many arcs are on the lists of a run. Of all of a generator's they are those that are counted, at once."""
        if count == self.n and _lookups.is_generated(self):
            return self.m
        return self._held.number("sgb_rows_size", first, count)

    def _lists(self, first: int, count: int, lengths: bool) -> tuple[Any, Any, Any]:
        size = self._size(first, count)
        starts, tips = _library.Array("Q", count + 1), _library.Array("I", size)
        if not lengths:
            self._held.call("sgb_tips", first, count, *starts.words, *tips.words)
            return starts.seen(), tips.seen(), None
        more = _library.Array("q", size)
        self._held.call("sgb_rows", first, count, *starts.words, *tips.words, *more.words)
        return starts.seen(), tips.seen(), more.seen()

    def rows(self, first: SupportsIndex = 0, count: Optional[SupportsIndex] = None, lengths: bool = True) -> Rows:
        """The lists of arcs of some vertices, one after another. No others are made.

        Parameters
        ----------
        first, count : int
            The first vertex, and how many there are: without `count`, all from that one on.
        lengths : bool
            Whether the lengths of the arcs come too. Without them it takes less time.

        Returns
        -------
        Rows
            With arrays `starts`, uint64 of shape (count + 1,), `tips`, uint32, and `lengths`, int64, both of shape
            (starts[count],).

        Raises
        ------
        IndexError
            Where the graph does not have these vertices.
        """
        begin, many = self._run(first, count)
        return Rows(self.text, begin, *self._lists(begin, many, lengths), self)

    def chunks(self, size: SupportsIndex = 65536, first: SupportsIndex = 0, count: Optional[SupportsIndex] = None,
               lengths: bool = True) -> Iterator[Rows]:
        """The vertices of the graph in chunks, each as `rows` gives it when its turn comes.

        Parameters
        ----------
        size : int
            How many vertices a chunk has; the last one may have fewer. Where lists are long, fewer are right.
        first, count : int
            The first vertex, and how many vertices there are in all chunks: without `count`, all from that one on.
        lengths : bool
            Whether the lengths of the arcs come too.

        Returns
        -------
        iterator of Rows

        Raises
        ------
        ValueError
            Where `size` is less than 1.
        IndexError
            Where the graph does not have these vertices.
        """
        step = operator.index(size)
        if step < 1:
            raise ValueError(f"no chunks of {step} vertices")
        begin, many = self._run(first, count)
        end = begin + many
        return (self.rows(at, min(step, end - at), lengths) for at in range(begin, end, step))

    # one vertex

    def _with(self, v: SupportsIndex, lengths: bool = False) -> Rows:
        """Lists among which that of the vertex is: all, where these are there or few, else this one."""
        place = operator.index(v)
        if not 0 <= place < self.n:
            raise IndexError(f"no vertex {place}: there are {self.n}")
        if ("lengths" if lengths else "lists") in self._kept or self._fetched("size", self._is_small):
            return Rows(self.text, 0, self.starts, self.tips, self.lengths) if lengths else self._whole
        return self.rows(place, 1, lengths)

    def _is_small(self) -> bool:
        return self.n <= _lookups.FEW[0] and self._size(0, self.n) <= _lookups.FEW[1]

    def __getitem__(self, v: SupportsIndex) -> NDArray[numpy.uint32]:
        return self.neighbors(v)

    def neighbors(self, v: SupportsIndex) -> NDArray[numpy.uint32]:
        """Where the arcs of vertex v lead, in the order of its list: uint32 array. `g[v]` is the same.

        A great graph's other lists are not made for it.
        """
        return self._with(v).neighbors(v)

    def lengths_of(self, v: SupportsIndex) -> NDArray[numpy.int64]:
        """The lengths of the arcs of vertex v, in the order of its list: int64 array."""
        return self._with(v, True).lengths_of(v)

    def degree(self, v: SupportsIndex) -> int:
        """How many arcs are on the list of vertex v, an int. An edge is on those of both ends, a loop twice on one."""
        return self._with(v).degree(v)

    def name(self, v: SupportsIndex) -> str:
        """The name of vertex v."""
        place = operator.index(v)
        if not 0 <= place < self.n:
            raise IndexError(f"no vertex {place}: there are {self.n}")
        return self.names(place, 1)[0]

    def vertex(self, name: str) -> int:
        """The vertex that has this name, the first one where several have it. KeyError where none has."""
        if not isinstance(name, str):
            raise TypeError(f"a name is a str, and this is {type(name).__name__}")
        if self.n <= NAMED:
            found = self._fetched("places of names", lambda: _lookups.places(self.names())).get(name)
        else:
            found = _lookups.searched(self, name)
        if found is None:
            raise KeyError(f"no vertex {name!r}")
        return found

    # names, integers, and the file

    def names(self, first: SupportsIndex = 0, count: Optional[SupportsIndex] = None) -> Names:
        """The names of some vertices, one after another.

        Parameters
        ----------
        first, count : int
            The first vertex, and how many there are: without `count`, all from that one on.

        Returns
        -------
        Names
            A sequence of count str.

        Raises
        ------
        IndexError
            Where the graph does not have these vertices.
        """
        begin, many = self._run(first, count)
        if "names" in self._kept or many == self.n:
            return self._fetched("names", lambda: _names.fetched(self._held, 0, self.n)).part(begin, begin + many)
        return _names.fetched(self._held, begin, many)

    def ints(self, field: str, first: SupportsIndex = 0, count: Optional[SupportsIndex] = None) -> NDArray[numpy.int64]:
        """The integers in a utility field of some vertices. Those of a board are the coordinates.

        Parameters
        ----------
        field : str
            The field, "u" to "z".
        first, count : int
            The first vertex, and how many there are: without `count`, all from that one on.

        Returns
        -------
        int64 array of shape (count,)

        Raises
        ------
        GraphError
            With code 102, where the field does not hold integers.
        ValueError
            Where `field` is none of these letters.
        IndexError
            Where the graph does not have these vertices.
        """
        if not isinstance(field, str):
            raise TypeError(f"a field is a str, and this is {type(field).__name__}")
        if len(field) != 1 or field not in FIELDS:
            raise ValueError(f"no field {field!r}: one of u v w x y z")
        what, (begin, many) = "integers " + field, self._run(first, count)
        if what in self._kept or many == self.n:
            return self._fetched(what, lambda: self._fetch_ints(field, 0, self.n))[begin : begin + many]
        return self._fetch_ints(field, begin, many)

    def _fetch_ints(self, field: str, first: int, count: int) -> Any:
        values = _library.Array("q", count)
        self._held.call("sgb_ints", FIELDS.index(field), first, count, *values.words)
        return values.seen()

    def save(self) -> bytes:
        """The bytes of the graph's .gb file, as `sgb save` writes it. A generator's graph is built for it."""
        file = _library.Array("B", self._held.number("sgb_file_size"))
        self._held.call("sgb_file", *file.words)
        return file.bytes()

    # arcs, edges, and other packages

    def arcs(self) -> Iterator[tuple[int, int, int]]:
        """The arcs (v, tip, length), int each, in the order of the lists. A great graph's come chunk by chunk."""
        if "lengths" in self._kept or self._fetched("size", self._is_small):
            return Rows(self.text, 0, self.starts, self.tips, self.lengths).arcs()
        return (arc for rows in _lookups.pieces(self) for arc in rows.arcs())

    def edges(self) -> list[tuple[int, int, int]]:
        """The edges (v, tip, length), int each: of each edge the arc that comes first, and of a loop one of its two.

        ValueError where the arcs are no edges: an edge is two arcs of one length, there and back, and so is a loop.
        (Arcs that by chance come so are taken for edges.) """
        return list(zip(*_others.columns(self, True, "arcs() has it as it is")))

    to_scipy, to_networkx, to_igraph = _others.to_scipy, _others.to_networkx, _others.to_igraph
    complement, lines = _operations.complement, _operations.lines
