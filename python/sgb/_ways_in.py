"""Graphs of one's own: their arcs or edges are handed to the library, one after another."""

from __future__ import annotations

import operator
from typing import TYPE_CHECKING, Any, Iterable, Optional, Sequence, SupportsIndex, Union

from . import _events, _files
from ._graph import Graph

if TYPE_CHECKING:
    import igraph
    import networkx
    from numpy.typing import NDArray

    # arrays of numpy are no sequences to a checker of types
    Numbers = Union[Sequence[Any], NDArray[Any]]


def _given(names: Optional[Iterable[str]], events: _events.Events, id: Optional[str]) -> Graph:  # noqa: A002
    """The graph whose lists have these arcs in their order: the library puts later ones first."""
    return _put(names, events.turned(), id)


def _put(names: Optional[Iterable[str]], events: _events.Events, id: Optional[str]) -> Graph:  # noqa: A002
    called = _events.Names(names, events.n)
    return Graph._of(_events.made(called, events, _events.own_id(called, events) if id is None else id))


def from_edges(edges: Iterable[Sequence[Any]], n: Optional[int] = None, names: Optional[Sequence[str]] = None,
               directed: bool = False, id: Optional[str] = None) -> Graph:  # noqa: A002
    """The graph of some edges, or arcs.

    Parameters
    ----------
    edges : iterable of (v, tip) or (v, tip, length), or integer array of shape (m, 2) or (m, 3)
        The ends are vertices, 0 to n - 1, or their names, if all are str. A length is an integer; it is 1 where there
        is none. Parallel edges and loops are what they are.
    n : int
        How many vertices there are. If it is not said: as many as there are names, else one more than the greatest end.
    names : sequence of str
        The names of the vertices. If there are none: the ends, in the order in which they are met, where they are
        names; else the numbers of the vertices.
    directed : bool
        Whether they are arcs; otherwise each edge is two arcs there and back, and a loop two of its vertex.
    id : str
        Its official name. If it is not said it has the numbers of vertices and arcs and a sum of all that the graph is,
        so that graphs of one official name are the same.

    Returns
    -------
    Graph
        Its expression is `stdin`, which its .gb file stands for, `save()`. The list of a vertex has its arcs in the order in
        which they are given. (Graphs that GraphBase makes arc by arc have them the other way round: so does `from_arrays`.)

    Raises
    ------
    ValueError
        Where GraphBase has no such graph: an end that is no vertex, a length that is no integer of 64 bits, a name or
        an id that is too long or not printable ASCII without quotation mark and backslash, more than 10^9 vertices.
    TypeError
        Where ends are neither numbers nor all names.

    Examples
    --------
    >>> g = sgb.from_edges([("a", "b"), ("b", "c", 7)])
    >>> g.names(), list(g.arcs())
    (['a', 'b', 'c'], [(0, 1, 1), (1, 0, 1), (1, 2, 7), (2, 1, 7)])
    """
    names, events = _events_of(edges, n, names, directed)
    return _given(names, events, id)


def file_of_edges(edges: Iterable[Sequence[Any]], n: Optional[int] = None, names: Optional[Sequence[str]] = None,
                  directed: bool = False, id: Optional[str] = None) -> bytes:  # noqa: A002
    """The .gb file of the graph that `from_edges` makes of the same, for `stdin` in any expression, here or of the program.

    Returns
    -------
    bytes
        Its records are in the order of the edges. (In the file that `save` writes of the open graph later ones come first:
        the lists of both are the same.)

    Raises
    ------
    ValueError, TypeError
        As `from_edges`.
    """
    names, events = _events_of(edges, n, names, directed)
    called = _events.Names(names, events.n)
    title = _events.own_id(called, events.turned()) if id is None else id
    return _files.gb_file(called.all, events.records(), title)


def _events_of(edges: Any, n: Optional[int], names: Optional[Sequence[str]], directed: bool) -> tuple[Any, _events.Events]:
    """Names, if there are any, and arcs or edges."""
    if _events.is_array(edges) and edges.ndim == 2 and edges.shape[1] in (2, 3):
        columns = [edges[:, k] for k in range(edges.shape[1])]
    else:
        given = [_ends(edge) for edge in edges]
        if any(isinstance(end, str) for edge in given for end in edge[:2]):
            given, names = _numbered(given, names)
        columns = [[edge[k] for edge in given] for k in (0, 1)]
        columns.append([edge[2] if len(edge) == 3 else 1 for edge in given])
    return names, _columns(columns, n, names, directed)


def _columns(columns: Sequence[Any], n: Optional[SupportsIndex], names: Optional[Sequence[str]], directed: bool) -> _events.Events:
    """Arcs or edges of arrays: where they begin, where they lead, and their lengths, if there are any."""
    tails, tips = map(_events.integers, columns[:2])
    if n is None:
        n = len(names) if names is not None else 1 + max(_events.bounds(tails)[1], _events.bounds(tips)[1])
    many = _events.count(operator.index(n))
    sizes = _events.lengths(columns[2] if len(columns) > 2 else None, len(tips))
    return _events.Events(many, _events.ends(tails, many), _events.ends(tips, many), sizes, bool(directed))


def from_arrays(tails: Numbers, tips: Numbers, lengths: Optional[Numbers] = None,
                n: Optional[int] = None, names: Optional[Sequence[str]] = None, directed: bool = False,
                id: Optional[str] = None) -> Graph:  # noqa: A002
    """The graph that GraphBase makes of some edges or arcs, one after another: each comes first on the lists of its ends.

    Parameters
    ----------
    tails, tips : sequences of int, or arrays of numpy
        Where each begins, and where it leads. Arrays of numpy of type uint32 that have their numbers one after another are
        handed to the library as they are, without a copy.
    lengths : sequence of int, or array of numpy
        Their lengths, 1 if they are not said. So is an array of int64.
    n, names, directed, id
        As for `from_edges`.

    Returns
    -------
    Graph
        The list of a vertex has its arcs in the other order than they are given in. (`from_edges` keeps that order, and
        has to turn it round first.)

    Raises
    ------
    ValueError
        Where they are not as many, or as `from_edges`.
    TypeError
        Where ends are no integers.

    Examples
    --------
    >>> sgb.from_arrays([0, 0], [1, 2], directed=True)[0].tolist()
    [2, 1]
    """
    return _put(names, _columns([tails, tips, lengths], n, names, directed), id)


def _ends(edge: Any) -> tuple[Any, ...]:
    found = tuple(edge)
    if len(found) not in (2, 3):
        raise TypeError(f"an edge is (v, tip) or (v, tip, length), and this is {edge!r:.60}")
    return found


def _numbered(edges: list[tuple[Any, ...]], names: Optional[Sequence[str]]) -> tuple[list[tuple[Any, ...]], list[str]]:
    """Edges whose ends are names, by the numbers of these; all names."""
    known = {} if names is None else {name: v for v, name in enumerate(names)}
    if names is not None and len(known) != len(names):
        raise ValueError("two vertices have one name: their arcs are told by numbers")
    made: list[tuple[Any, ...]] = []
    for edge in edges:
        for end in edge[:2]:
            if not isinstance(end, str):
                raise TypeError(f"the ends of arcs are all numbers or all names, and there is {end!r:.60}")
            if names is not None and end not in known:
                raise ValueError(f"no vertex has the name {end!r:.60}")
            known.setdefault(end, len(known))
        made.append((known[edge[0]], known[edge[1]], *edge[2:]))
    return made, list(known)


def from_csr(starts: Numbers, tips: Numbers, lengths: Optional[Numbers] = None,
             names: Optional[Sequence[str]] = None, id: Optional[str] = None) -> Graph:  # noqa: A002
    """The graph of some arrays, such as a graph has.

    Parameters
    ----------
    starts : sequence of n + 1 int, or array of numpy
        Where the lists begin, and where the last one ends: starts[0] is 0.
    tips : sequence of int, or array of numpy
        Where the arcs lead. The list of vertex v is what stands from starts[v] up to starts[v + 1].
    lengths : sequence of int, or array of numpy
        The lengths of the arcs, 1 if they are not said.
    names, id
        As for `from_edges`.

    Returns
    -------
    Graph
        Its arrays are these. An edge is two of the arcs.

    Raises
    ------
    ValueError
        Where they are no lists, or as `from_edges`.
    """
    places = _events.integers(starts)
    ends = tips if _events.is_array(tips) else list(tips)
    if not len(places) or places[0] != 0 or places[-1] != len(ends) or _events.falls(places):
        raise ValueError(f"starts go from 0 up to the number of tips, which is {len(ends)}")
    n = _events.count(len(places) - 1)
    if lengths is not None and len(lengths) != len(ends):
        raise ValueError(f"there are {len(lengths)} lengths, and {len(ends)} tips")
    return _given(names, _columns([_events.tails_of(places), ends, lengths], n, names, True), id)


def _wanted(given: Any, part: str, what: str) -> None:
    """TypeError where something has not the part by which it is known."""
    if not hasattr(given, part):
        kind = f"{type(given).__module__.partition('.')[0]}.{type(given).__name__}"
        raise TypeError(f"{what} is wanted, and this is {kind.removeprefix('builtins.')}")


def from_networkx(graph: networkx.Graph, weight: str = "weight", id: Optional[str] = None,  # noqa: A002
                  names: bool = True) -> Graph:
    """A graph of networkx.

    Parameters
    ----------
    graph : networkx.Graph, DiGraph, MultiGraph or MultiDiGraph
        Its nodes are the vertices, in its order.
    weight : str
        The attribute of an edge that is its length, 1 where an edge has none.
    id : str
        As for `from_edges`. The name that the graph has in networkx is not taken for an official name.
    names : bool
        Whether the names of the vertices are the texts of the nodes, as `str` has them; otherwise they are their numbers, as
        where nodes are not printable ASCII.

    Returns
    -------
    Graph
        Its arcs or edges are in the order of `graph.edges`, those of each list too.

    Raises
    ------
    ValueError
        As `from_edges`.
    TypeError
        Where it is no graph of networkx.
    """
    _wanted(graph, "nbunch_iter", "a graph of networkx")
    place = {node: v for v, node in enumerate(graph)}
    edges = ((place[u], place[v], length) for u, v, length in graph.edges(data=weight, default=1))
    return from_edges(edges, len(place), [str(node) for node in place] if names else None, graph.is_directed(), id)


def from_igraph(graph: igraph.Graph, weight: str = "weight", id: Optional[str] = None,  # noqa: A002
                names: bool = True) -> Graph:
    """A graph of igraph.

    Parameters
    ----------
    graph : igraph.Graph
        Its vertices are the vertices.
    weight : str
        The attribute of an edge that is its length, 1 where there is none.
    id : str
        As for `from_edges`. The name that the graph has in igraph is not taken for an official name.
    names : bool
        Whether the names are those that the attribute `name` has, if there is one; otherwise they are numbers.

    Returns
    -------
    Graph
        Its arcs or edges are in the order of `graph.es`, those of each list too.

    Raises
    ------
    ValueError
        As `from_edges`.
    TypeError
        Where it is no graph of igraph.
    """
    _wanted(graph, "get_edgelist", "a graph of igraph")
    ends = graph.get_edgelist()
    lengths = graph.es[weight] if weight in graph.es.attributes() else [1] * len(ends)
    called = [str(name) for name in graph.vs["name"]] if names and "name" in graph.vs.attributes() else None
    edges = ((v, tip, length) for (v, tip), length in zip(ends, lengths))
    return from_edges(edges, graph.vcount(), called, graph.is_directed(), id)


def from_scipy(matrix: Any, names: Optional[Sequence[str]] = None, directed: bool = True,
               id: Optional[str] = None) -> Graph:  # noqa: A002
    """The graph of a matrix of lengths.

    Parameters
    ----------
    matrix : sparse array or matrix of scipy, of shape (n, n)
        Its entries are the arcs, from the row to the column, row by row in the order in which they are kept. An entry
        that is kept is an arc, of length 0 where it is 0.
    names, id
        As for `from_edges`.
    directed : bool
        Whether each entry is an arc. Otherwise the matrix has to be symmetric, and the entries that are not below the
        diagonal are the edges.

    Returns
    -------
    Graph

    Raises
    ------
    ValueError
        Where the matrix is not square, or not symmetric if it has to be, or as `from_edges`.
    TypeError
        Where it is no sparse matrix: scipy.sparse.csr_array makes one of an array of numpy.
    """
    _wanted(matrix, "tocsr", "a sparse matrix of scipy")
    rows = matrix.tocsr()
    n = rows.shape[0]
    if rows.shape != (n, n):
        raise ValueError(f"the matrix of a graph is square, and this has {rows.shape[0]} rows and {rows.shape[1]} columns")
    if directed:
        return from_csr(rows.indptr, rows.indices, rows.data, names, id)
    places, tips, lengths = rows.indptr.tolist(), rows.indices.tolist(), rows.data.tolist()
    arcs = [(v, tips[k], lengths[k]) for v, (a, b) in enumerate(zip(places, places[1:])) for k in range(a, b)]
    if sorted(arcs) != sorted((tip, v, length) for v, tip, length in arcs):
        raise ValueError("the matrix is not symmetric: with directed=True its entries are arcs")
    return from_edges([arc for arc in arcs if arc[0] <= arc[1]], n, names, False, id)
