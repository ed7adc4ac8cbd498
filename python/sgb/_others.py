"""Graphs of other packages, made of ours: the methods of `Graph` that make them, and how arcs are paired to edges."""

from __future__ import annotations

import contextlib
import gc
from typing import TYPE_CHECKING, Any, Iterable, Iterator, List, Sequence, Tuple

from . import _events

if TYPE_CHECKING:
    import igraph
    import networkx
    import scipy.sparse

    from ._graph import Graph

# (v, tip, length)
Arc = Tuple[int, int, int]
Columns = Tuple[List[int], List[int], List[int]]


@contextlib.contextmanager
def _uncollected() -> Iterator[None]:
    """Python's collector looks through all objects again and again while many are made: here none is garbage."""
    was_on = gc.isenabled()
    gc.disable()
    try:
        yield
    finally:
        if was_on:
            gc.enable()


def paired(arcs: Iterable[Arc], advice: str = "say directed=True where arcs are meant") -> list[Arc]:
    """Of each edge the arc that comes first: the one of its first end, and the first of the two of a loop."""
    # waiting: the arcs that were met without one back so far, and how often each
    edges: list[Arc] = []
    waiting: dict[Arc, int] = {}
    for arc in arcs:
        v, tip, length = arc
        back = tip, v, length
        if back not in waiting:
            edges.append(arc)
            waiting[arc] = waiting.get(arc, 0) + 1
        elif waiting[back] > 1:
            waiting[back] -= 1
        else:
            del waiting[back]
    if waiting:
        said = "the arc from vertex %d to vertex %d, length %d, is no edge, since none leads back: "
        raise ValueError(said % next(iter(waiting)) + advice)
    return edges


def columns(graph: Graph, undirected: bool, advice: str = "without undirected=True arcs are kept as they are") -> Columns:
    """Where the arcs begin, where they lead, and their lengths; or of each edge the arc that `paired` keeps."""
    arrays = [_events.tails_of(graph.starts), graph.tips, graph.lengths]
    if not undirected:
        return _lists(arrays)
    places = _places(*arrays) if all(map(_events.is_array, arrays)) else None
    if places is None:
        edges = paired(zip(*_lists(arrays)), advice)
        return [v for v, _, _ in edges], [tip for _, tip, _ in edges], [length for _, _, length in edges]
    return _lists([array[places] for array in arrays])


def _lists(arrays: Iterable[Any]) -> Any:
    return tuple(array if isinstance(array, list) else array.tolist() for array in arrays)


def _places(tails: Any, tips: Any, lengths: Any) -> Any:
    """The same by arrays of numpy: which arcs `paired` keeps, or None where they are no edges."""
    numpy = _events.numpy
    kept, turned = (tails < tips).nonzero()[0], (tips < tails).nonzero()[0]
    # the arcs there and those back, in order of their ends, and then of their lengths
    there, back = _sorted(tails, tips, lengths, kept), _sorted(tips, tails, lengths, turned)
    if len(there[0]) != len(back[0]) or not all((one == other).all() for one, other in zip(there, back)):
        return None
    # of the two arcs of a loop the first one, wherever that is
    loops = (tails == tips).nonzero()[0]
    if len(loops):
        loops = loops[numpy.lexsort((lengths[loops], tails[loops]))]
        first, second = loops[::2], loops[1::2]
        if len(first) != len(second) or (tails[first] != tails[second]).any() or (lengths[first] != lengths[second]).any():
            return None
        kept = numpy.sort(numpy.concatenate((kept, first)))
    return kept


def _sorted(small: Any, great: Any, lengths: Any, taken: Any) -> Any:
    """Ends, each pair in one number, and lengths of the arcs that are taken, in order."""
    ends, lengths = small[taken].astype("int64") << 32 | great[taken], lengths[taken]
    if (lengths == lengths[:1]).all():
        ends.sort()
        return ends, lengths
    place = _events.numpy.lexsort((lengths, ends))
    return ends[place], lengths[place]


def to_scipy(graph: Graph) -> scipy.sparse.csr_array:
    """The matrix of lengths.

    Returns
    -------
    scipy.sparse.csr_array of int64, shape (n, n)
        Row v is the list of vertex v, in its order. Parallel arcs are entries of one place, which scipy adds where
        it makes one of them. It is scipy's own, and may be changed.
    """
    import scipy.sparse

    # the arrays are not to be changed, and the matrix may be
    arrays = graph.lengths.copy(), graph.tips.copy(), graph.starts.copy()
    return scipy.sparse.csr_array(arrays, shape=(graph.n, graph.n))


def to_networkx(graph: Graph, multi: bool = False, names: bool = False, undirected: bool = False) -> networkx.Graph:
    """The graph in networkx, with the lengths as `weight` and the id as its name.

    Parameters
    ----------
    multi : bool
        Whether it is a multigraph, which has room for parallel arcs or edges.
    names : bool
        Whether the nodes are the names of the vertices; otherwise they are their numbers, 0 to n - 1.
    undirected : bool
        Whether it has an edge for each edge of the graph; otherwise it has each arc on the lists, two for an edge
        and two for a loop. (What `to_undirected` of networkx makes of these has two loops for one.)

    Returns
    -------
    networkx.DiGraph, MultiDiGraph, Graph or MultiGraph
        Its nodes are in the order of the vertices, its arcs in that of the lists. An edge comes as it stands on the
        list of the end that is first, and a loop as the first of its two arcs.

    Raises
    ------
    ValueError
        Without `multi`, where there are parallel arcs or edges. With `names`, where two vertices have one name.
        With `undirected`, where the arcs are no edges, as in `edges`.
    """
    import networkx

    nodes: Sequence[Any] = list(graph.names()) if names else range(graph.n)
    if names and len(set(nodes)) != graph.n:
        raise ValueError("two vertices have one name: without names=True the nodes are numbers")
    if undirected:
        made = networkx.MultiGraph(name=graph.id) if multi else networkx.Graph(name=graph.id)
    else:
        made = networkx.MultiDiGraph(name=graph.id) if multi else networkx.DiGraph(name=graph.id)
    made.add_nodes_from(nodes)
    with _uncollected():
        if undirected:
            _add_edges(graph, made, nodes)
        else:
            _add_arcs(graph, made, nodes)
    return made


def _add_arcs(graph: Graph, made: Any, nodes: Sequence[Any]) -> None:
    multi = made.is_multigraph()
    starts, tips, lengths = graph.starts.tolist(), graph.tips.tolist(), graph.lengths.tolist()
    if nodes != range(graph.n):
        tips = list(map(nodes.__getitem__, tips))
    # what add_edges_from leaves in the dictionaries of these classes, without its questions at each arc
    leaving, entering = made._succ, made._pred
    for v, a, b in zip(nodes, starts, starts[1:]):
        ends = leaving[v]
        for tip, length in zip(tips[a:b], lengths[a:b]):
            if not multi:
                ends[tip] = entering[tip][v] = {"weight": length}
            elif tip in ends:
                ends[tip][len(ends[tip])] = {"weight": length}
            else:
                ends[tip] = entering[tip][v] = {0: {"weight": length}}
        if not multi and len(ends) != b - a:
            said = "multi=True keeps them, and sgb.gunion(g, g, directed=True) has one of each"
            raise ValueError(f"the graph has parallel arcs: {said}")


def _add_edges(graph: Graph, made: Any, nodes: Sequence[Any]) -> None:
    multi = made.is_multigraph()
    # as in _add_arcs, what add_edges_from leaves
    near = made._adj
    for v, tip, length in zip(*columns(graph, True)):
        v, tip = nodes[v], nodes[tip]
        ends = near[v]
        if tip not in ends:
            data: Any = {"weight": length}
            ends[tip] = near[tip][v] = {0: data} if multi else data
        elif multi:
            ends[tip][len(ends[tip])] = {"weight": length}
        else:
            raise ValueError("the graph has parallel edges: multi=True keeps them, and sgb.gunion(g, g) has one of each")


def to_igraph(graph: Graph, undirected: bool = False) -> igraph.Graph:
    """The graph in igraph, with the names of the vertices as `name`, the lengths as `weight`, and the id as its name.

    Parameters
    ----------
    undirected : bool
        Whether it has an edge for each edge of the graph; otherwise it has each arc on the lists.

    Returns
    -------
    igraph.Graph
        Its vertices are in order, its arcs or edges as in `to_networkx`.

    Raises
    ------
    ValueError
        With `undirected`, where arcs are no edges, as in `edges`.
    """
    import igraph

    tails, tips, lengths = columns(graph, undirected)
    return igraph.Graph(
        n=graph.n, edges=zip(tails, tips), directed=not undirected, graph_attrs={"name": graph.id},
        vertex_attrs={"name": list(graph.names())}, edge_attrs={"weight": lengths},
    )
