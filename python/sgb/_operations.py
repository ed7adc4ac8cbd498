"""Operations on graphs that are open (GB_BASIC), which stay open and as they are; the result is a graph of its own."""

from __future__ import annotations

import operator
from typing import TYPE_CHECKING, Any, Iterable, SupportsIndex, Union

from . import _library

if TYPE_CHECKING:
    from ._graph import Graph

# the products by their names
PRODUCTS = {"cartesian": 0, "direct": 1, "strong": 2}


def integer(number: SupportsIndex, what: str) -> int:
    """A number as C takes it: ValueError where it has not 64 bits."""
    value = operator.index(number)
    if not -(2**63) <= value < 2**63:
        raise ValueError(f"{what} has 64 bits with its sign, and this is {value}")
    return value


def _held(graph: Graph) -> _library.Held:
    held = getattr(graph, "_held", None)
    if not isinstance(held, _library.Held):
        raise TypeError(f"an operand is a graph that is open, and this is {type(graph).__name__}")
    return held


def _of_two(first: Graph, second: Graph, name: str, *words: Any) -> Graph:
    """What a call makes of two graphs; one that comes twice has a call of its own."""
    operands = [_held(first), _held(second)]
    if operands[0] is operands[1]:
        return first._of(_library.made_of(operands[:1], name + "_self", *words))
    return first._of(_library.made_of(operands, name + "_of", *words))


def complement(graph: Graph, copy: bool = False, self_loops: bool = False, directed: bool = False) -> Graph:
    """The graph of the same vertices that has the arcs which this one has not (GB_BASIC, complement).

    Parameters
    ----------
    copy : bool
        Whether it has instead those that this one has, each once and of length 1.
    self_loops : bool
        Whether loops count too.
    directed : bool
        Whether they are arcs; otherwise they are edges.

    Returns
    -------
    Graph
        Its expression is `stdin`, which its file stands for, as of all graphs that are made of others.

    Raises
    ------
    ValueError
        Where the graph is closed.
    """
    return graph._of(_library.made_of([_held(graph)], "sgb_complement", bool(copy), bool(self_loops), bool(directed)))


def lines(graph: Graph, directed: bool = False) -> Graph:
    """The line graph: its vertices are the arcs, or edges, of this one (GB_BASIC, lines).

    Parameters
    ----------
    directed : bool
        Whether each arc is a vertex, which leads to those that go on where it ends; otherwise each edge is one, joined to
        those with an end in common.

    Returns
    -------
    Graph

    Raises
    ------
    ValueError
        Where the graph is closed.
    GraphError
        With code 60, where edges are wanted and the arcs are none; with 40, where there are more than 10^9 vertices.
    """
    return graph._of(_library.made_of([_held(graph)], "sgb_lines", bool(directed)))


def gunion(first: Graph, second: Graph, multi: bool = False, directed: bool = False) -> Graph:
    """The graph of the first one's vertices that has the arcs of both (GB_BASIC, gunion).

    Vertices are the same where their numbers are; arcs of vertices that the first one does not have are left out.

    Parameters
    ----------
    first, second : Graph
        They stay open and as they are. One graph may be both.
    multi : bool
        Whether parallel arcs stay; otherwise one of the least length does.
    directed : bool
        Whether they are arcs; otherwise they are edges, of each of which the arc from the smaller end counts.

    Returns
    -------
    Graph

    Raises
    ------
    ValueError
        Where a graph is closed.
    TypeError
        Where an operand is no graph.
    """
    return _of_two(first, second, "sgb_gunion", bool(multi), bool(directed))


def intersection(first: Graph, second: Graph, multi: bool = False, directed: bool = False) -> Graph:
    """The graph of the first one's vertices that has the arcs which both have (GB_BASIC, intersection).

    Parameters
    ----------
    first, second : Graph
        They stay open and as they are. One graph may be both.
    multi : bool
        Whether parallel arcs stay, as many as the graph has that has fewer; otherwise there is one. Of the two lengths, the
        least of the first graph and its own in the second one, the greater counts.
    directed : bool
        As for `gunion`.

    Returns
    -------
    Graph

    Raises
    ------
    ValueError, TypeError
        As `gunion`.
    """
    return _of_two(first, second, "sgb_intersection", bool(multi), bool(directed))


def product(first: Graph, second: Graph, kind: Union[str, SupportsIndex] = "cartesian", directed: bool = False) -> Graph:
    """The product of two graphs: its vertices are pairs of theirs (GB_BASIC, product).

    Parameters
    ----------
    first, second : Graph
        They stay open and as they are. One graph may be both.
    kind : str or int
        "cartesian": a step in one of the graphs; "direct": in both (networkx's tensor_product); "strong": in one or both.
        Or GB_BASIC's number: 0, an odd one, another even one. An arc has the length of its step, of two steps the lesser one.
    directed : bool
        As for `gunion`.

    Returns
    -------
    Graph
        Vertex u * len(second) + v is the pair of u and v, with a comma between the names. A loop is two arcs: where it meets
        an edge there are two edges, direct or strong, and networkx has one. `gunion(g, g)` has one of each.

    Raises
    ------
    ValueError
        Where the kind is none, or a graph is closed.
    GraphError
        With code 40, where there are more than 10^9 vertices.
    TypeError
        Where an operand is no graph.
    """
    if isinstance(kind, str) and kind not in PRODUCTS:
        raise ValueError(f"no product {kind!r}: one of {', '.join(PRODUCTS)}")
    number = PRODUCTS[kind] if isinstance(kind, str) else integer(kind, "the kind of a product")
    return _of_two(first, second, "sgb_product", number, bool(directed))


def induced(graph: Graph, entries: Iterable[Union[SupportsIndex, Graph]], self_loops: bool = False, multi: bool = False,
            directed: bool = False) -> Graph:
    """The graph that comes of putting entries in the place of vertices (GB_BASIC, induced).

    Parameters
    ----------
    entries : iterable of int and Graph
        One for each vertex: 0 drops it, 1 keeps it, a greater number makes so many of it, a number below 0 merges it with
        all others of that number, a graph comes in its place, with its arcs. A graph is copied, may be an entry many times,
        and may be the operand itself.
    self_loops : bool
        Whether loops stay.
    multi : bool
        Whether parallel arcs stay; otherwise one of the least length does.
    directed : bool
        As for `gunion`.

    Returns
    -------
    Graph

    Raises
    ------
    ValueError
        Where a graph is closed, or a number has more than 64 bits.
    GraphError
        With code 30, where there is not one entry for each vertex; with 40, where there are more than 10^9 vertices.
    TypeError
        Where an entry is neither.
    """
    operand, own = _held(graph), _library.Entries()
    for entry in entries:
        if isinstance(getattr(entry, "_held", None), _library.Held):
            own.add_graph(entry._held)  # type: ignore[union-attr]
        else:
            own.add_number(integer(entry, "an entry"))  # type: ignore[arg-type]
    return graph._of(_library.made_of([operand], "sgb_induced_by", own.held, bool(self_loops), bool(multi), bool(directed)))
