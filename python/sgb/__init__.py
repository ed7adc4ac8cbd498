"""Graphs of the Stanford GraphBase, by their official names, as arrays.

    import sgb

    g = sgb.graph("petersen()")
    g.n, g.m, g.id                    # 10, 30, 'subsets(2,1,-4,0,0,0,0x1,0)'
    for v in g:                       # the vertices 0 to 9
        g.name(v), g.degree(v), g[v]  # '0.0.0.1.1', 3, array([9, 8, 5], dtype=uint32), ..
    g.starts, g.tips, g.lengths       # all lists of arcs, one after another
    g.edges()                         # [(0, 9, 1), (0, 8, 1), ..

A generator's graph is not built, so it may be greater than any memory. Its lists are asked for run by run:

    g = sgb.graph("board(1000000000,0,0,0,1,0,0)")
    g[999999999]                      # array([999999998], dtype=uint32)
    for rows in g.chunks(65536):
        rows.first, rows.n, rows.starts, rows.tips, rows.lengths

Graphs of one's own come in by `from_edges`, `from_arrays`, `from_csr`, `from_networkx`, `from_igraph`, `from_scipy`, or as
a .gb file, which the expression `stdin` stands for; `file_of_edges` writes one:

    sgb.graph("lines(stdin,0)", "own.gb")
    sgb.graph("lines(stdin,0)", sgb.from_edges([(0, 1), (1, 2), (2, 0)]))

Of graphs that are open others are made, each a graph of its own; what they are made of stays as it is:

    own = sgb.from_edges([(0, 1), (1, 2), (2, 0)])
    own.lines(), own.complement()
    sgb.gunion(own, g), sgb.intersection(own, g), sgb.product(own, g, "strong"), sgb.induced(own, [1, 2, g])
    sgb.bi_complete(2, 3), sgb.wheel(6), sgb.wheel_around(own, 6)

`sgb.convert(g, "dimacs")` is the graph as text of another program: DOT, DIMACS, METIS, Matrix Market and others.

It calls the library for C, libsgb.so (on Windows sgb.dll), which `make lib` leaves: the file that the variable
SGB_LIBRARY names, else the one beside this file, else the one in the repository that this file stands in, else the
one that the system finds. It needs Python's own library alone; where numpy is installed, arrays are numpy's, else
memory views. Both look at memory that C has filled, nothing is copied, and cannot be changed.

A refusal is a GraphError, which is a ValueError, want of memory a MemoryError; a vertex that is not there is an
IndexError, and what is no text, vertex or input at all a TypeError.
"""

from __future__ import annotations

import operator
import types
from typing import TYPE_CHECKING, Any, SupportsIndex

from . import _library
from ._convert import convert
from ._files import MOST_VERTICES
from ._graph import Graph
from ._library import GraphError
from ._names import Names
from ._operations import gunion, induced, integer, intersection, product
from ._rows import Rows
from ._ways_in import file_of_edges, from_arrays, from_csr, from_edges, from_igraph, from_networkx, from_scipy

if TYPE_CHECKING:
    import numpy
    from numpy.typing import NDArray

__version__ = _library.VERSION
__all__ = [
    "Graph", "GraphError", "Names", "Rows", "bi_complete", "convert", "file_of_edges", "flip", "from_arrays", "from_csr", "from_edges",
    "from_igraph", "from_networkx", "from_scipy", "graph", "gunion", "induced", "intersection", "product", "wheel", "wheel_around",
]


def _show(*ones: Any) -> None:
    """Who asks for help finds these here, and not in the files that have them."""
    for one in ones:
        for part in (one, *(vars(one).values() if isinstance(one, type) else ())):
            if isinstance(part, (type, types.FunctionType)):
                part.__module__ = __name__


_show(Graph, GraphError, Names, Rows, convert, file_of_edges, from_arrays, from_csr, from_edges, from_igraph, from_networkx, from_scipy)
_show(gunion, induced, intersection, product)


def graph(text: str, input: Any = None) -> Graph:  # noqa: A002 (the expression `stdin` is this input)
    """The graph that an expression names.

    Parameters
    ----------
    text : str
        The expression, as "petersen()" or "lines(stdin,0)".
    input : bytes-like, path, file that is open for bytes, or Graph
        A .gb file, for the expression `stdin`: its bytes, where it is, or a graph whose file it is. A str is a path.

    Returns
    -------
    Graph

    Raises
    ------
    GraphError
        Where the expression is bad or its graph is refused, or the .gb file is wrong.
    TypeError
        Where `text` is no str, or `input` none of these.
    """
    return Graph(text, input)


def bi_complete(n1: SupportsIndex, n2: SupportsIndex, directed: bool = False) -> Graph:
    """The complete bipartite graph: each of n1 vertices is joined to each of n2 others (GB_BASIC, bi_complete).

    Raises
    ------
    GraphError
        With code 30, where a number is below 0; with 40, where there are more than 10^9 vertices.
    """
    sizes = [integer(size, "a number of vertices") for size in (n1, n2)]
    return Graph._of(_library.Held("sgb_bi_complete", *sizes, bool(directed)))


def wheel(n: SupportsIndex, n1: SupportsIndex = 1, directed: bool = False) -> Graph:
    """The wheel: n1 vertices in the middle, each joined to each of n in a circle (GB_BASIC, wheel).

    Raises
    ------
    GraphError
        With code 30, where n1 is below 0; with 40, where there are more than 10^9 vertices.
    """
    sizes = [integer(size, "a number of vertices") for size in (n, n1)]
    return Graph._of(_library.Held("sgb_wheel", *sizes, bool(directed)))


def wheel_around(middle: Graph, n: SupportsIndex, directed: bool = False) -> Graph:
    """The wheel that has a graph in its middle: each of its vertices is joined to each of n in a circle.

    It is what `induced` makes of the board of two vertices, whose entries are the graph and the circle. That of a graph without
    arcs is `wheel`, but for the id and the names of the middle.

    Raises
    ------
    ValueError
        Where the graph is closed, or n has more than 64 bits.
    GraphError
        With code 40, where there are more than 10^9 vertices.
    """
    flag, size = int(bool(directed)), max(integer(n, "a number of vertices"), 0)
    if isinstance(middle, Graph) and size > MOST_VERTICES - middle.n:
        size = MOST_VERTICES + 1  # refused before anything is built
    rim = Graph(f"board({size},0,0,0,1,1,{flag})")
    return induced(Graph(f"board(2,0,0,0,1,0,{flag})"), [middle, rim], directed=directed)


def flip(start: SupportsIndex, skip: SupportsIndex = 0, count: SupportsIndex = 1,
         m: SupportsIndex = 0) -> NDArray[numpy.uint32]:
    """Random numbers of GB_FLIP.

    Parameters
    ----------
    start : int
        What the generator is started from, of 64 bits with its sign.
    skip : int
        How many draws are left out first, below 2^64.
    count : int
        How many are drawn.
    m : int
        The bound of uniform draws, 1 to 2^31; 0 for plain draws, which are below 2^31.

    Returns
    -------
    uint32 array of shape (count,)

    Raises
    ------
    GraphError
        With code 103, where the bound is above 2^31.
    ValueError
        Where a number is not of its bits, or `count` is below 0.
    """
    begin, left_out, many, bound = map(operator.index, (start, skip, count, m))
    if not -(2**63) <= begin < 2**63 or not 0 <= left_out < 2**64 or not 0 <= bound < 2**32 or many < 0:
        raise ValueError("a start of 64 bits with its sign, a skip of 64 and a bound of 32 bits, and a count from 0 on")
    out = _library.Array("I", many)
    if bound == 0:
        _library.lib.sgb_draws(begin, left_out, *out.words)
    else:
        _library.must(_library.lib.sgb_uniform_draws(begin, left_out, bound, *out.words))
    return out.seen()
