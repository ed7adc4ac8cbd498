"""What the tests of the package share: graphs, what the program says of them, and how they are looked at."""

import collections
import contextlib
import glob
import os
import subprocess
import sys
import unittest
import unittest.mock

HERE = os.path.dirname(os.path.abspath(__file__))
PROGRAM = os.path.abspath(sys.argv.pop(1)) if len(sys.argv) > 1 else os.path.join(os.path.dirname(HERE), "sgb")
READERS = glob.glob(os.path.join(os.path.dirname(HERE), "examples/**/sgb_graph.py"), recursive=True)
sys.path[:0] = [HERE, *map(os.path.dirname, READERS)]
if os.environ.get("SGB_WITHOUT_NUMPY") == "1":
    sys.modules["numpy"] = None

import sgb  # noqa: E402  (the folders are put on the path above)
import sgb_graph  # noqa: E402
from sgb import _library  # noqa: E402

numpy = _library.numpy
BOARD = "board(3,4,0,0,1,0,0)"
GRAPHS = [
    "petersen()", BOARD, "board(5,5,0,0,-1,0,0)", "board(0,0,0,0,0,0,0)", "complete(1)", "transitive(6)", "circuit(2)",
    "simplex(3,-3,0,0,0,0,0)", "disjoint_subsets(6,3)", "gunion(complete(3),circuit(3),1,1)", "lines(complete(4),0)",
    "product(complete(2),complete(3),0,0)", "wheel(5,1,0)", "board(60,60,0,0,1,0,0)",
]
# each edge by the numbers of its ends and its length: loops, parallel edges of several lengths and of one
EDGES = {
    "circuit(1)": [(0, 0, 1)],
    "complement(empty(3),0,1,0)": [(0, 0, 1), (0, 1, 1), (0, 2, 1), (1, 1, 1), (1, 2, 1), (2, 2, 1)],
    "board(3,0,0,0,-1,1,0)": [(0, 1, 1), (0, 1, 2), (0, 2, 1), (0, 2, 2), (1, 2, 1), (1, 2, 2)],
    "gunion(complete(3),circuit(3),1,0)": [(0, 1, 1), (0, 1, 1), (0, 2, 1), (0, 2, 2), (1, 2, 1), (1, 2, 1)],
}
UNDIRECTED = [text for text in GRAPHS if text != "transitive(6)"] + list(EDGES)
FILE = b"""\
* GraphBase graph (util_types ZZZZZZZZZZZZZZ,2V,2A)
"two",2,2
* Vertices
"left",A0
"right",A1
* Arcs
V1,0,7
V0,0,-3
* Checksum -1
"""
LOOPS = b"""\
* GraphBase graph (util_types ZZZZZZZZZZZZZZ,1V,4A)
"loops",1,4
* Vertices
"one",A3
* Arcs
V0,0,1
V0,A0,2
V0,A1,1
V0,A2,3
* Checksum -1
"""
# arcs without one back; a loop alone; an arc and one back of two lengths; such loops; an arc too many
NO_EDGES = [
    ("transitive(3)", b""), ("transitive(6)", b""), ("cycle(4)", b""), ("board(1,0,0,0,1,1,1)", b""), ("stdin", FILE),
    ("stdin", LOOPS), ("gunion(cycle(2),transitive(2),1,1)", b""),
]
ERRORS = [
    ("board(3,", b"", 1008, 8), ("", b"", 1000, 0), ("board(2,-251,0,0,1,0,0)", b"", 30, None),
    ("board(4294967296,0,0,0,1,0,0)", b"", 40, None), ("stdin", b"", 10, None), ("x" * 65_537, b"", 100, None),
    ("stdin", FILE[:-14], 11, None), ("stdin", FILE.replace(b"A0", b"B0"), 20, None),
]
# how long another process is waited for
SECONDS = 30


def said(*words, given=b""):
    return subprocess.run([PROGRAM, *words], input=given, capture_output=True, check=True).stdout.decode()


def listing(graph):
    lines = [f"  The graph whose official name is\n{graph.id}\n  has {graph.n} vertices and {graph.m} arcs:\n"]
    names, starts, tips, lengths = graph.names(), graph.starts, graph.tips, graph.lengths
    for v, name in enumerate(names):
        lines.append(name)
        for k in range(int(starts[v]), int(starts[v + 1])):
            lines.append(f"  -> {names[tips[k]]}, length {lengths[k]}")
    return "".join(line + "\n" for line in lines)


def arcs(graph):
    """Each arc by the numbers of its ends, with its length, and how often it is there."""
    found = collections.Counter()
    starts, tips, lengths = graph.starts, graph.tips, graph.lengths
    for v in range(graph.n):
        for k in range(int(starts[v]), int(starts[v + 1])):
            found[v, int(tips[k]), int(lengths[k])] += 1
    return found


def edges(graph):
    """Each edge as sgb_graph.py finds it in the program's listing, by the numbers of its ends."""
    place = {name: v for v, name in enumerate(graph.names())}
    found = sgb_graph.to_edges(sgb_graph.read(graph.text, None, PROGRAM))
    return [(place[u], place[v], length) for u, v, length in found]


def handed(words):
    """The arcs or edges in what igraph is handed."""
    (name, lengths), = words["edge_attrs"].items()
    edges = list(words["edges"])
    assert name == "weight" and len(lengths) == len(edges), words
    return [(*ends, length) for ends, length in zip(edges, lengths)]


def vertices(text):
    """What another process is asked."""
    return sgb.graph(text).n


def last_rows(text):
    """Rows that come out of another process."""
    graph = sgb.graph(text)
    rows = graph.rows(graph.n - 2, 2)
    rows.names()
    return rows


def installed(name):
    try:
        return __import__(name)
    except ImportError:
        return None


@contextlib.contextmanager
def refused():
    """No array has memory here."""
    with unittest.mock.patch.object(_library, "Array", side_effect=MemoryError):
        yield
