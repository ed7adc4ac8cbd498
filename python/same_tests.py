"""Tests of how graphs are compared, shown, copied and used after a fork. python/tests.py runs them with the others."""

import copy
import multiprocessing
import os
import pickle
import signal
import threading
import unittest
import unittest.mock

from cases import BOARD, FILE, GRAPHS, LOOPS, SECONDS, listing

import sgb
from sgb import _library, _lookups

# a file with fields that no array has: a string of vertices, a number of arcs
FIELDS = b"""\
* GraphBase graph (util_types SZZZZZIZZZZZZZ,2V,1A)
"fields",2,1
* Vertices
"left",A0,"x"
"right",0,"y"
* Arcs
V1,0,7,8
* Checksum -1
"""

# lists that are alike, of an arc each; the other file has one arc for both, and counts it once
TWICE = b"""\
* GraphBase graph (util_types ZZZZZZZZZZZZZZ,2V,2A)
"twice",2,2
* Vertices
"left",A0
"right",A1
* Arcs
V1,0,8
V1,0,8
* Checksum -1
"""


def complement(graph):
    """What another process is asked."""
    return graph.complement()


def differing_graphs():
    """Graphs of one's own of few ids that differ in one thing each: names, vertices, arcs, their order, lengths."""
    four = sgb.graph("complete(4)")
    edges = [(0, 1)], [(0, 1, 2)], [(0, 0)], [(0, 1), (0, 0)], [(0, 0), (0, 1)]
    return [
        sgb.induced(four, [1, 1, 0, 0]), sgb.induced(four, [2, 2, 2, 2]), *(sgb.from_edges(some, 2, id="x") for some in edges),
        sgb.from_edges([(0, 1)], id="y"), sgb.from_edges([(0, 1)], n=3, id="x"), sgb.from_edges([(0, 1)], names="ab", id="x"),
        sgb.from_csr([0, 1, 1], [1], id="x"), sgb.from_csr([0, 0, 1], [1], id="x"),
    ]


def differing_files():
    """The same of utility fields, and of the number of arcs."""
    board = sgb.graph(BOARD)
    lines = board.save().split(b"\n")
    lines[-2] = b"* Checksum -1"
    once = TWICE.replace(b"2V,2A", b"2V,1A").replace(b"2,2\n", b"2,1\n").replace(b"A1\n", b"A0\n")
    files = [
        b"\n".join(lines).replace(b",2,3,0\n", b",2,4,0\n"), TWICE, once.replace(b"V1,0,8\n", b"", 1),
        FIELDS, FIELDS.replace(b'"x"', b'"z"'), FIELDS.replace(b"7,8", b"7,9"),
    ]
    bare = sgb.from_csr(board.starts, board.tips, board.lengths, board.names(), id=board.id)
    plain = sgb.from_edges([(0, 1, 7)], names=["left", "right"], directed=True, id="fields")
    return [board, bare, plain, *(sgb.graph("stdin", file) for file in files)]


class Same(unittest.TestCase):
    def test_object(self):
        """Equal is one object alone, so that graphs are keys, and those of one id are told apart."""
        first, second = sgb.graph("petersen()"), sgb.graph("petersen()")
        self.assertEqual(first, first)
        self.assertNotEqual(first, second)
        self.assertEqual(len({first, first, second}), 2)
        self.assertEqual({first: 1, second: 2}[first], 1)

    def test_same(self):
        for text in GRAPHS:
            with self.subTest(text):
                graph = sgb.graph(text)
                read = sgb.graph("stdin", graph)
                self.assertTrue(graph.same_as(graph) and graph.same_as(read) and read.same_as(graph))
        self.assertTrue(sgb.graph("petersen()").same_as(sgb.graph("subsets(2,1,-4,0,0,0,1,0)")))
        # arcs of a file may have another order in the file than those of the same lists elsewhere
        edges = [(0, 1, 5), (2, 1, 7), (2, 2, 1)]
        self.assertTrue(sgb.from_edges(edges).same_as(sgb.graph("stdin", sgb.file_of_edges(edges))))
        # of one text, of which nothing is gone through
        great = "board(1000000000,0,0,0,1,0,0)"
        with unittest.mock.patch.object(sgb.Graph, "rows", side_effect=MemoryError):
            self.assertTrue(sgb.graph(great).same_as(sgb.graph(great)))

    def test_other(self):
        """What differs in one thing is not the same, also where the id is."""
        graphs = [*differing_graphs(), *differing_files()]
        for k, graph in enumerate(graphs):
            for j, other in enumerate(graphs):
                with self.subTest(first=graph, second=other):
                    self.assertEqual(graph.same_as(other), k == j)
        for other in (5, None, "petersen()"):
            with self.assertRaises(TypeError):
                graph.same_as(other)
        graph.close()
        with self.assertRaisesRegex(ValueError, "closed"):
            graph.same_as(differing_files()[-1])

    def test_pieces(self):
        """The last list of many counts, too."""
        with unittest.mock.patch.object(_lookups, "FEW", (3, 5)):
            self.test_other()
            edges = [(v, v + 1) for v in range(20)]
            graphs = [sgb.from_edges([*edges, (20, 21, length)], id="x") for length in (1, 2)]
            self.assertFalse(graphs[0].same_as(graphs[1]))


class Shown(unittest.TestCase):
    def test_shown(self):
        own = sgb.from_edges([("a", "b"), ("b", "c")], id="mine")
        for graph, shown in (
            (sgb.graph("petersen()"), "petersen(), n=10, m=30"), (own, "mine, n=3, m=4"), (own.lines(), "lines(mine,0), n=2, m=2"),
            (sgb.graph("lines(stdin,0)", own), "lines(mine,0), n=2, m=2"), (sgb.graph("stdin", FILE), "two, n=2, m=2"),
            (sgb.graph("disjoint_subsets(3,5)"), "disjoint_subsets(3,5), n=0, m=0"), (sgb.from_edges([], id=""), ", n=0, m=0"),
            (sgb.graph("simplex(44000,-2,0,0,0,0,0)"), "simplex(44000,-2,0,0,0,0,0), n=968066001"),
        ):
            self.assertEqual((repr(graph), str(graph)), (f"<sgb.Graph {shown}>",) * 2)
        own.close()
        self.assertEqual(repr(own), "<sgb.Graph mine, n=3, m=4, closed>")
        long = sgb.graph("complement(" * 20 + "petersen()" + ",0,0,0)" * 20)
        self.assertEqual(repr(long), f"<sgb.Graph {long.text[:80]}.., n=10, m=30>")

    def test_not_counted(self):
        """Arcs that are not counted at once are shown where they were asked for."""
        for text in ("board(1000000000,0,0,0,1,0,0)", "board(1,-40,0,0,8,0,0)"):
            graph = sgb.graph(text)
            with unittest.mock.patch.object(_library.lib, "sgb_arcs") as counted:
                self.assertEqual(repr(graph), f"<sgb.Graph {text}, n={graph.n}>")
            self.assertFalse(counted.called)
            m = graph.m
            self.assertEqual(repr(graph), f"<sgb.Graph {text}, n={graph.n}, m={m}>")

    def test_closed(self):
        """What was not asked for before is refused with a line that says why."""
        for text in (BOARD, "lines(complete(4),0)"):
            graph = sgb.graph(text)
            graph.close()
            calls = [lambda what=what: getattr(graph, what) for what in ("tips", "starts", "lengths", "kinds")]
            for call in (*calls, graph.names, graph.rows, graph.save, graph.edges, lambda: graph.ints("x"), lambda: graph[0]):
                with self.assertRaisesRegex(ValueError, "^the graph is closed: only what was asked for before is there$"):
                    call()


class Copied(unittest.TestCase):
    def test_copied(self):
        edges = [(0, 1, 5), (2, 1, 7), (2, 2, 1)]
        own = sgb.from_edges(edges)
        graphs = [*map(sgb.graph, GRAPHS), own, own.lines(), sgb.graph("stdin", FIELDS), sgb.graph("stdin", LOOPS)]
        for graph in graphs:
            pickles = [pickle.loads(pickle.dumps(graph, k)) for k in range(pickle.HIGHEST_PROTOCOL + 1)]
            for other in (*pickles, copy.copy(graph), copy.deepcopy(graph)):
                self.assertIs(type(other), sgb.Graph)
                self.assertIsNot(other, graph)
                self.assertTrue(other.same_as(graph))
                self.assertEqual((other.text, listing(other)), (graph.text, listing(graph)))
        # it is another graph, open where the first one is not
        other = copy.copy(own)
        own.close()
        self.assertEqual(other.edges(), [(0, 1, 5), (1, 2, 7), (2, 2, 1)])
        closed = sgb.graph(BOARD)
        closed.close()
        self.assertEqual(pickle.loads(pickle.dumps(closed)).m, 34)
        with self.assertRaisesRegex(ValueError, "closed"):
            pickle.dumps(own)
        # a great one is its text
        self.assertLess(len(pickle.dumps(sgb.graph("board(1000000000,0,0,0,1,0,0)"))), 200)

    def test_processes(self):
        with multiprocessing.Pool(1) as pool:
            made = pool.map_async(complement, [sgb.from_edges([(0, 1)], n=3)]).get(SECONDS)[0]
        self.assertEqual((made.id, made.edges()), (sgb.from_edges([(0, 1)], n=3).complement().id, [(0, 2, 1), (1, 2, 1)]))


@unittest.skipUnless(hasattr(os, "fork"), "without fork")
class Forked(unittest.TestCase):
    def forked(self, name, call, works):
        """What the child says that is forked while a thread is inside the library's call of this name."""
        inside, done, quick = threading.Event(), threading.Event(), getattr(_library.lib, name)

        def slow(*words):
            inside.set()
            done.wait(SECONDS)
            return quick(*words)

        with unittest.mock.patch.object(_library.lib, name, slow):
            thread = threading.Thread(target=call)
            thread.start()
            self.assertTrue(inside.wait(SECONDS))
        child = os.fork()
        if child == 0:
            signal.alarm(SECONDS)  # which ends a child that waits
            os._exit(0 if works() else 1)
        done.set()
        thread.join()
        self.assertEqual(os.waitpid(child, 0)[1], 0)

    def test_call(self):
        graph = sgb.graph(BOARD)
        tips, lengths = list(graph.rows(5, 5).tips), list(graph.rows().lengths)
        for name, call in ("sgb_tips", lambda: graph.rows(0, 3, lengths=False)), ("sgb_tips", lambda: graph.tips):
            self.forked(name, call, lambda: (list(graph.rows(5, 5).tips), list(graph.lengths)) == (tips, lengths))

    def test_operation(self):
        graph = sgb.graph("petersen()")
        self.forked("sgb_complement", graph.complement, lambda: graph.complement().m == 60)

    def test_close(self):
        """A graph that another thread was closing is closed."""
        graph = sgb.graph(BOARD)
        self.forked("sgb_close", graph.close, lambda: graph.closed)
