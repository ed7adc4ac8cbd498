"""Tests of operations on graphs that are open. python/tests.py runs them with the others."""

import gc
import random
import threading
import unittest
import unittest.mock

from cases import BOARD, listing, said

import sgb
from sgb import _library

OTHERS = ["circuit(3)", "complete(4)", BOARD, "transitive(5)", "petersen()", "empty(2)"]


def own_graph(dice):
    """A graph of one's own, and its file."""
    n = dice.randint(1, 5)
    edges = [(dice.randrange(n), dice.randrange(n), dice.randint(-3, 9)) for _ in range(dice.randint(0, 8))]
    return sgb.from_edges(edges, n, directed=dice.random() < 0.5)


class Operations(unittest.TestCase):
    def same(self, graph, text, given=b""):
        """The graph is that of the expression, as the program lists and saves it."""
        self.assertEqual(listing(graph), said("list", text, given=given))
        self.assertEqual(graph.save().decode(), said("save", text, given=given))
        self.assertEqual(graph.text, "stdin")

    def test_one(self):
        for text in OTHERS:
            with self.subTest(text), sgb.graph(text) as graph:
                self.same(graph.complement(), f"complement({text},0,0,0)")
                self.same(graph.complement(copy=True), f"complement({text},1,0,0)")
                self.same(graph.complement(self_loops=True), f"complement({text},0,1,0)")
                self.same(graph.complement(directed=True), f"complement({text},0,0,1)")
                self.same(graph.lines(directed=True), f"lines({text},1)")
                if "transitive" not in text:
                    self.same(graph.lines(), f"lines({text},0)")
                self.same(sgb.induced(graph, [1] * (graph.n - 1) + [graph]), f"induced({text},[{'1,' * (graph.n - 1)}{text}],0,0,0)")
                self.same(sgb.wheel_around(graph, 5), f"induced(board(2,0,0,0,1,0,0),[{text},board(5,0,0,0,1,1,0)],0,0,0)")
                wanted = f"induced(board(2,0,0,0,1,0,1),[{text},board(5,0,0,0,1,1,1)],0,0,1)"
                self.same(sgb.wheel_around(graph, 5, directed=True), wanted)

    def test_two(self):
        for text, other in zip(OTHERS, OTHERS[1:] + OTHERS[:1]):
            with self.subTest(text), sgb.graph(text) as graph, sgb.graph(other) as second:
                for multi in (0, 1):
                    self.same(sgb.gunion(graph, second, bool(multi)), f"gunion({text},{other},{multi},0)")
                    self.same(sgb.intersection(graph, second, multi=multi), f"intersection({text},{other},{multi},0)")
                self.same(sgb.gunion(graph, second, directed=True), f"gunion({text},{other},0,1)")
                self.same(sgb.intersection(graph, second, directed=True), f"intersection({text},{other},0,1)")
                for number, kind in enumerate(["cartesian", "direct", "strong"]):
                    self.same(sgb.product(graph, second, kind), f"product({text},{other},{number},0)")
                    self.same(sgb.product(graph, second, number - 4, True), f"product({text},{other},{number - 4},1)")
                # one graph is both
                self.same(sgb.gunion(graph, graph, True), f"gunion({text},{text},1,0)")
                self.same(sgb.intersection(graph, graph), f"intersection({text},{text},0,0)")
                self.same(sgb.product(graph, graph, "direct"), f"product({text},{text},1,0)")
                self.assertEqual((listing(graph), listing(second)), (said("list", text), said("list", other)))

    def test_one_graph_twice(self):
        """The call on two graphs is not made where both are one, since it is of two handles."""
        graph, other = sgb.graph("petersen()"), sgb.graph("petersen()")
        for call, name in (sgb.gunion, "gunion"), (sgb.intersection, "intersection"), (sgb.product, "product"):
            with unittest.mock.patch.object(_library.lib, f"sgb_{name}_of", return_value=30) as of_two:
                call(graph, graph)
                self.assertEqual(of_two.call_count, 0)
                with self.assertRaises(sgb.GraphError):
                    call(graph, other)
                self.assertEqual(of_two.call_count, 1)

    def test_own(self):
        """Graphs of one's own, whose file the program reads."""
        dice = random.Random(11)
        for _ in range(25):
            graph = own_graph(dice)
            file, flags = graph.save(), [dice.randint(0, 1) for _ in range(3)]
            self.same(graph.complement(*flags), "complement(stdin,%d,%d,%d)" % tuple(flags), file)
            self.same(sgb.gunion(graph, sgb.graph("circuit(4)"), *flags[:2]), "gunion(stdin,circuit(4),%d,%d)" % tuple(flags[:2]), file)
            self.same(sgb.gunion(graph, graph, *flags[:2]), "gunion(stdin,stdin,%d,%d)" % tuple(flags[:2]), file)
            entries = [dice.choice([0, 1, 2, 3, -1, -2, graph]) for _ in range(graph.n)]
            words = ",".join("stdin" if entry is graph else str(entry) for entry in entries)
            self.same(sgb.induced(graph, entries, *flags), f"induced(stdin,[{words}],{flags[0]},{flags[1]},{flags[2]})", file)
            self.assertEqual(graph.save(), file)

    def test_numbers(self):
        self.same(sgb.bi_complete(2, 3), "bi_complete(2,3,0)")
        self.same(sgb.bi_complete(0, 1, directed=True), "bi_complete(0,1,1)")
        self.same(sgb.wheel(5), "wheel(5,1,0)")
        self.same(sgb.wheel(4, 2, True), "wheel(4,2,1)")
        around = "induced(board(2,0,0,0,1,0,0),[petersen(),board(0,0,0,0,1,1,0)],0,0,0)"
        self.same(sgb.wheel_around(sgb.graph("petersen()"), -10**18), around)

    def test_refused(self):
        few, arcs = sgb.graph("complete(3)"), sgb.graph("transitive(3)")
        many = sgb.graph("empty(40000)")
        for code, call in (
            (60, arcs.lines), (40, lambda: sgb.product(many, many)), (30, lambda: sgb.induced(few, [1, 1])),
            (30, lambda: sgb.induced(few, [1] * 4)), (40, lambda: sgb.induced(few, [1, 1, 10**9])), (30, lambda: sgb.bi_complete(-1, 2)),
            (40, lambda: sgb.bi_complete(10**9, 1)), (30, lambda: sgb.wheel(3, -1)), (40, lambda: sgb.wheel_around(few, 10**9 - 2)),
            (40, lambda: sgb.wheel_around(few, 10**18)),
        ):
            with self.assertRaises(sgb.GraphError) as why:
                call()
            self.assertEqual(why.exception.code, code)
        for call in (
            lambda: sgb.gunion(few, "complete(3)"), lambda: sgb.intersection(None, few), lambda: sgb.induced(few, [1, 1.5, 1]),
            lambda: sgb.induced(few, ["1"] * 3), lambda: sgb.induced("complete(3)", [1]), lambda: sgb.wheel(2.0),
            lambda: sgb.product(few, few, 1.5),
        ):
            with self.assertRaises(TypeError):
                call()
        for call in (lambda: sgb.product(few, few, "tensor"), lambda: sgb.wheel(2**63), lambda: sgb.induced(few, [1, 1, -(2**63) - 1])):
            with self.assertRaises(ValueError):
                call()

    def test_closed(self):
        graph, other = sgb.graph("petersen()"), sgb.graph("complete(3)")
        graph.close()
        for call in (
            graph.lines, graph.complement, lambda: sgb.gunion(graph, other), lambda: sgb.product(other, graph),
            lambda: sgb.induced(graph, [1] * 10),
            lambda: sgb.intersection(graph, graph), lambda: sgb.induced(other, [1, 1, graph]), lambda: sgb.wheel_around(graph, 3),
        ):
            with self.assertRaisesRegex(ValueError, "closed"):
                call()
        # what was made stays where its operands are closed, and an entry is a copy
        made = sgb.gunion(other, other)
        other.close()
        self.same(made, "gunion(complete(3),complete(3),0,0)")

    def test_given_back(self):
        """Lists of entries are given back, also where an entry is refused."""
        graph, closed = sgb.graph("complete(2)"), []
        close = _library.lib.sgb_entries_close

        def counted(held):
            closed.append(held.is_held)
            close(held)

        with unittest.mock.patch.object(_library.lib, "sgb_entries_close", counted):
            sgb.induced(graph, [1, 2])
            with self.assertRaises(TypeError):
                sgb.induced(graph, [1, "x"])
            gc.collect()
        self.assertEqual(closed, [True, True])

    def test_memory(self):
        graph = sgb.graph("complete(3)")
        with unittest.mock.patch.object(_library.lib, "sgb_gunion_of", return_value=1), self.assertRaises(MemoryError):
            sgb.gunion(graph, sgb.graph("complete(3)"))

    def test_threads(self):
        """Two operands in either order, by many threads."""
        graphs, found = [sgb.graph("petersen()"), sgb.graph("circuit(9)")], []

        def work(first, second):
            for _ in range(100):
                found.append(sgb.gunion(first, second).m)

        threads = [threading.Thread(target=work, args=graphs[::turn], daemon=True) for turn in (1, -1) for _ in range(3)]
        for thread in threads:
            thread.start()
        for thread in threads:
            thread.join(60)
        self.assertEqual((len(found), len(set(found))), (600, 2))
