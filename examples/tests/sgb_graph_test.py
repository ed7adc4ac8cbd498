#!/usr/bin/env python3
"""Tests of sgb_graph.py: examples/tests/sgb_graph_test.py [PROGRAM]. Graphs are compared with networkx's, if it is there."""

import copy
import itertools
import os
import pickle
import sys
import unittest

sys.path.insert(0, os.path.join(os.path.dirname(os.path.abspath(__file__)), "..", "listings"))
import sgb_graph

try:
    import networkx
except ImportError:
    networkx = None

HERE = os.path.dirname(os.path.abspath(__file__))
PROGRAM = sys.argv.pop(1) if len(sys.argv) > 1 else os.path.join(HERE, "..", "..", "sgb")

FILE = (
    b"* GraphBase graph (util_types ZZZZZZZZZZZZZZ,2V,2A)\n"
    b'"pair",2,2\n* Vertices\n"a b",A0\n"",A1\n* Arcs\nV1,0,-7\nV0,0,-7\n* Checksum -1\n'
)

LOOPS = (
    b"* GraphBase graph (util_types ZZZZZZZZZZZZZZ,1V,4A)\n"
    b'"loops",1,4\n* Vertices\n"a",A3\n* Arcs\nV0,0,1\nV0,A0,2\nV0,A1,1\nV0,A2,2\n* Checksum -1\n'
)
LIKE_AN_ARC = FILE.replace(b'"",A1', b'"  -> a b, length 3",A1')


def read(expression, input=None):
    return sgb_graph.read(expression, input, PROGRAM)


# what goes through a listing
PASSES = {
    "list": list,
    "iter": iter,
    "names": lambda listing: [name for name, _ in listing],
    "in": lambda listing: ("0.0.0.1.1", []) in listing,
    "edges": sgb_graph.to_edges,
    "arcs": lambda listing: sgb_graph.to_edges(listing, directed=True),
    "networkx": sgb_graph.to_networkx,
    "networkx of arcs": lambda listing: sgb_graph.to_networkx(listing, directed=True),
}
# and what can have begun it, as far as it can be done here
FIRST = {name: begin for name, begin in PASSES.items() if networkx or "networkx" not in name}
FIRST.update(next=lambda listing: next(iter(listing)), three=lambda listing: list(itertools.islice(listing, 3)))


class Listings(unittest.TestCase):
    def test_petersen(self):
        listing = read("petersen()")
        self.assertEqual((listing.id, listing.n, listing.m), ("subsets(2,1,-4,0,0,0,0x1,0)", 10, 30))
        blocks = list(listing)
        self.assertEqual(blocks[0], ("0.0.0.1.1", [("1.1.0.0.0", 1), ("1.0.1.0.0", 1), ("0.1.1.0.0", 1)]))
        self.assertEqual(len(blocks), 10)
        self.assertEqual(len(list(sgb_graph.to_edges(read("petersen()")))), 15)

    def test_union_has_the_least_lengths(self):
        edges = list(sgb_graph.to_edges(read("gunion(complete(3),circuit(3),0,0)")))
        self.assertEqual(edges, [("0", "1", 1), ("0", "2", 1), ("1", "2", 1)])

    def test_directed_cycle(self):
        edges = list(sgb_graph.to_edges(read("cycle(3)"), directed=True))
        self.assertEqual(edges, [("0", "1", 1), ("1", "2", 1), ("2", "0", 1)])

    def test_loops_stand_once(self):
        self.assertEqual(list(sgb_graph.to_edges(read("board(1,0,0,0,1,1,0)"))), [("0", "0", 1)])

    def test_file(self):
        listing = read("stdin", FILE)
        self.assertEqual(list(listing), [("a b", [("", -7)]), ("", [("a b", -7)])])

    def test_faults(self):
        for expression, status, code, line in [
            ("board(3,", 2, None, "sgb: bad expression at byte 8"),
            ("board(2,-251,0,0,1,0,0)", 1, 30, "Something went wrong (panic code 30)!"),
            ("stdin", 1, 10, "Something went wrong (panic code 10)!"),
        ]:
            with self.assertRaises(sgb_graph.Fault) as raised:
                read(expression)
            fault = raised.exception
            self.assertEqual((fault.status, fault.code, fault.line), (status, code, line))
            fault.expression = expression
            for made in (pickle.loads(pickle.dumps(fault)), copy.copy(fault), copy.deepcopy(fault)):
                self.assertIs(type(made), sgb_graph.Fault)
                self.assertEqual((str(made), made.args, vars(made)), (line, fault.args, vars(fault)))

    def test_loops_of_two_lengths(self):
        edges = list(sgb_graph.to_edges(read("stdin", LOOPS)))
        self.assertEqual(edges, [("a", "a", 2), ("a", "a", 1)])

    def test_names_that_repeat(self):
        for directed in (False, True):
            with self.assertRaisesRegex(ValueError, "two vertices have the name '"):
                sgb_graph.to_edges(read("lines(board(3,0,0,0,-1,1,0),0)"), directed)

    def test_arcs_that_are_no_edges(self):
        for expression, given in [
            ("cycle(5)", None),
            ("transitive(4)", None),
            ("board(1,0,0,0,1,1,1)", None),
            # a multiple arc with a single one back; the lengths of an arc and of the one back; two loops of two lengths
            ("gunion(cycle(2),transitive(2),1,1)", None),
            ("stdin", FILE.replace(b"V0,0,-7", b"V0,0,7")),
            ("stdin", LOOPS.replace(b"V0,A2,2", b"V0,A2,3")),
        ]:
            with self.assertRaisesRegex(ValueError, "is no edge"):
                sgb_graph.to_edges(read(expression, given))
            self.assertTrue(list(sgb_graph.to_edges(read(expression, given), directed=True)))

    def test_names_that_look_like_arcs(self):
        for directed in (False, True):
            with self.assertRaisesRegex(ValueError, "the head has 2 vertices and 2 arcs, the listing 1 and 3"):
                sgb_graph.to_edges(read("complement(complement(stdin,0,0,0),0,0,0)", LIKE_AN_ARC), directed)
            with self.assertRaisesRegex(ValueError, "the head has 2 vertices and 2 arcs, the listing 1 and 3"):
                list(read("stdin", LIKE_AN_ARC))

    def test_a_file_that_counts_other_arcs(self):
        listing = read("stdin", FILE.replace(b'"pair",2,2', b'"pair",2,7'))
        self.assertEqual(listing.m, 7)
        self.assertEqual(list(sgb_graph.to_edges(listing)), [("a b", "", -7)])

    def test_a_part_of_a_long_listing(self):
        with read("board(60,60,0,0,-1,0,0)") as listing:
            self.assertEqual([name for name, _ in itertools.islice(listing, 3)], ["0.0", "0.1", "0.2"])

    def test_read_once(self):
        """A second pass is refused, by each way in and after each first one, also after one that was cut short."""
        for first, begin in FIRST.items():
            for second, go_on in PASSES.items():
                with self.subTest(first=first, second=second), read("petersen()") as listing:
                    begun = begin(listing)
                    with self.assertRaisesRegex(ValueError, "read once"):
                        go_on(listing)
                    del begun

    def test_read_once_after_a_refusal(self):
        for second, go_on in PASSES.items():
            with self.subTest(second):
                listing = read("cycle(4)")
                with self.assertRaisesRegex(ValueError, "is no edge"):
                    sgb_graph.to_edges(listing)
                with self.assertRaisesRegex(ValueError, "read once"):
                    go_on(listing)

    def test_a_refused_pass_leaves_the_first(self):
        for second, go_on in PASSES.items():
            with self.subTest(second), read("petersen()") as listing:
                blocks = iter(listing)
                found = [next(blocks)]
                with self.assertRaisesRegex(ValueError, "read once"):
                    go_on(listing)
                self.assertEqual(found + list(blocks), list(read("petersen()")))

    def test_closed(self):
        for name, go_on in PASSES.items():
            with self.subTest(name):
                with read("petersen()") as listing:
                    pass
                with self.assertRaisesRegex(ValueError, "is closed"):
                    go_on(listing)

    def test_copies(self):
        with read("petersen()") as listing:
            for make in (copy.copy, copy.deepcopy, pickle.dumps):
                with self.assertRaisesRegex(TypeError, "is not copied"):
                    make(listing)
            self.assertEqual(len(list(listing)), 10)

    def test_networkx_of_arcs(self):
        # refused also where networkx is not there
        with self.assertRaisesRegex(ValueError, "is no edge"):
            sgb_graph.to_networkx(read("cycle(7)"))

    @unittest.skipUnless(networkx, "networkx is not there")
    def test_networkx(self):
        petersen = sgb_graph.to_networkx(read("petersen()"))
        self.assertTrue(networkx.is_isomorphic(networkx.Graph(petersen), networkx.petersen_graph()))
        union = sgb_graph.to_networkx(read("gunion(complete(5),circuit(5),1,0)"))
        self.assertEqual((union.number_of_nodes(), union.number_of_edges()), (5, 15))
        cycle = sgb_graph.to_networkx(read("cycle(7)"), directed=True)
        self.assertTrue(networkx.is_isomorphic(networkx.DiGraph(cycle), networkx.cycle_graph(7, networkx.DiGraph)))
        alone = sgb_graph.to_networkx(read("empty(3)"))
        self.assertEqual((list(alone), alone.number_of_edges()), (["0", "1", "2"], 0))
        pair = sgb_graph.to_networkx(read("stdin", FILE))
        self.assertEqual(list(pair.edges(data="weight")), [("a b", "", -7)])


if __name__ == "__main__":
    unittest.main()
