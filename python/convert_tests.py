"""Tests of the texts of other programs: they are what examples/listings/convert.awk makes of the listing, or both refuse.

The forms of nauty are read back, too, by the readers of examples/files/to_gb.py and of networkx, where it is there."""

import collections
import glob
import importlib
import os
import random
import shutil
import subprocess
import sys
import unittest
import unittest.mock

from cases import HERE, PROGRAM, UNDIRECTED, installed

import sgb

SCRIPTS = glob.glob(os.path.join(os.path.dirname(HERE), "examples/**/convert.awk"), recursive=True)
READERS = glob.glob(os.path.join(os.path.dirname(HERE), "examples/**/given_bits.py"), recursive=True)
FORMS = ("dot", "edges", "dimacs", "metis", "mtx", "graphml", "graph6", "sparse6", "digraph6")
DIRECTED = ["transitive(6)", "cycle(7)", "board(3,3,0,0,-1,3,1)", "lines(complete(4),1)", "complement(empty(3),0,1,1)"]
OTHERS = ["empty(3)", "simplex(5,2,2,0,0,0,0)", "board(70,0,0,0,1,0,0)", "gunion(complete(5),circuit(5),1,0)",
          "gunion(empty(4),complete(3),0,0)"]


@unittest.skipUnless(SCRIPTS and shutil.which("awk"), "without convert.awk or awk")
class Converted(unittest.TestCase):
    def made(self, text, form, **flags):
        """What the script makes of the listing, or None where it refuses."""
        words = [word for flag, value in flags.items() if value for word in ("-v", f"{flag}=1")]
        listing = subprocess.run([PROGRAM, "list", text], capture_output=True, check=True).stdout
        got = subprocess.run(["awk", "-v", f"to={form}", *words, "-f", SCRIPTS[0]], input=listing, capture_output=True)
        return None if got.returncode else got.stdout.decode()

    def compare(self, text, form, **flags):
        try:
            seen = sgb.convert(sgb.graph(text), form, **flags)
        except ValueError:
            seen = None
        with self.subTest((text, form, flags)):
            self.assertEqual(seen, self.made(text, form, **flags))
        return seen is not None

    def test_edges(self):
        tried = sum(self.compare(text, form) for text in UNDIRECTED + OTHERS for form in FORMS)
        self.assertGreater(tried, 75)

    def test_arcs(self):
        tried = sum(self.compare(text, form, directed=True) for text in DIRECTED for form in FORMS)
        self.assertGreater(tried, 18)
        # arcs alone are no edges
        self.assertFalse(self.compare("transitive(4)", "dimacs"))

    def test_flags(self):
        for text in ("petersen()", "complete(4)", "lines(board(3,0,0,0,-1,0,0),0)"):
            for form in FORMS:
                self.compare(text, form, lengths=True)
            self.compare(text, "edges", numbers=True)

    def test_refusals(self):
        graph = sgb.graph("petersen()")
        for words in (
            {"to": "gml"}, {"to": "metis", "directed": True}, {"to": "dot", "numbers": True}, {"to": "digraph6"},
            {"to": "sparse6", "directed": True},
        ):
            with self.assertRaises(ValueError):
                sgb.convert(graph, **words)
        with self.assertRaisesRegex(ValueError, "parallel"):
            sgb.convert(sgb.from_edges([(0, 1), (0, 1)], directed=True), "digraph6", directed=True)


def sizes():
    """Numbers of vertices, with those at which the forms of nauty change."""
    return [*range(18), 30, 31, 32, 33, 61, 62, 63, 64, 65, 130]


class OfNauty(unittest.TestCase):
    # as nauty has them: the one of its formats.txt, and letters that are filled in each way
    SPARSE = [
        (7, [(0, 1), (0, 2), (1, 2), (5, 6)], ":Fa@x^"), (0, [], ":?"), (1, [], ":@"), (1, [(0, 0)], ":@^"),
        (2, [(0, 1)], ":An"), (4, [(0, 1)], ":Cf"), (4, [(0, 2), (1, 2)], ":CoJ"), (8, [(0, 6)], ":GwF"),
        (8, [(0, 6), (1, 6), (2, 6)], ":Gw@J"), (8, [(0, v) for v in range(1, 6)], ":GaGaN"),
        (16, [(v, 14) for v in range(4)], ":O{?G`n"),
    ]
    DIRECTED = [
        (5, [(0, 2), (0, 4), (3, 1), (3, 4)], "&DI?AO?"), (0, [], "&?"), (1, [], "&@?"), (1, [(0, 0)], "&@_"),
    ]

    def test_known(self):
        for form, known in (("sparse6", self.SPARSE), ("digraph6", self.DIRECTED)):
            for n, edges, text in known:
                directed = form == "digraph6"
                graph = sgb.from_edges(edges, n, directed=directed)
                with self.subTest(text):
                    self.assertEqual(sgb.convert(graph, form, directed=directed), text + "\n")

    def cases(self, directed):
        """Random graphs: few edges and many, also at the last vertices alone, or at none of the last one."""
        rng = random.Random(6)
        for n in sizes():
            for m in (0, 1, 2, 3, n, 3 * n) if n else (0,):
                least = rng.choice([0, 0, max(n - 3, 0)])
                edges = [(rng.randrange(least, n), rng.randrange(n)) for _ in range(m)]
                if rng.random() < 0.5:
                    edges = [edge for edge in edges if directed or max(edge) < n - 1]
                edges = sorted(set(edges)) if directed else [(min(edge), max(edge)) for edge in edges]
                yield n, edges

    def read_back(self, form, text, directed):
        """What the reader of to_gb.py makes of a text."""
        with unittest.mock.patch.object(sys, "path", [os.path.dirname(READERS[0]), *sys.path]):
            reader = importlib.import_module("given_bits")
        given = reader.READERS[form](1, text.removesuffix("\n"), directed)
        return given.n, sorted(zip(given.tails, given.tips))

    @unittest.skipUnless(READERS, "without examples/files")
    def test_digraph6(self):
        for n, edges in self.cases(True):
            with self.subTest((n, edges)):
                text = sgb.convert(sgb.from_edges(edges, n, directed=True), "digraph6", directed=True)
                self.assertEqual(self.read_back("digraph6", text, True), (n, edges))

    @unittest.skipUnless(READERS, "without examples/files")
    def test_sparse6(self):
        for n, edges in self.cases(False):
            with self.subTest((n, edges)):
                text = sgb.convert(sgb.from_edges(edges, n), "sparse6")
                self.assertEqual(self.read_back("sparse6", text, False), (n, sorted(edges)))

    @unittest.skipUnless(installed("networkx"), "without networkx")
    def test_networkx(self):
        import networkx

        same = 0
        for n, edges in self.cases(False):
            if n == 1 and edges:
                continue  # of one vertex it takes other bits for a loop than nauty
            text = sgb.convert(sgb.from_edges(edges, n), "sparse6")
            with self.subTest((n, edges)):
                found = networkx.from_sparse6_bytes(text.encode().rstrip(b"\n"))
                seen = collections.Counter((min(edge), max(edge)) for edge in found.edges())
                self.assertEqual((len(found), seen), (n, collections.Counter(edges)))
                if n not in (2, 4, 8, 16):  # where it fills the last letter by a rule of its own
                    graph = networkx.MultiGraph(edges)
                    graph.add_nodes_from(range(n))
                    self.assertEqual(networkx.to_sparse6_bytes(graph, nodes=range(n), header=False).decode(), text)
                    same += 1
        self.assertGreater(same, 80)
