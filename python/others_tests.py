"""Tests of the graphs of networkx, igraph and scipy that are made of ours."""

import collections
import gc
import random
import re
import sys
import time
import types
import unittest
import unittest.mock

from cases import EDGES, GRAPHS, NO_EDGES, PROGRAM, UNDIRECTED, arcs, edges, handed, installed, numpy

import sgb
import sgb_graph
from sgb import _others

WIDE = "board(500,500,0,0,1,0,0)"


def least_time(call):
    """The processor's time that a call takes, in the best of some."""
    times = []
    for _ in range(3):
        begin = time.process_time()
        call()
        times.append(time.process_time() - begin)
    return min(times)


class Others(unittest.TestCase):
    @unittest.skipUnless(installed("networkx"), "without networkx")
    def test_networkx(self):
        import networkx

        for text in GRAPHS:
            graph = sgb.graph(text)
            wanted = arcs(graph)
            # the same graph, by the functions that all may call
            made = networkx.MultiDiGraph()
            made.add_nodes_from(range(graph.n))
            for (u, v, length), count in wanted.items():
                made.add_edges_from([(u, v, {"weight": length})] * count)
            seen = graph.to_networkx(multi=True)
            with self.subTest(text):
                self.assertIs(type(seen), networkx.MultiDiGraph)
                self.assertEqual((seen.name, seen.graph), (graph.id, {"name": graph.id}))
                self.assertEqual(list(seen), list(range(graph.n)))
                counts = [collections.Counter(one.edges(data="weight")) for one in (seen, made)]
                self.assertEqual(*counts)
                self.assertEqual(dict(seen.in_degree()), dict(made.in_degree()))
                self.assertEqual(seen.number_of_edges(), len(graph.tips))
                # parallel arcs have keys 0, 1 .., as add_edge gives them
                self.assertEqual(sorted(seen.edges(keys=True)), sorted(made.edges(keys=True)))
                ends = collections.Counter((u, v) for u, v, _ in wanted.elements())
                if any(count > 1 for count in ends.values()):
                    with self.assertRaises(ValueError):
                        graph.to_networkx()
                    continue
                simple = graph.to_networkx()
                self.assertIs(type(simple), networkx.DiGraph)
                self.assertEqual(set(simple.edges(data="weight")), set(wanted))
                named = graph.to_networkx(names=True)
                self.assertEqual(list(named), graph.names())
                called = {(graph.names()[u], graph.names()[v], length) for u, v, length in wanted}
                self.assertEqual(set(named.edges(data="weight")), called)
                # both directions are the same: an arc that is changed or taken away is so on both sides
                for u, v in list(simple.edges())[:1]:
                    simple[u][v]["weight"] = 9
                    self.assertEqual(simple.pred[v][u]["weight"], 9)
                    simple.remove_edge(u, v)
                    self.assertFalse(simple.has_predecessor(v, u))
        self.assertTrue(gc.isenabled())

    @unittest.skipUnless(installed("networkx"), "without networkx")
    def test_networkx_names(self):
        """Lines of parallel edges have names that are alike: they are no nodes."""
        graph = sgb.graph("lines(circuit(2),0)")
        self.assertEqual(len(set(graph.names())), 1)
        with self.assertRaises(ValueError):
            graph.to_networkx(multi=True, names=True)

    @unittest.skipUnless(installed("networkx"), "without networkx")
    def test_networkx_edges(self):
        import networkx

        for text in UNDIRECTED:
            graph = sgb.graph(text)
            with self.subTest(text):
                wanted = edges(graph)
                is_simple = len({edge[:2] for edge in wanted}) == len(wanted)
                for multi in (False, True):
                    if not multi and not is_simple:
                        with self.assertRaisesRegex(ValueError, "parallel edges"):
                            graph.to_networkx(undirected=True)
                        continue
                    # the same graph, by the functions that all may call
                    made = networkx.MultiGraph(name=graph.id) if multi else networkx.Graph(name=graph.id)
                    made.add_nodes_from(range(graph.n))
                    made.add_weighted_edges_from(wanted)
                    seen = graph.to_networkx(multi, undirected=True)
                    self.are_alike(seen, made)
                    # both ends have the same edge: one that is changed or taken away is so on both sides
                    for u, v, *key in list(seen.edges)[:1]:
                        seen.edges[(u, v, *key)]["weight"] = 9
                        self.assertEqual(seen.edges[(v, u, *key)]["weight"], 9)
                        seen.remove_edge(u, v, *key)
                        self.assertFalse(seen.has_edge(v, u, *key))
                named = graph.to_networkx(multi=True, names=True, undirected=True)
                self.are_alike(named, sgb_graph.to_networkx(sgb_graph.read(text, None, PROGRAM)))
        petersen = sgb.graph("petersen()").to_networkx(undirected=True)
        self.assertTrue(networkx.is_isomorphic(petersen, networkx.petersen_graph()))
        self.assertTrue(gc.isenabled())

    def are_alike(self, one, other):
        """Two graphs of networkx of one class, with nodes, edges, keys and attributes alike, in one order."""
        self.assertIs(type(one), type(other))
        self.assertEqual((one.graph, list(one.nodes.items())), (other.graph, list(other.nodes.items())))
        self.assertEqual(list(one.edges.items()), list(other.edges.items()))
        self.assertEqual(one.adj, other.adj)

    @unittest.skipUnless(installed("networkx"), "without networkx")
    def test_networkx_no_edges(self):
        for text, given in NO_EDGES:
            graph = sgb.graph(text, given)
            for words in ({}, {"multi": True}, {"names": True}, {"multi": True, "names": True}):
                with self.subTest(text, **words), self.assertRaisesRegex(ValueError, "is no edge"):
                    graph.to_networkx(undirected=True, **words)
            self.assertEqual(graph.to_networkx(multi=True).number_of_edges(), len(graph.tips))
        self.assertTrue(gc.isenabled())

    @unittest.skipUnless(installed("networkx"), "without networkx")
    def test_networkx_loops(self):
        """A product of loops has edges twice; what the refusal names has them once, as networkx has."""
        import networkx

        looped, path = networkx.Graph([(0, 0), (0, 1)]), networkx.Graph([(0, 0), (0, 1), (1, 2)])
        for kind, wanted in ("direct", networkx.tensor_product(looped, path)), ("strong", networkx.strong_product(looped, path)):
            made = sgb.product(sgb.from_networkx(looped), sgb.from_networkx(path), kind)
            with self.assertRaisesRegex(ValueError, r"parallel edges: multi=True keeps them, and sgb.gunion\(g, g\) has one"):
                made.to_networkx(undirected=True)
            self.assertGreater(made.to_networkx(multi=True, undirected=True).number_of_edges(), wanted.number_of_edges())
            once = sgb.gunion(made, made).to_networkx(undirected=True)
            self.assertEqual({frozenset(edge) for edge in once.edges()},
                             {frozenset(3 * u + v for u, v in edge) for edge in wanted.edges()})
            with self.assertRaisesRegex(ValueError, r"parallel arcs: .* sgb.gunion\(g, g, directed=True\) has one of each$"):
                made.to_networkx()
            arcs = sgb.gunion(made, made, directed=True).to_networkx()
            self.assertEqual(arcs.number_of_edges(), wanted.to_directed().number_of_edges())

    def test_edges(self):
        """The edges that igraph is handed, where it is not installed either: those of sgb_graph.py, in its order."""
        with unittest.mock.patch.dict(sys.modules, igraph=types.SimpleNamespace(Graph=dict)):
            for text in UNDIRECTED:
                with self.subTest(text):
                    graph = sgb.graph(text)
                    made = graph.to_igraph(undirected=True)
                    self.assertEqual((made["n"], made["directed"]), (graph.n, False))
                    self.assertEqual(made["graph_attrs"], {"name": graph.id})
                    self.assertEqual(made["vertex_attrs"], {"name": graph.names()})
                    found = handed(made)
                    self.assertEqual(found, edges(graph))
                    self.assertEqual(sorted(found), EDGES.get(text, sorted(found)))
                    # each stands for two arcs
                    both = [(u, v, length) for a, b, length in found for u, v in ((a, b), (b, a))]
                    self.assertEqual(collections.Counter(both), arcs(graph))
                    self.assertEqual(collections.Counter(handed(graph.to_igraph())), arcs(graph))
            for text, given in NO_EDGES:
                with self.subTest(text):
                    graph = sgb.graph(text, given)
                    with self.assertRaisesRegex(ValueError, "is no edge"):
                        graph.to_igraph(undirected=True)
                    self.assertEqual(collections.Counter(handed(graph.to_igraph())), arcs(graph))

    def test_paired(self):
        """What arrays of numpy pair is what is paired arc by arc, and what is refused is so too."""
        dice, refused = random.Random(2), 0
        for _ in range(1000):
            n, lengths = dice.randint(1, 4), dice.choice([[1], [1, 2], [1, -3, 2**62]])
            ends = [dice.choices(range(n), k=2) if dice.randrange(2) else [dice.randrange(n)] * 2 for _ in range(dice.randint(0, 9))]
            arcs = [(*one, length) for v, tip in ends for length in [dice.choice(lengths)] for one in ((v, tip), (tip, v))]
            dice.shuffle(arcs)
            graph = sgb.from_edges(arcs[dice.randrange(2) * dice.randrange(4) :], n, directed=True)
            try:
                wanted = _others.paired(graph.arcs())
            except ValueError as why:
                refused += 1
                with self.assertRaisesRegex(ValueError, re.escape(str(why).rpartition(":")[0])):
                    graph.edges()
                continue
            slow = {"side_effect": AssertionError} if numpy else {"wraps": _others.paired}
            with unittest.mock.patch.object(_others, "paired", **slow):
                self.assertEqual(graph.edges(), wanted)
        self.assertTrue(200 < refused < 800, refused)

    def test_advice(self):
        """A refusal names a way out that the call has."""
        graph = sgb.graph("transitive(3)")
        with self.assertRaisesRegex(ValueError, r": arcs\(\) has it as it is$"):
            graph.edges()
        if installed("networkx"):
            with self.assertRaisesRegex(ValueError, ": without undirected=True arcs are kept as they are$"):
                graph.to_networkx(undirected=True)

    @unittest.skipUnless(numpy and installed("scipy"), "without scipy")
    def test_scipy(self):
        for text in GRAPHS:
            graph = sgb.graph(text)
            matrix = graph.to_scipy()
            sums = collections.Counter()
            for (u, v, length), count in arcs(graph).items():
                sums[u, v] += length * count
            with self.subTest(text):
                self.assertEqual(matrix.shape, (graph.n, graph.n))
                self.assertEqual(matrix.nnz, len(graph.tips))
                # it is scipy's own: what changes it does not change the graph
                lengths = graph.lengths.tolist()
                matrix.data[:] *= 2
                matrix.data[:] //= 2
                self.assertEqual(graph.lengths.tolist(), lengths)
                found = collections.Counter()
                entries = matrix.tocoo()
                for u, v, value in zip(entries.row, entries.col, entries.data):
                    found[int(u), int(v)] += int(value)
                self.assertEqual(found, sums)

    @unittest.skipUnless(installed("igraph"), "without igraph")
    def test_igraph(self):
        for text in GRAPHS:
            graph = sgb.graph(text)
            made = graph.to_igraph()
            with self.subTest(text):
                found = collections.Counter((e.source, e.target, e["weight"]) for e in made.es)
                self.assertEqual(found, arcs(graph))
                self.assertEqual(made.vs["name"] if graph.n else [], graph.names())
                self.assertTrue(made.is_directed())
        for text in UNDIRECTED:
            graph = sgb.graph(text)
            made = graph.to_igraph(undirected=True)
            with self.subTest(text):
                self.assertEqual([(*sorted(e.tuple), e["weight"]) for e in made.es], edges(graph))
                self.assertEqual(made.vs["name"] if graph.n else [], graph.names())
                self.assertFalse(made.is_directed())

    @unittest.skipUnless(numpy and installed("igraph"), "without igraph and numpy")
    def test_igraph_time(self):
        """What igraph takes for lists that are there already is no small part of it all."""
        import igraph

        for undirected in (False, True):
            made = sgb.graph(WIDE).to_igraph(undirected)
            words = {"n": made.vcount(), "edges": made.get_edgelist(), "directed": not undirected,
                     "vertex_attrs": {"name": made.vs["name"]}, "edge_attrs": {"weight": made.es["weight"]}}
            own = least_time(lambda words=words: igraph.Graph(**words))
            whole = least_time(lambda undirected=undirected: sgb.graph(WIDE).to_igraph(undirected))
            self.assertLess(whole, (6 if undirected else 4) * own)
