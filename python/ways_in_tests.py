"""Tests of the ways in: from_edges, from_csr, from_networkx, from_igraph, from_scipy. python/tests.py runs them with the others."""

import random
import unittest
import unittest.mock

import sgb
from sgb import _files


def networkx_graphs():
    """Thirty graphs of networkx that have no more than some hundred edges."""
    import networkx as nx

    return [
        nx.petersen_graph(), nx.complete_graph(5), nx.complete_graph(1), nx.empty_graph(4), nx.path_graph(7),
        nx.cycle_graph(3), nx.cycle_graph(8), nx.star_graph(6), nx.wheel_graph(7), nx.ladder_graph(5),
        nx.circular_ladder_graph(6), nx.grid_2d_graph(4, 5), nx.hypercube_graph(4), nx.balanced_tree(2, 4),
        nx.complete_bipartite_graph(3, 4), nx.barbell_graph(4, 2), nx.lollipop_graph(4, 3), nx.tutte_graph(),
        nx.dodecahedral_graph(), nx.icosahedral_graph(), nx.heawood_graph(), nx.desargues_graph(),
        nx.frucht_graph(), nx.karate_club_graph(), nx.florentine_families_graph(), nx.krackhardt_kite_graph(),
        nx.gnp_random_graph(20, 0.2, seed=1), nx.gnp_random_graph(30, 0.1, seed=2), nx.random_regular_graph(3, 20, seed=3),
        nx.disjoint_union(nx.cycle_graph(4), nx.complete_graph(4)), nx.MultiGraph([(0, 1), (0, 1), (1, 2)]),
    ]


class WaysIn(unittest.TestCase):
    def test_edges(self):
        graph = sgb.from_edges([(0, 1), (1, 2, 7), (2, 0, -3)])
        self.assertEqual((graph.n, graph.m, graph.text, graph.names()), (3, 6, "stdin", ["0", "1", "2"]))
        self.assertEqual(graph.edges(), [(0, 1, 1), (0, 2, -3), (1, 2, 7)])
        # lists have their arcs in the order in which they were given
        graph = sgb.from_edges([(3, 0), (0, 1), (2, 0), (0, 0), (0, 1)], n=5)
        self.assertEqual([graph[v].tolist() for v in graph], [[3, 1, 2, 0, 0, 1], [0, 0], [0], [0], []])
        graph = sgb.from_edges([(3, 0, 5), (0, 1), (0, 0), (0, 1, 2)], directed=True)
        self.assertEqual(list(graph.arcs()), [(0, 1, 1), (0, 0, 1), (0, 1, 2), (3, 0, 5)])
        self.assertEqual((sgb.from_edges([]).n, sgb.from_edges([], n=4).n, sgb.from_edges(iter([(0, 0)])).m), (0, 4, 2))

    def test_edges_of_names(self):
        graph = sgb.from_edges([("b", "a"), ("c", "b", 2)])
        self.assertEqual((graph.names(), graph.edges()), (["b", "a", "c"], [(0, 1, 1), (0, 2, 2)]))
        graph = sgb.from_edges([("b", "a")], names=["a", "b", "alone"])
        self.assertEqual((graph.names(), graph.edges()), (["a", "b", "alone"], [(0, 1, 1)]))
        graph = sgb.from_edges([(0, 1)], names=["x", "x"])
        self.assertEqual(graph.names(), ["x", "x"])

    def test_records(self):
        """In a file an edge is two records that follow each other, that of the smaller end first; so is a loop."""
        text = sgb.file_of_edges([(1, 0), (1, 1)], id="two").decode()
        wanted = '"two",2,4\n* Vertices\n"0",A0\n"1",A1\n* Arcs\nV1,0,1\nV0,A2,1\nV1,A3,1\nV1,0,1\n'
        self.assertEqual(text.partition("\n")[2].rpartition("* ")[0], wanted)

    def test_files(self):
        """The file of edges is that of a graph with the same lists, names and id; `save` writes it with later edges first."""
        rng = random.Random(3)
        for directed in (False, True):
            for _ in range(40):
                n = rng.randint(1, 6)
                edges = [(rng.randrange(n), rng.randrange(n), rng.choice([1, -7, 2**40, -(2**63)])) for _ in range(rng.randint(0, 9))]
                made = sgb.from_edges(edges, n, directed=directed)
                read = sgb.graph("stdin", sgb.file_of_edges(edges, n, directed=directed))
                self.assertEqual((list(read.arcs()), read.names(), read.id, read.m), (list(made.arcs()), made.names(), made.id, made.m))
                again = sgb.graph("stdin", made)
                self.assertEqual((list(again.arcs()), again.id, again.save()), (list(made.arcs()), made.id, made.save()))

    def test_arrays(self):
        """Arrays come as they are: each arc first on its lists. What numpy has in C's types is handed over where it is."""
        for directed in (False, True):
            tails, tips, lengths = [0, 2, 1, 1, 0], [1, 0, 1, 2, 1], [5, -6, 7, 2**62, 9]
            made = sgb.from_arrays(tails, tips, lengths, n=4, directed=directed)
            edges = list(zip(tails, tips, lengths))
            self.assertTrue(made.same_as(sgb.from_edges(edges[::-1], n=4, directed=directed)))
            self.assertEqual(list(made.arcs()), list(sgb.from_edges(edges[::-1], n=4, directed=directed).arcs()))
            self.assertFalse(made.same_as(sgb.from_edges(edges, n=4, directed=directed)))
        self.assertEqual([sgb.from_arrays([0, 0], [1, 2])[v].tolist() for v in range(3)], [[2, 1], [0], [0]])
        self.assertEqual((sgb.from_arrays([], []).n, sgb.from_arrays([], [], [], names=["a"]).names()), (0, ["a"]))
        for words, more in (([0], []), {}), (([0], [0], []), {}), (([0], [5]), {"n": 5}), (([0], [-1]), {}), (([0], [0], [2**63]), {}):
            with self.subTest(words), self.assertRaises(ValueError):
                sgb.from_arrays(*words, **more)
        with self.assertRaises(TypeError):
            sgb.from_arrays([0], ["a"])

    def test_library_refuses(self):
        """What the library refuses of arrays that no binding looked at is a GraphError."""
        events = sgb._ways_in._columns([[0], [1]], 2, None, True)
        names = sgb._events.Names(["a", "b"], 2)
        events.n, events.tips = 2, sgb._events.packed("I", [2])
        with self.assertRaises(sgb.GraphError) as why:
            sgb._events.made(names, events, "x")
        self.assertEqual(why.exception.code, 106)

    def test_refused(self):
        """What GraphBase cannot have is refused with a line."""
        for words, more, said in [
            ([(0, 1.5)], {}, None), ([(0, "a")], {}, None), ([(0,)], {}, None), ([5], {}, None), ([(0, 1, 2, 3)], {}, None),
            ([(0, 5)], {"n": 5}, "there are 5 vertices, and there is an arc of vertex 5"),
            ([(0, -1)], {}, "there are 1 vertices, and there is an arc of vertex -1"),
            ([(0, 1, 1.5)], {}, "is an integer, and there is one of 1.5"), ([(0, 1, "1")], {}, "is an integer"),
            ([(0, 1, 2**63)], {}, "has 64 bits with its sign"), ([(0, 1, None)], {}, "is an integer"),
            ([(0, 1, float("nan"))], {}, "is an integer"),
            ([(0, 1)], {"names": ["a", 'b"']}, "without quotation mark and backslash"),
            ([(0, 1)], {"names": ["a", "b\\"]}, "without quotation mark and backslash"),
            ([(0, 1)], {"names": ["a", "\n"]}, "printable ASCII"), ([(0, 1)], {"names": ["a", "\u00e9"]}, "printable ASCII"),
            ([(0, 1)], {"names": ["a", "b" * 4096]}, "at most 4095 bytes"), ([(0, 1)], {"names": ["a", 5]}, None),
            ([(0, 1)], {"names": ["a"]}, "there are 1 vertices"), ([(0, 1)], {"names": "abc", "n": 2}, "3 names, and 2 vertices"),
            ([("a", "b")], {"names": ["a", "a"]}, "two vertices have one name"),
            ([("a", "b")], {"names": ["a"]}, "no vertex has"),
            ([(0, 1)], {"id": "x" * 161}, "at most 160 bytes"), ([(0, 1)], {"id": 'a"'}, "quotation mark"),
            ([], {"n": 10**9 + 1}, "at most 1000000000 vertices"), ([], {"n": -1}, "vertices"),
        ]:
            with self.subTest(words=words, more=more), self.assertRaises(TypeError if said is None else ValueError) as why:
                sgb.from_edges(words, **more)
            self.assertNotIsInstance(why.exception, sgb.GraphError)
            self.assertIn(said or "", str(why.exception))
            self.assertNotIn("\n", str(why.exception))
        self.assertEqual(sgb.from_edges([(0, 1, 2.0), (0, 1, -(2**63))]).lengths.tolist(), [2, -(2**63)] * 2)

    def test_ids(self):
        """Graphs of one id are the same, unless the caller says it."""
        graphs = [
            sgb.from_edges([(0, 1)]), sgb.from_edges([(0, 1)], n=3), sgb.from_edges([(0, 1, 2)]),
            sgb.from_edges([(0, 1)], names="ab"), sgb.from_edges([(0, 1)], directed=True), sgb.from_edges([(0, 1), (1, 2)]),
            sgb.from_edges([(1, 2), (0, 1)]),
        ]
        self.assertEqual(len({graph.id for graph in graphs}), len(graphs))
        self.assertTrue(graphs[0].same_as(sgb.from_edges([[0, 1, 1]])))
        self.assertEqual(sgb.from_edges([(0, 1)], id="mine").id, "mine")
        self.assertTrue(all(len(graph.id) < 160 for graph in graphs))

    def test_long_records(self):
        """Names of all lengths and bytes: lines are broken as the reader of the published programs wants them."""
        rng = random.Random(5)
        bytes_of_names = [chr(byte) for byte in range(32, 127) if chr(byte) not in '"\\']
        for size in [*range(60, 100), 150, 157, 158, 159, 160, 4095]:
            names = ["*" * size, "".join(rng.choices(bytes_of_names, k=size)), " " * size]
            graph = sgb.from_edges([(0, 1, -(2**63)), (2, 2)], names=names, id="*" * min(size, 160))
            self.assertEqual((graph.names(), graph.id), (names, "*" * min(size, 160)))
            written = sgb.file_of_edges([(0, 1, -(2**63)), (2, 2)], names=names, id=graph.id)
            self.assertLessEqual(max(map(len, written.split(b"\n")[1:])), 79)
            # as the library lays them out
            self.assertEqual(sgb.graph("stdin", written).save(), written)

    def test_csr(self):
        for text in ("petersen()", "board(3,4,0,0,-1,0,0)", "transitive(6)", "circuit(1)", "empty(3)", "board(3,0,0,0,-1,1,0)"):
            graph = sgb.graph(text)
            again = sgb.from_csr(graph.starts, graph.tips, graph.lengths, graph.names(), id=graph.id)
            self.assertEqual(list(again.arcs()), list(graph.arcs()))
            self.assertEqual((again.names(), again.m, again.id), (graph.names(), graph.m, graph.id))
        self.assertEqual(list(sgb.from_csr([0, 1, 1], [1]).arcs()), [(0, 1, 1)])
        self.assertEqual(list(sgb.from_csr([0, 3, 3], [1, 0, 1], [4, 5, 6]).arcs()), [(0, 1, 4), (0, 0, 5), (0, 1, 6)])
        for words in ([], []), ([1], []), ([1, 1], [0]), ([0, 2], [0]), ([0, 2, 1], [0]), ([0, 1], [0], []), ([0], [0]):
            with self.subTest(words), self.assertRaises(ValueError):
                sgb.from_csr(*words)

    def test_checksum(self):
        self.assertEqual((_files.checksum(b'"a",0,0\n'), _files.checksum(b"")), (18619, 0))
        data = bytes(random.Random(7).choices(_files._COUNTED, k=200_000))
        found = 0
        for byte in data:
            found = (2 * found + _files._COUNTED.index(byte)) % (2**30 - 83)
        self.assertEqual(_files.checksum(data), found)
        graph = sgb.from_edges([(0, 1)])
        wrong = graph.save().replace(b"V1,0,1", b"V1,0,2")
        with self.assertRaises(sgb.GraphError) as why:
            sgb.graph("stdin", wrong)
        self.assertEqual(why.exception.code, 11)


class Numpy(unittest.TestCase):
    @classmethod
    def setUpClass(cls):
        if sgb._library.numpy is None:
            raise unittest.SkipTest("without numpy")
        cls.numpy = sgb._library.numpy

    def test_no_copy(self):
        """sgb_make is handed the very arrays."""
        tails, tips = self.numpy.array([0, 1], dtype="uint32"), self.numpy.array([1, 2], dtype="uint32")
        lengths = self.numpy.array([7, -8], dtype="int64")
        with unittest.mock.patch.object(sgb._events._library, "Held", side_effect=sgb._library.Held) as held:
            made = sgb.from_arrays(tails, tips, lengths)
            other = sgb.from_arrays(tails.astype("int16"), tips[::-1], lengths)
        wanted = [array.ctypes.data for array in (tails, tips, lengths)]
        self.assertEqual([held.call_args_list[0].args[5 + 2 * k] for k in range(3)], wanted)
        handed = [held.call_args_list[1].args[5 + 2 * k] for k in range(3)]
        self.assertTrue(handed[0] != wanted[0] and handed[1] != wanted[1] and handed[2] == wanted[2])
        self.assertEqual(list(made.arcs()), [(0, 1, 7), (1, 2, -8), (1, 0, 7), (2, 1, -8)])
        self.assertEqual(other.n, 3)

    def test_arrays_of_edges(self):
        edges = [(3, 0, 5), (0, 1, -(2**63)), (2, 2, 1)]
        for dtype in "int64", "int32", "uint32", "uint64", "int8":
            width = 3 if dtype == "int64" else 2
            array = self.numpy.array([edge[:width] for edge in edges], dtype=dtype)
            self.assertTrue(sgb.from_edges(array).same_as(sgb.from_edges([edge[:width] for edge in edges])))
        self.assertEqual(sgb.from_edges(self.numpy.zeros((0, 2), dtype="int64"), n=2).n, 2)
        for array in ([[0.0, 1.0]], [[-1, 0]], [[0, 1, 2, 3]]):
            with self.assertRaises((TypeError, ValueError)):
                sgb.from_edges(self.numpy.array(array))
        with self.assertRaisesRegex(ValueError, "64 bits"):
            sgb.from_edges(self.numpy.array([[0, 1, 2**63]], dtype="uint64"))

    def test_rows(self):
        """The arrays of a graph make it again, of whatever integers they are."""
        for text in ("petersen()", "board(3,0,0,0,-1,1,0)", "empty(3)", "simplex(3,1,1,0,0,0,0)"):
            graph = sgb.graph(text)
            for dtype in "int64", "uint32":
                arrays = graph.starts.astype(dtype), graph.tips.astype(dtype), graph.lengths
                self.assertEqual(list(sgb.from_csr(*arrays).arcs()), list(graph.arcs()))
        for starts in ([0, 2, 1], [1, 1], [0, 3], []):
            with self.assertRaisesRegex(ValueError, "starts go from 0 up"):
                sgb.from_csr(self.numpy.array(starts, dtype="uint64"), self.numpy.array([0], dtype="uint32"))


class Networkx(unittest.TestCase):
    @classmethod
    def setUpClass(cls):
        try:
            import networkx  # noqa: F401
        except ImportError:
            raise unittest.SkipTest("without networkx") from None

    def test_there_and_back(self):
        import networkx

        directed = [networkx.gn_graph(12, seed=1), networkx.MultiDiGraph([(0, 1), (0, 1), (1, 0), (2, 2)])]
        for graph in [*networkx_graphs(), *directed]:
            with self.subTest(str(graph)):
                seen = sgb.from_networkx(graph)
                self.assertEqual(seen.names(), [str(node) for node in graph])
                back = seen.to_networkx(multi=graph.is_multigraph(), undirected=not graph.is_directed())
                place = {node: v for v, node in enumerate(graph)}
                wanted = sorted((*(ends if graph.is_directed() else sorted(ends)), length) for *ends, length in (
                    (place[u], place[v], length) for u, v, length in graph.edges(data="weight", default=1)))
                found = sorted((*(ends if graph.is_directed() else sorted(ends)), length) for *ends, length in
                               back.edges(data="weight"))
                self.assertEqual(found, wanted)

    def test_lines(self):
        """The lines of a graph are those that networkx finds."""
        import networkx

        graphs = networkx_graphs()
        self.assertGreaterEqual(len(graphs), 30)
        for graph in graphs:
            with self.subTest(str(graph)):
                bare = networkx.MultiGraph() if graph.is_multigraph() else networkx.Graph()
                bare.add_nodes_from(graph)
                bare.add_edges_from(graph.edges())
                seen = sgb.graph("lines(stdin,0)", sgb.from_networkx(bare))
                lines = networkx.line_graph(bare)
                # of parallel edges networkx has one line between two, and GraphBase one for each end that they share
                made = networkx.Graph(seen.to_networkx(multi=True, undirected=True))
                self.assertEqual((len(made), made.number_of_edges()), (len(lines), networkx.Graph(lines).number_of_edges()))
                self.assertTrue(networkx.is_isomorphic(made, networkx.Graph(lines)))

    def test_refused(self):
        import networkx

        for data in (1.5, "far", None, 2**64):
            with self.assertRaisesRegex(ValueError, "the length of an arc"):
                sgb.from_networkx(networkx.Graph([(0, 1, {"weight": data})]))
        with self.assertRaisesRegex(ValueError, "printable ASCII"):
            sgb.from_networkx(networkx.Graph([(0, 'a"b')]))
        self.assertEqual(sgb.from_networkx(networkx.Graph([(0, 1, {"far": 5})]), weight="far").lengths.tolist(), [5, 5])
        for given in (5, [(0, 1)], sgb.graph("petersen()")):
            with self.assertRaisesRegex(TypeError, "^a graph of networkx is wanted, and this is (int|list|sgb.Graph)$"):
                sgb.from_networkx(given)

    def test_numbers(self):
        """Nodes whose texts are no names are told by their numbers."""
        import networkx

        towns = networkx.Graph([("Z\u00fcrich", "K\u00f6ln"), ("K\u00f6ln", 'a"b')])
        with self.assertRaisesRegex(ValueError, "printable ASCII"):
            sgb.from_networkx(towns)
        seen = sgb.from_networkx(towns, names=False)
        self.assertEqual((seen.names(), seen.edges()), (["0", "1", "2"], [(0, 1, 1), (1, 2, 1)]))


class Igraph(unittest.TestCase):
    @classmethod
    def setUpClass(cls):
        try:
            import igraph
        except ImportError:
            raise unittest.SkipTest("without igraph") from None
        cls.igraph = igraph

    def test_there_and_back(self):
        for text in ("petersen()", "board(3,4,0,0,-1,0,0)", "circuit(1)", "empty(3)", "board(3,0,0,0,-1,1,0)"):
            graph = sgb.graph(text)
            seen = sgb.from_igraph(graph.to_igraph(undirected=True))
            self.assertEqual((seen.names(), sorted(seen.edges())), (graph.names(), sorted(graph.edges())))
        for text in ("transitive(6)", "board(3,4,0,0,1,0,1)", "petersen()"):
            graph = sgb.graph(text)
            self.assertEqual(list(sgb.from_igraph(graph.to_igraph()).arcs()), list(graph.arcs()))
        bare = self.igraph.Graph(n=3, edges=[(0, 2), (1, 1)])
        self.assertEqual(sgb.from_igraph(bare).edges(), [(0, 2, 1), (1, 1, 1)])
        self.assertEqual(sgb.from_igraph(bare).names(), ["0", "1", "2"])
        bare.vs["name"] = ["K\u00f6ln", "b", "c"]
        self.assertEqual(sgb.from_igraph(bare, names=False).names(), ["0", "1", "2"])

    def test_refused(self):
        with self.assertRaisesRegex(ValueError, "the length of an arc"):
            sgb.from_igraph(self.igraph.Graph(n=2, edges=[(0, 1)], edge_attrs={"weight": [1.5]}))
        far = self.igraph.Graph(n=2, edges=[(0, 1)], edge_attrs={"far": [5]})
        self.assertEqual(sgb.from_igraph(far, weight="far").lengths.tolist(), [5, 5])
        for given in (5, {0: [1]}, sgb.graph("petersen()")):
            with self.assertRaisesRegex(TypeError, "^a graph of igraph is wanted, and this is (int|dict|sgb.Graph)$"):
                sgb.from_igraph(given)


class Scipy(unittest.TestCase):
    @classmethod
    def setUpClass(cls):
        try:
            import scipy.sparse
        except ImportError:
            raise unittest.SkipTest("without scipy") from None
        if sgb._library.numpy is None:
            raise unittest.SkipTest("without numpy")
        cls.sparse = scipy.sparse

    def test_there_and_back(self):
        for text in ("petersen()", "board(3,4,0,0,-1,0,0)", "transitive(6)", "empty(3)"):
            graph = sgb.graph(text)
            seen = sgb.from_scipy(graph.to_scipy())
            self.assertEqual(list(seen.arcs()), list(graph.arcs()))
            if text != "transitive(6)":
                again = sgb.from_scipy(graph.to_scipy(), directed=False)
                self.assertEqual(sorted(again.edges()), sorted(graph.edges()))

    def test_refused(self):
        with self.assertRaisesRegex(ValueError, "square"):
            sgb.from_scipy(self.sparse.csr_matrix((2, 3)))
        with self.assertRaisesRegex(ValueError, "not symmetric"):
            sgb.from_scipy(self.sparse.coo_matrix(([1], ([0], [1])), shape=(2, 2)), directed=False)
        with self.assertRaisesRegex(ValueError, "the length of an arc"):
            sgb.from_scipy(self.sparse.coo_matrix(([1.5], ([0], [1])), shape=(2, 2)))
        for given in (sgb._library.numpy.eye(2), [[0, 1], [1, 0]]):
            with self.assertRaisesRegex(TypeError, "^a sparse matrix of scipy is wanted, and this is (numpy.ndarray|list)$"):
                sgb.from_scipy(given)
        # floating numbers that are integers will do
        seen = sgb.from_scipy(self.sparse.coo_matrix(([2.0, 3.0], ([0, 1], [1, 1])), shape=(2, 2)))
        self.assertEqual(list(seen.arcs()), [(0, 1, 2), (1, 1, 3)])
