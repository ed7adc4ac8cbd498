"""Tests of graphs as arrays, of all vertices and of runs."""

import collections
import copy
import math
import multiprocessing
import pickle
import unittest

from cases import BOARD, ERRORS, FILE, GRAPHS, LOOPS, SECONDS, last_rows, listing, numpy, refused, said, vertices

import sgb
from sgb import _library


class Arrays(unittest.TestCase):
    def test_listings(self):
        for text in GRAPHS:
            with self.subTest(text):
                self.assertEqual(listing(sgb.graph(text)), said("list", text))

    def test_file(self):
        graph = sgb.graph("stdin", input=FILE)
        self.assertEqual(listing(graph), said("list", "stdin", given=FILE))
        self.assertEqual((graph.names(), list(graph.lengths)), (["left", "right"], [7, -3]))
        for given in (bytearray(FILE), memoryview(FILE)):
            self.assertEqual(list(sgb.graph("stdin", given).tips), [1, 0])
        saved = said("save", BOARD).encode()
        self.assertEqual(listing(sgb.graph("stdin", saved)), said("list", BOARD))
        with self.assertRaisesRegex(TypeError, "bytes, a path, an open file or a graph, and this is int"):
            sgb.graph("stdin", 5)

    def test_save(self):
        for text in GRAPHS:
            with self.subTest(text):
                graph = sgb.graph(text)
                saved = said("save", text)
                self.assertEqual(graph.save(), saved.encode())
                self.assertEqual(graph.kinds, saved[len("* GraphBase graph (util_types "):][:14])
        self.assertEqual(sgb.graph("stdin", FILE).kinds, "Z" * 14)
        self.assertEqual(graph.save(), graph.save())
        kinds = graph.kinds
        graph.close()
        self.assertEqual(graph.kinds, kinds)
        with self.assertRaises(ValueError):
            graph.save()

    def test_arrays(self):
        graph = sgb.graph("petersen()")
        self.assertEqual((graph.n, len(graph), graph.m, graph.text), (10, 10, 30, "petersen()"))
        wanted = memoryview if numpy is None else numpy.ndarray
        for part, size in ((graph.starts, 8), (graph.tips, 4), (graph.lengths, 8)):
            self.assertIsInstance(part, wanted)
            self.assertEqual(part.itemsize, size)
        self.assertEqual([len(graph.starts), len(graph.tips), len(graph.lengths)], [11, 30, 30])
        self.assertEqual(list(graph.neighbors(9)), list(graph.tips[27:30]))
        for wrong in (-1, 10):
            with self.assertRaises(IndexError):
                graph.neighbors(wrong)

    def test_integers(self):
        graph = sgb.graph(BOARD)
        self.assertEqual(list(graph.ints("x")), [0, 0, 0, 0, 1, 1, 1, 1, 2, 2, 2, 2])
        self.assertEqual(list(graph.ints("y")), [0, 1, 2, 3] * 3)
        for field in "uvw":
            with self.assertRaises(sgb.GraphError) as why:
                graph.ints(field)
            self.assertEqual(why.exception.code, 102)
        for field in ("", "xy", "a", "t"):
            with self.assertRaises(ValueError) as why:
                graph.ints(field)
            self.assertNotIsInstance(why.exception, sgb.GraphError)

    def test_errors(self):
        for text, given, code, byte in ERRORS:
            with self.subTest(text[:40]):
                with self.assertRaises(sgb.GraphError) as why:
                    sgb.graph(text, given)
                self.assertEqual((why.exception.code, why.exception.byte), (code, byte))
        # the longest text that is read
        with self.assertRaises(sgb.GraphError) as why:
            sgb.graph("x" * 65_536)
        self.assertEqual(why.exception.byte, 0)

    def test_copied_errors(self):
        for code, byte in ((30, None), (106, None), (5, None), (1000, 0), (1008, 8)):
            error = sgb.GraphError(code)
            error.text = "what a caller adds"
            made = [pickle.loads(pickle.dumps(error, k)) for k in range(pickle.HIGHEST_PROTOCOL + 1)]
            for other in (*made, copy.copy(error), copy.deepcopy(error)):
                self.assertIs(type(other), sgb.GraphError)
                self.assertEqual((other.code, other.byte), (code, byte))
                self.assertEqual((str(other), other.args, vars(other)), (str(error), error.args, vars(error)))

    def test_processes(self):
        """An error that another process raises is raised here, and is waited for so long at most."""
        with multiprocessing.Pool(2) as pool:
            self.assertEqual(pool.map_async(vertices, ["petersen()", BOARD]).get(SECONDS), [10, 12])
            for text, code, byte in (("lines(cycle(3),0)", 60, None), ("board(3,", 1008, 8)):
                with self.assertRaises(sgb.GraphError) as why:
                    pool.map_async(vertices, ["petersen()", text]).get(SECONDS)
                self.assertEqual((why.exception.code, why.exception.byte), (code, byte))
                self.assertEqual(str(why.exception), str(sgb.GraphError(code)))

    def test_flip(self):
        for start, skip, count, m in (
            (-314159, 0, 3, 0), (-314159, 2, 3, 0), (-314159, 2, 3, 1000), (7, 133, 5, 2**31), (5, 5, 0, 6),
        ):
            wanted = [int(line) for line in said("flip", f"flip({start},{skip},{count},{m})").split()]
            self.assertEqual(list(sgb.flip(start, skip, count, m)), wanted)
        for words in ((0, 0, -1, 0), (0, -1, 1, 0), (2**63, 0, 1, 0), (0, 0, 1, 2**32)):
            with self.assertRaises(ValueError) as why:
                sgb.flip(*words)
            self.assertNotIsInstance(why.exception, sgb.GraphError)
        with self.assertRaises(sgb.GraphError) as why:
            sgb.flip(0, 0, 1, 2**31 + 1)
        self.assertEqual(why.exception.code, 103)


class Runs(unittest.TestCase):
    def test_whole(self):
        """The chunks of a graph, put together, are its arrays."""
        for text in GRAPHS:
            graph = sgb.graph(text)
            for size in (1, 3, 7, 1000, 10**12):
                with self.subTest(text, size=size):
                    self.is_joined(graph, list(graph.chunks(size)), size)

    def is_joined(self, graph, parts, size):
        self.assertEqual([part.first for part in parts], list(range(0, graph.n, size)))
        starts, tips, lengths, names = [0], [], [], []
        for part in parts:
            self.assertEqual((part.n, len(part)), (len(part.starts) - 1,) * 2)
            self.assertEqual(part.starts[0], 0)
            starts += [len(tips) + int(start) for start in part.starts[1:]]
            tips += part.tips.tolist()
            lengths += part.lengths.tolist()
            names += part.names()
        seen = (starts, tips, lengths, names)
        self.assertEqual(seen, (graph.starts.tolist(), graph.tips.tolist(), graph.lengths.tolist(), graph.names()))

    def test_part(self):
        for text in (BOARD, "lines(complete(4),0)", "stdin"):
            graph = sgb.graph(text, LOOPS * (text == "stdin"))
            n = graph.n
            runs = [(0, n), (min(5, n), n - min(5, n)), (n // 4, n // 2 + 1), (n // 2, None), (n, None), (n, 0), (n // 2, 0)]
            for first, count in runs:
                self.is_part(graph, first, count)

    def is_part(self, graph, first, count):
        parts = list(graph.chunks(3, first, count))
        last = graph.n if count is None else first + count
        self.assertEqual([name for part in parts for name in part.names()], graph.names()[first:last])
        self.assertEqual(graph.names(first, count), graph.names()[first:last])
        for part in parts:
            self.assertEqual(part.text, graph.text)
            self.assertEqual(list(part), list(range(part.first, part.first + part.n)))
            for v in part:
                wanted = graph.tips[int(graph.starts[v]) : int(graph.starts[v + 1])].tolist()
                for seen in (part.neighbors(v), part[v], graph.neighbors(v), graph[v]):
                    self.assertEqual(list(seen), wanted)
                self.assertEqual((part.degree(v), graph.degree(v)), (len(wanted),) * 2)
                lengths = graph.lengths[int(graph.starts[v]) : int(graph.starts[v + 1])].tolist()
                self.assertEqual([list(part.lengths_of(v)), list(graph.lengths_of(v))], [lengths, lengths])
            for wrong in (part.first - 1, part.first + part.n, -1):
                self.assertNotIn(wrong, part)
                for call in (part.neighbors, part.lengths_of, part.degree):
                    with self.assertRaises(IndexError):
                        call(wrong)

    def test_integers(self):
        """Names and integers of a run, whether those of all vertices are there or not."""
        for _ in range(2):
            graph = sgb.graph(BOARD)
            self.assertEqual(list(graph.ints("y", 5, 4)), [1, 2, 3, 0])
            self.assertEqual(graph.names(5, 2), ["1.1", "1.2"])
            graph.names()
            graph.ints("y")
            self.assertEqual((list(graph.ints("y", 5, 4)), graph.names(5, 2)), ([1, 2, 3, 0], ["1.1", "1.2"]))
            self.assertEqual((list(graph.ints("x", 12)), graph.names(12)), ([], []))

    def test_without_lengths(self):
        for text in GRAPHS:
            graph = sgb.graph(text)
            bare, rows = graph.rows(lengths=False), graph.rows()
            self.assertEqual((list(bare.tips), list(bare.starts)), (list(rows.tips), list(rows.starts)))
            self.assertIsNone(bare.lengths)
            if graph.n:
                for call in (bare.arcs, lambda: bare.lengths_of(0)):
                    with self.assertRaisesRegex(ValueError, "were not asked for"):
                        call()
            self.assertTrue(all(part.lengths is None for part in graph.chunks(5, lengths=False)))

    def test_arrays(self):
        (part,) = sgb.graph("petersen()").chunks(first=8)
        self.assertEqual((part.first, part.n, list(part.starts)), (8, 2, [0, 3, 6]))
        wanted = memoryview if numpy is None else numpy.ndarray
        for array, size in ((part.starts, 8), (part.tips, 4), (part.lengths, 8)):
            self.assertIsInstance(array, wanted)
            self.assertEqual(array.itemsize, size)
        self.assertIs(part.names(), part.names())

    def test_great(self):
        """The last vertices of a graph that no memory would hold, and what is asked for is made alone."""
        n = 10**9
        graph = sgb.graph(f"board({n},0,0,0,1,0,0)")
        self.assertEqual((graph.n, len(graph), graph.m), (n, n, 2 * n - 2))
        (part,) = graph.chunks(first=n - 2)
        self.assertEqual(part.names(), [str(n - 2), str(n - 1)])
        self.assertEqual([list(part.neighbors(v)) for v in (n - 2, n - 1)], [[n - 1, n - 3], [n - 2]])
        self.assertEqual((list(graph[n - 1]), list(graph.lengths_of(n - 2)), graph.degree(n - 1)), ([n - 2], [1, 1], 1))
        self.assertEqual((graph.name(n - 1), list(graph.ints("x", n - 1, 1))), (str(n - 1), [n - 1]))
        self.assertEqual(graph.vertex("123456789"), 123456789)
        for name in (str(n), "0123456789", "1.2", "", "x"):
            with self.assertRaises(KeyError):
                graph.vertex(name)
        self.assertEqual(next(graph.chunks()).n, 65_536)
        self.assertEqual(next(graph.arcs()), (0, 1, 1))
        parts = graph.chunks(10)
        self.assertEqual([next(parts).first, next(parts).first], [0, 10])
        # a unit goes from one place to another, in either direction; one of 6 is exchanged for one of the other 54
        simplex = sgb.graph("simplex(44000,-2,0,0,0,0,0)")
        self.assertEqual(simplex.m, 3 * 44_000 * 44_001)
        self.assertEqual(simplex.vertex("13405.6906.23689"), 500_000_001)
        self.assertEqual(sgb.graph("subsets(6,1,-59,0,0,0,0x20,0)").m, math.comb(60, 6) * 6 * 54)

    def test_long_lists(self):
        """Arcs come in pieces where lists are long, and those of one vertex alone."""
        graph = sgb.graph("complete(3000)")
        self.assertEqual((graph.degree(2999), list(graph[1])[:3]), (2999, list(graph.rows(1, 1).tips)[:3]))
        self.assertNotIn("lists", graph._kept)
        seen = collections.Counter(v for v, tip, _ in graph.arcs() if tip < 5)
        self.assertEqual((seen[0], seen[4], seen[5], len(seen)), (4, 4, 5, 3000))
        self.assertNotIn("lists", graph._kept)

    def test_bad_arguments(self):
        """They are refused at once, before the first chunk is asked for."""
        graph = sgb.graph(BOARD)
        for size in (0, -1):
            with self.assertRaises(ValueError) as why:
                graph.chunks(size)
            self.assertNotIsInstance(why.exception, sgb.GraphError)
        # a number of more than 32 bits is not taken for another one
        for first, count in (
            (-1, None), (13, None), (0, -1), (0, 13), (12, 1), (2**32, 0), (0, 2**32 + 1), (2**32, 1), (-(2**32), 1),
            (0, 1 - 2**32),
        ):
            for call in (graph.rows, graph.names, lambda *run: graph.chunks(3, *run), lambda *run: graph.ints("x", *run)):
                with self.assertRaises(IndexError):
                    call(first, count)
        for words in ((1.5,), (3, 1.5), (3, 0, 1.5)):
            with self.assertRaises(TypeError):
                graph.chunks(*words)
        for call in (graph.rows, graph.names):
            with self.assertRaises(TypeError):
                call("0")

    def test_memory(self):
        """Arrays that are refused memory are an error, and no rows."""
        graph = sgb.graph(BOARD)
        with refused():
            for call in (lambda: next(graph.chunks()), graph.rows, graph.names, lambda: graph.ints("x"), lambda: graph.tips):
                with self.assertRaises(MemoryError):
                    call()
        self.assertEqual(len(graph.tips), graph.m)
        with self.assertRaises(MemoryError):
            _library.Array("I", 2**64 - 1)

    def test_pickled(self):
        """Rows come out of another process as they were made there, whether one of the two has numpy or not."""
        n = 10**9
        with multiprocessing.Pool(1) as pool:
            rows = pool.map_async(last_rows, [f"board({n},0,0,0,1,0,0)"]).get(SECONDS)[0]
        again = [pickle.loads(pickle.dumps(rows, k)) for k in range(pickle.HIGHEST_PROTOCOL + 1)]
        arcs = [(n - 2, n - 1, 1), (n - 2, n - 3, 1), (n - 1, n - 2, 1)]
        for seen in (rows, *again, copy.copy(rows)):
            self.assertEqual((seen.first, seen.n, seen.names()), (n - 2, 2, [str(n - 2), str(n - 1)]))
            self.assertEqual((list(seen.arcs()), list(seen[n - 1])), (arcs, [n - 2]))
            for array, other in ((seen.starts, rows.starts), (seen.tips, rows.tips), (seen.lengths, rows.lengths)):
                self.assertIs(type(array), type(other))
                self.assertEqual(array.itemsize, other.itemsize)
                self.is_read_only(array)
        bare = pickle.loads(pickle.dumps(sgb.graph(BOARD).rows(0, 2, lengths=False)))
        self.assertIsNone(bare.lengths)
        with self.assertRaisesRegex(ValueError, "before the rows were pickled"):
            bare.names()

    def is_read_only(self, array):
        with self.assertRaises((TypeError, ValueError)):
            array[0] = 0
