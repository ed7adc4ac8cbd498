"""Tests of what the library holds, and of a graph as Python has such things."""

import collections
import gc
import io
import os
import pathlib
import pickle
import pydoc
import re
import shutil
import subprocess
import sys
import tempfile
import threading
import types
import unittest
import unittest.mock

from cases import (
    BOARD, EDGES, FILE, GRAPHS, HERE, LOOPS, NO_EDGES, UNDIRECTED, arcs, edges, installed, listing, numpy, refused, said,
)

import sgb
from sgb import _graph, _library, _lookups, _names

CHECKED = """\
import numpy
import sgb
ends = numpy.array([0, 1], dtype="uint32")
graph = sgb.from_arrays(ends, ends[::-1], numpy.array([1, 2]))
graph = sgb.from_csr(numpy.array([0, 1, 1]), ends[:1], names=graph.names())
graph = sgb.from_csr(graph.starts, graph.tips, graph.lengths, graph.names())
graph = sgb.from_arrays([0], (1,), n=2)
graph = sgb.from_edges(numpy.array([[0, 1]]))
graph = sgb.from_arrays(0, ends)  # wrong
graph = sgb.from_csr(ends, None)  # wrong
"""

# what of Windows' Python the package sees: its name, no fork, and a loader, which hands out another library here
ON_WINDOWS = """\
import ctypes, os, sys, threading
try:
    import numpy
except ImportError:
    pass
del os.fork, os.register_at_fork
folder, library = sys.argv[1:]
real = ctypes.CDLL(library)
ctypes.CDLL = lambda path: print(os.path.relpath(path, folder) if os.sep in path else path) or real
os.name, sys.path[:0] = "nt", [folder]
import sgb
graph = sgb.from_edges([(0, 1), (1, 2, 7)])
print(graph.m, *sgb.graph("petersen()")[0], *sgb.graph("stdin", graph.save()).edges()[1], end="")
del graph
"""


class Handles(unittest.TestCase):
    def setUp(self):
        # counts the calls that close
        self.closed = 0
        self.close = _library.lib.sgb_close

        def close(handle):
            self.closed += handle.is_open
            self.close(handle)

        _library.lib.sgb_close = close

    def tearDown(self):
        _library.lib.sgb_close = self.close

    def test_close(self):
        with sgb.graph(BOARD) as graph:
            names, m = graph.names(), graph.m
            x, tips = list(graph.ints("x")), len(graph.tips)
            self.assertFalse(graph.closed)
        self.assertEqual((self.closed, graph.closed), (1, True))
        # what was asked for before stays: names, integers and arrays
        self.assertEqual((graph.names(), list(graph.ints("x")), len(graph.tips), graph.m), (names, x, tips, m))
        self.assertEqual((graph.names(3, 2), graph.name(3), graph.vertex(names[3])), (names[3:5], names[3], 3))
        for call in (
            lambda: graph.ints("y"), lambda: graph.lengths, lambda: graph.kinds, lambda: graph.rows(0, 1), graph.save,
            lambda: graph.lengths_of(0), graph.edges, lambda: next(graph.chunks(3)),
        ):
            with self.assertRaisesRegex(ValueError, "closed"):
                call()
        graph.close()
        del graph
        self.assertEqual(self.closed, 1)

    def test_end(self):
        graph = sgb.graph(BOARD)
        tips = graph.tips
        wanted = list(tips)
        self.assertEqual((len(graph.lengths), len(graph.names()), list(graph[0])), (len(tips), graph.n, wanted[:2]))
        del graph
        # at once, and not when the garbage is collected
        self.assertEqual(self.closed, 1)
        self.assertEqual(list(tips), wanted)

    def test_refused(self):
        """A graph that cannot be made holds nothing; nor does one whose arrays are refused memory."""
        with self.assertRaises(sgb.GraphError):
            sgb.graph("board(3,")
        self.assertEqual(self.closed, 0)
        with refused():
            with self.assertRaises(MemoryError):
                sgb.graph(BOARD)
        gc.collect()
        self.assertEqual(self.closed, 1)

    def test_two(self):
        first, second = sgb.graph(BOARD), sgb.graph("petersen()")
        del first
        self.assertEqual(self.closed, 1)
        self.assertEqual(second.names(), said("names", "petersen()").split())

    def test_threads(self):
        """A graph in each of some threads, and one graph asked by all of them."""
        shared, found = sgb.graph("board(60,60,0,0,1,0,0)"), []

        def work(text):
            found.append((text, listing(sgb.graph(text)), shared.names(), list(shared.ints("x"))))

        threads = [threading.Thread(target=work, args=(text,)) for text in GRAPHS]
        for thread in threads:
            thread.start()
        for thread in threads:
            thread.join()
        self.assertEqual(len(found), len(GRAPHS))
        for text, seen, names, x in found:
            self.assertEqual(seen, said("list", text))
            self.assertEqual((names, x), (shared.names(), [k // 60 for k in range(3600)]))


class Python(unittest.TestCase):
    """A graph as Python has such things."""

    def test_vertices(self):
        for text in GRAPHS:
            with self.subTest(text):
                graph = sgb.graph(text)
                self.assertEqual((list(graph), len(graph)), (list(range(graph.n)), graph.n))
                self.assertEqual([list(graph[v]) for v in graph], [list(graph.rows(v, 1).tips) for v in graph])
                for wrong in (-1, graph.n, 2**32, 2**64):
                    self.assertNotIn(wrong, graph)
                    for call in (graph.neighbors, graph.lengths_of, graph.degree, graph.name, graph.__getitem__):
                        with self.assertRaises(IndexError):
                            call(wrong)
        for v in ("0", 0.0, None, slice(1)):
            self.assertNotIn(v, graph)
            for call in (graph.neighbors, graph.lengths_of, graph.degree, graph.name, graph.__getitem__):
                with self.assertRaises(TypeError):
                    call(v)

    @unittest.skipUnless(numpy, "without numpy")
    def test_integers_of_numpy(self):
        graph = sgb.graph(BOARD)
        for kind in ("int8", "uint8", "int32", "uint32", "int64", "uint64"):
            v = numpy.array([5], dtype=kind)[0]
            self.assertEqual((list(graph[v]), graph.name(v), graph.degree(v)), (list(graph[5]), "1.1", 4))
            self.assertIn(v, graph)
            self.assertEqual(list(graph.rows(v, v).tips), list(graph.rows(5, 5).tips))
            self.assertEqual([list(part) for part in graph.chunks(v, v, v)], [list(range(5, 10))])
            rows = graph.rows(5, 2)
            self.assertEqual((list(rows[v]), rows.degree(v)), (list(graph[5]), 4))
        # what an array of tips has is a vertex
        self.assertEqual([graph.name(v) for v in graph[0]], ["1.0", "0.1"])
        self.assertEqual(list(sgb.flip(numpy.int64(-314159), numpy.uint64(0), numpy.int32(1))), [119318998])

    def test_arcs(self):
        for text, given in [(text, b"") for text in [*GRAPHS, *EDGES]] + [("stdin", FILE), ("stdin", LOOPS)]:
            with self.subTest(text):
                graph = sgb.graph(text, given)
                found = list(graph.arcs())
                self.assertEqual(collections.Counter(found), arcs(graph))
                ends = [(tip, length) for _, tip, length in found]
                self.assertEqual(ends, list(zip(graph.tips.tolist(), graph.lengths.tolist())))
                self.assertEqual([v for v, _, _ in found], sorted(v for v, _, _ in found))
                self.assertEqual(list(graph.rows().arcs()), found)
                self.assertTrue(all(type(part) is int for arc in found for part in arc))

    def test_edges(self):
        for text in UNDIRECTED:
            with self.subTest(text):
                graph = sgb.graph(text)
                self.assertEqual(graph.edges(), edges(graph))
                self.assertEqual(sorted(graph.edges()), EDGES.get(text, sorted(graph.edges())))
        for text, given in NO_EDGES:
            with self.subTest(text), self.assertRaisesRegex(ValueError, "is no edge"):
                sgb.graph(text, given).edges()

    def test_names(self):
        for text in GRAPHS:
            with self.subTest(text):
                graph = sgb.graph(text)
                self.assertEqual([graph.name(v) for v in graph], said("names", text).splitlines())
                self.assertEqual([graph.vertex(name) for name in graph.names()], list(graph))
        with self.assertRaisesRegex(KeyError, "no vertex '60.0'"):
            graph.vertex("60.0")
        with self.assertRaises(TypeError):
            graph.vertex(0)
        # of those that have one name the first
        lines = sgb.graph("lines(circuit(2),0)")
        self.assertEqual((lines.vertex(lines.name(1)), lines.n), (0, 2))

    def test_names_as_a_sequence(self):
        """They are used as a list is, and cannot be changed, whether they were gone through before or not."""
        wanted = said("names", BOARD).splitlines()
        for first, count in ((0, len(wanted)), (1, 3), (2, 0)):
            for gone_through in (False, True):
                with self.subTest(first=first, count=count, gone_through=gone_through):
                    names, part = sgb.graph(BOARD).names(first, count), wanted[first : first + count]
                    if gone_through:
                        self.assertEqual(list(names), part)
                    self.assertEqual([names[k] for k in range(-count, count)], part + part)
                    self.assertEqual((names[1:3], names[::-1], names[5:2], len(names)), (part[1:3], part[::-1], [], count))
                    for place in (count, -count - 1):
                        with self.assertRaises(IndexError):
                            names[place]
                    with self.assertRaises(TypeError):
                        names[0] = "x"
                    self.assertEqual((names + ["x"], ["x"] + names, repr(names)), (part + ["x"], ["x"] + part, repr(part)))
                    self.assertEqual((pickle.loads(pickle.dumps(names)), names), (names, part))
                    self.assertNotEqual(names, part + ["x"])
                    self.assertEqual([name in names for name in (*part, "x")], [True] * count + [False])
                    self.assertEqual([names.index(name) for name in part], list(range(count)))
        graph = sgb.graph(BOARD)
        self.assertEqual(list(graph.names()), wanted)
        self.assertEqual((graph.names(1, 3), pickle.loads(pickle.dumps(graph.names(1, 3)))), (wanted[1:4], wanted[1:4]))

    def test_names_in_pieces(self):
        """Names are fetched some at a time, and a part may begin and end in the middle of a piece."""
        for piece in (1, 2, 3):
            with unittest.mock.patch.object(_names, "PIECE", piece):
                self.test_names_as_a_sequence()
                graph = sgb.graph(BOARD)
                whole = list(graph.names())
                for first in range(graph.n + 1):
                    for count in range(graph.n - first + 1):
                        part = graph.names(first, count)
                        self.assertEqual([part[k] for k in range(count)] + list(part), 2 * whole[first : first + count])

    def test_names_of_many(self):
        """Names that are too many for a dictionary are looked for as well."""
        with unittest.mock.patch.object(_graph, "NAMED", 3), unittest.mock.patch.object(_lookups, "MANY", 2):
            self.test_names()
            self.assertEqual(sgb.graph("complement(board(3,3,0,0,1,0,0),0,0,0)").vertex("2.1"), 7)

    def test_read_only(self):
        graph = sgb.graph(BOARD)
        rows = graph.rows(0, 2)
        arrays = [graph.starts, graph.tips, graph.lengths, graph[0], graph.lengths_of(0), graph.ints("x"), sgb.flip(1)]
        for array in [*arrays, rows.starts, rows.tips, rows.lengths]:
            with self.assertRaises((TypeError, ValueError)):
                array[0] = 0
        graph = sgb.graph(BOARD)
        tips = graph.tips
        self.assertIs(graph.tips, tips)
        self.assertEqual(len(graph.lengths), len(tips))
        self.assertIs(graph.tips, tips)

    def test_late(self):
        """Nothing but n and the id is asked for when a graph is opened, and m where it is built."""
        for text, kept in (BOARD, {}), ("lines(complete(4),0)", {"number of arcs": 24}):
            graph = sgb.graph(text)
            self.assertEqual(graph._kept, kept)
            self.assertEqual((len(graph.lengths), len(graph.tips)), (graph.m, graph.m))

    def test_texts(self):
        for text in (b"petersen()", None, 5, ["petersen()"], pathlib.Path("petersen()")):
            with self.assertRaisesRegex(TypeError, "an expression is a str, and this is "):
                sgb.graph(text)
        with self.assertRaisesRegex(TypeError, "decode"):
            sgb.graph(b"petersen()")
        for text in ("\ud800", "\udcff", "\0", "é"):
            with self.assertRaises(sgb.GraphError) as why:
                sgb.graph(text)
            self.assertEqual(why.exception.byte, 0)

    def test_inputs(self):
        with tempfile.TemporaryDirectory() as folder:
            path = pathlib.Path(folder, "two.gb")
            path.write_bytes(FILE)
            for given in (path, str(path), io.BytesIO(FILE), FILE, bytearray(FILE), memoryview(FILE)):
                self.assertEqual(sgb.graph("stdin", given).names(), ["left", "right"])
            with open(path, "rb") as file:
                self.assertEqual(list(sgb.graph("stdin", input=file).lengths), [7, -3])
            with open(path, encoding="ascii") as file, self.assertRaisesRegex(TypeError, "open for bytes, with mode 'rb'"):
                sgb.graph("stdin", file)
            with self.assertRaises(FileNotFoundError):
                sgb.graph("stdin", str(path) + "x")
        with self.assertRaisesRegex(TypeError, "encode"):
            sgb.graph("stdin", FILE.decode())
        for given in (5, 1.5, ["two.gb"], object()):
            with self.assertRaisesRegex(TypeError, "bytes, a path, an open file or a graph, and this is "):
                sgb.graph("stdin", given)
        petersen = sgb.graph("petersen()")
        lines = sgb.graph("lines(stdin,0)", petersen)
        self.assertEqual((lines.n, lines.id), (15, sgb.graph("lines(petersen(),0)").id))

    def test_version(self):
        number = _library.lib.sgb_version()
        self.assertEqual(sgb.__version__, f"{number // 1_000_000}.{number // 1_000 % 1_000}.{number % 1_000}")

    def test_calls(self):
        """The calls are those of the header."""
        with open(os.path.join(os.path.dirname(HERE), "include/sgb.h"), encoding="utf-8") as file:
            header = file.read()
        self.assertEqual(set(re.findall(r"^(?:uint64_t|void) +(sgb_\w+)\(", header, re.M)), set(_library.CALLS))

    def test_help(self):
        text = pydoc.plain(pydoc.render_doc(sgb))
        for name in sgb.__all__:
            one = getattr(sgb, name)
            self.assertIn(name, text)
            self.assertGreater(len(one.__doc__), 40)
            self.assertEqual(one.__module__, "sgb")
        for name in ("class Graph", "class Rows", "uint32 array of shape (starts[n],)", "int64 array of shape (count,)"):
            self.assertIn(name, text)
        self.assertNotIn("sgb._", text)
        for kind in (sgb.Graph, sgb.Rows):
            shown = [getattr(kind, name) for name in vars(kind) if not name.startswith("_")]
            self.assertTrue(all(one.__doc__ for one in shown), kind)

    def test_typed(self):
        """All that is public says its types, in a package that says that it does."""
        self.assertTrue(os.path.exists(os.path.join(os.path.dirname(sgb.__file__), "py.typed")))
        calls = [getattr(sgb, name) for name in sgb.__all__ if name[0].islower()]
        for kind in (sgb.Graph, sgb.Rows):
            calls += [one for one in vars(kind).values() if isinstance(one, types.FunctionType)]
            calls += [one.fget for one in vars(kind).values() if isinstance(one, property)]
        for call in calls:
            names = call.__code__.co_varnames[: call.__code__.co_argcount]
            wanted = {name for name in names if name != "self"} | {"return"}
            self.assertEqual(wanted - set(call.__annotations__), set(), call)

    def test_windows(self):
        """Where Python is Windows' own, sgb.dll is loaded: that of the package's folder, or else that which the system finds."""
        with tempfile.TemporaryDirectory() as folder:
            place = os.path.join(folder, "sgb")
            shutil.copytree(os.path.dirname(sgb.__file__), place, ignore=shutil.ignore_patterns("*.so*", "__pycache__"))
            for name in "sgb.dll", "sgb/sgb.dll":
                words = [sys.executable, "-c", ON_WINDOWS, folder, os.path.abspath(_library.lib._name)]
                got = subprocess.run(words, capture_output=True, check=False, cwd=folder, env={**os.environ, "SGB_LIBRARY": ""})
                self.assertEqual((got.stdout, got.stderr), (name.encode() + b"\n4 9 8 5 1 2 7", b""))
                open(os.path.join(place, "sgb.dll"), "wb").close()

    @unittest.skipUnless(numpy and installed("mypy"), "without mypy and numpy")
    def test_checked(self):
        """mypy has nothing against the package, nor against what its pages say of arrays; what is none it refuses."""
        with tempfile.TemporaryDirectory() as folder:
            path = os.path.join(folder, "arrays.py")
            with open(path, "w", encoding="ascii") as file:
                file.write(CHECKED)
            words = ["--cache-dir=/dev/null", "--config-file=", "--ignore-missing-imports", path, os.path.dirname(sgb.__file__)]
            found = subprocess.run([sys.executable, "-m", "mypy", *words], capture_output=True, check=False,
                                   env={**os.environ, "MYPYPATH": HERE}).stdout.decode()
        wrong = [number for number, line in enumerate(CHECKED.splitlines(), 1) if line.endswith("# wrong")]
        self.assertEqual(re.findall(r"^(.*?):(\d+): error", found, re.M), [(path, str(number)) for number in wrong], found)
