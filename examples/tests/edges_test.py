#!/usr/bin/env python3
"""Tries that lines of edges are the graph: examples/tests/edges_test.py [PROGRAM]

2,000 random graphs, whose names look like comments, numbers, lengths and heads of tables, go by convert.awk in each awk that
is there, and by sgb.convert where the library is, into lines of edges, and by to_gb.py back: they have to be what they were.
Some go by the commands themselves. At most four awks run side by side."""

import collections
import concurrent.futures
import os
import random
import subprocess
import sys
import tempfile

from convert_test import SCRIPT, awks

EXAMPLES = os.path.dirname(os.path.dirname(os.path.abspath(__file__)))
TO_GB = os.path.join(EXAMPLES, "files/to_gb.py")
PROGRAM = os.path.abspath(sys.argv[1]) if len(sys.argv) > 1 else os.path.join(os.path.dirname(EXAMPLES), "sgb")
sys.path[:0] = [os.path.dirname(TO_GB), os.path.join(os.path.dirname(EXAMPLES), "python")]
sys.dont_write_bytecode = True
import to_gb  # noqa: E402

NAMES = [
    "", " ", "a", "b", "a b", "a,b", "a;b", "1", "2", "-3", "1.5", "5", "#", "#a", "# a", "%", "% asym", "##", "source", "target",
    "from", "to", "x, length 5", "-> a", "  a", "a  ", "New York", "'", ",", ";", "0,1", "1e2", "1 2", "a 5", "\t".strip() + "a 1",
]
LETTERS = [chr(code) for code in range(32, 127) if chr(code) not in '"\\']


class Graph:
    """Names, and edges or arcs by them."""

    def __init__(self, names, edges, directed):
        self.names, self.edges, self.directed = names, edges, directed

    def known(self):
        ends = [edge if self.directed else (*sorted(edge[:2]), edge[2]) for edge in self.edges]
        return sorted(self.names), collections.Counter(ends)

    def arcs(self):
        """Those on the lists, of an edge both."""
        for u, v, length in self.edges:
            yield u, v, length
            if not self.directed:
                yield v, u, length

    def listing(self):
        lists = {name: [] for name in self.names}
        for u, v, length in self.arcs():
            lists[u].append(f"  -> {v}, length {length}\n")
        head = f"  The graph whose official name is\nx\n  has {len(lists)} vertices and {sum(map(len, lists.values()))} arcs:\n\n"
        return head + "".join(f"{name}\n{''.join(lines)}" for name, lines in lists.items())


def random_graph(rng):
    names = rng.sample(NAMES, rng.randrange(1, 7))
    names = [rng.choice(names) + "".join(rng.choices(LETTERS, k=rng.choice([0, 0, 0, 1, 9]))) for _ in names]
    names = list(dict.fromkeys(name for name in names if not name.startswith("  -> ")))
    lengths = rng.choice([[1], [1], [1, 5], [1, -3, 2**63 - 1, -(2**63)]])
    edges = [(rng.choice(names), rng.choice(names), rng.choice(lengths)) for _ in range(rng.randrange(6) if names else 0)]
    return Graph(names, edges, rng.random() < 0.4)


def read_back(text, directed):
    """What to_gb.py makes of the lines, in this process."""
    words = to_gb.argparse.Namespace(sep=None, header=None, comments=None, columns=None, directed=directed)
    given = to_gb.FORMS["edges"](to_gb.text_of(text.encode()), words)
    names = to_gb.names_of(given, None)
    return Graph(names, [(names[u], names[v], w) for u, v, w in zip(given.tails, given.tips, given.lengths)], directed)


def by_awk(graphs, awk):
    """The lines of edges that convert.awk writes of each."""
    with tempfile.TemporaryDirectory() as folder:
        commands = []
        for number, graph in enumerate(graphs):
            with open(os.path.join(folder, str(number)), "w", encoding="ascii", newline="") as file:
                file.write(graph.listing())
            commands.append(f"{' '.join(awk)} -v to=edges -v directed={int(graph.directed)} -f '{SCRIPT}' < {number} > {number}.tsv\n")
        subprocess.run(["sh", "-e"], input="".join(commands).encode(), cwd=folder, check=True)
        texts = []
        for number in range(len(graphs)):
            with open(os.path.join(folder, f"{number}.tsv"), encoding="ascii", newline="") as file:
                texts.append(file.read())
        return texts


def by_package(graphs):
    """The lines of edges that sgb.convert writes of each."""
    try:
        import sgb
    except ImportError:
        print("  skipped, without libsgb.so: lines of sgb.convert")
        return
    for graph in graphs:
        place = {name: v for v, name in enumerate(graph.names)}
        edges = [(place[u], place[v], length) for u, v, length in graph.edges]
        yield sgb.convert(sgb.from_edges(edges, len(place), graph.names, graph.directed), "edges", directed=graph.directed)


def by_commands(graph):
    """The listing of the file that to_gb.py writes of the lines of edges, by the program, to lines and back."""
    more = ["--directed"] if graph.directed else []
    listing = graph.listing().encode()
    for _ in range(2):
        lines = run("awk", "-v", "to=edges", "-v", f"directed={len(more)}", "-f", SCRIPT, given=listing)
        listing = run(PROGRAM, "list", "stdin", given=run(sys.executable, TO_GB, "edges", *more, given=lines))
    return lines.decode()


def run(*words, given):
    return subprocess.run(words, input=given, capture_output=True, check=True).stdout


def main():
    seed = int(os.environ.get("EDGES_SEED", random.randrange(10**6)))
    rng = random.Random(seed)
    graphs = [random_graph(rng) for _ in range(2000)]
    with concurrent.futures.ThreadPoolExecutor(4) as pool:
        # an awk has a process for each graph, one after another
        ways = [*zip(map(" ".join, awks()), pool.map(lambda awk: by_awk(graphs, awk), awks()))]
    ways += [("sgb.convert", by_package(graphs)), ("the commands", map(by_commands, graphs[:20]))]
    passed = failed = 0
    for way, texts in ways:
        count = 0
        for graph, text in zip(graphs, texts):
            try:
                seen = read_back(text, graph.directed).known()
            except to_gb.Wrong as why:
                seen = why
            count += 1
            passed += seen == graph.known()
            failed += seen != graph.known()
            if seen != graph.known() and failed < 9:
                print("by", way, "the lines", repr(text), "of", graph.known(), "are read as", seen)
        print(f"{count:5} graphs by {way}")
    print("not installed, so not tried:", *{"mawk", "gawk", "original-awk", "busybox"} - {awk[0] for awk in awks()} or ["none"])
    print(f"EDGES_SEED={seed}")
    print(f"{passed} passed, {failed} failed")
    return int(failed > 0)


if __name__ == "__main__":
    sys.exit(main())
