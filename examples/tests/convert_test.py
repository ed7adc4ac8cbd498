#!/usr/bin/env python3
"""Tests of convert.awk: examples/tests/convert_test.py PROGRAM [stored].

Each form of some graphs is compared with the file in converted/ that is stored for it, by each kind of awk that is there.
Each form of more graphs is read again, here and, unless `stored` asks for no more, by the readers that are installed
(networkx, igraph, scipy, Graphviz, nauty's showg, METIS's graphchk), and compared with what sgb_graph.py says.
"""

import collections
import os
import re
import shlex
import shutil
import subprocess
import sys
import tempfile
import xml.etree.ElementTree

HERE = os.path.dirname(os.path.abspath(__file__))
SCRIPTS = os.path.join(HERE, "..", "listings")
SCRIPT = os.path.join(SCRIPTS, "convert.awk")
sys.path.insert(0, SCRIPTS)
sys.dont_write_bytecode = True
import sgb_graph

OF_NAUTY = ["graph6", "sparse6", "digraph6"]
FORMS = ["dot", "edges", "dimacs", "metis", "mtx", "graphml", *OF_NAUTY]
# and edges of numbers
READ_FORMS = [*FORMS, "numbers"]
# the stored ones: edges of length 1, edges with lengths and a vertex that is alone, arcs and names that XML has to escape
STORED = [
    ("petersen", "petersen()", False),
    ("lengths", "gunion(empty(6),board(5,0,0,0,-1,0,0),0,0)", False),
    ("arrows", "lines(cycle(4),1)", True),
]

# a file for `stdin`: names that XML has to escape, a length below 1, a vertex with two loops, another without arcs
FILE = (
    b"* GraphBase graph (util_types ZZZZZZZZZZZZZZ,3V,6A)\n"
    b'"x & y < z",3,6\n* Vertices\n"a & <b>",A0\n"c;d",A1\n"loops",A5\n* Arcs\n'
    b"V1,0,-3\nV0,0,-3\nV2,0,1\nV2,A2,4\nV2,A3,4\nV2,A4,1\n* Checksum -1\n"
)
# others: a name begins with the sign of a comment or has it inside, and a length is no floating number; a name is
# empty, or has a space at an end
SIGNS = (
    b"* GraphBase graph (util_types ZZZZZZZZZZZZZZ,5V,6A)\n"
    b'"signs",5,6\n* Vertices\n"#a",A0\n"b # c",A4\n"%",A2\n"c 1",A5\n"#",0\n* Arcs\n'
    b"V1,0,9007199254740993\nV0,0,9007199254740993\nV1,0,7\nV2,A1,7\nV3,A3,-1\nV1,0,-1\n* Checksum -1\n"
)
SPACES = (
    b"* GraphBase graph (util_types ZZZZZZZZZZZZZZ,4V,6A)\n"
    b'"spaces",4,6\n* Vertices\n"",A4\n" a",A1\n"b ",A3\n"c",A5\n* Arcs\n'
    b"V2,0,1\nV0,A0,1\nV1,0,1\nV3,A2,1\nV1,0,1\nV2,0,1\n* Checksum -1\n"
)
ONES = re.sub(b",(9007199254740993|7|-1)\n", b",1\n", SIGNS).replace(b'"signs"', b'"ones"')

# expressions, whether of arcs, and the file that is read
READ = [(expression, directed, FILE) for _, expression, directed in STORED] + [
    ("stdin", directed, given) for given in (SIGNS, ONES, SPACES) for directed in (False, True)
] + [(expression, directed, FILE) for expression, directed in [
    ("empty(3)", False), ("simplex(5,2,2,0,0,0,0)", False), ("complete(62)", False), ("circuit(63)", False),
    ("circuit(64)", False), ("board(3,4,0,0,-1,3,0)", False), ("board(3,4,0,0,-1,0,0)", False),
    ("board(1,0,0,0,1,1,0)", False), ("board(1,0,0,0,1,1,0)", True),
    ("complement(empty(3),0,1,0)", False), ("complement(empty(3),0,1,1)", True), ("transitive(6)", True),
    ("stdin", False), ("gunion(stdin,stdin,1,1)", True), ("complement(stdin,1,1,1)", True),
    ("induced(stdin,[1,1,0],0,0,0)", False),
    ("gunion(complete(5),circuit(5),1,0)", False), ("product(complete(3),circuit(4),0,0)", False),
    ("board(4,4,0,0,-1,0,1)", True), ("lines(complete(4),0)", False),
    # the last byte of sparse6 is filled in its other way
    ("gunion(empty(4),complete(3),0,0)", False),
]]

# What a form says: how many vertices, their names in order or None, and the edges or arcs by places from 0.
Form = collections.namedtuple("Form", "n names edges")


def graph_of(program, expression, directed, given=FILE):
    names = [name for name, _ in sgb_graph.read(expression, given, program)]
    place = {name: at for at, name in enumerate(names)}
    edges = sgb_graph.to_edges(sgb_graph.read(expression, given, program), directed)
    return Form(len(names), names, sorted((place[u], place[v], length) for u, v, length in edges))


def converted(program, expression, directed, form, given=FILE, awk=("awk",)):
    listing = subprocess.run([program, "list", expression], input=given, capture_output=True, check=True).stdout
    options = ["to=edges", "numbers=1"] if form == "numbers" else [f"to={form}"]
    words = [word for option in [*options, f"directed={int(directed)}"] for word in ("-v", option)]
    return subprocess.run([*awk, *words, "-f", SCRIPT], input=listing, capture_output=True)


def fits(graph, form, directed):
    """Whether the form has such a graph."""
    pairs = collections.Counter(edge[:2] if directed else tuple(sorted(edge[:2])) for edge in graph.edges)
    if form in ("metis", "mtx", "graph6", "digraph6") and any(count > 1 for count in pairs.values()):
        return False
    if form in ("metis", "graph6") and any(u == v for u, v in pairs):
        return False
    if directed and form in ("metis", "graph6", "sparse6") or not directed and form == "digraph6":
        return False
    return form != "metis" or all(length > 0 for _, _, length in graph.edges)


# ---- each form, read by its own rules: vertices named by their numbers become places from 0


def named(lines, sign):
    found = [re.fullmatch(f"{sign} vertex ([0-9]+) is (.*)", line) for line in lines]
    numbers = [int(match[1]) for match in found if match]
    assert numbers == list(range(1, len(numbers) + 1)), numbers
    return [match[2] for match in found if match]


def ints(line):
    return [int(word) for word in line.split()]


def one_way(arcs):
    """Of an edge's two arcs one, of two loops one."""
    loops = [arc for arc in sorted(arcs) if arc[0] == arc[1]]
    assert sorted(arcs) == sorted((v, u, *rest) for u, v, *rest in arcs) and loops[::2] == loops[1::2], arcs
    return [arc for arc in arcs if arc[0] < arc[1]] + loops[::2]


def read_dot(text, graph, directed):
    lines = text.splitlines()
    assert re.fullmatch(("digraph" if directed else "graph") + ' ".*" {', lines[0]) and lines[-1] == "}", lines
    names = [line[3:-2] for line in lines if re.fullmatch('  "[^"]*";', line)]
    found = [re.fullmatch('  "([^"]*)" (--|->) "([^"]*)"(?: \\[label="(-?[0-9]+)"\\])?;', line) for line in lines]
    edges = [(names.index(match[1]), names.index(match[3]), int(match[4] or 1)) for match in found if match]
    assert len(names) + len(edges) + 2 == len(lines), lines
    return Form(len(names), names, edges)


def read_edges(text, graph, directed):
    place, met, edges = {name: at for at, name in enumerate(graph.names)}, set(), []
    for line in text.splitlines():
        words = [word.strip('"') for word in line.split("\t")]
        ends, length = words[:2], (words + ["1"])[2:3]
        assert len(ends) == 2 or line[0] == line[-1] == '"' and not met & {place[ends[0]]}, line
        met |= {place[end] for end in ends}
        if len(ends) == 2:
            edges.append((place[ends[0]], place[ends[1]], int(length[0])))
    return Form(len(met), None, edges)


def read_numbers(text, graph, directed):
    lines = [line.split("\t") for line in text.splitlines()]
    met = {int(number) - 1 for line in lines for number in line[:2]}
    assert met == set(range(graph.n)), text
    return Form(len(met), None, [(int(u) - 1, int(v) - 1, int(*length or [1])) for u, v, *length in
                                 (line for line in lines if len(line) > 1)])


def read_dimacs(text, graph, directed):
    lines = text.splitlines()
    kind, n, m = [line.split()[1:] for line in lines if line[0] == "p"][0]
    arcs = [ints(line[1:]) for line in lines if line[0] in "ea"]
    assert len(arcs) == int(m) and all(line[0] in "cp" + {"edge": "e", "sp": "a"}[kind] for line in lines), text
    edges = [(arc[0] - 1, arc[1] - 1, arc[2] if kind == "sp" else 1) for arc in arcs]
    return Form(int(n), named(lines, "c"), edges if directed or kind == "edge" else one_way(edges))


def read_metis(text, graph, directed):
    lines = [line for line in text.splitlines() if not line.startswith("%")]
    n, m, *has_lengths = ints(lines[0])
    step = 2 if has_lengths else 1
    arcs = []
    for at, line in enumerate(lines[1:]):
        numbers = ints(line)
        arcs += [(at, numbers[k] - 1, numbers[k + 1] if has_lengths else 1) for k in range(0, len(numbers), step)]
    edges = one_way(arcs)
    assert len(lines) == n + 1 and len(edges) == m, text
    return Form(n, named(text.splitlines(), "%"), edges)


def read_mtx(text, graph, directed):
    lines = text.splitlines()
    kind = re.fullmatch("%%MatrixMarket matrix coordinate (pattern|integer) (general|symmetric)", lines[0])
    rows, columns, m = ints(next(line for line in lines if line[0] != "%"))
    entries = [ints(line) for line in lines if line[0] != "%"][1:]
    assert rows == columns and m == len(entries) and (kind[2] == "general") == directed, text
    assert directed or all(entry[0] >= entry[1] for entry in entries), text
    return Form(rows, named(lines, "%"), [(u - 1, v - 1, *(length or [1])) for u, v, *length in entries])


def read_graphml(text, graph, directed):
    root = xml.etree.ElementTree.fromstring(text)
    space = "{http://graphml.graphdrawing.org/xmlns}"
    inside = root.find(space + "graph")
    assert inside.get("edgedefault") == ("directed" if directed else "undirected"), text
    nodes = inside.findall(space + "node")
    assert [node.get("id") for node in nodes] == [f"n{at}" for at in range(len(nodes))], text
    edges = [
        (int(edge.get("source")[1:]), int(edge.get("target")[1:]), int(edge.findtext(space + "data") or 1))
        for edge in inside.findall(space + "edge")
    ]
    return Form(len(nodes), [node.findtext(space + "data") for node in nodes], edges)


def six_bits(text, mark):
    """How many vertices a form of nauty says that there are, and its bits."""
    assert text.startswith(mark) and text.count("\n") == 1 and text[-1] == "\n", text
    values = [ord(byte) - 63 for byte in text[len(mark):-1]]
    start, bytes_ = (2, 6) if values[:2] == [63, 63] else (1, 3) if values[0] == 63 else (0, 1)
    n = int("".join(f"{value:06b}" for value in values[start:start + bytes_]), 2)
    return n, "".join(f"{value:06b}" for value in values[start + bytes_:])


def read_pairs(text, mark, pairs_of):
    n, bits = six_bits(text, mark)
    pairs = pairs_of(n)
    assert 0 <= len(bits) - len(pairs) < 6 and "1" not in bits[len(pairs):], text
    return Form(n, None, [(u, v, 1) for (u, v), bit in zip(pairs, bits) if bit == "1"])


def read_graph6(text, graph, directed):
    return read_pairs(text, "", lambda n: [(u, v) for v in range(n) for u in range(v)])


def read_digraph6(text, graph, directed):
    return read_pairs(text, "&", lambda n: [(u, v) for u in range(n) for v in range(n)])


def read_sparse6(text, graph, directed):
    n, bits = six_bits(text, ":")
    wide, v, edges = (n - 1).bit_length(), 0, []
    for at in range(0, len(bits) - wide, 1 + wide):
        v += bits[at] == "1"
        other = int(bits[at + 1:at + 1 + wide] or "0", 2)
        if v >= n:
            break
        if other > v:
            v = other
        else:
            edges.append((other, v, 1))
    return Form(n, None, edges)


def is_same(form, seen, graph, directed):
    def sorted_(edges):
        lengths = form not in OF_NAUTY
        return sorted((*(edge[:2] if directed else sorted(edge[:2])), edge[2] if lengths else 1) for edge in edges)

    return (seen.n, seen.names or graph.names, sorted_(seen.edges)) == (graph.n, graph.names, sorted_(graph.edges))


# ---- the reader of edges that the head of convert.awk names, by the call that stands there


def called(read_edgelist, kinds, path, graph, directed):
    """What the call gives, where `read_edgelist` has these kinds of graphs."""
    with open(SCRIPT, encoding="utf-8") as file:
        head = file.read().partition("\nBEGIN")[0]
    call = re.search(r"^#\s+(read_edgelist\(.*\))\n#\s+with data", head, re.M | re.S)[1]
    call = re.sub(r"\n#\s+", " ", call).replace('"petersen.tsv"', "path")
    if any(length != 1 for _, _, length in graph.edges):
        call = call[:-1] + ", " + re.search(r"with (data=\[.*\]) where there are lengths", head)[1] + ")"
    if directed:
        call = call.replace("networkx.MultiGraph", re.search(r"as (networkx\.\w+) where arcs are", head)[1])
    return eval(call, {"read_edgelist": read_edgelist, "networkx": kinds, "path": path})


class Kinds:
    """Names of networkx's graphs with parallel edges."""
    MultiGraph, MultiDiGraph = False, True


def edgelist(is_stripped):
    """How networkx reads lines of edges: before 3.0 spaces and tabs at both ends of a line were dropped first."""

    def read_edgelist(path, comments="#", delimiter=None, create_using=None, nodetype=str, data=()):
        edges = []
        with open(path, encoding="utf-8") as file:
            for line in file:
                line = line if comments is None else line.partition(comments)[0]
                words = (line.strip() if is_stripped else line.rstrip("\n")).split(delimiter)
                if len(words) > 1:
                    assert len(words) == 2 + len(data), line
                    edges.append((*map(nodetype, words[:2]), *(kind(word) for (_, kind), word in zip(data, words[2:]))))
        return create_using, edges

    def read(path, graph, directed):
        is_directed, edges = called(read_edgelist, Kinds, path, graph, directed)
        assert is_directed == directed
        place = {name: at for at, name in enumerate(graph.names)}
        return Form(graph.n, None, [(place[u], place[v], *(length or [1])) for u, v, *length in edges])

    return read


# ---- readers that may be installed: functions of a file, the graph and whether it is directed; None where one is not tried


def networkx_readers(networkx):
    def of(found, graph, directed, names=None):
        assert found.is_directed() == directed
        place = {name: at for at, name in enumerate(names if names is not None else found.nodes)}
        edges = [(place[u], place[v], data.get("weight", 1)) for u, v, data in found.edges(data=True)]
        return Form(len(place), names, edges)

    def edges(path, graph, directed):
        return of(called(networkx.read_edgelist, networkx, path, graph, directed), graph, directed, graph.names)

    def numbers(path, graph, directed):
        found = called(networkx.read_edgelist, networkx, path, graph, directed)
        return of(networkx.relabel_nodes(found, lambda number: graph.names[int(number) - 1]), graph, directed, graph.names)

    def graphml(path, graph, directed):
        found = networkx.read_graphml(path)
        names = [data["name"] for _, data in found.nodes(data=True)]
        return of(networkx.relabel_nodes(found, dict(zip(found, names))), graph, directed, names)

    def graph6(path, graph, directed):
        return of(networkx.read_graph6(path), graph, directed)

    def sparse6(path, graph, directed):
        # of one vertex it takes other bits for a loop than nauty
        return of(networkx.read_sparse6(path), graph, directed) if graph.n != 1 else None

    return {"edges": edges, "numbers": numbers, "graphml": graphml, "graph6": graph6, "sparse6": sparse6}


def igraph_readers(igraph):
    def of(found, names):
        has_lengths = names is not None and "weight" in found.es.attributes()
        weights = found.es["weight"] if has_lengths else [1] * found.ecount()
        return Form(found.vcount(), names, [(*ends, int(w)) for ends, w in zip(found.get_edgelist(), weights)])

    def graphml(path, graph, directed):
        found = igraph.Graph.Read_GraphML(path)
        assert found.is_directed() == directed
        return of(found, found.vs["name"] if found.vcount() else [])

    def dimacs(path, graph, directed):
        with open(path, encoding="ascii") as file:
            if "p sp" in file.read():
                return None
        # not Graph.Read_DIMACS, which wants capacities
        return of(igraph.GraphBase.Read_DIMACS(path, False)[0], None)

    return {"graphml": graphml, "dimacs": dimacs}


def scipy_readers(io):
    def mtx(path, graph, directed):
        found = io.mmread(path).tocoo()
        entries = [(int(u), int(v), int(length)) for u, v, length in zip(found.row, found.col, found.data)]
        return Form(found.shape[0], None, [entry for entry in entries if directed or entry[0] >= entry[1]])

    return {"mtx": mtx}


def run(*words):
    return subprocess.run(words, capture_output=True, text=True, check=True, timeout=60).stdout


def dot(path, graph, directed):
    if len(graph.edges) > 50:
        return None  # it would lay them out, which takes long
    lines = [shlex.split(line) for line in run("dot", "-Tplain", path).splitlines()]
    # it tells the vertices in the order in which it lays them out
    names = graph.names
    assert sorted(line[1] for line in lines if line[0] == "node") == sorted(names), lines
    edges = []
    for words in [line for line in lines if line[0] == "edge"]:
        label = words[4 + 2 * int(words[3]):]
        edges.append((*map(names.index, words[1:3]), int(label[0]) if len(label) > 2 else 1))
    return Form(len(names), names, edges)


def showg(path, graph, directed):
    pairs = [edge[:2] if directed else tuple(sorted(edge[:2])) for edge in graph.edges]
    if len(set(pairs)) < len(pairs):
        return None  # it tells parallel edges once
    program = "showg" if shutil.which("showg") else "nauty-showg"
    numbers = ints(" ".join(run(program, "-q", "-e", path).replace(";", " ").split()))
    n, m, ends = numbers[0], numbers[1], numbers[2:]
    assert len(ends) == 2 * m
    return Form(n, None, [(*ends[k:k + 2], 1) for k in range(0, 2 * m, 2)])


def graphchk(path, graph, directed):
    """It says only that the file is right, and takes no graph without edges."""
    if not graph.edges:
        return None
    return "format of the graph is correct" in run("graphchk", path).replace("\n", " ") or Form(0, None, [])


def installed():
    """For each reader that is there its name and the form; and the names of those that are not."""
    found, missing = [], []
    for name, module, readers in [
        ("networkx", "networkx", networkx_readers),
        ("igraph", "igraph", igraph_readers),
        ("scipy", "scipy.io", scipy_readers),
    ]:
        try:
            there = __import__(module, fromlist=["x"])
        except ImportError:
            missing.append(name)
            continue
        found += [(name, form, reader) for form, reader in readers(there).items()]
    for name, forms, reader in [("dot", ["dot"], dot), ("showg", OF_NAUTY, showg), ("graphchk", ["metis"], graphchk)]:
        if shutil.which(name) or shutil.which(f"nauty-{name}"):
            found += [(name, form, reader) for form in forms]
        else:
            missing.append(name)
    return found, missing


# ----


def awks():
    """The kinds of awk that are there."""
    found = [(name,) for name in ("mawk", "gawk", "original-awk") if shutil.which(name)]
    if shutil.which("busybox") and not subprocess.run(["busybox", "awk", ""], capture_output=True).returncode:
        found.append(("busybox", "awk"))
    return found or [("awk",)]


def main():
    program = os.path.abspath(sys.argv[1]) if len(sys.argv) > 1 else os.path.join(HERE, "..", "..", "sgb")
    failed, done = [], collections.Counter()

    def check(is_right, *what):
        done["checks"] += 1
        if not is_right:
            failed.append(" ".join(map(str, what)))

    for name, expression, directed in STORED:
        graph = graph_of(program, expression, directed)
        for form in FORMS:
            path = os.path.join(HERE, "converted", f"{name}.{form}")
            check(os.path.exists(path) == fits(graph, form, directed), path, "is there and should not, or the other way")
            for awk in awks() if os.path.exists(path) else []:
                got = converted(program, expression, directed, form, awk=awk)
                with open(path, "rb") as file:
                    check((got.returncode, got.stdout, got.stderr) == (0, file.read(), b""), path, "differs by", *awk)
    readers, missing = installed() if sys.argv[2:] != ["stored"] else ([], [])
    with tempfile.TemporaryDirectory() as folder:
        for expression, directed, given in READ:
            graph = graph_of(program, expression, directed, given)
            for form in READ_FORMS:
                got = converted(program, expression, directed, form, given)
                what = f"{form} of {expression}" + (" " + given.split(b'"')[1].decode()) * (expression == "stdin")
                if not fits(graph, form, directed):
                    is_refused = got.returncode == 1 and not got.stdout and got.stderr.startswith(b"convert.awk: to=")
                    check(is_refused and got.stderr.count(b"\n") == 1, what, "was not refused:", got)
                    continue
                check(got.returncode == 0 and not got.stderr, what, "gave", got)
                path = os.path.join(folder, f"graph.{form}")
                with open(path, "wb") as file:
                    file.write(got.stdout)
                mine = lambda path, graph, directed: globals()[f"read_{form}"](got.stdout.decode(), graph, directed)
                own = [("the test", form, mine)]
                if form == "edges":
                    own += [(f"the call of the head, by {name}", form, edgelist(name == "older rules"))
                            for name in ("older rules", "newer rules")]
                for name, _, reader in own + [each for each in readers if each[1] == form]:
                    try:
                        seen = reader(path, graph, directed)
                    except Exception as fault:
                        check(False, what, "read by", name, "failed:", repr(fault))
                        continue
                    if seen is not None:
                        done[f"{form} by {name}"] += 1
                        check(seen is True or is_same(form, seen, graph, directed), what, "read by", name, "gave", seen)
    for line in failed:
        print(line)
    for name, count in sorted(done.items()):
        if " by " in name:
            print(f"{count:4} graphs read from {name}")
    if missing:
        print("not installed, so not tried:", ", ".join(missing))
    print(f"{done['checks'] - len(failed)} passed, {len(failed)} failed")
    sys.exit(1 if failed else 0)


if __name__ == "__main__":
    main()
