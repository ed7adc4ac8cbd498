#!/usr/bin/env python3
"""Tries to_gb.py: examples/tests/to_gb_test.py [PROGRAM]. Each file that it writes is read back by the program.

Graphs of the program go through convert.awk into a form and through to_gb.py back, and have to be what they were.
Others are written here, with values from the descriptions of the forms, and by networkx where it is installed, which
also reads GraphML and GML. What is no graph of its form, and what GraphBase cannot have, has to be refused with one
line. """

import collections
import glob
import os
import subprocess
import sys
import tempfile

EXAMPLES = os.path.dirname(os.path.dirname(os.path.abspath(__file__)))
PROGRAM = os.path.abspath(sys.argv[1]) if len(sys.argv) > 1 else os.path.join(os.path.dirname(EXAMPLES), "sgb")
LISTINGS = os.path.dirname(glob.glob(os.path.join(EXAMPLES, "**/sgb_graph.py"), recursive=True)[0])
sys.path.insert(0, LISTINGS)
sys.dont_write_bytecode = True
import sgb_graph  # noqa: E402

OF_NAUTY = ["graph6", "sparse6", "digraph6"]
FORMS = ["edges", "dimacs", "metis", "mtx", *OF_NAUTY]
# expressions, and whether their arcs are arcs
GRAPHS = [
    ("petersen()", False), ("board(3,4,0,0,1,0,0)", False), ("board(5,0,0,0,-1,0,0)", False), ("empty(3)", False),
    ("complete(62)", False), ("circuit(63)", False), ("circuit(64)", False), ("transitive(6)", True), ("cycle(4)", True),
    ("complement(empty(3),0,1,0)", False), ("gunion(complete(5),circuit(5),1,0)", False), ("lines(complete(4),0)", False),
    ("board(3,0,0,0,-1,1,0)", False), ("lines(cycle(4),1)", True), ("simplex(3,-3,0,0,0,0,0)", False),
]
# what convert.awk says of those that a form does not have
LEFT_OUT = ("no loops", "no parallel", "no arcs", "has no", "arcs alone")
# a text in a form, with the names and arcs that it has
TEXTS = [
    ("graph6", "DQc\n", [], "01234", [(0, 2, 1), (0, 4, 1), (1, 3, 1), (2, 0, 1), (3, 1, 1), (3, 4, 1), (4, 0, 1), (4, 3, 1)]),
    ("graph6", ">>graph6<<A_", [], "01", [(0, 1, 1), (1, 0, 1)]), ("graph6", "?\n", [], "", []), ("graph6", "@", [], "0", []),
    ("graph6", "A_", ["--directed"], "01", [(0, 1, 1)]),
    ("sparse6", ":Fa@x^\n", [], "0123456",
     [(u, v, 1) for a, b in [(0, 1), (0, 2), (1, 2), (5, 6)] for u, v in [(a, b), (b, a)]]),
    ("sparse6", ">>sparse6<<:An", [], "01", [(0, 1, 1), (1, 0, 1)]),
    ("sparse6", ":@^\n", ["--directed"], "0", [(0, 0, 1)]), ("sparse6", ":CoJ\n", ["--directed"], "0123", [(0, 2, 1), (1, 2, 1)]),
    ("edges", "# of two\na b\nb a -7\nc\n", [], "abc", [(0, 1, 1), (0, 1, -7), (1, 0, 1), (1, 0, -7)]),
    ("edges", 'a\tb\t5\n"#"\ta\n\n', ["--directed"], "ab#", [(0, 1, 5), (2, 0, 1)]), ("edges", "", [], "", []),
    # heads of collections, tables, and lines that can be read in two ways, with the option that says which is meant
    ("edges", "# FromNodeId\tToNodeId\n1\t2\n", ["--directed"], "12", [(0, 1, 1)]),
    ("edges", "% asym positive\n% 1 2 2\n1 2\n", ["--directed"], "12", [(0, 1, 1)]),
    ("edges", "source,target\na,b\n", ["--header", "--directed"], "ab", [(0, 1, 1)]),
    ("edges", "a,b\nc,d\n", ["--no-header", "--directed"], "abcd", [(0, 1, 1), (2, 3, 1)]),
    ("edges", "a, b, 3\n", ["--directed"], "ab", [(0, 1, 3)]), ("edges", "a;b;3\n", ["--directed"], "ab", [(0, 1, 3)]),
    ("edges", "a b\t5\n", ["--sep", "blank", "--directed"], "ab", [(0, 1, 5)]),
    ("edges", "a b\t5\n", ["--sep", "tab", "--directed"], ["a b", "5"], [(0, 1, 1)]),
    ("edges", "#a\tb\n", ["--comments", "", "--directed"], ["#a", "b"], [(0, 1, 1)]), ("edges", "#a\tb\n", ["--comments", "#"], "", []),
    ("edges", "1 2 7 99\n", ["--columns", "2,1", "--directed"], "21", [(0, 1, 1)]),
    ("edges", '"New York"\n"a, b"\tc\n', ["--directed"], ["New York", "a, b", "c"], [(1, 2, 1)]),
    # one rule for numbers, ends of lines, and other letters
    ("edges", "a b 5.0\na b 1e2\na b 1.0000e+00\n", ["--directed"], "ab", [(0, 1, 5), (0, 1, 100), (0, 1, 1)]),
    ("edges", "\ufeffa\tb\r\nb\tc\r\n", ["--directed"], "abc", [(0, 1, 1), (1, 2, 1)]),
    ("edges", "M\u00fc b\n", ["--names", "escape", "--directed"], ["M%C3%BC", "b"], [(0, 1, 1)]),
    ("edges", "M\u00fc b\n", ["--names", "numbers", "--directed"], "01", [(0, 1, 1)]),
    ("dimacs", "p sp 2 1\r\na 1 2 7.00\r\n", [], "01", [(0, 1, 7)]), ("graph6", "A_\r\n", ["--directed"], "01", [(0, 1, 1)]),
    # several graphs, and the other forms
    ("graph6", "A?\nA_\n", ["--graph", "2", "--directed"], "01", [(0, 1, 1)]),
    ("digraph6", "&DI?AO?\n", [], "01234", [(0, 2, 1), (0, 4, 1), (3, 1, 1), (3, 4, 1)]),
    ("metis", "% three\n3 2 001\n2 5 3 7\n1 5\n1 7\n", [], "012", [(0, 1, 5), (0, 2, 7), (1, 0, 5), (2, 0, 7)]),
    ("metis", "3 1\n3\n\n1\n", [], "012", [(0, 2, 1), (2, 0, 1)]),
    ("edges", "x y\r\ny x 2\r\n", ["--directed"], "xy", [(0, 1, 1), (1, 0, 2)]),
    ("dimacs", "c of three\np edge 3 2\ne 1 2\ne 3 3\n", [], "012", [(0, 1, 1), (1, 0, 1), (2, 2, 1), (2, 2, 1)]),
    ("dimacs", "p sp 2 2\na 1 2 7\na 1 2 0\n", [], "01", [(0, 1, 7), (0, 1, 0)]),
    ("mtx", "%%MatrixMarket matrix coordinate pattern symmetric\n% two\n2 2 2\n2 1\n2 2\n", [], "01",
     [(0, 1, 1), (1, 0, 1), (1, 1, 1), (1, 1, 1)]),
    ("mtx", "%%MatrixMarket matrix coordinate integer general\n2 2 1\n2 1 -5\n", [], "01", [(1, 0, -5)]),
    ("mtx", "%%MatrixMarket matrix coordinate real general\n2 2 1\n2 1 5.0\n", [], "01", [(1, 0, 5)]),
]
REFUSED = [
    ("edges", "a b\nb a 1.5\n", "line 2: a length is no integer: 1.5"), ("edges", "a b 1_000\n", "is no integer"),
    ("edges", "source,target\na,b\n", "line 1: the head of a table"), ("edges", "a b\t5\n", "line 1: words with tabs and blanks"),
    ("edges", "# x\n#a\tb\n", "line 2: a comment"), ("edges", "a\tb\nNew York\n", "line 2: there is a blank"),
    ("edges", "0,1 1,1\n", "line 1: there are words with a comma"), ("edges", "a\t\tb\n", "line 1: a word is missing"),
    ("edges", 'a\t"b\n', "line 1: a quotation mark"), ("edges", "a\x0cb c\n", "line 1: a name has printable"),
    ("dimacs", "p edge 3 5\ne 1 2\n", "the head says 5"), ("dimacs", "p edge 3 1\ne 1 4\n", "line 2: there are 3 vertices, 1 to 3, and here is vertex 4"),
    ("mtx", "%%MatrixMarket matrix coordinate pattern general\n2 2 1\n0 1\n", "line 3: there are 2 vertices, 1 to 2, and here is vertex 0"),
    ("metis", "2 1\n2\n\n", "line 2: vertex 1 has vertex 2"), ("digraph6", "A_\n", "is no digraph6"),
 ("edges", "a b 1 2\n", "two names and a length"), ("edges", 'a b"\n', "quotation mark"),
    ("edges", "a b " + "9" * 30, "64 bits"), ("edges", "a b\nb \u00e9\n", "line 2: a name has printable ASCII"), ("edges", f"a {'b' * 5000}\n", "at most 4095"),
    ("dimacs", "e 1 2\n", "line 1: no line of an edge"), ("dimacs", "p edge 2 1\ne 1 3\n", "there are 2 vertices"), ("dimacs", "", "no line p"),
    ("dimacs", "p edge 2 1\ne 0 1\n", "there are 2 vertices"), ("dimacs", "p edge 2 1\nx 1 2\n", "line 2: no line of DIMACS"),
    ("graph6", "D\n", "letters"), ("graph6", "", "no graph6"), ("graph6", ":An\n", "is no graph6"),
    ("graph6", "A_\nA_\n", "line 2: there are 2 graphs"), ("sparse6", "A_\n", "is no sparse6"),
    ("mtx", "1 1 0\n", "first line"), ("mtx", "%%MatrixMarket matrix array real general\n", "first line"),
    ("mtx", "%%MatrixMarket matrix coordinate real general\n2 3 0\n", "2 rows, 3 columns"),
    ("mtx", "%%MatrixMarket matrix coordinate real general\n2 2 2\n1 1 1\n", "2 entries"),
    ("mtx", "%%MatrixMarket matrix coordinate real general\n2 2 1\n1 1 0.5\n", "is no integer"),
]
# what networkx reads: GraphML and GML, with names, lengths, arcs, parallel edges and a loop
BY_NETWORKX = [
    ("graphml", """<graphml xmlns="http://graphml.graphdrawing.org/xmlns">
<key id="k" for="node" attr.name="name" attr.type="string"/><key id="w" for="edge" attr.name="weight" attr.type="long"/>
<graph edgedefault="directed"><node id="x"><data key="k">Ulm</data></node><node id="y"><data key="k">a &lt; b</data></node>
<edge source="x" target="y"><data key="w">330</data></edge><edge source="y" target="y"/></graph></graphml>""",
     [], ["Ulm", "a < b"], [(0, 1, 330), (1, 1, 1)]),
    ("graphml", """<graphml xmlns="http://graphml.graphdrawing.org/xmlns"><graph edgedefault="undirected">
<node id="x"/><node id="y"/><node id="z"/><edge id="0" source="x" target="z"/><edge id="1" source="x" target="z"/>
</graph></graphml>""", [], "xyz", [(0, 2, 1), (0, 2, 1), (2, 0, 1), (2, 0, 1)]),
    ("gml", 'graph [ directed 1 node [ id 7 label "Ulm" ] node [ id 5 label "Bonn" ] edge [ source 7 target 5 weight 330 ] ]',
     [], ["Ulm", "Bonn"], [(0, 1, 330)]),
    ("gml", "graph [ node [ id 2 ] node [ id 1 ] edge [ source 1 target 2 weight 2.0 ] ]", [], "21", [(0, 1, 2), (1, 0, 2)]),
    ("gml", "graph [ multigraph 1 node [ id 0 ] edge [ source 0 target 0 key 0 ] edge [ source 0 target 0 key 1 ] ]",
     ["--directed"], "0", [(0, 0, 1), (0, 0, 1)]),
]
REFUSED_BY_NETWORKX = [
    ("graphml", "<graphml", "for no graphml"), ("graphml", "", "for no graphml"), ("gml", "graph [", "for no gml"), ("gml", "", "for no gml"),
    ("gml", "graph [ node [ id 0 ] edge [ source 0 target 1 ] ]", "for no gml"),
    ("gml", "graph [ node [ id 0 ] edge [ source 0 target 0 weight 1.5 ] ]", "the weight of the edge from 0 to 0 is no integer: 1.5"),
    ("graphml", "<graphml><graph/><graph/></graphml>", "more than one graph"),
]
# as geng writes them: those of four vertices
SEVERAL = {
    "graph6": "C? CC CE CF CQ CU CT CV C] C^ C~".split(), "sparse6": ":Fa@x^ :An :@^".split(), "digraph6": "&DI?AO? &@_ &?".split(),
}
tried = 0


def must(is_right, *seen):
    global tried
    tried += 1
    if not is_right:
        sys.exit("to_gb_test.py: " + " ".join(str(part)[-600:] for part in seen))


def ran(*words, given=b"", **more):
    got = subprocess.run(words, input=given, capture_output=True, check=False, timeout=120, **more)
    return got.returncode, got.stdout, got.stderr.decode()


def written(form, text, *words, **more):
    return ran(sys.executable, os.path.join(EXAMPLES, "files/to_gb.py"), form, *words, given=text.encode(), **more)


def graph_of(expression, given=b""):
    """Names, and how often each arc is there, by the program."""
    lists = list(sgb_graph.read(expression, given, PROGRAM))
    names = [name for name, _ in lists]
    place = {name: v for v, name in enumerate(names)}
    return names, collections.Counter((place[name], place[tip], length) for name, arcs in lists for tip, length in arcs)


def there_and_back():
    awk = ["awk", "-f", os.path.join(LISTINGS, "convert.awk")]
    left_out = 0
    for expression, directed in GRAPHS:
        status, listing, _ = ran(PROGRAM, "list", expression)
        must(status == 0, PROGRAM, "list", expression)
        names, arcs = graph_of(expression)
        for form in FORMS:
            words = [*awk, "-v", "to=" + form, "-v", f"directed={int(directed)}"]
            status, text, line = ran(*words, given=listing)
            if status:
                must(any(said in line for said in LEFT_OUT), expression, form, "gave", line)
                left_out += 1
                continue
            more = ["--directed"] if directed and form == "edges" else []
            got = written(form, text.decode(), *more)
            must(got[0] == 0 and not got[2], expression, form, "gave", got)
            seen_names, seen = graph_of("stdin", got[1])
            wanted = arcs
            if form == "edges":
                must(sorted(seen_names) == sorted(names), expression, form, "has the vertices", seen_names)
                place = [names.index(name) for name in seen_names]
                seen = collections.Counter({(place[u], place[v], length): count for (u, v, length), count in seen.items()})
            elif form in OF_NAUTY:
                wanted = collections.Counter((u, v, 1) for u, v, _ in arcs.elements())
            must(seen == wanted, expression, form, "came back with", seen - wanted, "and without", wanted - seen)
    must(left_out < 30, left_out, "forms of graphs were left out")


def texts(those):
    for form, text, more, names, arcs in those:
        got = written(form, text, *more)
        must(got[0] == 0 and not got[2], form, repr(text), "gave", got)
        seen = graph_of("stdin", got[1])
        must(seen[0] == list(names), form, repr(text), "has the vertices", seen[0])
        must(seen[1] == collections.Counter(arcs), form, repr(text), "has the arcs", seen[1])


def orders():
    # the order of a list is that of the lines
    got = written("edges", "c a\nb a 2\na d 3\na a\n")
    listed = dict(sgb_graph.read("stdin", got[1], PROGRAM))
    must(listed["a"] == [("c", 1), ("b", 2), ("d", 3), ("a", 1), ("a", 1)], "the list of a is", listed["a"])
    got = written("edges", "a b\n", "--id", "of two")
    must(sgb_graph.read("stdin", got[1], PROGRAM).id == "of two", "--id gave", got)


def refused(form, text, said, *words, **more):
    got = written(form, text, *words, **more)
    is_line = got[2].startswith("to_gb.py: ") and got[2].count("\n") == 1 and said in got[2]
    must(got[:2] == (1, b"") and is_line, form, *words, repr(text[:60]), "gave", got)


def refusals():
    for form, text, said in REFUSED:
        refused(form, text, said)
    got = written("edges", "a b\n", "--id", "x" * 161)
    must(got[:2] == (1, b"") and "at most 160" in got[2], "a long --id gave", got)
    got = written("edges", "", "/nowhere/graph")
    must(got[:2] == (1, b"") and got[2].count("\n") == 1, "no file gave", got)


def several():
    """Files of several graphs: each is written as if it were alone, or none."""
    with tempfile.TemporaryDirectory() as folder:
        for form, lines in SEVERAL.items():
            place = os.path.join(folder, "new", form)
            got = written(form, f">>{form}<<" + "\n".join(lines) + "\n", "--all", place)
            must(got == (0, b"", ""), form, "--all gave", got)
            files = [f"{number}.gb" for number in range(1, len(lines) + 1)]
            must(sorted(os.listdir(place)) == sorted(files), form, "--all wrote", os.listdir(place))
            for name, line in zip(files, lines):
                with open(os.path.join(place, name), "rb") as file:
                    must(file.read() == written(form, line)[1], form, line, "is another graph in", name)
            refused(form, lines[0], "is not empty", "--all", place)
        place = os.path.join(folder, "none")
        refused("graph6", "A_\n\nA_\nB\n", "line 4: 3 vertices have 1 letters", "--all", place)
        refused("graph6", "", "no graph6", "--all", place)
        must(not os.path.exists(place), "a folder was made for graphs that are refused")
        refused("graph6", "A_\n", "to_gb.py: ", "--all", os.path.join(folder, "new", "graph6", "1.gb"))
        for more in (["--graph", "1"], ["--id", "x"]):
            got = written("graph6", "A_\n", "--all", place, *more)
            must(got[:2] == (2, b"") and "--all is for all" in got[2] and not os.path.exists(place), more, "gave", got)


def without_networkx():
    """What networkx reads has one sentence where it is not installed."""
    with tempfile.TemporaryDirectory() as folder:
        with open(os.path.join(folder, "networkx.py"), "w", encoding="ascii") as file:
            file.write("raise ImportError\n")
        for form in ("graphml", "gml"):
            line = f"to_gb.py: networkx reads {form}, and is not installed (Debian package python3-networkx)\n"
            text = next(text for of, text, *_ in BY_NETWORKX if of == form)
            got = written(form, text, env={**os.environ, "PYTHONPATH": folder})
            must(got == (1, b"", line), form, "without networkx gave", got)


def by_networkx():
    """Graphs that networkx reads, and that it writes."""
    try:
        import networkx
    except ImportError:
        print("  skipped, without networkx: GraphML and GML, and graph6 and sparse6 that it writes")
        return
    texts(BY_NETWORKX)
    for form, text, said in REFUSED_BY_NETWORKX:
        refused(form, text, said)
    for seed in range(6):
        graph = networkx.gnp_random_graph(9, 0.3, seed=seed, directed=seed % 2 == 0)
        several = (networkx.MultiDiGraph if seed % 2 == 0 else networkx.MultiGraph)(graph)
        several.add_edges_from([(u, v, {"weight": 5 * seed - 9}) for u, v in list(graph.edges)[:3]] + [(1, 1)])
        for form, write in (("graphml", networkx.generate_graphml), ("gml", networkx.generate_gml)):
            got = written(form, "\n".join(write(several)))
            must(got[0] == 0, form, seed, "gave", got)
            found = several.edges(data="weight", default=1)
            ways = (1,) if several.is_directed() else (1, -1)
            wanted = collections.Counter((*ends[::way], length) for *ends, length in found for way in ways)
            must(graph_of("stdin", got[1])[1] == wanted, form, seed, "is another graph")
    for seed in range(12):
        graph = networkx.gnp_random_graph(3 + 9 * seed, 0.3, seed=seed)
        multi = networkx.MultiGraph(graph)
        multi.add_edges_from(list(graph.edges)[:3] + [(0, 0), (2, 2)])
        for form, one, write in (
            ("graph6", graph, networkx.to_graph6_bytes), ("sparse6", graph, networkx.to_sparse6_bytes),
            ("sparse6", multi, networkx.to_sparse6_bytes),
        ):
            got = written(form, write(one).decode())
            must(got[0] == 0, form, seed, "gave", got)
            wanted = collections.Counter((*ends, 1) for u, v in one.edges() for ends in ((u, v), (v, u)))
            must(graph_of("stdin", got[1])[1] == wanted, form, seed, "is another graph")


def main():
    there_and_back()
    texts(TEXTS)
    orders()
    refusals()
    several()
    without_networkx()
    by_networkx()
    print(f"to_gb.py writes what the program reads back, and refuses what is no graph: {tried} checks")


main()
