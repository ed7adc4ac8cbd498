#!/usr/bin/env python3
"""Tries GraphBase's own calls: examples/tests/graphbase_test.py [SGB [SGB_LEVELS]].

    make lib && make examples

Each program of examples/graphbase is compiled as it stands, and writes what stands beside it. The program of conformance/ is
held against `sgb` for all rows of its table, over libgb with AddressSanitizer where the compiler has it. Boost's own adaptor
finds the distances that `sgb_levels` and networkx find, where these are installed. A line says what was left out.
"""

import glob
import os
import re
import shutil
import subprocess
import sys
import tempfile

TOP = os.path.dirname(os.path.dirname(os.path.dirname(os.path.abspath(__file__))))
SGB = os.path.abspath(sys.argv[1]) if len(sys.argv) > 1 else os.path.join(TOP, "sgb")
LEVELS = os.path.abspath(sys.argv[2]) if len(sys.argv) > 2 else os.path.join(TOP, "sgb_levels")
FOLDER = os.path.join(TOP, "examples/graphbase")
LIBRARIES = [os.path.join(TOP, name) for name in ("libgb.a", "libsgb.a")]
HEADERS = "-I" + os.path.join(TOP, "include/graphbase")
SANITIZER = ["-fsanitize=address,undefined", "-fno-sanitize-recover=all"]
ADAPTOR = "#include <boost/graph/stanford_graph.hpp>\n"
PROGRAMS = 20  # there are so many at least

# of one graph, and of the union of two
SEARCHED = [
    ("board(8,8,0,0,5,0,0)",), ("board(6,6,0,0,-1,0,0)",), ("board(3,3,0,0,5,0,0)",), ("petersen()",), ("cycle(9)",),
    ("board(5,5,5,0,1,7,1)",), ("empty(0)",), ("simplex(6,3,3,3,3,0,0)",), ("empty(2)",), ("board(1,0,0,0,-1,1,0)",),
    ("board(6,7,0,0,-1,0,0)", "board(6,7,0,0,5,0,0)"), ("board(9,0,0,0,-1,0,1)", "circuit(9)"), ("empty(12)", "petersen()"),
    ("board(20,20,0,0,4,0,0)", "board(20,20,0,0,-9,0,1)"),
]
tried = 0


def run(*words, given=b"", folder=None, **more):
    got = subprocess.run(
        words, input=given, cwd=folder, env={**os.environ, **more}, capture_output=True, check=False, timeout=600,
    )
    return got.returncode, got.stdout, got.stderr


def must(is_right, *seen):
    global tried
    tried += 1
    if not is_right:
        sys.exit("graphbase_test.py: " + " ".join(str(part)[-600:] for part in seen))


def skip(why):
    print(f"  skipped, {why}")


def programs(folder):
    """Each program as it stands, without a warning."""
    sources = sorted(glob.glob(os.path.join(FOLDER, "*.c")))
    must(len(sources) >= PROGRAMS, "there are only so many programs:", len(sources))
    for source in sources:
        path = os.path.join(folder, os.path.basename(source)[:-2])
        got = run("cc", "-std=c99", "-pedantic", "-O2", "-Wall", "-Wextra", "-Werror", HEADERS, source, *LIBRARIES, "-o", path)
        must(got == (0, b"", b""), source, got)
        with open(source[:-2] + ".out", "rb") as file:
            wanted = file.read()
        got = run(path, folder=folder)
        must(got == (0, wanted, b"") and wanted, path, "gave", got, "and not", wanted)
    must(run(os.path.join(folder, "queen")) == run(SGB, "queen"), "queen is not what sgb queen writes")


def conformance(folder):
    """The whole table."""
    path = os.path.join(folder, "graphbase")
    includes = [HEADERS, "-I" + os.path.join(TOP, "include")]
    sources = [os.path.join(TOP, "conformance/graphbase.c"), *sorted(glob.glob(os.path.join(TOP, "graphbase/*.c")))]
    words = ["cc", "-std=gnu99", "-O1", "-g", "-Wall", "-Wextra", "-Werror", *includes, *sources, LIBRARIES[1], "-o", path]
    got = run(*words, *SANITIZER)
    if got[0] != 0:
        skip("without AddressSanitizer: libgb compiled with it")
        got = run(*words)
    must(got == (0, b"", b""), words, got)
    # it gives nothing back when it ends
    got = run(os.path.join(TOP, "conformance/graphbase.py"), SGB, path, ASAN_OPTIONS="detect_leaks=0")
    must(got[0] == 0 and re.search(rb"^[1-9][0-9]{2} the same, [0-9]+ different by rule, 0 different\n\Z", got[1], re.M), got)


def saved(folder, expression, number):
    path = os.path.join(folder, f"{number}.gb")
    with open(path, "wb") as file:
        file.write(run(SGB, "save", expression)[1])
    return path


def distances(nx, expression):
    """The least lengths of ways from the first vertex, by networkx."""
    import sgb

    with sgb.graph(expression) as graph:
        found = nx.single_source_dijkstra_path_length(graph.to_networkx(multi=True), 0) if graph.n else {}
        return [str(found[v]) if v in found else "-" for v in range(graph.n)]


def boost(folder):
    if not shutil.which("c++") or run("c++", "-DSGB_GRAPHBASE_STUBS", HEADERS, "-fsyntax-only", "-x", "c++", "-",
                                      given=ADAPTOR.encode())[0] != 0:
        skip("without c++ or Boost's graphs (libboost-graph-dev): examples/graphbase/boost_distances.cpp")
        return
    path, source = os.path.join(folder, "boost_distances"), os.path.join(FOLDER, "boost_distances.cpp")
    flags = ["-std=c++17", "-O1", "-Wall", "-Wextra", "-Werror", "-DSGB_GRAPHBASE_STUBS"]
    got = run("c++", *flags, HEADERS, source, *LIBRARIES, "-o", path)
    must(got == (0, b"", b""), source, got)
    try:
        sys.path.insert(0, os.path.join(TOP, "python"))
        import networkx as nx
    except ImportError:
        nx = None
        skip("without networkx: lengths of ways")
    for number, names in enumerate(SEARCHED):
        expression = names[0] if len(names) == 1 else "gunion({},{},0,0)".format(*names)
        status, out, err = run(path, *(saved(folder, name, f"{number}.{k}") for k, name in enumerate(names)))
        lines = [line.split() for line in out.decode().splitlines()]
        must((status, err) == (0, b""), expression, status, err)
        wanted = [line.split() for line in run(LEVELS, expression)[1].decode().splitlines()]
        must([line[:2] for line in lines] == wanted, expression, "gave", lines, "and not", wanted)
        if nx:
            must([line[2] for line in lines] == distances(nx, expression), expression, "gave", lines)
    got = run(path, os.path.join(folder, "none.gb"))
    must(got == (1, b"", b"Something went wrong (panic code 10)!\n"), path, got)


def main():
    for path in LIBRARIES:
        if not os.path.exists(path):
            skip(f"without {os.path.basename(path)}, which `make lib` leaves: GraphBase's own calls")
            return
    sys.dont_write_bytecode = True
    os.environ.setdefault("SGB_LIBRARY", os.path.join(TOP, "libsgb.so"))
    with tempfile.TemporaryDirectory() as folder:
        programs(folder)
        boost(folder)
        conformance(folder)
    print(f"GraphBase's own calls: {tried} tries")


main()
