#!/usr/bin/env python3
"""Tries the callers of the library for C that need more than cc: examples/tests/callers_test.py [SGB [SGB_LEVELS]].

    make lib && make examples

Where they are installed: C++ (examples/cpp/first.cpp), Boost (distances.cpp), Rust (examples/rust), and the Python package
with what is beside it (numpy, scipy, networkx, igraph). Graphs of many expressions are compared with what the programs
write. A line says what was left out. The C examples and Python without numpy are tried by the gate (checks/from_outside/c_library.py).
"""

import os
import re
import shutil
import subprocess
import sys
import tempfile

TOP = os.path.dirname(os.path.dirname(os.path.dirname(os.path.abspath(__file__))))
sys.path.insert(0, os.path.join(TOP, "checks"))

from from_outside import c_library  # noqa: E402  (the folder is put on the path above)

SGB = os.path.abspath(sys.argv[1]) if len(sys.argv) > 1 else os.path.join(TOP, "sgb")
LEVELS = os.path.abspath(sys.argv[2]) if len(sys.argv) > 2 else os.path.join(TOP, "sgb_levels")
BOOST = "#include <boost/graph/compressed_sparse_row_graph.hpp>\n"
tried = 0


def run(*words, given=b"", **more):
    environment = dict(os.environ, **more)
    got = subprocess.run(words, input=given, env=environment, capture_output=True, check=False, timeout=600)
    return got.returncode, got.stdout, got.stderr


def must(is_right, *seen):
    if not is_right:
        sys.exit("callers_test.py: " + " ".join(str(part)[-600:] for part in seen))


def skip(why):
    print(f"  skipped, {why}")


def same(path, program, words):
    """The caller at the path writes what the program does, of each expression."""
    global tried
    for expression in c_library.EXPRESSIONS:
        given = c_library.input_of(expression)
        seen, wanted = run(path, expression, given=given), run(program, *words, expression, given=given)
        must(seen == wanted, path, expression, "gave", seen, "and not", wanted)
        tried += 1
    # a refusal is no graph
    for expression in ("board(3,", "board(2,-251,0,0,1,0,0)"):
        status, out, err = run(path, expression)
        must(status != 0 and not out and err, path, expression, "gave", (status, out, err))


def cpp(folder):
    if not shutil.which("c++"):
        skip("without c++: examples/cpp")
        return
    flags = ["-std=c++20", "-O2", "-Wall", "-Wextra", "-Werror"]
    for name, program, words in (("first", SGB, ("list",)), ("distances", LEVELS, ())):
        if name == "distances" and run("c++", "-fsyntax-only", "-x", "c++", "-", given=BOOST.encode())[0] != 0:
            skip("without Boost's graphs (libboost-graph-dev): examples/cpp/distances.cpp")
            continue
        path = os.path.join(folder, name)
        source = os.path.join(TOP, "examples/cpp", name + ".cpp")
        got = run("c++", *flags, "-I", os.path.join(TOP, "include"), source, os.path.join(TOP, "libsgb.a"), "-o", path)
        must(got[0] == 0 and not got[2], source, got)
        same(path, program, words)


def rust(folder):
    if not shutil.which("cargo"):
        skip("without cargo: examples/rust")
        return
    target = os.path.join(folder, "target")
    manifest = os.path.join(TOP, "examples/rust/Cargo.toml")
    more = {"CARGO_TARGET_DIR": target, "SGB_LIB": TOP, "RUSTFLAGS": "-D warnings"}
    status, out, err = run("cargo", "test", "--offline", "--manifest-path", manifest, **more)
    must(status == 0 and re.search(rb"^test result: ok. [1-9]", out, re.M), "cargo test gave", status, out, err)
    status, out, err = run("cargo", "build", "--offline", "--example", "listing", "--manifest-path", manifest, **more)
    must(status == 0, "cargo build gave", status, out, err)
    same(os.path.join(target, "debug/examples/listing"), SGB, ("list",))
    # a folder without the library is told of, with what to do
    status, _, err = run("cargo", "build", "--offline", "--manifest-path", manifest, **dict(more, SGB_LIB=target))
    told = f"libsgb.a is not in {os.path.realpath(target)}\n".encode()
    must(status != 0 and told in err and b"`make lib`" in err and b"SGB_LIB" in err, "without the library cargo build gave", status, err)


def python():
    """The package's tests, and the recipes of its page, by each python3 on the path and Debian's."""
    recipes = os.path.join(TOP, "examples/tests/recipes_test.py")
    tests = os.path.join(TOP, "python/tests.py")
    more = {"SGB_LIBRARY": os.path.join(TOP, "libsgb.so"), "PYTHONDONTWRITEBYTECODE": "1", "SGB_WITHOUT_NUMPY": ""}
    paths = (sys.executable, shutil.which("python3"), "/usr/bin/python3")
    for path in sorted({os.path.realpath(path) for path in paths if path and os.path.exists(path)}):
        absent = [name for name in ("numpy", "scipy", "networkx", "igraph") if run(path, "-c", f"import {name}")[0] != 0]
        status, out, err = run(path, tests, SGB, **more)
        must(status == 0 and re.search(rb"^Ran [1-9]", err, re.M), path, "python/tests.py gave", status, out, err)
        status, out, err = run(path, recipes, **more)
        must(status == 0 and re.search(rb"^[1-9][0-9]* passed, 0 failed\n\Z", out, re.M), path, "recipes_test.py gave", status, out, err)
        if absent:
            skip(f"by {path}, without: {' '.join(absent)}")


def main():
    for name in ("libsgb.a", "libsgb.so"):
        if not os.path.exists(os.path.join(TOP, name)):
            skip(f"without {name}, which `make lib` leaves: callers of the library for C")
            return
    with tempfile.TemporaryDirectory() as folder:
        cpp(folder)
        rust(folder)
    python()
    print(f"The callers of the library for C give what the programs write: {tried} graphs, and the tests of each")


main()
