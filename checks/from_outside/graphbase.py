"""Checks of GraphBase's own calls (include/graphbase, libgb.a), for checks/outside.py.

The sources of libgb are compiled over libsgb.a, with AddressSanitizer where the compiler has it. gb_calls.c, gb_refused.c and
gb_random.c look at what each call leaves, and the program of conformance/ is held against `sgb` for some rows of its table:
for a graph of each form, and all refusals. `make examples` does so for all rows.
"""

import glob
import itertools
import os
import random
import re
import shutil
import subprocess

from . import c_library, conformance
from .runs import PROGRAM, TOP

INCLUDES = [f"-I{TOP}/{folder}" for folder in ("include/graphbase", "include", "graphbase")]
CHECKED = ["-fsanitize=address,undefined", "-fno-sanitize-recover=all"]
# a block that no memory has is refused, and does not end the program; graphbase.c gives nothing back
ENVIRONMENT = {"ASAN_OPTIONS": "allocator_may_return_null=1"}
WRAPPED = ["-Wl,--wrap=malloc,--wrap=calloc,--wrap=realloc"]
GRAPHS, FILES = 200, 4000  # that gb_random makes and spoils
HEADERS_SAY = b"""\
board(3,0,0,0,2,0,0) 5 0 board(3,0,0,0,-1,0,0) board(3,0,0,0,1,1,1)
product(board(2,0,0,0,2,0,0),board(3,0,0,0,1,1,0),1,0) 10
"""
PUBLIC = """
gb_alloc gb_flip_cycle gb_fptr gb_free gb_init_rand gb_new_arc gb_new_edge gb_new_graph gb_recycle gb_save_string
gb_trouble_code gb_unif_rand gb_virgin_arc hash_in hash_lookup hash_out hash_setup make_compound_id make_double_compound_id
switch_to_graph edge_trick extra_n null_string panic_code verbose save_graph restore_graph board simplex subsets complement gunion
intersection lines product induced bi_complete wheel
""".split()


def flags_of(folder):
    """The flags of AddressSanitizer, or none where the compiler has none."""
    path = os.path.join(folder, "empty.c")
    with open(path, "w", encoding="ascii") as file:
        file.write("int main(void) { return 0; }\n")
    if c_library.ran("cc", *CHECKED, path, "-o", os.path.join(folder, "empty"))[0] == 0:
        return CHECKED
    print("  skipped, without AddressSanitizer: libgb compiled with it")
    return []


def archive(tally, folder, flags):
    """libgb.a, compiled with these flags; None where there is a warning."""
    strict = ["-std=c99", "-pedantic", "-O1", "-g", "-Wall", "-Wextra", "-Werror"]
    sources = sorted(glob.glob(os.path.join(TOP, "graphbase/*.c")))
    got = subprocess.run(["cc", *strict, *flags, *INCLUDES, "-c", *sources], cwd=folder, capture_output=True, check=False)
    tally.check(got.returncode == 0 and not got.stderr, "cc graphbase/*.c gave", (got.returncode, got.stderr))
    path = os.path.join(folder, "libgb.a")
    made = sorted(glob.glob(os.path.join(folder, "*.o")))
    return path if c_library.ran("ar", "rcs", path, *made) == (0, b"", b"") else None


def compiled(tally, libgb, name, source, flags):
    """A program over libgb; None where there is a warning."""
    path = os.path.join(os.path.dirname(libgb), name)
    words = ["cc", "-std=gnu99", "-g", "-Wall", "-Wextra", "-Werror", *flags, *INCLUDES, os.path.join(TOP, source), libgb]
    got = c_library.ran(*words, os.path.join(TOP, "libsgb.a"), "-o", path)
    tally.check(got == (0, b"", b""), "cc", source, "gave", got)
    return path if got[0] == 0 else None


def looked_at(tally, *words):
    """A program that counts what it looked at, and found nothing wrong."""
    status, out, err = c_library.ran(*words, more=ENVIRONMENT, seconds=600)
    is_right = status == 0 and b"ERROR" not in err and re.search(rb"^[1-9][0-9]* looked at, 0 wrong\n\Z", out, re.M)
    tally.check(is_right, " ".join(words), "gave", (status, out[-2000:], err[-2000:]))


def table(tally, path):
    """The program of conformance/ over libgb: all refusals, and a graph of each form."""
    script = path + ".sh"
    with open(script, "w", encoding="ascii") as file:
        # it gives nothing back when it ends
        file.write(f'#!/bin/sh\nASAN_OPTIONS=detect_leaks=0 exec {path} "$@"\n')
    os.chmod(script, 0o755)
    held = conformance.loaded("conformance/graphbase.py")
    programs = held.Programs(PROGRAM, script)
    rows = held.compare.rows()
    graphs, refusals = {}, []
    for row in rows:
        if isinstance(row, held.compare.Graph):
            graphs.setdefault(row.expression.split("(")[0], row)
        else:
            refusals.append(row)
    for row in itertools.chain(graphs.values(), refusals):
        programs.forget()
        for what, result in held.held_row(programs, row):
            tally.check(not isinstance(result, held.Different), what, held.compare.shown(row.expression), result)


def calls(runs, tally):
    """What each call leaves; with memory refused; on random graphs and spoiled files; for rows of the table."""
    if not c_library.is_there(tally, "libsgb.a"):
        return
    flags = flags_of(runs.folder)
    libgb = archive(tally, runs.folder, flags)
    seed = os.environ.get("OUTSIDE_SEED", str(random.randrange(10**9))).partition(":")[0]
    for name, words, more in [("gb_calls", (), ()), ("gb_refused", (), WRAPPED), ("gb_random", (seed, GRAPHS, FILES), ())]:
        path = libgb and compiled(tally, libgb, name, f"checks/from_outside/{name}.c", [*flags, *more])
        if path:
            looked_at(tally, path, runs.folder, *map(str, words))
    path = libgb and compiled(tally, libgb, "graphbase", "conformance/graphbase.c", flags)
    if path:
        table(tally, path)


def symbols(runs, tally):
    """libgb.a shows GraphBase's names and those of its own, and the headers are C of 1989 and 1999, and C++."""
    if not c_library.is_there(tally, "libgb.a"):
        return
    got = c_library.ran("nm", "-g", "--defined-only", os.path.join(TOP, "libgb.a"))
    shown = {line.split()[2].decode() for line in got[1].splitlines() if len(line.split()) == 3}
    tally.same("the symbols of libgb.a", sorted(name for name in shown if not name.startswith("sgb_")),
               sorted(PUBLIC))
    folder = os.path.join(TOP, "include/graphbase")
    syntax = ("-pedantic", "-Wall", "-Wextra", "-Werror", "-fsyntax-only")
    for name in sorted(os.listdir(folder)):
        path = os.path.join(folder, name)
        with open(path, encoding="ascii") as file:
            is_stub = "#error" in file.read()
        for language in ("-std=c89", "-x", "c"), ("-std=c99", "-x", "c"), ("-std=c++11", "-x", "c++"):
            words = ["c++" if "c++" in language else "cc", *language, *syntax]
            stub = ["-DSGB_GRAPHBASE_STUBS", "-include", "stddef.h"] if is_stub else []
            tally.same(f"{name}, {language[0]}", c_library.ran(*words, *stub, path), (0, b"", b""))
        if is_stub:
            status, _, err = c_library.ran("cc", "-fsyntax-only", "-x", "c", path)
            tally.check(status != 0 and b"is not rebuilt" in err, name, "is no stub:", (status, err))


def in_cpp(runs, tally):
    """The headers before those of C++ and sgb.hpp, which wants the last of these languages."""
    if not shutil.which("c++"):
        print("  skipped, without c++: checks/from_outside/gb_headers.cpp")
        return
    if not c_library.is_there(tally, "libgb.a", "libsgb.a"):
        return
    source, path = os.path.join(TOP, "checks/from_outside/gb_headers.cpp"), os.path.join(runs.folder, "gb_headers")
    libraries = [os.path.join(TOP, name) for name in ("libgb.a", "libsgb.a")]
    for standard in "-std=c++11", "-std=c++17", "-std=c++20":
        words = ["c++", standard, "-pedantic", "-Wall", "-Wextra", "-Werror", *INCLUDES, source, *libraries, "-o", path]
        got = c_library.ran(*words)
        tally.check(got == (0, b"", b""), " ".join(words), "gave", got[0], got[2][:1000])
        if got[0] == 0:
            tally.same(f"gb_headers, {standard}", c_library.ran(path), (0, HEADERS_SAY, b""))


def has_boost():
    """Whether Boost's graphs are there."""
    words = ["c++", "-DSGB_GRAPHBASE_STUBS", INCLUDES[0], "-fsyntax-only", "-x", "c++", "-"]
    return shutil.which("c++") and c_library.ran(*words, given=b"#include <boost/graph/stanford_graph.hpp>\n")[0] == 0


def page(document):
    def checks(runs, tally):
        """The commands of docs/GRAPHBASE.md give what stands there; without Boost's graphs, those that want none."""
        if c_library.is_there(tally, "libsgb.a", "libgb.a"):
            left_out = [] if has_boost() else ["boost_distances", "./distances"]
            if left_out:
                print("  skipped, without Boost's graphs: examples/graphbase/boost_distances.cpp")
            document("docs/GRAPHBASE.md", 8, left_out)(runs, tally)

    return checks


def all_checks(document):
    if os.environ.get("OUTSIDE_WITHOUT_LIBRARY") == "1":
        return
    yield "graphbase", calls
    yield "graphbase symbols", symbols
    yield "graphbase in C++", in_cpp
    yield "document docs/GRAPHBASE.md", page(document)
