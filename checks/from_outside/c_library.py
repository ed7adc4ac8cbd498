"""Checks of the library for C, for checks/outside.py: a C program on it gives what the program `sgb` writes.

c_arrays.c is compiled against include/sgb.h, once with libsgb.a and once with libsgb.so; what is tried by the thousand is in
c_many.py. The archives are made of what `rt lib` left in crates/sgb_c/out; without that, those that are there are used. Where
there are none, the checks fail: only with OUTSIDE_WITHOUT_LIBRARY=1 are they left out, and a line says so.
"""

import itertools
import math
import os
import re
import shlex
import shutil
import subprocess
import sys

from from_outside.runs import SECONDS

TOP = os.path.dirname(os.path.dirname(os.path.dirname(os.path.abspath(__file__))))
WARNINGS = ["-std=c11", "-O1", "-Wall", "-Wextra", "-Werror"]
WRAPPED = ["-DCOUNTED", "-Wl,--wrap=malloc,--wrap=realloc,--wrap=free"]

# a file whose vertices share a list, so that more arcs are listed than it counts
SHARED = b"""\
* GraphBase graph (util_types ZZZZZZZZZZZZZZ,2V,1A)
"shared",2,1
* Vertices
"a",A0
"b",A0
* Arcs
V1,0,7
* Checksum -1
"""

EXPRESSIONS = """
board(8,8,0,0,-1,0,0) board(2,3,0,0,1,0,0) board(3,4,0,0,-2,0,0) board(5,5,0,0,5,0,0) board(3,3,3,0,2,7,0)
board(4,5,0,0,1,3,1) board(2,2,2,2,1,0,0) board(1,0,0,0,1,0,0) board(0,0,0,0,0,0,0) board(3,-4,0,0,1,0,0)
board(7,0,0,0,-1,1,1) board(2,-3,0,0,-2,0,0) board(13,11,0,0,5,0,1) board(3,4,0,0,0,0,0) board(60,60,0,0,1,0,0)
complete(1) complete(2) complete(9) transitive(6) empty(5) circuit(1) circuit(2) circuit(7) cycle(4)
simplex(2,0,0,0,0,0,0) simplex(3,-3,0,0,0,0,0) simplex(4,2,2,2,2,0,1) simplex(0,-1,0,0,0,0,0) simplex(5,4,3,2,1,0,0)
simplex(3,1,1,0,0,0,0) simplex(10,-2,0,0,0,0,1)
subsets(3,2,2,2,0,0,3,0) subsets(2,1,-4,0,0,0,1,0) subsets(2,1,-4,0,0,0,2,1) subsets(3,3,3,3,0,0,9,0)
disjoint_subsets(5,2) disjoint_subsets(4,1) disjoint_subsets(6,3) petersen()
complement(petersen(),0,0,0) complement(board(3,3,0,0,1,0,0),1,1,1) complement(circuit(5),0,1,0)
gunion(board(4,4,0,0,-1,0,0),board(4,4,0,0,-2,0,0),0,0) gunion(complete(3),circuit(3),1,1)
intersection(board(3,3,0,0,1,0,0),complete(9),0,0) intersection(complete(4),circuit(4),1,1)
lines(complete(4),0) lines(complete(3),1) lines(petersen(),0)
product(complete(2),complete(3),0,0) product(circuit(3),circuit(4),1,1) product(petersen(),complete(2),2,0)
induced(circuit(4),[-1,1,-1,1],0,0,0) induced(complete(3),[1,2,circuit(3)],0,0,0) induced(petersen(),[0,2,1,1,1,1,1,-3,-3,1],1,1,1)
bi_complete(2,3,0) bi_complete(3,1,1) wheel(5,1,0) wheel(4,2,1)
stdin gunion(stdin,stdin,1,1) lines(stdin,1)
""".split()

# whose calls name graphs that are not built
GENERATORS = "board simplex subsets complete transitive empty circuit cycle disjoint_subsets petersen".split()

# graphs that no memory would hold, with how many vertices each has, and how many are looked at at once
GREAT = [
    ("board(1000000000,0,0,0,1,0,0)", 10**9, 1000),
    ("board(1000,1000,1000,0,-3,3,0)", 10**9, 3),
    ("simplex(44000,-2,0,0,0,0,0)", 44001 * 44002 // 2, 30),
    ("subsets(6,1,-59,0,0,0,0x20,0)", math.comb(60, 6), 2),
]

# texts and inputs with the answer of each
ANSWERS = [
    ("board(2,-251,0,0,1,0,0)", b"", 30), ("simplex(-1,0,0,0,0,0,0)", b"", 30), ("board(4294967296,0,0,0,1,0,0)", b"", 40),
    ("board(100000,100000,0,0,1,0,0)", b"", 40), ("gunion(simplex(-1,0,0,0,0,0,0),board(100000,100000,0,0,1,0,0),0,0)", b"", 30),
    ("stdin", b"", 10), ("stdin", b"no file\n", 10), ("stdin", SHARED[:-14], 11), ("stdin", SHARED.replace(b"A0", b"B0"), 20),
    ("", b"", 1000), ("board(3,", b"", 1008), ("board(3,4,0,0,0,0,0) ", b"", 1020), ("petersen", b"", 1008),
    ("(" * 65_536, b"", 100), ("x" * 65_536, b"", 1000), ("x" * 65_537, b"", 100),
]


ARCHIVE = os.path.join(TOP, "crates/sgb_c/out/libsgb_c.a")
LIBRARIES = {
    "libsgb.a": [os.path.join(TOP, "libsgb.a")],
    "libsgb.so": [os.path.join(TOP, "libsgb.so"), "-Wl,-rpath," + TOP],
}


def archives():
    """Makes the libraries of the archive that was proved and built, where that is newer; the status and what make says.
    This is done before the first check begins, since they are made side by side, and many look at the libraries."""
    paths = [os.path.join(TOP, name) for name in (*LIBRARIES, "libgb.a")]
    is_new = os.path.exists(ARCHIVE) and not all(
        os.path.exists(path) and os.path.getmtime(path) > os.path.getmtime(ARCHIVE) for path in paths
    )
    return ran("make", "-s", "-C", TOP, "archives") if is_new else (0, b"", b"")


def library(made):
    def checks(runs, tally):
        """The libraries are there, made of the archive where that is."""
        tally.check(made[0] == 0, "make archives gave", made)
        for name in LIBRARIES:
            tally.check(os.path.exists(os.path.join(TOP, name)), name, "is not there: make lib")

    return checks


def is_there(tally, *names):
    """Whether these libraries are there; it is a failure where one is not."""
    missing = [name for name in names if not os.path.exists(os.path.join(TOP, name))]
    tally.check(not missing, " ".join(missing), "not tried: not there")
    return not missing


def compiled(runs, tally, link, name, more=()):
    """The C program, or None where it does not compile without a warning."""
    path = os.path.join(runs.folder, name)
    source = os.path.join(TOP, "checks/from_outside/c_arrays.c")
    words = ["cc", *WARNINGS, *more, "-I", os.path.join(TOP, "include"), source, "-o", path, *link]
    got = subprocess.run(words, capture_output=True, check=False)
    tally.check(got.returncode == 0 and not got.stderr, " ".join(words), "gave", (got.returncode, got.stderr))
    return path if got.returncode == 0 else None


def ran(*words, given=b"", more=None, seconds=2 * SECONDS):
    # a make that this one runs in has no orders for those that are run here
    environment = {name: value for name, value in os.environ.items() if not name.startswith("MAKE")}
    environment.update(more or {})
    got = subprocess.run(words, input=given, env=environment, capture_output=True, check=False, timeout=seconds)
    return got.returncode, got.stdout, got.stderr


def input_of(expression):
    return SHARED if "stdin" in expression else b""


def is_generator(expression):
    return expression.split("(")[0] in GENERATORS


KEPT = {}


def said(program, word, expression):
    """What the program says, which is asked once."""
    if (word, expression) not in KEPT:
        KEPT[word, expression] = ran(program, word, expression, given=input_of(expression))
    return KEPT[word, expression]


def fields_of(file):
    """What `sgb save` says of each vertex field: whether it is one of integers, and its integers."""
    text = file.decode("latin-1")
    # a line that ends with a backslash goes on in the next one
    text = text.replace("\\\n", "")
    kinds = re.match(r"\* GraphBase graph \(util_types ([A-Z]{14})", text)[1]
    rows = re.search(r"^\* Vertices\n(.*?)^\* Arcs", text, re.M | re.S)[1].splitlines()
    in_use = [k for k in range(6) if kinds[k] != "Z"]
    table = []
    for row in rows:
        # the name, the first arc, and the fields in use; no text of these graphs has a comma or quote in a field
        values = re.match(r'"[^"]*",([^,]*)((?:,[^,]*)*)$', row)[2].split(",")[1:]
        table.append(dict(zip(in_use, values)))
    lines = []
    for k in range(7):
        if k < 6 and kinds[k] == "I":
            lines.append(" ".join([str(k), "0", *(row[k] for row in table)]))
        else:
            lines.append(f"{k} 102")
    return "".join(line + "\n" for line in lines).encode()


def tables(tally, program, path):
    """The arrays of all expressions; wrong lengths; several handles."""
    for expression in EXPRESSIONS:
        given = input_of(expression)
        for word in ("list", "names", "save"):
            tally.same((path, word, expression), ran(path, word, expression, given=given), said(program, word, expression))
        status, saved, _ = said(program, "save", expression)
        wanted = (0, fields_of(saved), b"") if status == 0 else None
        tally.same((path, "ints", expression), ran(path, "ints", expression, given=given), wanted)
        letters = saved[len(b"* GraphBase graph (util_types "):][:14] + b"\n"
        tally.same((path, "kinds", expression), ran(path, "kinds", expression, given=given), (status, letters, b""))
        for word in ("wrong", "handles"):
            tally.same((path, word, expression), ran(path, word, expression, given=given), (0, b"right\n", b""))


def chunks(tally, program, path):
    """Graphs by runs of several sizes, also those that no memory would hold; runs that are not there."""
    for expression in EXPRESSIONS:
        given = input_of(expression)
        wanted = ran(program, "list", expression, "--skip", "0", given=given)
        for size in ("1", "3", "7", "1000"):
            tally.same((path, "chunks", expression, size), ran(path, "chunks", expression, size, given=given), wanted)
        tally.same((path, "chunk_wrong", expression), ran(path, "chunk_wrong", expression, given=given), (0, b"right\n", b""))
        # where there is no vertex 0, there is no run of it
        status, out, err = ran(path, "answer", expression, given=given)
        field = "102" if wanted[1] else "106"
        run = ["0", "0", "101", "101", "101"] if wanted[1] else ["106"] * 5
        answers = ["0", "0", "0", *run, field, "101", "101", "0", "101"]
        tally.same((path, "answer", expression), (status, out, err), (0, (" ".join(answers) + "\n").encode(), b""))
    for expression, n, count in GREAT:
        for first in (0, n // 2, n - count):
            words = (expression, str(first), str(count))
            status, seen, err = ran(path, "chunk", *words)
            tally.check(status == 0 and not err, path, "chunk", *words, "gave", (status, err))
            lines, after = begun(program, expression, first, seen.count(b"\n"))
            tally.same((path, "chunk", *words), seen, lines)
            # the next line begins another block, where there is one
            is_whole = not after.startswith(b" ") and (after == b"") == (first + count == n)
            tally.check(is_whole, program, expression, "goes on after vertex", first + count - 1, "with", after)


def begun(program, expression, first, count):
    """So many lines of the listing from that vertex on, and the next line, if there is one. The program stops there."""
    words = [program, "list", expression, "--skip", str(first)]
    with subprocess.Popen(words, stdout=subprocess.PIPE, stderr=subprocess.DEVNULL) as process:
        lines = b"".join(itertools.islice(process.stdout, count))
        after = process.stdout.readline()
        process.stdout.close()
    return lines, after


def refusals(tally, program, path):
    """Texts and files that are no graph: the answer, after which the handle holds none."""
    # a file that ends too early, wherever it does
    files = [("stdin", SHARED[:size], None) for size in range(len(SHARED) - 1)]
    for text, given, number in ANSWERS + files:
        status, _, err = ran(program, "names", text, given=given)
        told = re.fullmatch(rb"Something went wrong \(panic code ([0-9]+)\)!\n|sgb: bad expression at byte ([0-9]+)\n", err)
        if number is None:
            number = int(told[1] or -1) if told else -1
        elif number != 100:
            is_told = told and number in (int(told[1] or -1), 1000 + int(told[2] or -1001))
            tally.check(is_told, program, "names", text[:40], "gave", (status, err), "and not", str(number))
        # the answer of sgb_open, and of the twelve calls on a handle that was not opened
        wanted = " ".join([str(number)] + ["105"] * 12) + "\n"
        # a text of 65,537 bytes is a word of a command line
        tally.same((path, "answer", text[:40]), ran(path, "answer", text, given=given), (0, wanted.encode(), b""))


def draws(tally, program, path):
    for words in ("-314159 0 200 0", "0 54 60 0", "1 1000000000 5 0", "-314159 0 200 1000", "7 133 50 2147483648", "7 133 50 1",
                  "999999999 3 4 6", "-999999999 3 4 1234567890", "5 5 0 5"):
        start, skip, count, m = words.split()
        flip = f"flip({start},{skip},{count},{m})"
        tally.same((path, "draws", words), ran(path, "draws", start, skip, count, m), ran(program, "flip", flip))


def checks_of(program, name):
    def checks(runs, tally):
        path = is_there(tally, name) and compiled(runs, tally, LIBRARIES[name], "c_" + name)
        if path:
            tables(tally, program, path)
            chunks(tally, program, path)
            refusals(tally, program, path)
            draws(tally, program, path)

    return checks


def memory(runs, tally):
    """Each allocation refused in turn, alone and with all after it, with malloc counted against free."""
    path = is_there(tally, "libsgb.a") and compiled(runs, tally, LIBRARIES["libsgb.a"], "c_counted", WRAPPED)
    for expression in EXPRESSIONS if path else ():
        if "60,60" not in expression:
            word = "refuse" if is_generator(expression) else "refuse_built"
            status, out, err = ran(path, word, expression, given=SHARED)
            is_right = status == 0 and re.fullmatch(rb"right [1-9][0-9]*\n", out) and not err
            tally.check(is_right, path, word, expression, "gave", (status, out, err))


def structures(program):
    def checks(runs, tally):
        """examples/c/graphbase.c walks structures as GB_GRAPH's, and prints the listings of the program."""
        if not is_there(tally, "libsgb.a"):
            return
        path = os.path.join(runs.folder, "graphbase")
        source = os.path.join(TOP, "examples/c/graphbase.c")
        words = ["cc", *WARNINGS, "-I", os.path.join(TOP, "include"), source, "-o", path, *LIBRARIES["libsgb.a"]]
        got = subprocess.run(words, capture_output=True, check=False)
        tally.check(got.returncode == 0 and not got.stderr, " ".join(words), "gave", (got.returncode, got.stderr))
        for expression in EXPRESSIONS if got.returncode == 0 else ():
            seen = ran(path, expression, given=input_of(expression))
            tally.same(("graphbase", expression), seen, said(program, "list", expression))

    return checks


INSTALLED = """
#include <sgb.h>
#include <stdio.h>
int main(void) {
    char id[160];
    sgb_graph graph = SGB_NO_GRAPH;
    sgb_graph_sizes sizes;
    if (sgb_open("complete(2)", 11, "", 0, &graph) || sgb_sizes(&graph, &sizes) || sgb_id(&graph, id, sizes.id)) return 1;
    sgb_close(&graph);
    printf("%.*s\\n", (int)sizes.id, id);
}
"""


def python_package(program):
    def checks(runs, tally):
        """The tests of the package in python/, without numpy, and with it where it is installed."""
        if not is_there(tally, "libsgb.so"):
            return
        more = {"SGB_LIBRARY": os.path.join(TOP, "libsgb.so"), "PYTHONDONTWRITEBYTECODE": "1"}
        tests = os.path.join(TOP, "python/tests.py")
        for without in ("1", ""):
            if not without and ran(sys.executable, "-c", "import numpy")[0] != 0:
                print("  skipped, without numpy: the Python package with its arrays")
                continue
            status, out, err = ran(sys.executable, tests, program, more=dict(more, SGB_WITHOUT_NUMPY=without))
            is_right = status == 0 and re.search(rb"^Ran [1-9]", err, re.M)
            tally.check(is_right, tests, "without" if without else "with", "numpy gave", (status, out, err[-300:]))

    return checks


def class_of_cpp(runs, tally):
    """The class of sgb.hpp: moved, closed, refused."""
    if not shutil.which("c++"):
        print("  skipped, without c++: include/sgb.hpp")
        return
    if not is_there(tally, "libsgb.a"):
        return
    path = os.path.join(runs.folder, "cpp_graph")
    source = os.path.join(TOP, "checks/from_outside/cpp_graph.cpp")
    words = ["c++", "-std=c++20", *WARNINGS[1:], "-I", os.path.join(TOP, "include"), source, *LIBRARIES["libsgb.a"]]
    status, out, err = ran(*words, "-Wl,--wrap=sgb_close", "-o", path)
    tally.check(status == 0 and not err, " ".join(words), "gave", (status, out, err))
    if status == 0:
        tally.same(path, ran(path), (0, b"right\n", b""))


def installed(runs, tally):
    """A program that finds the installed library by pkg-config, Python's package; and all of it is taken away again."""
    source = os.path.join(runs.folder, "id.c")
    if not is_there(tally, *LIBRARIES):
        return
    with open(source, "w", encoding="utf-8") as file:
        file.write(INSTALLED)
    installed_in(runs, tally, source, "prefix", "lib")
    # a space in its name, and places of one's own
    installed_in(runs, tally, source, "a prefix", "lib/a place", "LIBDIR={}/lib/a place", "INCLUDEDIR={}/headers of sgb")


def installed_in(runs, tally, source, name, folder, *places):
    """The library is installed below a folder of this name, where the libraries come into this folder."""
    prefix = os.path.join(runs.folder, name)
    where = ["PREFIX=" + prefix, *(place.format(prefix) for place in places)]
    libraries = os.path.join(prefix, folder)
    tally.same("make install-lib", ran("make", "-s", "-C", TOP, "install-lib", *where), (0, b"", b""))
    tally.same("the link libsgb.so", os.readlink(os.path.join(libraries, "libsgb.so")), "libsgb.so.1")
    if shutil.which("pkg-config"):
        found = {"PKG_CONFIG_PATH": libraries + "/pkgconfig"}
        status, flags, err = ran("pkg-config", "--cflags", "--libs", "sgb", more=found)
        tally.check(status == 0, "pkg-config gave", (status, flags, err))
        with open(os.path.join(TOP, "VERSION"), "rb") as file:
            tally.same("its version", ran("pkg-config", "--modversion", "sgb", more=found), (0, file.read(), b""))
        path = os.path.join(runs.folder, "id")
        got = ran("cc", source, "-o", path, *shlex.split(flags.decode()))
        tally.same("cc, installed", got, (0, b"", b""))
        if got[0] == 0:
            seen = ran(path, more={"LD_LIBRARY_PATH": libraries})
            tally.same((path,), seen, (0, b"board(2,0,0,0,-1,0,0)\n", b""))
    else:
        print("  skipped, without pkg-config: a program on the installed library")
    package = {"PYTHONPATH": os.path.join(libraries, "python3/dist-packages"), "SGB_LIBRARY": "", "PYTHONDONTWRITEBYTECODE": ""}
    seen = ran(sys.executable, "-c", "import sgb; print(sgb.graph('complete(2)').id)", more=package)
    tally.same("python3, installed", seen, (0, b"board(2,0,0,0,-1,0,0)\n", b""))
    tally.same("make uninstall-lib", ran("make", "-s", "-C", TOP, "uninstall-lib", *where), (0, b"", b""))
    left = [name for _, _, names in os.walk(prefix) for name in names]
    tally.check(not left, "make uninstall-lib leaves", left)


def page(document):
    def checks(runs, tally):
        """The commands of docs/CALLING_FROM_C.md give what stands there."""
        if is_there(tally, *LIBRARIES):
            document("docs/CALLING_FROM_C.md", 21)(runs, tally)

    return checks


CALLED = {"malloc", "realloc", "free", "memcpy", "memmove", "memset"}


def exports(runs, tally):
    """libsgb.so and libsgb.a show the calls of sgb.h and no others, and call what sgb.h says."""
    if not is_there(tally, "libsgb.so"):
        return
    got = subprocess.run(["nm", "-D", "--defined-only", os.path.join(TOP, "libsgb.so")], capture_output=True, check=False)
    shown = sorted(line.split()[2].decode() for line in got.stdout.splitlines())
    with open(os.path.join(TOP, "include/sgb.h"), encoding="utf-8") as file:
        wanted = sorted(re.findall(r"^(?:uint64_t|void) (sgb_\w+)\(", file.read(), re.M))
    tally.same("the symbols of libsgb.so", shown, wanted)
    got = subprocess.run(["nm", "-D", "--undefined-only", os.path.join(TOP, "libsgb.so")], capture_output=True, check=False)
    called = {line.split()[1].split("@")[0] for line in got.stdout.decode().splitlines() if line.split()[0] == "U"}
    tally.check("malloc" in called and called <= CALLED, "libsgb.so calls", " ".join(sorted(called)))
    # the archive shows the same calls, and hides all else
    got = subprocess.run(["nm", "-g", "--defined-only", os.path.join(TOP, "libsgb.a")], capture_output=True, check=False)
    shown = sorted(line.split()[2].decode() for line in got.stdout.splitlines() if len(line.split()) == 3)
    tally.same("the symbols of libsgb.a", shown, wanted)
    if shutil.which("readelf"):
        got = ran("readelf", "-d", os.path.join(TOP, "libsgb.so"))
        tally.check(b"soname: [libsgb.so.1]" in got[1], "libsgb.so has another soname:", got)


def headers(runs, tally):
    """The headers are C99 and C++, and refuse machines of 32 bits, older C and C++."""
    folder = os.path.join(TOP, "include")
    syntax = ("-pedantic", "-Wall", "-Wextra", "-Werror", "-fsyntax-only")
    tally.same("sgb.h in C99", ran("cc", "-std=c99", *syntax, "-x", "c", folder + "/sgb.h"), (0, b"", b""))
    for older in "-std=gnu89", "-std=c89":
        status, _, err = ran("cc", older, "-fsyntax-only", "-x", "c", folder + "/sgb.h")
        tally.check(status != 0 and b"sgb.h needs C99" in err, "sgb.h by", older, "gave", (status, err))
    if os.uname().machine == "x86_64":
        status, _, err = ran("cc", "-m32", "-ffreestanding", *syntax, "-x", "c", folder + "/sgb.h")
        tally.check(status != 0 and b"size_t has 64 bits" in err, "sgb.h of 32 bits gave", (status, err))
    if shutil.which("c++"):
        tally.same("sgb.h in C++11", ran("c++", "-std=c++11", *syntax, "-x", "c++", folder + "/sgb.h"), (0, b"", b""))
        status, _, err = ran("c++", "-std=c++17", *syntax, "-x", "c++", folder + "/sgb.hpp")
        tally.check(status != 0 and b"sgb.hpp needs C++20" in err, "sgb.hpp in C++17 gave", (status, err))


def all_checks(program, document):
    if os.environ.get("OUTSIDE_WITHOUT_LIBRARY") == "1":
        print("  skipped, as OUTSIDE_WITHOUT_LIBRARY says: the library for C")
        return
    yield "library", library(archives())
    for name in LIBRARIES:
        yield f"library {name}", checks_of(program, name)
    yield "library memory", memory
    yield "library exports", exports
    yield "library headers", headers
    yield "library structures", structures(program)
    yield "library python", python_package(program)
    yield "library C++", class_of_cpp
    yield "library installed", installed
    yield "document docs/CALLING_FROM_C.md", page(document)
