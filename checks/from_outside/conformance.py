"""Checks of what stands around the program, for checks/outside.py: the table of conformance/, pages, and scripts."""

import filecmp
import importlib.util
import os
import re
import shutil
import subprocess
import sys

TOP = os.path.dirname(os.path.dirname(os.path.dirname(os.path.abspath(__file__))))
# how many rows the table has: graphs and refusals
GRAPHS, REFUSALS = 134, 26

# what examples/listings/draw.awk draws: options, expression, how many lines and how many of them wrap around
DRAWN = [
    ("", "board(8,8,0,0,5,0,0)", 168, 0),
    ("", "board(3,4,2,0,1,7,0)", 72, 8 + 6),
    ("-v directed=1", "cycle(6)", 6, 1),
    ("", "circuit(2)", 2, 0),
    ("", "complete(6)", 15, 0),
    ("-v on=circle", "complement(circuit(5),0,1,0)", 10, 0),
    ("", "simplex(6,-2,0,0,0,0,0)", 63, 0),
    ("", "simplex(4,-1,0,0,0,0,0)", 4, 0),
    ("-v rim=5", "petersen()", 15, 0),
    ("", "petersen()", 15, 0),
    ("", "wheel(4,1,0)", 8, 0),
    ("", "lines(board(3,3,0,0,1,0,0),0)", 22, 0),
    ("", "lines(complete(4),0)", 12, 0),
    ("", "product(circuit(3),petersen(),0,0)", 75, 0),
    ("", "empty(3)", 0, 0),
    ("", "simplex(5,2,2,0,0,0,0)", 0, 0),
    ("", "bi_complete(3,4,0)", 12, 0),
    ("-v on=columns", "board(3,4,0,0,5,0,0)", 14, 0),
    ("-v on=columns -v directed=1", "bi_complete(2,2,1)", 4, 0),
    ("-v rim=20", "product(petersen(),complete(2),1,0)", 30, 0),
    ("-v directed=1 -v on=circle", "complement(cycle(4),0,1,1)", 12, 0),
]
# what it refuses: what comes before it in a pipe, its options, and its line
# the numbers that stand in a picture: lengths once for each edge, and places on lists once for each arc
NUMBERED = [
    ("-v lengths=1", "board(3,0,0,0,-1,0,0)", [1, 1, 2]),
    ("-v lengths=1 -v directed=1", "board(3,0,0,0,-1,0,1)", [1, 1, 2]),
    ("-v order=1", "board(3,0,0,0,1,0,0)", [1, 1, 2, 1]),
    ("-v order=1 -v on=circle", "gunion(complete(3),circuit(3),1,0)", [1, 2, 3, 4] * 3),
    ("-v order=1 -v directed=1", "transitive(4)", [1, 2, 3, 1, 2, 1]),
    ("-v order=1", "complement(empty(2),0,1,0)", [1, 2, 3, 1, 2, 3]),
    ("", "bi_complete(2,3,0)", []),
]
NOT_DRAWN = [
    ('sgb names "petersen()"', "", "line 1: no head of a whole listing"),
    ('sgb list "petersen()" --skip 0', "", "line 1: no head of a whole listing"),
    ('sgb list "petersen()" | head -3', "", "line 3: no head of a whole listing"),
    (":", "", "line 0: no head of a whole listing"),
    ('sgb list "petersen()" | head -20', "", "line 20: 4 vertices, and 10 in the head"),
    ('sgb list "petersen()" | head -43', "", "line 43: 29 arcs, and 30 in the head"),
    ('sgb list "lines(board(3,0,0,0,-1,1,0),0)"', "", "line 11: a name that came before: 1--2"),
    ('sgb list "cycle(4)"', "", "line 12: not a graph of edges, which directed=1 draws: 0 and 1"),
    ('sgb list "circuit(4)" | sed "s/-> 3/-> 7/"', "", "line 16: an arc to a name that no vertex has: 7"),
    ('sgb list "circuit(4)" | sed "6s/1$/2/"', "", "line 16: not a graph of edges, which directed=1 draws: 0 and 3"),
    ('sgb list "circuit(4)" | head -c -1', "", "line 15: the listing is cut off in the middle of a line"),
    ('sgb list "empty(12)" | head -c -2', "", "line 15: the listing is cut off in the middle of a line"),
    ('sgb list "petersen()"', "-v rim=4", "line 44: no cycle of 4 vertices through the first one"),
    ('sgb list "complete(4)"', "-v rim=3 -v on=circle", None),
    ('sgb save "petersen()" | head -20', "", "line 20: the file is cut off"),
    ('sgb save "circuit(3)" | sed "s/,A2,1/,A9,1/"', "", "line 14: a list that leads nowhere: 1"),
    ('sgb list "complete(3)"', "-v on=columns", "line 13: no two columns, since the edge of 2 and 1 closes an odd cycle"),
    ('sgb list "petersen()"', "-v on=triangle", "line 44: names that are no vectors of one to three entries: on=circle draws them"),
]


def loaded(path):
    """A script as a module."""
    name = os.path.basename(path)[:-len(".py")]
    spec = importlib.util.spec_from_file_location(name, os.path.join(TOP, path))
    module = importlib.util.module_from_spec(spec)
    is_written, sys.dont_write_bytecode = sys.dont_write_bytecode, True
    try:
        spec.loader.exec_module(module)
    finally:
        sys.dont_write_bytecode = is_written
    return module


def table(runs, tally):
    """Each row of the table: n, m, and the sums of names, list and save; or status and line."""
    compare = loaded("conformance/compare.py")
    try:
        found = compare.rows()
    except ValueError as fault:
        tally.check(False, str(fault))
        return
    kinds = [sum(isinstance(row, kind) for row in found) for kind in (compare.Graph, compare.Refusal)]
    tally.same("the rows of graphs and refusals", kinds, [GRAPHS, REFUSALS])
    for row in found:
        for what, difference in compare.compared(runs.program, row):
            tally.check(difference is None, what, compare.shown(row.expression), difference or "")


def script(*words):
    """A script of this tree: its status, output and errors."""
    got = subprocess.run(words, cwd=TOP, stdin=subprocess.DEVNULL, capture_output=True)
    return got.returncode, got.stdout, got.stderr


def gallery(runs, tally):
    """The pictures of the gallery are those that its commands make."""
    tally.same("examples/listings/gallery.sh", script("examples/listings/gallery.sh", runs.program), (0, b"12 pictures\n", b""))


def cookbook(runs, tally):
    """Each row of the cookbook, with the numbers of its listing, and by networkx where that is installed."""
    status, out, err = script("examples/tests/cookbook_test.py", runs.program)
    lines = out.decode().splitlines()
    for line in lines:
        if line.startswith("skipped"):
            print(f"  {line}")
    is_right = status == 0 and not err and lines and re.fullmatch("[0-9]+ rows, 0 failed", lines[-1])
    tally.check(is_right, "examples/tests/cookbook_test.py gave", (status, out, err))


def bad_expressions(runs, tally):
    """Each row of the table of bad expressions: the text is refused at its byte, and the right one is not refused."""
    with open(os.path.join(TOP, "docs", "ERRORS.md"), encoding="utf-8") as file:
        lines = file.read().split("\n")
    begin = lines.index("| text | byte | what is wrong | right |") + 2
    found = lines[begin:lines.index("", begin)]
    tally.check(len(found) >= 25, "docs/ERRORS.md has only so many bad expressions:", len(found))
    for line in found:
        row = re.fullmatch(r"\| `([^`]+)` \| ([0-9]+) \| [^|`]*(?:`[^`|]+`[^|`]*)* \| `([^`]+)` \|", line)
        if not row:
            tally.check(False, "no row of a bad expression:", line)
            continue
        bad, byte, right = row.groups()
        got = runs.run(("names", bad))
        wanted = (2, b"", b"sgb: bad expression at byte %s\n" % byte.encode())
        tally.same(("names", bad), (got.status, got.out, got.err), wanted)
        got = runs.run(("names", right), runs.run(("save", "complete(2)")).out)
        tally.check(got.status == 0 and got.out and not got.err, "names", right, "gave", (got.status, got.out, got.err))


# texts for caret.sh, and the lines that it writes after that of sgb
LONG = "complement(" * 9
CARETS = [
    (("list", "petersen("), ["petersen(", "         ^ more is wanted here"]),
    (("names", ""), ["", "^ more is wanted here"]),
    (("save", "petersen()\n"), ["petersen()?", "          ^ here"]),
    (("list", "--skip", "3", "board(3\t,"), ["board(3?,", "       ^ here"]),
    (("list", "--after=0", "é"), ["??", "^ here"]),
    (("flip", "flip(1,2,3)", ), ["flip(1,2,3)", "          ^ here"]),
    (("list", LONG + "x" + LONG), [".. " + (LONG + "x" + LONG)[59:137] + " ..", " " * 43 + "^ here"]),
]


def carets(runs, tally):
    """The mark of caret.sh stands below the byte; what is no bad expression comes through as it is."""
    environment = dict(os.environ, SGB=runs.program)

    def script_of(words):
        words = [os.path.join(TOP, "examples", "listings", "caret.sh"), *words]
        got = subprocess.run(words, env=environment, stdin=subprocess.DEVNULL, capture_output=True)
        return got.returncode, got.stdout, got.stderr.decode("utf-8")

    for words, lines in CARETS:
        line = runs.run(words).err.decode()
        tally.check(line.startswith("sgb: bad expression at byte "), words, "was refused with", line)
        tally.same(words, script_of(words), (2, b"", line + "".join(f"  {text}\n" for text in lines)))
    for words in [("names", "circuit(3)"), ("names", "board(2,-251,0,0,1,0,0)"), ("show",), ()]:
        got = runs.run(words)
        tally.same(("caret.sh", *words), script_of(words), (got.status, got.out, got.err.decode()))


def completion(runs, tally):
    """The scripts that try the completions; their forms are those of the manual page, with the same arguments in each."""
    offered = {}
    for name in "sgb.bash", "_sgb", "sgb.fish", "sgb.ps1":
        with open(os.path.join(TOP, "completions", name), encoding="utf-8") as file:
            offered[name] = re.findall(r"(?<=[ ]')(?!flip)(?:stdin|[a-z_]+\([^'()]*\))(?=')", file.read())
    with open(os.path.join(TOP, "man", "sgb.1"), encoding="utf-8") as file:
        page = file.read().partition(".Sh EXPRESSIONS")[2].partition(".Ss ")[0]
    forms = [name for line in re.findall("^\\.It Li (.*)$", page, re.M) for name in re.findall(r"([a-z_]+)(?:\(|$)", line)]
    for name, found in offered.items():
        tally.same(f"the forms of completions/{name}", sorted(form.partition("(")[0] for form in found), sorted(forms))
        tally.same(f"their arguments in completions/{name}", found, offered["sgb.bash"])
    status, out, err = script("completions/others_test.py")
    print(*re.findall(r"^  skipped.*\n", out.decode(), re.M), sep="", end="")
    tally.check(status == 0 and re.search(rb"^[0-9]+ passed, 0 failed\n\Z", out, re.M) and not err, "others_test.py gave", (status, out, err))
    if not shutil.which("bash"):
        print("  skipped, without bash: completions/sgb_test.bash")
        return
    status, out, err = script("bash", "completions/sgb_test.bash")
    is_right = re.fullmatch(rb"[1-9][0-9]* passed, 0 failed\n", out)
    tally.check(status == 0 and is_right and not err, "completions/sgb_test.bash gave", (status, out, err))


def installed(runs, tally):
    """What make install puts below a prefix beside the library, and that make uninstall takes it away."""
    wanted = {
        "bin/sgb": runs.program, "share/man/man1/sgb.1": "man/sgb.1", "share/bash-completion/completions/sgb": "completions/sgb.bash",
        "share/zsh/site-functions/_sgb": "completions/_sgb", "share/fish/vendor_completions.d/sgb.fish": "completions/sgb.fish",
    }
    prefix = os.path.join(runs.folder, "a prefix")
    words = ["make", "-s", "-C", TOP, "PREFIX=" + prefix, "PROGRAM=" + runs.program]
    # a make that this one runs in has no orders for it
    environment = {name: value for name, value in os.environ.items() if not name.startswith("MAKE")}
    for target in "install", "uninstall":
        got = subprocess.run([*words, target], env=environment, stdin=subprocess.DEVNULL, capture_output=True, check=False)
        tally.same(f"make {target}", (got.returncode, got.stdout, got.stderr), (0, b"", b""))
        for name, path in wanted.items() if target == "install" else ():
            there, path = os.path.join(prefix, name), os.path.join(TOP, path)
            tally.check(os.path.exists(there) and filecmp.cmp(there, path, shallow=False), "make install has no", name)
    left = [name for _, _, names in os.walk(prefix) for name in names]
    tally.check(not left, "make uninstall leaves", left)


def drawings(shell_of):
    def checks(runs, tally):
        """Each picture has its vertices and lines, and its places apart; a listing that is not whole has none."""
        shell = shell_of(runs, "drawn")
        for options, expression, lines, wrapped in DRAWN:
            command = f'sgb list "{expression}" | awk {options} -f examples/listings/draw.awk'
            status, out, err = shell.run(command)
            names = shell.run(f'sgb names "{expression}"')[1].count(b"\n")
            spots = re.findall(rb'<circle cx="([-0-9.]+)" cy="([-0-9.]+)"', out)
            seen = (status, err, len(spots), len(set(spots)), out.count(b'<path class="'), out.count(b'<path class="w"'))
            tally.same(command, seen, (0, b"", names, names, lines, wrapped))
        for options, expression, numbers in NUMBERED:
            command = f'sgb list "{expression}" | awk {options} -f examples/listings/draw.awk'
            status, out, err = shell.run(command)
            found = sorted(int(number) for number in re.findall(rb'<text class="n"[^>]*>(-?[0-9]+)<', out))
            tally.same(command, (status, err, found), (0, b"", sorted(numbers)))
            # the file of the graph is drawn as its listing is
            saved = f'sgb save "{expression}" | awk {options} -f examples/listings/draw.awk'
            tally.same(saved, shell.run(saved), (0, out, b""))
        twice = 'sgb save "lines(board(3,0,0,0,-1,1,0),0)" | awk -v on=circle -f examples/listings/draw.awk'
        status, out, err = shell.run(twice)
        seen = status, err, out.count(b"<circle "), out.count(b'<path class="'), out.count(b">1--2</text>")
        tally.same(twice, seen, (0, b"", 6, 15, 2))
        for before, options, line in NOT_DRAWN:
            command = f"{before} | awk {options} -f examples/listings/draw.awk"
            if line is not None:
                tally.same(command, shell.run(command), (1, b"", b"draw.awk: " + line.encode() + b"\n"))
            else:
                tally.check(shell.run(command)[0] == 0, command, "failed")

    return checks


def all_checks(document, shell_of):
    """Each check with its name; `document` makes one of a page's commands, `shell_of` a folder in which they run."""
    yield "conformance table", table
    yield "document conformance/README.md", document("conformance/README.md", 3)
    yield "document docs/GALLERY.md", document("docs/GALLERY.md", 12)
    yield "document docs/COOKBOOK.md", document("docs/COOKBOOK.md", 14)
    yield "cookbook", cookbook
    yield "document docs/ERRORS.md", document("docs/ERRORS.md", 30)
    yield "bad expressions", bad_expressions
    yield "carets", carets
    yield "completion", completion
    yield "installed", installed
    yield "gallery", gallery
    yield "gallery drawings", drawings(shell_of)
