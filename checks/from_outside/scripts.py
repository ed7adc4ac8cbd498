"""Checks of the scripts in examples/: that they give the right graph, and that they fail, with a status and a line and no
wrong output, where a listing is cut off or refused, has no head, has a name twice, or is of arcs and not of edges; and of
completion, in a terminal.
"""

import importlib.util
import math
import os
import re
import shutil
import subprocess
import sys

from .runs import SECONDS, TOP
from .script_shells import Shell, awks

NO_HEAD = "no head of a listing: say -v resumed=1 where it was resumed"

QUEENS = "gunion(board(3,4,0,0,-1,0,0),board(3,4,0,0,-2,0,0),0,0)"

# what convert.awk has to refuse: where its input comes from, its options, its line
REFUSED = [
    ('sgb list "cycle(5)"', "", "the arc from 0 to 1, length 1, is no edge"),
    ('sgb list "transitive(3)"', "", "the arc from 0 to 2, length 2, is no edge"),
    ('sgb list "board(1,0,0,0,1,1,1)"', "", "the arc from 0 to 0, length 1, is no edge"),
    ('sgb list "gunion(cycle(2),transitive(2),1,1)"', "", "the arc from 0 to 1, length 1, is no edge"),
    ("sgb list stdin < lengths.gb", "", "the arc from a to b, length 5, is no edge"),
    ("sgb list stdin < loop.gb", "", "the arc from a to a, length 2, is no edge"),
    ('sgb list "cycle(5)" --skip 1', "-v resumed=1", "the arc from 1 to 2, length 1, is no edge"),
    ('sgb list "lines(board(3,0,0,0,-1,1,0),0)"', "", "two vertices have the name "),
    ('sgb list "lines(board(3,0,0,0,-1,1,0),0)"', "-v directed=1", "two vertices have the name "),
    ('sgb list "lines(board(3,0,0,0,-1,1,0),0)" --skip 2', "-v resumed=1", "two vertices have the name "),
    ('sgb list "board(3,3" 2>&-', "", NO_HEAD),
    ('sgb list "board(3,3" 2>&-', "-v directed=1", NO_HEAD),
    ('sgb list "petersen()" | sed -n 1,3p', "", NO_HEAD),
    ('sgb list "petersen()" --skip 3', "", NO_HEAD),
    ('sgb list "petersen()" --skip 10', "", NO_HEAD),
    ("sgb queen | head -n 2", "", NO_HEAD),
    ("sgb queen | sed 3d", "", NO_HEAD),
    ("sgb queen | head -n 40", "", "the head has 12 vertices, the listing "),
    ("sgb queen", "-v resumed=1", "the listing has its head: leave resumed=1 out"),
    ('sgb list "petersen()"', "-v resumed=1", "the listing has its head: leave resumed=1 out"),
    ('sgb list "petersen()" | sed -n 1,4p', "", "the head has 10 vertices, the listing 0"),
    ('sgb list "petersen()" | head -n 24', "-v directed=1", "the head has 10 vertices, the listing 5"),
    ('sgb list "petersen()" | head -n 43', "", "the head has 30 arcs, the listing 29"),
    ('sgb list "cycle(5)" | head -n 13', "-v directed=1", "the head has 5 arcs, the listing 4"),
    ('sgb list "petersen()" | head -c 846', "", "the listing is cut off in the middle of a line"),
    ('sgb list "cycle(5)" | head -c 170', "-v directed=1", "the listing is cut off in the middle of a line"),
    ('sgb list "cycle(12)" --skip 9 | head -c 43', "-v directed=1 -v resumed=1", "the listing is cut off in the middle"),
    ("sgb list stdin < seven.gb", "", "the head has 7 arcs, the listing 2"),
    ("sgb list stdin < like.gb", "", "the head has 2 vertices, the listing 1"),
    ("sgb list stdin < like.gb", "-v directed=1 -v file=1", "the head has 2 vertices, the listing 1"),
    ('sgb list "petersen()" | sed "6s/1.1.0.0.0/9/"', "", "no vertex has the name 9, but an arc leads there from 0.0"),
    ('sgb list "petersen()" | sed "6s/1.1.0.0.0/9/"', "-v directed=1", "no vertex has the name 9"),
    ('sgb list "petersen()" | sed "6s/length 1/length 2/"', "", "the arc from 0.0.0.1.1 to 1.1.0.0.0, length 2, is no"),
]

# the same of edges alone
REFUSED_OF_EDGES = [
    ('sgb list "petersen()" --skip 1', "-v numbers=1 -v resumed=1", "a resumed listing has not all vertices, and n"),
    ('sgb list "petersen()" --skip 1', "-v numbers=1", NO_HEAD),
]

# whose edges or arcs convert.awk and sgb_graph.py, which share nothing, have to agree on
AGREED = [
    ('"petersen()"', False), ('"cycle(2)"', False), ('"cycle(7)"', True), ('"board(3,3,0,0,-1,3,0)"', False),
    ('"board(1,0,0,0,-1,1,0)"', False), ('"complement(empty(3),0,1,0)"', False), ('"complement(empty(3),0,1,1)"', True),
    ('"gunion(complete(5),circuit(5),1,0)"', False), ('"empty(3)"', False), ('"simplex(5,2,2,0,0,0,0)"', False),
    ('"lines(complete(4),1)"', True), ('"wheel(5,2,0)"', False), ("stdin < loops.gb", False), ("stdin < loops.gb", True),
]

COUNTED = 1000  # arcs of a list that are counted at most

# lists of one vertex, with so many arcs; none is kept
SHORT = [
    ("board(2999999,0,0,0,-4,1,0)", 0, 2 * 2_999_998),
    ("board(2999999,0,0,0,-4,1,0)", 2_999_998, 2 * 2_999_998),
    ("board(3000000,0,0,0,-1,0,0)", 2_999_999, 2_999_999),
    ("board(3000000,0,0,0,-1,1,0)", 2_999_999, 2 * 2_999_999),
    ("simplex(3,1,-199,0,0,0,0)", math.comb(200, 3) - 1, 3 * 197),
    ("disjoint_subsets(30,6)", 0, math.comb(24, 6)),
    ("disjoint_subsets(40,8)", math.comb(40, 8) - 1, math.comb(32, 8)),
    ("subsets(2,1,-199,0,0,0,0x1,0)", math.comb(200, 2) - 1, math.comb(198, 2)),
]


def refused(program):
    def checks(runs, tally):
        """convert.awk gives a line and nothing else where a listing does not tell the graph."""
        shell = Shell(runs, program, "refused")
        for awk, to in [(awk, "edges") for awk in awks()] + [(awks()[0], "dot")]:
            for given, options, line in REFUSED + REFUSED_OF_EDGES * (to == "edges"):
                command = f"{given} | {awk} -v to={to} {options} -f examples/listings/convert.awk"
                status, out, err = shell.run(command)
                is_right = err.startswith(f"convert.awk: {line}") and err.count("\n") == 1
                tally.check((status, out, is_right) == (1, "", True), "$", command, "gave", (status, out, err))
            for option in ("", "-v to=", "-v to=DOT", "-v to=edge"):
                command = f'sgb list "petersen()" | {awk} {option} -f examples/listings/convert.awk'
                status, out, err = shell.run(command)
                is_right = (status, out) == (1, "") and err.startswith("convert.awk: say what to write")
                tally.check(is_right, "$", command, "gave", (status, out, err))
            command = f'sgb list "petersen()" | {awk} -v to=dot -v numbers=1 -f examples/listings/convert.awk'
            tally.same(command, shell.run(command), (1, "", "convert.awk: numbers=1 is for to=edges\n"))

    return checks


def agreed(program):
    def checks(runs, tally):
        """convert.awk and sgb_graph.py give the same edges; resumed listings, and files that count other arcs, are read."""
        shell = Shell(runs, program, "agreed")
        shell.write(
            "edges.py",
            "import sys\nsys.path.insert(0, 'examples/listings')\nsys.dont_write_bytecode = True\nimport sgb_graph\n"
            "def listing(): return sgb_graph.read(sys.argv[1], None if sys.argv[1] != 'stdin' else sys.stdin.buffer)\n"
            "edges = list(sgb_graph.to_edges(listing(), len(sys.argv) > 2))\n"
            "if sys.argv[1] == 'stdin': sys.stdin.buffer.seek(0)\n"
            "names = [name for name, _ in listing()]\n"
            "met = {end for edge in edges for end in edge[:2]}\n"
            "is_long = any(length != 1 for _, _, length in edges)\n"
            "def shown(name): return name if name and name[0] not in '#%' and ' ' not in name else f'\"{name}\"'\n"
            "for name in names:\n"
            "    if name not in met: print(f'\"{name}\"')\n"
            "    for edge in edges:\n"
            "        if edge[0] == name: print(*map(shown, edge[:2]), *edge[2:3 if is_long else 2], sep='\\t')\n",
        )
        for expression, directed in AGREED:
            words = expression.split(" ", 1)
            command = f"{sys.executable} edges.py {words[0]} {'directed' if directed else ''} {' '.join(words[1:])}"
            wanted = shell.run(command)
            tally.check(wanted[0] == 0 and not wanted[2], "$", command, "gave", wanted)
            for awk in awks():
                options = "-v directed=1" if directed else ""
                command = f"sgb list {expression} | {awk} -v to=edges {options} -f examples/listings/convert.awk"
                tally.same(command, shell.run(command), wanted)
        for awk in awks():
            for given, options, out in [
                ("stdin < seven.gb", "-v file=1", "a\tb\t5\n"),
                ("stdin < lengths.gb", "-v directed=1", "a\tb\t5\nb\ta\t6\n"),
                ('"circuit(3)"', "-v lengths=1", "0\t2\t1\n0\t1\t1\n1\t2\t1\n"),
                ('"circuit(4)" --skip 2', "-v resumed=1", "2\t3\n2\t1\n3\t0\n"),
                ('"circuit(4)" --skip 4', "-v resumed=1", ""),
                ('"cycle(4)" --after 1', "-v resumed=1 -v directed=1", "2\t3\n3\t0\n"),
                ("stdin < signs.gb", "", '"#a"\t"b # c"\t5\n"b # c"\t"#"\t7\n"# d"\n'),
                ("stdin < empty.gb", "", '"a"\n""\tc\n'), ("stdin < before.gb", "", 'a\t" b"\n'),
                ("stdin < behind.gb", "-v directed=1", 'a\t"b "\n"b "\ta\n'),
                ("stdin --skip 1 < behind.gb", "-v resumed=1", '"b "\ta\n'),
                ("stdin < signs.gb", "-v numbers=1", "1\t2\t5\n2\t3\t7\n4\n"),
                ("stdin < empty.gb", "-v numbers=1", "1\n2\t3\n"),
                ("stdin < behind.gb", "-v numbers=1 -v directed=1", "1\t2\n2\t1\n"),
            ]:
                command = f"sgb list {given} | {awk} -v to=edges {options} -f examples/listings/convert.awk"
                tally.same(command, shell.run(command), (0, out, ""))
            # the queens' listing, which has a title before it
            for to in ("edges", "dimacs", "metis", "graphml"):
                end = f"{awk} -v to={to} -v lengths=1 -f examples/listings/convert.awk"
                wanted = shell.run(f'sgb list "{QUEENS}" | {end}')
                is_right = wanted[0] == 0 and wanted[1].count("\n") > 12 and not wanted[2]
                tally.check(is_right, to, "of queens gave", wanted)
                tally.same(f"sgb queen | {end}", shell.run(f"sgb queen | {end}"), wanted)

    return checks


def blocks(program):
    def checks(runs, tally):
        """blocks.awk on a listing that is cut off after k bytes: five blocks where the next name is seen, else it fails."""
        shell = Shell(runs, program, "blocks")
        for awk in awks():
            for skip, option in [("", ""), (" --skip 3", "-v resumed=1")]:
                _, text, _ = shell.run(f'sgb list "board(4,4,0,0,1,0,0)"{skip}')
                lines = text.splitlines(True)
                names = [place for place, line in enumerate(lines) if line[0] != " " and (skip or place > 3)]
                wanted = "".join(lines[:names[5]])
                for size in [*range(0, len(wanted) - 50, 40), *range(len(wanted) - 50, len(wanted) + 8)]:
                    shell.write("cut", text[:size])
                    command = f"{awk} {option} -v blocks=5 -f examples/parts/blocks.awk < cut"
                    status, out, err = shell.run(command)
                    what = f"$ {command} of {size} bytes gave"
                    if size > len(wanted):
                        tally.check((status, out, err) == (0, wanted, ""), what, (status, out, err))
                    else:
                        is_right = status == 1 and (out.rstrip("\n") == "" or wanted.startswith(out.rstrip("\n")))
                        is_told = err.startswith("blocks.awk: ") and err.count("\n") == 1
                        tally.check(is_right and is_told, what, (status, out, err))
            for given, option, line in [
                ('sgb list "board(3,3" 2>&-', "-v blocks=0", NO_HEAD),
                ('sgb list "board(4,4,0,0,1,0,0)" --skip 3', "-v blocks=5", NO_HEAD),
                ('sgb list "board(4,4,0,0,1,0,0)"', "-v blocks=16", "no vertex comes after 16 blocks"),
                ('sgb list "board(4,4,0,0,1,0,0)"', "-v blocks=17", "no vertex comes after 16 blocks"),
                ('sgb list "board(4,4,0,0,1,0,0)" --skip 16', "-v resumed=1 -v blocks=0", "no vertex comes after 0"),
            ]:
                command = f"{given} | {awk} {option} -f examples/parts/blocks.awk > taken"
                status, _, err = shell.run(command)
                is_right = status == 1 and err.startswith(f"blocks.awk: {line}") and err.count("\n") == 1
                tally.check(is_right, "$", command, "gave", (status, err))

    return checks


def lists(program):
    def checks(runs, tally):
        """A listing keeps no list, as the pages say: by the address space in which the arcs of one vertex come."""
        shell = Shell(runs, program, "lists")

        def arcs(expression, vertex, bytes_):
            command = f"ulimit -v {bytes_ // 1024}; sgb list '{expression}' --skip {vertex}"
            return int(shell.run(f"({command}) | head -n {COUNTED + 1} | grep -c '^  -> '")[1])

        for expression, vertex, count in SHORT:
            tally.same((expression, "in 8 MB"), arcs(expression, vertex, 8 << 20), min(count, COUNTED))

    return checks


def forms(program):
    def checks(runs, tally):
        """The forms that convert.awk writes: those that are stored, and more that are read again."""
        counted(tally, os.path.join(TOP, "examples", "tests", "convert_test.py"), program, "stored")

    return checks


def python(program):
    def checks(runs, tally):
        """The tests of sgb_graph.py."""
        tests = os.path.join(TOP, "examples", "tests", "sgb_graph_test.py")
        got = subprocess.run([sys.executable, "-B", tests, program], capture_output=True, timeout=SECONDS)
        tally.check(got.returncode == 0, tests, "gave", got.stderr.decode())

    return checks


def completion(runs, tally):
    """What bash makes of lines that are typed in a terminal."""
    if not shutil.which("bash"):
        print("  skipped, without bash: completions/sgb_test.py")
        return
    counted(tally, os.path.join(TOP, "completions", "sgb_test.py"))


def explanations(program):
    def checks(runs, tally):
        """What explain.sh says of refusals."""
        counted(tally, os.path.join(TOP, "examples", "tests", "explain_test.py"), program)

    return checks


def course(program):
    def checks(runs, tally):
        """The exercises of docs/COURSE.md, where networkx is installed."""
        if importlib.util.find_spec("networkx") is None:
            print("  skipped, without networkx: docs/COURSE.md")
            return
        counted(tally, os.path.join(TOP, "examples", "tests", "course_test.py"), program)

    return checks


def counted(tally, *words):
    """Runs a test of Python whose last line tells how many checks passed."""
    got = subprocess.run([sys.executable, "-B", *words], stdin=subprocess.DEVNULL, capture_output=True, timeout=SECONDS)
    said = got.stdout.decode() + got.stderr.decode()
    found = re.fullmatch("([1-9][0-9]*) passed, 0 failed", (said.splitlines() or [""])[-1])
    tally.check(got.returncode == 0 and found, *words, "gave", said)
    tally.passed += int(found[1]) - 1 if found else 0


def all_checks(program):
    yield "scripts refusing", refused(program)
    yield "scripts agreeing", agreed(program)
    yield "scripts of forms", forms(program)
    yield "scripts of long lists", lists(program)
    yield "scripts of blocks", blocks(program)
    yield "scripts in Python", python(program)
    yield "scripts of completion", completion
    yield "scripts of explanations", explanations(program)
    yield "scripts of the course", course(program)
