#!/usr/bin/env python3
"""What requests cost: a table of processor seconds, peak memory and bytes of output.

    make && bench/table.py [WORD ..]
    make && bench/table.py --beside PROGRAM [WORD ..]

Each request is a run of ./sgb with its output read and counted; with words, only the requests that hold one of
them are made. Where a request reads a file, another one writes it first, which is not counted. Where `make lib` has left
libsgb.a, there are rows of a program in C (bench/hand_over.c) that opens a graph, and fetches its lists, or all of its
arrays, with the bytes of these as output: to compare with the `save` of the same graph; and rows of chunks of great graphs.
With --beside each operation is listed by ./sgb and by another program that takes the same words, in turn, and the least of
eleven runs of each is told: as of conformance/out/graphbase, which `make graphbase` makes of GraphBase's calls and printf. It
ends with status 1 where the two do not write as many bytes. Programs are started by a small one in C (bench/measured.c).
It is no part of the gate.
docs/PERFORMANCE.md has figures.
"""

import atexit
import functools
import os
import shutil
import subprocess
import sys
import tempfile

TOP = os.path.dirname(os.path.dirname(os.path.abspath(__file__)))
PROGRAM = os.path.join(TOP, "sgb")
LIBRARY = os.path.join(TOP, "libsgb.a")

# each vertex of a board of 180 by 180 twice
TWICE = f"induced(board(180,180,0,0,1,0,0),[{','.join(['2'] * 32400)}],0,0,0)"

REQUESTS = [
    # names: no graph is built
    ["names", "board(1000,1000,0,0,1,0,0)"],
    ["names", "board(100,-3,0,0,1,0,0)"],
    ["names", "board(10000,1000,0,0,1,0,0)"],
    ["names", "board(1000,1000,0,0,1,0,0)", "--skip", "999990"],
    ["names", "board(1000,1000,0,0,1,0,0)", "--after", "999.989"],
    ["names", "simplex(25,-5,0,0,0,0,0)"],
    # boards of moves by one step, of knights, of rooks and queens' diagonals, around a torus, a hypercube
    ["list", "board(600,600,0,0,1,0,0)"],
    ["list", "board(1000,1000,0,0,1,0,0)"],
    ["list", "board(1000,1000,0,0,5,0,0)"],
    ["list", "board(1000,1000,0,0,1,3,0)"],
    ["list", "board(1000,1000,0,0,1,3,1)"],
    ["list", "board(200,200,0,0,-1,0,0)"],
    ["list", "board(200,200,0,0,-2,3,0)"],
    ["list", "board(700,700,0,0,5,0,0)"],
    ["list", "board(1000,1000,0,0,1,0,1)"],
    ["list", "board(64,64,64,0,1,7,0)"],
    ["list", "board(7,-6,0,0,2,0,0)"],
    ["list", "board(100,100,0,0,-1,0,0)"],
    ["list", "board(120,120,0,0,-2,0,0)"],
    ["list", "board(2,-18,0,0,1,0,0)"],
    ["list", "board(1000,1000,0,0,1,0,0)", "--skip", "999990"],
    ["list", "complete(2000)"],
    # bounded sums
    ["list", "simplex(25,-5,0,0,0,0,0)"],
    ["list", "simplex(1000,-2,0,0,0,0,0)"],
    ["list", "disjoint_subsets(15,6)"],
    ["list", "disjoint_subsets(25,3)"],
    ["list", "subsets(4,1,-19,0,0,0,0x8,0)"],
    ["list", "subsets(20,5,-5,0,0,0,0xff,0)"],
    ["list", "subsets(4,1,-39,0,0,0,0x8,0)"],
    # operations: queens on 80 x 80 beside the rooks alone, a complement, an intersection
    ["list", "board(80,80,0,0,-1,0,0)"],
    ["list", "gunion(board(80,80,0,0,-1,0,0),board(80,80,0,0,-2,0,0),0,0)"],
    ["list", "complement(board(1500,0,0,0,1,0,0),0,0,0)"],
    ["list", "intersection(board(80,80,0,0,-1,0,0),board(80,80,0,0,-2,0,0),1,0)"],
    # a union that keeps all arcs of one operand; boards with no moves, at once
    ["list", "gunion(board(600,600,0,0,1,0,0),empty(1),1,0)"],
    ["list", "board(2,-19,0,0,400,0,0)"],
    ["list", "board(3,3,3,0,2147483647,0,0)"],
    # line graphs, products, complete bipartite graphs, wheels
    ["list", "lines(complete(120),0)"],
    ["list", "lines(board(400,400,0,0,1,0,1),1)"],
    ["list", "lines(transitive(300),1)"],
    ["list", "induced(complete(6),[board(30,30,0,0,1,0,0),40,40,40,1,circuit(900)],0,0,1)"],
    ["list", TWICE],
    ["list", "product(circuit(400),circuit(400),2,0)"],
    ["list", "product(complete(40),complete(40),1,0)"],
    ["list", "bi_complete(1000,1000,0)"],
    ["list", "wheel(100000,10,0)"],
    # files
    ["save", "board(600,600,0,0,1,0,0)"],
    ["save", "board(100,100,0,0,-1,0,0)"],
    ["save", "simplex(25,-5,0,0,0,0,0)"],
    # random numbers; a sum that is refused by its counts
    ["flip", "flip(1,1000000000,1,0)"],
    ["flip", "flip(1,0,1000000,6)"],
    ["names", "simplex(1000000000,-1,0,0,0,0,0)"],
]

# requests of which only the beginning is read: the head of great graphs, and a skip of many vertices
HEADS = [
    ["list", "board(1000000000,0,0,0,1,0,0)"],
    ["list", "board(30000,30000,0,0,-1,0,0)"],
    ["list", "simplex(44000,-2,0,0,0,0,0)"],
    ["list", "subsets(6,1,-59,0,0,0,0x8,0)"],
    ["names", "board(1000000000,0,0,0,1,0,0)", "--skip", "500000000"],
]

# requests that read a file, each with the one that writes it
READERS = [
    (["list", "stdin"], ["save", "board(600,600,0,0,1,0,0)"]),
    (["save", "stdin"], ["save", "board(600,600,0,0,1,0,0)"]),
    (["list", "gunion(stdin,stdin,0,0)"], ["save", "board(100,100,0,0,-1,0,0)"]),
]

# operations, and boards whose sides wrap around, that are listed beside another program
BESIDE = [
    "gunion(board(80,80,0,0,-1,0,0),board(80,80,0,0,-2,0,0),0,0)",
    "gunion(board(80,80,0,0,-1,0,0),board(80,80,0,0,-2,0,0),1,1)",
    "intersection(board(80,80,0,0,-1,0,0),board(80,80,0,0,-2,0,0),1,0)",
    "complement(board(1500,0,0,0,1,0,0),0,0,0)",
    "complement(board(100,100,0,0,1,3,0),1,0,0)",
    "lines(board(400,400,0,0,1,0,1),1)",
    "lines(board(300,300,0,0,1,0,0),0)",
    "lines(transitive(300),1)",
    "product(board(300,300,0,0,1,0,0),board(2,0,0,0,1,0,0),0,0)",
    "product(board(300,300,0,0,1,0,0),board(2,0,0,0,1,0,0),2,0)",
    "product(circuit(400),circuit(400),0,0)",
    "product(circuit(400),circuit(400),1,0)",
    "product(circuit(400),circuit(400),2,0)",
    "product(complete(40),complete(40),1,0)",
    "induced(complete(6),[board(30,30,0,0,1,0,0),40,40,40,1,circuit(900)],0,0,1)",
    TWICE,
    "bi_complete(1000,1000,0)",
    "wheel(200000,1,0)",
    "wheel(100000,10,0)",
    "board(100,100,0,0,-1,3,0)",
    "board(20,20,20,0,-1,7,0)",
    "board(100,100,0,0,-1,3,1)",
    "board(60,60,0,0,-2,3,0)",
    "stdin",
]

# how often each of them is run
TIMES = 11

# graphs that are handed over to C, and saved
HANDED = [
    "board(600,600,0,0,1,0,0)",
    "board(1000,1000,0,0,1,0,0)",
    "disjoint_subsets(15,6)",
    "simplex(25,-5,0,0,0,0,0)",
    "gunion(board(80,80,0,0,-1,0,0),board(80,80,0,0,-2,0,0),0,0)",
]

# chunks of great graphs that C is handed: the first vertex, and how many
CHUNKS = [
    ("board(1000000000,0,0,0,1,0,0)", "999934464", "65536"),
    ("simplex(44000,-2,0,0,0,0,0)", "500000000", "65536"),
    ("subsets(6,1,-59,0,0,0,0x20,0)", "25000000", "1000"),
]


class Measured:
    """A program under way whose cost is told when it has ended (bench/measured.c)."""

    def __init__(self, words, source, output):
        self.line, line = os.pipe()
        self.run = subprocess.Popen([measured(), str(line), *words], stdin=source, stdout=output, pass_fds=[line])
        os.close(line)

    def ended(self):
        """Its exit status, processor seconds, peak memory in kilobytes."""
        with os.fdopen(self.line) as line:
            told = line.read().split()
        if self.run.wait() or len(told) != 3:
            sys.exit(f"{self.run.args[2]} could not be measured")
        status, time, peak = map(int, told)
        return status, time / 1e6, peak


@functools.cache
def measured():
    """The small program that starts what is measured, built once."""
    folder = tempfile.mkdtemp()
    atexit.register(shutil.rmtree, folder)
    program = os.path.join(folder, "measured")
    subprocess.run(["cc", "-O2", os.path.join(TOP, "bench/measured.c"), "-o", program], check=True)
    return program


def cost(words, source=subprocess.DEVNULL, most=None, program=PROGRAM):
    """Runs the program; its exit status, processor seconds, peak memory in kilobytes, bytes of output. With `most` the
    output is closed after so many bytes."""
    measure = Measured([program, *words], source, subprocess.PIPE)
    count = 0
    while chunk := measure.run.stdout.read(min(1 << 20, most or 1 << 20)):
        count += len(chunk)
        if most and count >= most:
            break
    measure.run.stdout.close()
    return *measure.ended(), count


def short(text):
    """A text that is cut where it is long."""
    return text if len(text) <= 90 else text[:60] + ".."


def show(text, status, seconds, peak, count):
    """Prints a row of the table."""
    note = "" if status == 0 else f"  status {status}"
    print(f"{short(text):<66} {seconds:>8.2f} {peak / 1024:>8.0f} {count:>12}{note}", flush=True)


def listed(program, text, path):
    """What a listing costs that nobody reads: processor seconds and peak memory in kilobytes. Standard input is a file."""
    with open(path, "rb") as source:
        status, seconds, peak = Measured([program, "list", text], source, subprocess.DEVNULL).ended()
    if status:
        sys.exit(f"{program} list {short(text)}: status {status}")
    return seconds, peak


def bytes_of(program, text, path):
    """How many bytes a listing has."""
    with open(path, "rb") as source:
        return cost(["list", text], source, program=program)[3]


def beside(other, wanted):
    """Lists each operation by ./sgb and by another program, in turn, and tells the least of each."""
    print(f"{'list':<76} {'sgb, s':>7} {'other':>7} {'times':>6} {'sgb, MB':>8} {'other':>6} {'times':>6}")
    with tempfile.NamedTemporaryFile() as file:
        subprocess.run([PROGRAM, "save", "board(600,600,0,0,1,0,0)"], stdout=file, check=True)
        for text in BESIDE:
            if wanted and not any(word in text for word in wanted):
                continue
            path = file.name if text == "stdin" else os.devnull
            own_bytes, their_bytes = (bytes_of(program, text, path) for program in (PROGRAM, other))
            if own_bytes != their_bytes:
                sys.exit(f"list {short(text)}: {own_bytes} bytes of {PROGRAM}, {their_bytes} of {other}")
            runs = [(listed(PROGRAM, text, path), listed(other, text, path)) for _ in range(TIMES)]
            (own, own_peak), (their, their_peak) = (tuple(map(min, zip(*costs))) for costs in zip(*runs))
            print(
                f"{short(text):<76} {own:>7.3f} {their:>7.3f} {own / their:>6.3f} {own_peak / 1024:>8.1f}"
                f" {their_peak / 1024:>6.0f} {own_peak / their_peak:>6.2f}",
                flush=True,
            )


def main():
    wanted = sys.argv[1:]
    if wanted[:1] == ["--beside"]:
        if len(wanted) < 2:
            sys.exit("bench/table.py --beside PROGRAM [WORD ..]")
        beside(wanted[1], wanted[2:])
        return
    print(f"{'request':<66} {'seconds':>8} {'peak MB':>8} {'bytes out':>12}")
    for words in REQUESTS:
        text = " ".join(words)
        if not wanted or any(word in text for word in wanted):
            show(text, *cost(words))
    for words in HEADS:
        text = " ".join(words) + " | head"
        if not wanted or any(word in text for word in wanted):
            status, *costs = cost(words, most=200)
            show(text, 0 if status == 3 else status, *costs)
    for words, writer in READERS:
        text = f"{' '.join(words)} < {' '.join(writer)}"
        if not wanted or any(word in text for word in wanted):
            with tempfile.TemporaryFile() as file:
                subprocess.run([PROGRAM, *writer], stdout=file, check=True)
                file.seek(0)
                show(text, *cost(words, file))
    handed_over(wanted)


def handed_over(wanted):
    """Rows of graphs that C is handed, each beside the `save` of the same graph."""
    rows = [(word, text) for text in HANDED for word in ("open", "rows", "all", "save")]
    rows += [("chunk", *chunk) for chunk in CHUNKS]
    rows = [row for row in rows if not wanted or any(word in "C " + " ".join(row) for word in wanted)]
    if rows and not os.path.exists(LIBRARY):
        print("left out, without libsgb.a, which `make lib` leaves: graphs in the memory of C")
        return
    with tempfile.TemporaryDirectory() as folder:
        program = os.path.join(folder, "hand_over")
        source = os.path.join(TOP, "bench/hand_over.c")
        if rows:
            subprocess.run(["cc", "-O2", "-I", os.path.join(TOP, "include"), source, LIBRARY, "-o", program], check=True)
        for row in rows:
            if row[0] == "save":
                show(" ".join(row), *cost(row))
                continue
            status, seconds, peak, _ = cost(row, program=program)
            size = int(subprocess.run([program, *row], stdout=subprocess.PIPE, check=True).stdout)
            show("C " + " ".join(row), status, seconds, peak, size)


if __name__ == "__main__":
    main()
