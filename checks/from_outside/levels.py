"""Answers and refusals of the other program, sgb_levels."""

import os
import subprocess

from .runs import FILE, SECONDS, TOP, DidNotEnd, shown

# calls of sgb_levels, each with its input and what is left: the status, the output, the line
LEVELS = [
    (("cycle(4)",), b"", (0, b"0 0\n1 1\n2 2\n3 3\n", b"")),
    (("empty(3)",), b"", (0, b"0 0\n1 -\n2 -\n", b"")),
    (
        ("gunion(board(2,2,0,0,2,0,0),board(2,2,0,0,2,0,0),1,0)",), b"",
        (0, b"0.0 0\n0.1 -\n1.0 -\n1.1 1\n", b""),
    ),
    (
        ("disjoint_subsets(5,2)",), b"",
        (
            0,
            b"0.0.0.1.1 0\n0.0.1.0.1 2\n0.0.1.1.0 2\n0.1.0.0.1 2\n0.1.0.1.0 2\n0.1.1.0.0 1\n1.0.0.0.1 2\n1.0.0.1.0 2\n"
            b"1.0.1.0.0 1\n1.1.0.0.0 1\n",
            b"",
        ),
    ),
    (("stdin",), FILE, (0, b"0 0\n1 1\n", b"")),
    (("stdin",), FILE[:90], (1, b"", b"Something went wrong (panic code 20)!\n")),
    (("board(3,",), b"", (2, b"", b"sgb: bad expression at byte 8\n")),
    ((), b"", (2, b"", b"usage: sgb_levels EXPR\n")),
    (("cycle(4)", "--skip"), b"", (2, b"", b"usage: sgb_levels EXPR\n")),
]


def levels(runs, tally):
    """The other program, sgb_levels: distances from the first vertex, and what it refuses."""
    program = os.path.join(TOP, "crates/sgb_levels/out/sgb_levels")
    if not os.path.exists(program):
        tally.check(False, "sgb_levels is not built")
        return
    for words, given, wanted in LEVELS:
        try:
            got = subprocess.run([program, *words], input=given, capture_output=True, timeout=SECONDS)
        except subprocess.TimeoutExpired:
            raise DidNotEnd(shown(("sgb_levels", *words, "did not end"))) from None
        tally.same(("sgb_levels", *words), (got.returncode, got.stdout, got.stderr), wanted)


def all_checks():
    yield "levels", levels
