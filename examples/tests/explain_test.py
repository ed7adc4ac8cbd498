#!/usr/bin/env python3
"""Tries examples/listings/explain.sh: examples/tests/explain_test.py [PROGRAM]

What it adds below the line of sgb is compared; output, line and status have to be those of sgb. The last line counts.
"""

import os
import subprocess
import sys
import tempfile

HERE = os.path.dirname(os.path.abspath(__file__))
SCRIPT = os.path.join(HERE, "..", "listings", "explain.sh")
PROGRAM = os.path.abspath(sys.argv[1]) if len(sys.argv) > 1 else os.path.join(HERE, "..", "..", "sgb")

# the words, the input, what is added
ROWS = [
    (["names", "circuit(3)"], b"", ""),
    (["list", "petersen()", "--skip", "8"], b"", ""),
    (["names", "lines(board(40000,40000,0,0,1,0,0),0)"], b"",
     "board(40000,40000,0,0,1,0,0): 1600000000 vertices, 40000 * 40000; there may be 1000000000"),
    (["list", "gunion(board(2,-30,0,0,1,0,0),board(2,-251,0,0,1,0,0),0,0)"], b"",
     "board(2,-30,0,0,1,0,0): 1073741824 vertices, 2 * 2 * 2 * 2 * 2 * 2 * 2 * ..; there may be 1000000000"),
    (["list", "gunion(board(2,-251,0,0,1,0,0),board(2,-30,0,0,1,0,0),0,0)"], b"",
     "board(2,-251,0,0,1,0,0): 251 dimensions; there may be 250"),
    (["save", "board(2,-250,0,0,1,0,0)"], b"",
     "board(2,-250,0,0,1,0,0): far too many vertices, 2 * 2 * 2 * 2 * 2 * 2 * 2 * ..; there may be 1000000000"),
    (["names", "complete(1000000001)"], b"", "complete(1000000001): 1000000001 vertices; there may be 1000000000"),
    (["names", "board(2,0,0,0,-2147483648,0,0)"], b"",
     "board(2,0,0,0,-2147483648,0,0): the piece is -2147483648; it is at most 2147483647 in size"),
    (["names", "simplex(-1,0,0,0,0,0,0)"], b"", "simplex(-1,0,0,0,0,0,0): the sum is -1, below 0"),
    (["names", "simplex(1,-251,0,0,0,0,0)"], b"", "simplex(1,-251,0,0,0,0,0): 251 dimensions; there may be 250"),
    (["names", "subsets(1000000001,1,0,0,0,0,0,0)"], b"",
     "subsets(1000000001,1,0,0,0,0,0,0): the sum is 1000000001; it is at most 1000000000"),
    (["names", "simplex(30,-30,0,0,0,0,0)"], b"",
     "simplex(30,-30,0,0,0,0,0): 1203322288 vectors of 12 entries have the sum 27; there may be 1000000000"),
    (["names", "disjoint_subsets(60,20)"], b"",
     "disjoint_subsets(60,20): 1037158320 vectors of 33 entries have the sum 15; there may be 1000000000"),
    (["names", "induced(circuit(4),[1,complete(2),0],0,0,0)"], b"",
     "induced(circuit(4),[1,complete(2),0],0,0,0): the graph has 4 vertices, and there are 3 entries: "
     "one for each vertex is wanted"),
    (["names", "induced(complete(2),[],0,0,0)"], b"",
     "induced(complete(2),[],0,0,0): the graph has 2 vertices, and there are 0 entries: one for each vertex is wanted"),
    (["names", "lines(cycle(3),0)"], b"",
     "lines(cycle(3),0): the graph has an arc that is no edge: of arcs lines(..,1) is made"),
    (["names", "product(empty(40000),empty(40000),0,0)"], b"",
     "product(empty(40000),empty(40000),0,0): more than 1000000000 pairs: the first graph has 40000 vertices"),
    (["names", "wheel(3,-1,0)"], b"", "wheel(3,-1,0): a number of vertices is negative"),
    (["names", "board(3,3"], b"", "board(3,3\n           ^ more is wanted here"),
    (["names", "circuit(4)", "--after", "x"], b"", "no vertex has that name; the first ones are:\n  0\n  1\n  2"),
    (["flip", "flip(1,-1,1,0)"], b"", "flip(1,-1,1,0): SKIP and COUNT are from 0 to 1000000000, M from 0 to 2147483648"),
    (["names", "stdin"], b"hi\n", "standard input is no .gb file: its first line, '* GraphBase graph (util_types ..', is not there"),
    (["show", "x"], b"", "the command is not there, words are missing or too many, or both options stand, or K is no number"),
]


def main():
    if not os.access(PROGRAM, os.X_OK):
        sys.exit(f"{PROGRAM}: no such program")
    passed = failed = 0
    for words, given, added in ROWS:
        usual = subprocess.run([PROGRAM, *words], input=given, capture_output=True)
        got = subprocess.run([SCRIPT, *words], input=given, capture_output=True, env={**os.environ, "SGB": PROGRAM})
        wanted = usual.returncode, usual.stdout, usual.stderr.decode() + (f"  {added}\n" if added else "")
        seen = got.returncode, got.stdout, got.stderr.decode()
        passed += seen == wanted
        failed += seen != wanted
        if seen != wanted:
            print("explain.sh", *words, "gave", seen, "and not", wanted)
    # a program that is out of memory
    with tempfile.TemporaryDirectory() as folder:
        program = os.path.join(folder, "sgb")
        with open(program, "w", encoding="ascii") as file:
            file.write("#!/bin/sh\necho 'Something went wrong (panic code 1)!' >&2\nexit 1\n")
        os.chmod(program, 0o755)
        got = subprocess.run([SCRIPT, "list", "petersen()"], capture_output=True, env={**os.environ, "SGB": program})
        is_right = got.stderr.endswith(b"!\n  out of memory: nothing was written\n")
        passed += is_right
        failed += not is_right
        if not is_right:
            print("explain.sh of code 1 gave", got)
    print(f"{passed} passed, {failed} failed")
    return int(failed > 0)


if __name__ == "__main__":
    sys.exit(main())
