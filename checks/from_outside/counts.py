"""What requests cost, by counts that are nearly the same in each run: instructions, calls for memory, calls of write.

    checks/outside.py ./sgb counts

No contract speaks of time. A quick way that is never taken leaves the same bytes, and so do a page of another size and a flush
after each line: these show in counts alone. The bounds of each request lie above what the program takes, and below what it takes
without the quick way that its row names; each row was seen to fail so. Instructions are those of the whole run less those of the
shortest request, as valgrind's callgrind counts them; the bounds leave a third for another compiler. Where there is no valgrind
they are not counted, and the line of each check has fewer that passed.
"""

import collections
import os
import re
import shutil
import subprocess

from .runs import PROGRAM, SECONDS, DidNotEnd, opened, said

SHORTEST = ("names", "complete(1)")

# A request; the expression whose file is its input, if any; whether its instructions are counted up to the first page alone, by an
# output that is full; the most instructions, calls for memory and calls of write beyond those of the shortest request.
Row = collections.namedtuple("Row", "quick_way words saved is_begun instructions memory writes")
UNION = "gunion(board(30,30,0,0,1,0,0),board(30,30,0,0,2,0,0),0,0)"
COMMON = "intersection(board(30,30,0,0,1,0,0),board(30,30,0,0,1,0,0),0,0)"
ROWS = [
    Row("arcs of a file, each of its line; chains that lead back", ("names", "stdin"), "complete(80)", False, 5_900_000, 60, 1),
    Row("vertices of a file, each of its line", ("names", "stdin"), "board(40,40,0,0,7,0,0)", False, 1_750_000, 60, 1),
    Row("lists that are had run by run", ("list", "board(30,30,0,0,1,0,0)"), None, False, 1_720_000, 15, 5),
    Row("displacements in a table", ("list", "board(30,30,0,0,1,3,0)"), None, False, 1_900_000, 20, 5),
    Row("moves around a side, with no sort", ("list", "board(16,16,0,0,-1,3,0)"), None, False, 8_600_000, 30, 14),
    Row("starts that are sorted together", ("list", "board(101,0,0,0,-4,1,0)"), None, False, 18_900_000, 30, 20),
    Row("beginnings that no wanted subset has", ("list", "disjoint_subsets(13,6)"), None, False, 29_000_000, 10, 22),
    Row("arcs counted by pairs", ("list", "disjoint_subsets(15,6)"), None, True, 6_000_000, 10, 700),
    Row("vectors found by their places", ("names", "simplex(60,-3,0,0,0,0,0)", "--skip", "39000"), None, False, 750_000, 20, 1),
    Row("events that are told apart", ("list", UNION), None, False, 8_100_000, 45, 7),
    Row("common arcs of short lists, with no table", ("list", COMMON), None, False, 6_500_000, 55, 4),
    Row("short lines of arcs", ("save", "board(30,30,0,0,1,0,0)"), None, False, 3_500_000, 20, 8),
    Row("short lines of vertices", ("save", "board(40,40,0,0,7,0,0)"), None, False, 2_250_000, 10, 7),
    Row("pages of 32 KB", ("list", "board(100,100,0,0,1,0,0)"), None, False, 20_000_000, 15, 34),
]

VALGRIND = shutil.which("valgrind")


def instructions(words, given, is_begun=False):
    """How many instructions a run takes, or the first page of it."""
    command = [VALGRIND, "--tool=callgrind", "--callgrind-out-file=/dev/null", os.environ.get("OUTSIDE_PROGRAM", PROGRAM), *words]
    with opened("/dev/full" if is_begun else os.devnull, os.O_WRONLY) as out:
        try:
            ran = subprocess.run(command, input=given, stdout=out, stderr=subprocess.PIPE, timeout=SECONDS, check=False)
        except subprocess.TimeoutExpired:
            raise DidNotEnd(" ".join(("counted", *words, "did not end"))) from None
    found = re.search(rb"Collected : (\d+)", ran.stderr)
    return int(found[1]) if found and ran.returncode == (3 if is_begun else 0) else None


def counted(runs, words, given):
    """What a request takes: calls for memory, and calls of write."""
    got = runs.run(words, given, orders={})
    events = runs.library.events()
    return said(got), events.calls, events.outputs


def counts(row):
    def checks(runs, tally):
        given = runs.run(("save", row.saved)).out if row.saved else b""
        _, least_calls, _ = counted(runs, SHORTEST, b"")
        (status, out, err), calls, writes = counted(runs, row.words, given)
        tally.check(status == 0 and out and not err, row.words, "gave", repr((status, err)))
        tally.check(least_calls > 0 and writes > 0, row.words, "made no call that the library saw")
        tally.check(calls - least_calls <= row.memory, row.words, f"made {calls - least_calls} calls for memory more")
        tally.check(writes <= row.writes, row.words, f"wrote {writes} times")
        if VALGRIND:
            least, whole = instructions(SHORTEST, b""), instructions(row.words, given, row.is_begun)
            tally.check(least and whole, row.words, "were not counted by valgrind")
            if least and whole:
                tally.check(whole - least <= row.instructions, row.words, f"took {whole - least} instructions more")
        else:
            print(f"  skipped, without valgrind: instructions of {' '.join(row.words)[:60]}")

    return checks


def all_checks():
    for row in ROWS:
        yield f"counts {row.quick_way}", counts(row)
