#!/usr/bin/env python3
"""Library calls with memory refused: checks/calls.py, about a minute.

It builds the program in checks/calls over the crates, unproved, in a folder of its own, by `rt try --fail-alloc N`, which
makes a program whose N-th allocation fails; and runs it once for each allocation that it makes, with so many others before
that this one is the N-th. A run passes where it ends with 0, or with 1, which is want of memory for
what it needs itself; it fails where what stood before a refused call does not stand after it, where the call has another
error than that of memory, or where the same call made once more does not do its work. Each call has to be refused once at
least. The last line is "N passed, M failed".
"""

import collections
import concurrent.futures
import glob
import os
import shutil
import signal
import subprocess
import sys
import tempfile
import time

import quick
from laying import lay

FAILS = 2000  # as in checks/calls/main.in
CASES = 900  # more than there are allocations
CALLS = [
    "SumFamily::new",
    "Text::new",
    "Text::copy",
    "name_of",
    "Names::with_capacity",
    "Names::push",
    "Graph::new_arc",
    "Graph::new_edge",
    "Graph::set_vertex_ints",
    "Graph::reserve",
    "Parts::add_vertex",
    "Parts::add_vertex_with_ints",
    "Parts::add_arc",
    "Parts::check",
    "board",
    "simplex",
    "subsets",
    "Simplex::new",
    "Subsets::new",
    "complement",
    "gunion",
    "complement_of",
    "directed_lines_of",
    "gunion_of",
    "intersection",
    "lines",
    "product",
    "product_of",
    "bi_complete",
    "wheel",
    "induced",
    "induced_from",
    "read_gb",
    "parse_expr",
    "graph_of",
    "Board::arcs_at",
    "Simplex::arcs_at",
    "Subsets::arcs_at",
    "BoardLists::arcs_at",
    "Simplex::arcs_count",
    "list_family",
    "request",
    "read_input",
]


passed = failed = 0


def check(what, holds):
    global passed, failed
    if holds:
        passed += 1
    else:
        failed += 1
        print(f"failed: {what}")


def compiled(folder):
    """The program, as `rt try` compiles it: it is copied while it waits, and then stopped."""
    crate = lay(folder, "calls", ["sgb"])
    place = os.path.join(folder, "calls")
    own = os.path.join(folder, "tmp")
    os.mkdir(own)
    # a check of names beside it would take as long as the rest
    rt = os.environ.get("RT") or quick.shadow(quick.toolchain(), "tries", folder)
    words = [rt, "try", "--steps", "1", "--fail-alloc", str(FAILS)]
    with open(os.path.join(folder, "said"), "w+") as said:
        tried = subprocess.Popen(
            words, cwd=crate, env=dict(os.environ, TMPDIR=own),
            stdin=subprocess.DEVNULL, stdout=said, stderr=said, start_new_session=True,
        )
        try:
            while tried.poll() is None:
                time.sleep(0.2)
                # it runs in a folder that has its output, too
                for program in glob.glob(os.path.join(own, "*", "*", "program")):
                    if is_waiting(os.path.join(os.path.dirname(program), "stdout")):
                        shutil.copy(program, place)
                        return place
        finally:
            stop(tried)
        said.seek(0)
        sys.exit(f"{said.read()[-3000:]}\nthe program was not built, or not found where rt try runs it\n0 passed, 1 failed")


def is_waiting(path):
    try:
        with open(path) as out:
            return out.read().startswith("waiting")
    except FileNotFoundError:
        return False


def stop(process):
    """Stops a process and those that it started."""
    for stopping in signal.SIGTERM, signal.SIGKILL:
        if process.poll() is None:
            os.killpg(process.pid, stopping)
            try:
                process.wait(5)
            except subprocess.TimeoutExpired:
                pass


def run(program, number):
    """What the program comes to whose allocation of this number fails: its status, and the calls that were refused."""
    try:
        ran = subprocess.run([program], input=str(number), capture_output=True, text=True, timeout=60)
    except subprocess.TimeoutExpired:
        return "none", []
    return ran.returncode, ran.stdout.splitlines()


def main():
    refused = collections.Counter()
    with tempfile.TemporaryDirectory() as folder:
        program = compiled(folder)
        with concurrent.futures.ThreadPoolExecutor(os.cpu_count()) as pool:
            runs = list(pool.map(lambda number: run(program, number), range(1, CASES + 1)))
    for number, (status, lines) in enumerate(runs, 1):
        check(f"allocation {number}: status {status} after {', '.join(lines) or 'no refused call'}", status in (0, 1))
        refused.update(lines)
    for call in CALLS:
        check(f"{call} is refused", refused[call] > 0)
    # the last runs are beyond the last allocation, so all of them was tried
    check("nothing is refused at the end", runs[-1] == (0, []))
    check("each refused call is in the list", set(refused) <= set(CALLS))
    print(", ".join(f"{call} {refused[call]}" for call in CALLS))
    print(f"{passed} passed, {failed} failed")
    return 1 if failed else 0


sys.exit(main())
