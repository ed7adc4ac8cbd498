#!/usr/bin/env python3
"""Tests what runs without a proof: checks/unproved.py, some five minutes on four processors.

    make test

It builds the two programs and the library for C of the sources as they stand, unproved and optimized (checks/quick.py), and
tries on them what needs no proof: the checks from outside (checks/outside.py), library calls with memory refused
(checks/calls.py), the tables of the libraries (checks/library.py), the tests that are proved elsewhere (`rt try --test` in each
crate of tests), what may be of others, where definitions stand and their book, the callers of the pages, and the places of
forms. All lies in out/test, a copy of the tree, so that nothing there is taken for what was proved. Then it says what was
not tried since a tool is not here, and the Debian package that has the tool. The last line is `N passed, M failed`.
"""

import concurrent.futures
import os
import re
import shutil
import sys
import time

import edits
import quick

TOP = os.path.dirname(os.path.dirname(os.path.abspath(__file__)))
PLACE = os.path.join(TOP, "out/test")
TREE = os.path.join(PLACE, "tree")
# what the checks take from out/quick, and where they look for it
PROGRAM = "crates/sgb_cli/out/sgb_cli"
TAKEN = {"sgb": PROGRAM, "sgb_levels": "crates/sgb_levels/out/sgb_levels"}
SECONDS = "120"  # that one test, or one run of a program, may take
# what a check says that leaves out something, and the Debian packages of what is not here
SKIPPED = re.compile(r"^\s*skipped, without (.+?): (.+)$", re.MULTILINE)
PACKAGES = {
    "AddressSanitizer": "gcc", "Boost's graphs": "libboost-graph-dev", "GNU parallel": "parallel", "ThreadSanitizer": "gcc",
    "bash": "bash", "busybox awk": "busybox", "c++": "g++", "cargo": "cargo", "dot": "graphviz", "gawk": "gawk",
    "mandoc and man": "mandoc", "mawk": "mawk", "networkx": "python3-networkx", "numpy": "python3-numpy",
    "original-awk": "original-awk", "pkg-config": "pkg-config", "valgrind": "valgrind",
}


def counts(text):
    """The counts of passed and failed in what a task said, or None."""
    lines = text.rstrip().splitlines()
    last = re.fullmatch(r"(\d+) passed, (\d+) failed", lines[-1]) if lines else None
    found = [last] if last else list(re.finditer(r"test result: \w+\. (\d+) passed; (\d+) failed", text))
    return [sum(int(one[kind]) for one in found) for kind in (1, 2)] if found else None


class Tally:
    """What came of the tasks, counted."""

    def __init__(self):
        self.begun, self.passed, self.failed = time.monotonic(), 0, 0
        self.untried = {}  # what is left out without a tool

    def tell(self, name, task):
        """Waits for a task, and tells what came of it."""
        status, text = task.result()
        good, bad = counts(text) or (0, 0)
        if (status or not good) and not bad:
            bad = 1
        self.passed, self.failed = self.passed + good, self.failed + bad
        for tool, what in SKIPPED.findall(text):
            self.untried.setdefault(tool, {})[what] = None  # in order, each once
        if bad:
            print(text[-6000:])
        print(f"  {name:34} {good} passed, {bad} failed, by second {time.monotonic() - self.begun:.0f}", flush=True)


    def tell_untried(self):
        """What was not tried, a line for each tool that is not here."""
        for tool, what in sorted(self.untried.items()):
            package = f" (Debian package {PACKAGES[tool]})" if tool in PACKAGES else ""
            more = f", and {len(what) - 1} more" if len(what) > 1 else ""
            print(f"  not tried without {tool}{package}: {next(iter(what))}{more}")


def task(*words, folder=TREE, **environment):
    got = quick.ran(list(words), folder, env={**os.environ, **environment})
    return got.returncode, got.stdout


def lay():
    """A copy of the tree as it stands, with the programs and the libraries that are built."""
    shutil.rmtree(PLACE, ignore_errors=True)
    edits.lay(TREE)
    for name, path in TAKEN.items():
        os.makedirs(os.path.dirname(os.path.join(TREE, path)))
        shutil.copy(os.path.join(quick.PLACE, name), os.path.join(TREE, path))
    for path in quick.made_archives(quick.PLACE):
        shutil.copy(path, TREE, follow_symlinks=False)


def main():
    print("Nothing is proved by this: what is tried is compiled from the sources as they stand. make check proves them.", flush=True)
    quick.main()
    lay()
    tests = sorted(name for name in os.listdir(os.path.join(TREE, "crates")) if name.endswith("_tests"))
    tally, others, rt = Tally(), {}, quick.shadow(quick.toolchain(), "tries", PLACE)
    with concurrent.futures.ThreadPoolExecutor(os.cpu_count() or 1) as pool:
        others["from outside"] = pool.submit(task, "checks/outside.py", PROGRAM, OUTSIDE_SECONDS=SECONDS)
        others["library calls"] = pool.submit(task, "checks/calls.py", RT=rt)
        for name in tests:
            folder = os.path.join(TREE, "crates", name)
            others[name] = pool.submit(task, rt, "try", "--test", "--steps", "1", "--seconds", SECONDS, folder=folder)
        others["library tests"] = pool.submit(task, "checks/library.py", RT=rt)
        others["nothing of others"] = pool.submit(task, "checks/own.py", folder=TOP)
        others["definitions"] = pool.submit(task, "checks/definitions.py")
        others["book of definitions"] = pool.submit(task, "checks/book.py")
        others["callers of the pages"] = pool.submit(task, "checks/callers.py")
        others["forms of expressions"] = pool.submit(task, "checks/forms.py")
        for name, one in others.items():
            tally.tell(name, one)
    tally.tell_untried()
    print(f"{tally.passed} passed, {tally.failed} failed")
    sys.exit(1 if tally.failed else 0)


if __name__ == "__main__":
    main()
