#!/usr/bin/env python3
"""Checks the built program from outside: checks/outside.py [PROGRAM [WORD ..]], where PROGRAM is ./sgb if none is named.

    make outside

It runs the program with memory refused, with devices that fail, with broken files, with the commands of the tour, and with
the scripts of examples/; programs in C and Python are held against it that use the library for C. What it checks stands in
from_outside/, a file for each row of the table in CONTRIBUTING.md. It prints what failed, and last how many checks passed and
failed. With words, it makes only the checks whose names hold one of them. Where PROGRAM is a script, OUTSIDE_PROGRAM names the
executable that it runs, in which memory is then refused; OUTSIDE_SECONDS gives a slow one more time for each run;
OUTSIDE_WITHOUT_LIBRARY=1 leaves the library for C out.
"""

import contextlib
import multiprocessing
import os
import queue
import sys
import tempfile
import time

from from_outside import (
    answers, c_library, c_many, c_operations, c_scripts, conformance, counts, digits, documents, files, great_listings, inputs, levels,
    memory, outputs, part_scripts, random_requests, scripts, transcripts,
)
from from_outside import graphbase
from from_outside.runs import PROGRAM, DidNotEnd, Runs, Tally


def all_checks():
    for row in (answers, transcripts, levels, digits, documents, inputs, files, outputs, memory, counts, great_listings, random_requests):
        yield from row.all_checks()
    yield from conformance.all_checks(documents.document, documents.Shell)
    for row in (scripts, part_scripts, c_scripts):
        yield from row.all_checks(PROGRAM)
    yield from graphbase.all_checks(documents.document)
    yield from c_library.all_checks(PROGRAM, documents.document)
    yield from c_many.all_checks(PROGRAM)
    yield from c_operations.all_checks(PROGRAM)


# these take longest, so they begin first
LONGEST = ("random", "output limited queen", "scripts", "library", "conformance")


def chosen():
    """The checks that the words choose, those that take longest first."""
    words = sys.argv[2:]
    found = [(name, checks) for name, checks in all_checks() if not words or any(word in name for word in words)]
    return sorted(found, key=lambda pair: not pair[0].startswith(LONGEST))


def work(checks, following, endless, results):
    """One worker: it makes the check that follows until none does, or three runs did not end."""
    with tempfile.TemporaryDirectory() as folder:
        runs = Runs(folder)
        while endless.value < 3:
            with following.get_lock():
                number = following.value
                following.value += 1
            if number >= len(checks):
                return
            tally, start = Tally(), time.monotonic()
            try:
                checks[number][1](runs, tally)
            except DidNotEnd as run:
                tally.failed.append(f"{run}; what comes after it was not tried")
                with endless.get_lock():
                    endless.value += 1
            results.put((number, tally.passed, tally.failed, time.monotonic() - start))


def told(name, passed, failed, seconds):
    print(f"{passed:6} passed {len(failed):4} failed {seconds:6.1f} s  {name}", flush=True)
    for line in failed[:5]:
        print(f"  {line}")
    if len(failed) > 5:
        print(f"  and {len(failed) - 5} more")


def main():
    if not os.access(PROGRAM, os.X_OK):
        sys.exit(f"{PROGRAM}: no such program")
    checks = chosen()
    processes = multiprocessing.get_context("fork")
    following, endless, results = processes.Value("i", 0), processes.Value("i", 0), processes.Queue()
    workers = [
        processes.Process(target=work, args=(checks, following, endless, results))
        for _ in range(min(os.cpu_count() or 1, len(checks)))
    ]
    for worker in workers:
        worker.start()
    passed, failed, made = 0, 0, set()
    while any(worker.is_alive() for worker in workers) or not results.empty():
        with contextlib.suppress(queue.Empty):
            number, good, bad, seconds = results.get(timeout=0.2)
            told(checks[number][0], good, bad, seconds)
            passed, failed = passed + good, failed + len(bad)
            made.add(number)
    missing = [name for number, (name, _) in enumerate(checks) if number not in made]
    if endless.value >= 3:
        print("Three runs did not end: given up")
    if missing:
        # a check that raised something else ends its worker, and its line says what
        print(f"not made, {len(missing)} in all: {', '.join(missing[:5])}")
        failed += len(missing)
    print(f"{passed} passed, {failed} failed")
    sys.exit(1 if failed else 0)


if __name__ == "__main__":
    main()
