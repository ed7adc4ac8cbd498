#!/usr/bin/env python3
"""Tries the exercises of docs/COURSE.md, where networkx is installed: examples/tests/course_test.py [PROGRAM]

Its last line counts the lines of Python that were right, and the status is 1 where one was not, or where the page has too few.
"""

import doctest
import functools
import importlib.util
import os
import re
import sys

HERE = os.path.dirname(os.path.abspath(__file__))
PROGRAM = os.path.abspath(sys.argv[1]) if len(sys.argv) > 1 else os.path.join(HERE, "..", "..", "sgb")
PAGE = os.path.join(HERE, "..", "..", "docs", "COURSE.md")
FEWEST = 20  # exercises that the page has at least

sys.path.insert(0, os.path.join(HERE, "..", "listings"))
sys.dont_write_bytecode = True
import sgb_graph  # noqa: E402  (the folder is put on the path above)


def main():
    with open(PAGE, encoding="utf-8") as file:
        text = file.read()
    exercises = len(re.findall(r"^\*\*[0-9]+[.] ", text, re.M))
    if importlib.util.find_spec("networkx") is None:
        print("skipped, without networkx: docs/COURSE.md")
        return 0
    if not os.access(PROGRAM, os.X_OK):
        sys.exit(f"{PROGRAM}: no such program")
    sgb_graph.read = functools.partial(sgb_graph.read, program=PROGRAM)
    test = doctest.DocTestParser().get_doctest(text, {}, "docs/COURSE.md", PAGE, 0)
    found = doctest.DocTestRunner(verbose=False).run(test)
    failed = found.failed + (exercises < FEWEST)
    if exercises < FEWEST:
        print(f"docs/COURSE.md has only so many exercises: {exercises}")
    print(f"{found.attempted - found.failed} passed, {failed} failed")
    return int(failed > 0)


if __name__ == "__main__":
    sys.exit(main())
