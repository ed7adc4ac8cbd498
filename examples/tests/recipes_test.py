#!/usr/bin/env python3
"""Tries the recipes of docs/RECIPES.md by the package sgb: examples/tests/recipes_test.py

The library for C is found as the package finds it (SGB_LIBRARY, or libsgb.so at the top). Each recipe is tried where the packages
that it imports are installed; a line tells of each that is not. The last line counts the lines of Python that were right, and the
status is 1 where one was not, where the page has too few recipes, or where none was tried.
"""

import doctest
import importlib.util
import os
import re
import sys

HERE = os.path.dirname(os.path.abspath(__file__))
TOP = os.path.join(HERE, "..", "..")
PAGE = os.path.join(TOP, "docs", "RECIPES.md")
FEWEST = 10  # recipes that the page has at least

sys.path.insert(0, os.path.join(TOP, "python"))
sys.dont_write_bytecode = True
os.environ.setdefault("SGB_LIBRARY", os.path.join(TOP, "libsgb.so"))


def absent(text):
    """The packages that a recipe imports and that are not installed."""
    names = {name.partition(".")[0] for name in re.findall(r"^ +>>> import ([\w.]+)", text, re.M)}
    return sorted(name for name in names if importlib.util.find_spec(name) is None)


def main():
    with open(PAGE, encoding="utf-8") as file:
        parts = re.split(r"^(?=\*\*[0-9]+[.] )", file.read(), flags=re.M)[1:]
    passed, failed = 0, int(len(parts) < FEWEST)
    if failed:
        print(f"docs/RECIPES.md has only so many recipes: {len(parts)}")
    for number, text in enumerate(parts, 1):
        missing = absent(text)
        if missing:
            print(f"skipped, without {' and '.join(missing)}: recipe {number} of docs/RECIPES.md")
            continue
        test = doctest.DocTestParser().get_doctest(text, {}, f"recipe {number}", PAGE, 0)
        found = doctest.DocTestRunner(verbose=False).run(test)
        passed += found.attempted - found.failed
        failed += found.failed
    failed += not passed
    print(f"{passed} passed, {failed} failed")
    return int(failed > 0)


if __name__ == "__main__":
    sys.exit(main())
