#!/usr/bin/env python3
"""Calls of the libraries with values from outside: checks/library.py [WORD ..], about two minutes.

    make library

It builds the tests of checks/library over the crates, unproved, in a folder of its own, as `rt try --test` does, and runs them:
tables of values, texts and files, and devices that fail. A sum that overflows, an index that is
too large and a bad access to memory end a test, too. With words, only the tests whose names hold one of them count. The
last line is "N passed, M failed".
"""

import os
import re
import subprocess
import sys
import tempfile

import quick
from laying import lay

TEST = re.compile(r"^test (\S+) \.\.\. (.*)$", re.MULTILINE)
SECONDS = os.environ.get("OUTSIDE_SECONDS", "120")  # that one test may take


def main():
    with tempfile.TemporaryDirectory() as folder:
        crate = lay(folder, "library", ["sgb", "sgb_arrays"])
        # a check of names beside it would take as long as the rest
        rt = os.environ.get("RT") or quick.shadow(quick.toolchain(), "tries", folder)
        own = os.path.join(folder, "tmp")
        os.mkdir(own)
        got = subprocess.run(
            [rt, "try", "--test", "--steps", "1", "--seconds", SECONDS], cwd=crate, env=dict(os.environ, TMPDIR=own),
            stdin=subprocess.DEVNULL, stdout=subprocess.PIPE, stderr=subprocess.STDOUT, text=True, errors="replace", check=False,
        )
    words = sys.argv[1:]
    tests = [(name, end) for name, end in TEST.findall(got.stdout) if not words or any(word in name for word in words)]
    passed = sum(end == "ok" for _, end in tests)
    failed = len(tests) - passed
    # where a test ends the program, or nothing is built, the rest says why
    if not tests or (got.returncode and not words):
        failed = failed or 1
    if failed:
        print(got.stdout[-6000:])
    print(f"{passed} passed, {failed} failed")
    return 1 if failed else 0


if __name__ == "__main__":
    sys.exit(main())
