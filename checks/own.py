#!/usr/bin/env python3
"""Fails where a file has words by which others keep or give their rights, or more than 1,000 lines: checks/own.py

All that stands here was written for this repository. What was copied mostly says whose it is, or is long. The files are those that
git has or would have; of data (DATA) the lines are not counted. The last line is `N passed, M failed`, one of words and one of
lines; the status is 1 where one failed.
"""

import os
import re
import shutil
import subprocess
import sys

TOP = os.path.dirname(os.path.dirname(os.path.abspath(__file__)))
MOST = 1000
DATA = (".answers", ".gb", ".parts", ".png", ".refusals", ".svg", ".tsv", ".txt")

# each as it stands in a line or over two of a comment, and so written that this file has none of them
WORDS = re.compile("|".join([
    r"(?m:^[^\w\n]*copyright\b)", r"copyright\W+(?:c|\d{4})\b", r"\(c\) (?:19|20)\d\d\b", r"\u00a9", r"all\W+rights\W+reserved",
    r"public\W+domain", r"creative\W?commons", r"spdx\W+licen[cs]e", r"@(?:licen[cs]e|author|preserve)\b",
    r"permission\W+(?:is\W+hereby\W+granted|to\W+use\W+copy)", r"redistribution\W+and\W+use", r"without\W+any\W+warranty",
    r"(?:licensed|released|distributed)\W+under\W+the", r"(?:general\W+public|apache|mit|bsd|mozilla\W+public)\W+licen[cs]e",
]))


def texts():
    """The files that git has or would have, and what stands in each, in small letters."""
    words = ["git", "ls-files", "-z", "--cached", "--others", "--exclude-standard"]
    got = subprocess.run(words, cwd=TOP, check=False, capture_output=True) if shutil.which("git") else None
    found = {}
    for name in sorted(set(got.stdout.decode().split("\0"))) if got else []:
        path = os.path.join(TOP, name)
        if os.path.isfile(path):
            with open(path, encoding="utf-8", errors="replace") as file:
                found[name] = file.read().lower()
    return found


def of_others(found):
    return [
        f"{name}:{text.count(chr(10), 0, word.start()) + 1}: {' '.join(word[0].split())!r}: what is of others has to go, and what "
        "is written here needs no such words"
        for name, text in found.items() for word in WORDS.finditer(text)
    ]


def too_long(found):
    return [
        f"{name}: {text.count(chr(10))} lines: a file has at most {MOST}; cut it by its subjects"
        for name, text in found.items() if text.count("\n") > MOST and not name.endswith(DATA)
    ]


def main():
    found = texts()
    faults = [of_others(found), too_long(found)] if found else [[f"own.py: git lists no file in {TOP}: it reads a clone"]]
    for fault in (fault for one in faults for fault in one):
        print(fault)
    failed = sum(map(bool, faults))
    print(f"{len(faults) - failed} passed, {failed} failed")
    return 1 if failed else 0


if __name__ == "__main__":
    sys.exit(main())
