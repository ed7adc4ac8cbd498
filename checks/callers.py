#!/usr/bin/env python3
"""Compares the callers that the pages for callers show with the sources that they are taken from: checks/callers.py

At the repository's top. Each library has a page, crates/NAME/CALLING.md, with the line of crates.txt that a caller's crate
has, and a caller as a block of Rattle. It is whole and proved:

- the paragraph above the block names the source file, and the block is that file, byte for byte, from its first line that is
  no `//!` on: so its `use` lines are there, and nothing that stands beside it in the file is left out;
- a crate of tests has that file as a module, so that the gate proves it and runs its test;
- the line of crates.txt has each crate that the block names in a `use` line;
- each file that a document names by its path from the top, or an example by `examples/NAME`, is there, and each page that it
  names by its name alone (`PAGE.md`) is one of the project: at the top, in `docs`, or beside a crate.

It prints what failed, and last how many checks passed and failed; the status is 1 where one failed.
"""

import glob
import os
import re
import sys

BLOCK = re.compile(r"^```rust\n(.*?)^```$", re.M | re.S)
SOURCE = re.compile(r"`(crates/\w+/src/[\w/]+\.rt)`")
LINE = re.compile(r"`app: ([a-z_ ]+)`")
# `use sgb_vec::{..}`, and `ghost use Rattle.sgb_vec.specs...`
USED = re.compile(r"^\s*(?:pub )?use (\w+)::|^\s*ghost use Rattle\.(\w+)\.", re.M)
PATH = re.compile(r"`((?:crates|bench|checks|docs|examples|man|\.ci)/[\w./-]+\.\w+)`")
# a page by its name alone
PAGE = re.compile(r"`(\w+\.md)`")

passed, failed = 0, 0


def check(is_right, message):
    """Counts a check, and prints what is wrong."""
    global passed, failed
    if is_right:
        passed += 1
    else:
        failed += 1
        print(message)


def read(path):
    with open(path, encoding="utf-8") as file:
        return file.read()


# the one function of sgb_text is there for sgb_file, and the lower parts of sgb_gen and of sgb_ops are there for these alone
WITHOUT_PAGE = {"sgb_text", "sgb_moves", "sgb_taken"}


def libraries():
    """The crates of crates.txt that others call: those with a root of a library that hands something on, and that are no tests."""
    names = set(re.findall(r"^(\w+):", read("crates.txt"), re.M)) - WITHOUT_PAGE
    roots = {name: f"crates/{name}/src/lib.rt" for name in sorted(names) if not name.endswith("_tests")}
    return [name for name, root in roots.items() if os.path.exists(root) and re.search(r"^pub ", read(root), re.M)]


def is_proved(path):
    """Whether the root of the file's crate has the file as a module, or a module of the root that it stands in the folder of."""
    crate, *modules = re.fullmatch(r"crates/(\w+)/src/(?:(\w+)/)?(\w+)\.rt", path).groups()
    above = f"crates/{crate}/src/lib.rt"
    for module in filter(None, modules):
        if not os.path.exists(above) or not re.search(rf"^(pub )?mod {module};$", read(above), re.M):
            return False
        above = f"crates/{crate}/src/{module}.rt"
    return True


def without_head(text):
    """A source file without the lines at its start that say what it holds."""
    return re.sub(r"\A(//!.*\n)+\n?", "", text)


def check_page(page):
    """Checks the callers of a page, and the line of crates.txt that it gives."""
    text = read(page)
    blocks = list(BLOCK.finditer(text))
    check(blocks, f"{page}: no caller")
    check(len(re.findall(r"^```", text, re.M)) == 2 * len(blocks), f"{page}: a block that is no caller")
    line = LINE.findall(text)
    check(len(line) == 1, f"{page}: so many lines of crates.txt: {len(line)}")
    listed = set(" ".join(line).split())
    for block in blocks:
        named = SOURCE.findall(text[:block.start()].rstrip("\n").rpartition("\n\n")[2])
        place = f"{page}:{text.count(chr(10), 0, block.start()) + 1}"
        if len(named) != 1 or not os.path.exists(named[0]):
            check(False, f"{place}: the paragraph above names no source file that is there: {named}")
            continue
        check(without_head(read(named[0])) == block[1], f"{place}: this is not what stands in {named[0]}")
        check(is_proved(named[0]), f"{place}: nothing proves {named[0]}")
        used = {code or ghost for code, ghost in USED.findall(block[1])} - {"std", "crate"}
        check(used <= listed, f"{place}: not in the line of crates.txt: {' '.join(sorted(used - listed))}")


def check_paths(document):
    """Checks that the files that a document names are there."""
    for path in sorted(set(PATH.findall(read(document)))):
        # a name in capitals stands for any; documents have such names
        if path.startswith("docs/") or not re.search(r"/[A-Z]+(/|\.|$)", path):
            check(os.path.exists(path), f"{document}: no such file: {path}")
    for page in sorted(set(PAGE.findall(read(document)))):
        check(glob.glob(page) + glob.glob("docs/" + page) + glob.glob("crates/*/" + page), f"{document}: no such page: {page}")


def main():
    for crate in libraries():
        page = f"crates/{crate}/CALLING.md"
        if os.path.exists(page):
            check_page(page)
        else:
            check(False, f"{page}: no such page")
    for document in sorted(glob.glob("*.md") + glob.glob("docs/*.md") + glob.glob("crates/*/CALLING.md")):
        check_paths(document)
    print(f"{passed} passed, {failed} failed")
    sys.exit(1 if failed else 0)


if __name__ == "__main__":
    os.chdir(os.path.join(os.path.dirname(os.path.abspath(__file__)), ".."))
    main()
