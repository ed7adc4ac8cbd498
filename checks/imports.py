#!/usr/bin/env python3
"""Whether each `ghost use` of the code says what it is for: checks/imports.py [--write] [CRATE ..]

At the repository's top. A clause (requires, ensures, a ghost member) cites definitions by the names that `ghost use` brings.
The proof search finds by these lines, too: some names stand in no clause and serve it alone. They stand in lines of their own
below the comment MARK, at the end of the block of `ghost use` lines that they belong to. So a name of an unmarked line has to
stand in a clause of the file (of a line inside an impl or a trait: in a clause of that), and a name of a marked line in none.

With --write the lines are turned so, in all crates or in those that are named. The last line is `N passed, M failed`, by the
names; the status is 1 where one failed.
"""

import glob
import re
import sys

MARK = "// For the search alone."
USE = re.compile(r"^(\s*)ghost use ([\w.]+?)(?:\.\{([^}]*)\}| as (\w+));$")
CLAUSE = re.compile(r"\b(?:requires|ensures)\b\*?(?:\s+\w+)?\s*(?=\{)|\bghost\s+(?!use\b)\w+\s*[:=]\s*")
WORD = re.compile(r"\[\]|[^\s(){}\[\],;.]+")


def without_comments(text):
    """The text, with spaces for its comments and for what stands in quotes, and its lines where they were."""
    return re.sub(r'//[^\n]*|"(?:\\.|[^"\\])*"|b?\'(?:\\.|[^\'\\])\'', lambda found: " " * len(found.group()), text)


def closed(text, start):
    """Where the bracket that opens at start is closed."""
    depth = 0
    for i in range(start, len(text)):
        depth += {"{": 1, "}": -1}.get(text[i], 0)
        if not depth:
            return i
    sys.exit(f"checks/imports.py: no end of the brace in '{text[start:start + 40]}'")


def words_of(text):
    """The words of the clauses in a text without comments."""
    words = set()
    for found in CLAUSE.finditer(text):
        start = found.end()
        end = closed(text, start) if text[start] == "{" else re.compile(r"[,;\n]|$").search(text, start).start()
        words.update(WORD.findall(text[start:end]))
    return words


def stands(name, words):
    """Whether a name stands among the words: an operator by its signs, as `◌≡◌` by `≡`."""
    return all(part in words for part in name.split("◌") if part)


class Use:
    """A line of `ghost use`: what stands before its names, and these."""

    def __init__(self, found):
        self.indent, self.module, listed, self.alias = found.groups()
        self.items = [part.strip() for part in listed.split(",")] if listed is not None else [self.alias]

    def line(self, items):
        """The line with only these of its names."""
        if self.alias:
            return f"{self.indent}ghost use {self.module} as {self.alias};"
        return f"{self.indent}ghost use {self.module}.{{{', '.join(items)}}};"


def here(item):
    """The name that an item has in the file."""
    return item.split(" as ")[-1].strip()


def blocks_of(lines):
    """The blocks of `ghost use` lines: where each begins and ends, and the lines with whether they are marked."""
    i = 0
    while i < len(lines):
        begin, uses, marked = i, [], False
        while i < len(lines) and (lines[i].strip() == MARK or USE.match(lines[i])):
            if lines[i].strip() == MARK:
                marked = True
            else:
                uses.append((Use(USE.match(lines[i])), marked))
            i += 1
        if uses:
            yield begin, i, uses
        i = max(i, begin + 1)


def text_under(lines, place, indent):
    """The text in which names of a block are known: the whole, or what the impl or trait around it holds."""
    if not indent:
        return "\n".join(lines)
    end = place
    while end < len(lines) and (not lines[end].strip() or len(lines[end]) - len(lines[end].lstrip()) >= len(indent)):
        end += 1
    return "\n".join(lines[place:end])


def written(uses, words):
    """The lines of a block: first what clauses name, then what the search alone wants."""
    named, others = [], []
    for use, _ in uses:
        for into, standing in ((named, True), (others, False)):
            items = [item for item in use.items if stands(here(item), words) == standing]
            if items:
                into.append(use.line(items))
    return named + ([uses[0][0].indent + MARK] + others if others else [])


def look(path, write):
    """Looks at a file, or writes it anew: how many of its names passed, and what is wrong with the others."""
    with open(path) as file:
        lines = file.read().split("\n")
    plain = without_comments("\n".join(lines)).split("\n")
    passed, wrong, turned, at = 0, [], [], 0
    for begin, end, uses in blocks_of(lines):
        words = words_of(text_under(plain, end, uses[0][0].indent))
        for use, marked in uses:
            for item in use.items:
                if stands(here(item), words) != marked:
                    passed += 1
                else:
                    wrong.append(f"{path}: `{here(item)}` " + ("stands in a clause, and is marked" if marked else "stands in no clause"))
        turned += lines[at:begin] + written(uses, words)
        at = end
    turned += lines[at:]
    if write and wrong:
        with open(path, "w") as file:
            file.write("\n".join(turned))
    return passed, wrong


def main():
    write = "--write" in sys.argv[1:]
    crates = [word for word in sys.argv[1:] if word != "--write"] or ["*"]
    passed, failed = 0, 0
    for path in sorted(path for crate in crates for path in glob.glob(f"crates/{crate}/src/**/*.rt", recursive=True)):
        good, wrong = look(path, write)
        passed += good + (len(wrong) if write else 0)
        failed += 0 if write else len(wrong)
        for line in wrong:
            print(line)
    print(f"{passed} passed, {failed} failed")
    sys.exit(1 if failed else 0)


main()
