"""A graph as a form gives it, and numbers as any form writes them, for to_gb.py."""

import decimal
import re

NUMBER = re.compile(r"[+-]?([0-9]+\.?[0-9]*|\.[0-9]+)([eE][+-]?[0-9]+)?")
LEAST, MOST = -(2**63), 2**63 - 1


class Wrong(Exception):
    """What is no graph of its form, and the line where that is seen."""

    def __init__(self, what, line=None):
        super().__init__(what if line is None else f"line {line}: {what}")


def is_number(word):
    return NUMBER.fullmatch(word) is not None


def number(word, what, line):
    """The integer that a word is, as 5, 5.0, or 5e0."""
    if re.fullmatch("[+-]?[0-9]{1,30}", word):
        found = int(word)
    elif is_number(word):
        exact = decimal.Decimal(word)
        # whether it is whole is asked only where it has not too many digits
        if LEAST <= exact <= MOST and exact == exact.to_integral_value():
            found = int(exact)
        else:
            found = None if LEAST <= exact <= MOST else MOST + 1
    else:
        found = None
    if found is None:
        raise Wrong(f"{what} is no integer: {word[:40]}", line)
    if not LEAST <= found <= MOST:
        raise Wrong(f"{what} has 64 bits with its sign, and here is {word[:40]}", line)
    return found


def numbers(words, what, lines):
    """The integers that words are, each of its line."""
    distinct = set(words)
    joined = "".join(distinct)
    if "_" not in joined and joined.isascii():
        try:
            found = dict(zip(distinct, map(int, distinct)))
            if LEAST <= min(found.values(), default=0) and max(found.values(), default=0) <= MOST:
                return list(map(found.__getitem__, words))
        except ValueError:
            pass
    return [number(word, what, line) for word, line in zip(words, lines)]


class Given:
    """A graph: how many vertices, names, if it has any, and edges or arcs, by places from 0."""

    def __init__(self, n=0, directed=False, names=None, lines=()):
        self.n, self.directed, self.names = n, directed, names
        self.tails, self.tips, self.lengths = [], [], []
        self._lines = lines  # the lines of the file where names stand, with their numbers

    def add(self, tail, tip, length=1):
        self.tails.append(tail)
        self.tips.append(tip)
        self.lengths.append(length)

    def end(self, word, line):
        """The place of a vertex that has a number of the file's, from 1."""
        v = number(word, "a vertex", line)
        if not 0 < v <= self.n:
            raise Wrong(f"there are {self.n} vertices, 1 to {self.n}, and here is vertex {v}", line)
        return v - 1

    def line_of(self, name):
        """The first line that has the name, or none."""
        return next((place for place, line in self._lines if name in line), None)


def vertices(word, line):
    """How many vertices a form says that there are."""
    n = number(word, "the number of vertices", line)
    if not 0 <= n <= 10**9:
        raise Wrong(f"a graph has at most 1000000000 vertices, and here are {n}", line)
    return n
