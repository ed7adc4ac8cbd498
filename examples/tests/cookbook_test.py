#!/usr/bin/env python3
"""Tries each row of docs/COOKBOOK.md: examples/tests/cookbook_test.py [PROGRAM].

A row's numbers of vertices and edges are held against the listing of its expression; where networkx is installed, its graph
against that of the last column. A line tells of each row that fails, and the last line counts; the status is 1 where one
fails, or where the page has too few rows.
"""

import collections
import functools
import itertools
import os
import re
import sys

sys.path.insert(0, os.path.join(os.path.dirname(os.path.abspath(__file__)), "..", "listings"))
sys.dont_write_bytecode = True
import sgb_graph

try:
    import networkx
except ImportError:
    networkx = None

HERE = os.path.dirname(os.path.abspath(__file__))
PROGRAM = os.path.abspath(sys.argv[1]) if len(sys.argv) > 1 else os.path.join(HERE, "..", "..", "sgb")
PAGE = os.path.join(HERE, "..", "..", "docs", "COOKBOOK.md")
FEWEST = 50  # rows that the page has at least

Row = collections.namedtuple("Row", "line graph expression numbers vertices edges wanted directed")


def rows(path=PAGE):
    """The rows of the page's tables. A line of a table that is no row raises ValueError."""
    directed, found = False, []
    with open(path, encoding="utf-8") as file:
        for number, line in enumerate(file, 1):
            if line.startswith("## "):
                directed = line.strip() == "## Directed graphs"
            if not line.startswith("| ") or line.startswith("| graph "):
                continue
            cells = [cell.strip() for cell in line.strip()[1:-1].split("|")]
            code = [cell[1:-1] for cell in (cells[1], cells[-1]) if re.fullmatch("`[^`]+`", cell)]
            if len(cells) != 6 or len(code) != 2:
                raise ValueError(f"{path}, line {number}: no row of a graph")
            numbers = {}
            for part in cells[2].split():
                name, value = re.fullmatch("([a-zA-Z])=(-?[0-9]+)", part).groups()
                numbers[name] = int(value)
            found.append(Row(number, cells[0], code[0], numbers, int(cells[3]), int(cells[4]), code[1], directed))
    return found


def with_numbers(expression, numbers):
    """The expression with its letters replaced; one that has no number raises KeyError."""
    return re.sub(r"(?<![a-z_0-9])[a-zA-Z](?![a-z_A-Z(])", lambda found: str(numbers[found[0]]), expression)


# ---------------------------------------------------------------------------------------------------------------------
# The functions of the last column that networkx does not have


def joined(vertices, rule):
    graph = networkx.Graph()
    graph.add_nodes_from(vertices)
    graph.add_edges_from(pair for pair in itertools.combinations(vertices, 2) if rule(*pair))
    return graph


def squares(a, b, rule):
    places = list(itertools.product(range(a), range(b)))
    return joined(places, lambda p, q: rule(abs(p[0] - q[0]), abs(p[1] - q[1])))


def sets(n, k, rule):
    return joined(list(itertools.combinations(range(n), k)), lambda s, t: rule(len({*s} & {*t})))


def sums(n, d):
    vectors = [vector for vector in itertools.product(range(n + 1), repeat=d) if sum(vector) == n]
    return joined(vectors, lambda v, w: sum(abs(p - q) for p, q in zip(v, w)) == 2)


def wanted_graph(row):
    names = dict(vars(networkx), reduce=functools.reduce, combinations=itertools.combinations)
    names.update(squares=squares, sets=sets, sums=sums, **row.numbers)
    return eval(row.wanted, names)  # a page of this repository


# ---------------------------------------------------------------------------------------------------------------------


def listed(row):
    """The listing's numbers of vertices and arcs, and its arcs."""
    with sgb_graph.read(with_numbers(row.expression, row.numbers), None, PROGRAM) as listing:
        blocks = list(listing)
        return listing.n, listing.m, blocks


def simple_graph(blocks, directed):
    graph = networkx.DiGraph() if directed else networkx.Graph()
    graph.add_nodes_from(name for name, _ in blocks)
    graph.add_edges_from((name, tip) for name, arcs in blocks for tip, _ in arcs)
    return graph


def fault_of(row):
    """What is wrong with a row, or None."""
    n, m, blocks = listed(row)
    arcs = sum(len(tips) for _, tips in blocks)
    if (n, m) != (len(blocks), arcs) or len({name for name, _ in blocks}) != n:
        return f"the head says {n} and {m}; there are {len(blocks)} and {arcs}, or a name comes twice"
    wanted = (row.vertices, row.edges * (1 if row.directed else 2))
    if (n, m) != wanted:
        return f"has {n} vertices and {m} arcs, and not {wanted}"
    if networkx is None:
        return None
    try:
        other = wanted_graph(row)
    except NameError as name:
        print(f"skipped, not in this networkx: {row.graph} ({name})")
        return None
    if other.is_directed() != row.directed:
        return "is directed on one side only"
    if not networkx.is_isomorphic(simple_graph(blocks, row.directed), other):
        return f"is not {row.wanted}"
    return None


def main():
    failed = 0
    try:
        found = rows()
    except (OSError, ValueError) as fault:
        sys.exit(f"cookbook_test.py: {fault}")
    for row in found:
        try:
            fault = fault_of(row)
        except (sgb_graph.Fault, KeyError) as raised:
            fault = repr(raised)
        if fault:
            failed += 1
            print(f"line {row.line}, {row.graph}: {row.expression} {fault}")
    if len(found) < FEWEST:
        print(f"the page has only {len(found)} rows")
        failed += 1
    if networkx is None:
        print("skipped, without networkx: what graphs they are")
    print(f"{len(found)} rows, {failed} failed")
    sys.exit(1 if failed else 0)


if __name__ == "__main__":
    main()
