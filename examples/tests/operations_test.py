#!/usr/bin/env python3
"""Holds the operations of the package sgb against those of networkx: examples/tests/operations_test.py

    make lib && make examples

Fifty graphs of networkx, directed ones among them, come in by `from_networkx`; each operation has to have the edges that
networkx finds, between the very vertices: line_graph, complement, cartesian_product, tensor_product, strong_product, subgraph,
compose and intersection. The last line counts the graphs that were compared. Without libsgb.so, which `make lib` leaves, or
without networkx, a line says so.
"""

import os
import random
import sys

TOP = os.path.dirname(os.path.dirname(os.path.dirname(os.path.abspath(__file__))))
sys.dont_write_bytecode = True
LIBRARY = os.environ.setdefault("SGB_LIBRARY", os.path.join(TOP, "libsgb.so"))
try:
    import networkx as nx
except ImportError:
    nx = None
sys.path.insert(0, os.path.join(TOP, "python"))

compared = 0


def graphs():
    """Fifty graphs without loops and parallel edges, whose nodes are 0 to n - 1."""
    found = [
        nx.petersen_graph(), nx.complete_graph(5), nx.complete_graph(1), nx.empty_graph(4), nx.empty_graph(0), nx.path_graph(7),
        nx.cycle_graph(3), nx.cycle_graph(8), nx.star_graph(6), nx.wheel_graph(7), nx.ladder_graph(5), nx.circular_ladder_graph(6),
        nx.grid_2d_graph(4, 5), nx.hypercube_graph(3), nx.balanced_tree(2, 3), nx.complete_bipartite_graph(3, 4),
        nx.barbell_graph(4, 2), nx.lollipop_graph(4, 3), nx.tutte_graph(), nx.dodecahedral_graph(), nx.icosahedral_graph(),
        nx.heawood_graph(), nx.desargues_graph(), nx.frucht_graph(), nx.florentine_families_graph(), nx.krackhardt_kite_graph(),
        nx.house_x_graph(), nx.cubical_graph(), nx.octahedral_graph(), nx.diamond_graph(), nx.bull_graph(),
        nx.complete_graph(4, nx.DiGraph), nx.path_graph(6, nx.DiGraph), nx.cycle_graph(5, nx.DiGraph), nx.gn_graph(10, seed=1),
        nx.empty_graph(3, nx.DiGraph),
    ]
    found += [nx.gnp_random_graph(4 + seed, 0.3, seed=seed, directed=seed % 2 == 1) for seed in range(50 - len(found))]
    return [nx.convert_node_labels_to_integers(graph) for graph in found]


def edges(graph, is_directed):
    """The edges of a graph of ours by the numbers of their ends, or its arcs; there are no parallel ones."""
    arcs = [(v, tip) for v, tip, _ in (graph.arcs() if is_directed else graph.edges())]
    return ends(arcs, is_directed, graph)


def ends(pairs, is_directed, what):
    found = [tuple(pair) if is_directed else tuple(sorted(pair)) for pair in pairs]
    must(len(set(found)) == len(found), what, "has parallel arcs")
    return set(found)


def must(is_right, *seen):
    if not is_right:
        sys.exit("operations_test.py: " + " ".join(str(part)[:600] for part in seen))


def same(made, wanted, place, what):
    """Ours has as many vertices as networkx's, and an edge between the places of two nodes where that has one between them."""
    must(made.n == len(wanted), what, "has", made.n, "vertices and not", len(wanted))
    is_directed = wanted.is_directed()
    right = ends(((place(u), place(v)) for u, v in wanted.edges()), is_directed, what)
    seen = edges(made, is_directed)
    must(seen == right, what, "has", sorted(seen - right)[:5], "too many, and not", sorted(right - seen)[:5])


def on_one(ours, graph, dice):
    is_directed = graph.is_directed()
    lines, wanted = ours.lines(directed=is_directed), nx.line_graph(graph)
    sign = "->" if is_directed else "--"
    called = {frozenset(name.split(sign)) if not is_directed else tuple(name.split(sign)): k for k, name in enumerate(lines.names())}
    same(lines, wanted, lambda edge: called[tuple(map(str, edge)) if is_directed else frozenset(map(str, edge))], f"line_graph of {graph}")
    same(ours.complement(directed=is_directed), nx.complement(graph), lambda v: v, f"complement of {graph}")
    kept = [v for v in graph if dice.random() < 0.6]
    number = {v: k for k, v in enumerate(kept)}
    entries = [int(v in number) for v in graph]
    same(sgb.induced(ours, entries, directed=is_directed), graph.subgraph(kept), number.get, f"subgraph of {graph}")


def on_two(ours, graph, other_of_ours, other):
    is_directed = graph.is_directed()
    for kind, call in ("cartesian", nx.cartesian_product), ("direct", nx.tensor_product), ("strong", nx.strong_product):
        made = sgb.product(ours, other_of_ours, kind, directed=is_directed)
        same(made, call(graph, other), lambda pair: pair[0] * len(other) + pair[1], f"{kind} product of {graph} and {other}")
    # vertices are those of the first graph
    few, many = sorted(((graph, ours), (other, other_of_ours)), key=lambda pair: len(pair[0]))
    same(sgb.gunion(many[1], few[1], directed=is_directed), nx.compose(many[0], few[0]), lambda v: v, f"compose of {graph} and {other}")
    small = few[0].copy()
    small.add_nodes_from(many[0])
    same(sgb.intersection(many[1], few[1], directed=is_directed), nx.intersection(many[0], small), lambda v: v,
         f"intersection of {graph} and {other}")


def main():
    global compared
    dice, found = random.Random(5), graphs()
    must(len(found) == 50, "there are", len(found), "graphs")
    for is_directed in (False, True):
        kind = [graph for graph in found if graph.is_directed() == is_directed]
        for graph, other in zip(kind, kind[1:] + kind[:1]):
            ours, second = sgb.from_networkx(graph), sgb.from_networkx(other)
            on_one(ours, graph, dice)
            on_two(ours, graph, second, other)
            compared += 1
    must(compared == 50, "only", compared, "graphs were compared")
    print(f"Operations have the edges that networkx finds: {compared} graphs")


if nx is None:
    print("  skipped, without networkx: operations against its own")
elif not os.path.exists(LIBRARY):
    print("  skipped, without libsgb.so, which `make lib` leaves: operations against networkx")
else:
    import sgb

    main()
