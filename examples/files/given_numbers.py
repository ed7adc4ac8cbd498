"""Forms in which vertices have numbers, from 1, for to_gb.py: DIMACS, METIS, Matrix Market."""

import collections

from given import Given, Wrong, number, vertices


def dimacs(text, words):
    given, said = None, 0
    for at, line in enumerate(text.split("\n"), 1):
        kind, *rest = line.split() or ["c"]
        if kind == "p":
            if given or len(rest) != 3 or rest[0] not in ("edge", "col", "sp"):
                raise Wrong(f"one line has the head, p edge N M or p sp N M: {line[:40]}", at)
            given = Given(vertices(rest[1], at), words.directed or rest[0] == "sp")
            said = number(rest[2], "the number of edges", at)
        elif kind in ("e", "a"):
            if not given or len(rest) != (3 if kind == "a" else 2):
                raise Wrong(f"no line of an edge or arc below a head: {line[:40]}", at)
            u, v = (given.end(word, at) for word in rest[:2])
            given.add(u, v, *(number(word, "a length", at) for word in rest[2:]))
        elif kind not in ("c", "n"):
            raise Wrong(f"no line of DIMACS: {line[:40]}", at)
    if not given:
        raise Wrong("there is no line p edge or p sp")
    if said != len(given.tips):
        raise Wrong(f"the head says {said} edges or arcs, and there are {len(given.tips)}: the file is cut short, or its head is wrong")
    return given


def matrix(text, words):
    lines = [(at, line) for at, line in enumerate(text.split("\n"), 1) if at == 1 or line.strip() and line[0] != "%"]
    head = lines[0][1].lower().split()
    if head[:3] != ["%%matrixmarket", "matrix", "coordinate"] or len(head) != 5 or head[4] not in ("general", "symmetric"):
        raise Wrong("the first line is %%MatrixMarket matrix coordinate pattern or integer or real, general or symmetric", 1)
    sizes = lines[1][1].split() if len(lines) > 1 else []
    if len(sizes) != 3:
        raise Wrong("there is no line of rows, columns and entries")
    at = lines[1][0]
    n, columns = (vertices(word, at) for word in sizes[:2])
    entries = number(sizes[2], "the number of entries", at)
    if n != columns or entries != len(lines) - 2:
        raise Wrong(f"{n} rows, {columns} columns and {entries} entries are said, and there are {len(lines) - 2} entries", at)
    given, is_bare = Given(n, head[4] == "general" or words.directed), head[3] == "pattern"
    for at, line in lines[2:]:
        row = line.split()
        if len(row) != 3 - is_bare:
            raise Wrong(f"no entry: {line[:40]}", at)
        given.add(given.end(row[0], at), given.end(row[1], at), *(number(word, "an entry", at) for word in row[2:]))
    return given


def metis(text, words):
    lines = [(at, line.split()) for at, line in enumerate(text.removesuffix("\n").split("\n"), 1) if line[:1] != "%"]
    while lines and not lines[0][1]:
        del lines[0]
    if not lines or len(lines[0][1]) not in (2, 3):
        raise Wrong("the first line is N M, or N M 001 where edges have weights", lines[0][0] if lines else None)
    at, head = lines[0]
    if head[2:] and head[2].lstrip("0") not in ("", "1"):
        raise Wrong(f"GraphBase has no weights of vertices, which {head[2]} says", at)
    n, m, step = vertices(head[0], at), number(head[1], "the number of edges", at), 1 + (head[2:] and head[2].endswith("1") or 0)
    while len(lines) > n + 1 and not lines[-1][1]:
        del lines[-1]
    if len(lines) != n + 1:
        raise Wrong(f"{n} vertices have a line each, and there are {len(lines) - 1}", at)
    given, waiting = Given(n, words.directed), collections.Counter()
    for v, (at, row) in enumerate(lines[1:]):
        if len(row) % step:
            raise Wrong("each neighbour has a weight", at)
        for k in range(0, len(row), step):
            tip, length = given.end(row[k], at), number(row[k + 1], "a weight", at) if step == 2 else 1
            if tip == v:
                raise Wrong(f"METIS has no loops, and there is one at vertex {v + 1}", at)
            if tip > v:
                given.add(v, tip, length)
            waiting[min(v, tip), max(v, tip), length] += 1 if tip > v else -1
    for (u, v, _), count in waiting.items():
        if count:
            u, v = (u, v) if count > 0 else (v, u)
            raise Wrong(f"vertex {u + 1} has vertex {v + 1} as a neighbour, which has it not, or with another weight", lines[u + 1][0])
    if m != len(given.tips):
        raise Wrong(f"{m} edges are said, and there are {len(given.tips)}", lines[0][0])
    return given
