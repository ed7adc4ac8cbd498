#!/usr/bin/env python3
"""Holds a program against the rows of graphs.tsv: conformance/compare.py PROGRAM [names|list|save|refusals ..]

    make conformance
    conformance/compare.py ./another list

PROGRAM is run as `PROGRAM names EXPRESSION`, and so with list and save. Each row is compared in all that the words ask
for, or in all four ways without words. Each difference is a line, and the last line says how many comparisons passed and
failed; the status is 1 where one failed. CONFORMANCE_SECONDS is what one run may take, 60 if it is not set. Where
CONFORMANCE_LONGEST is set, rows of longer expressions are left out: a system's command line may not hold them.
"""

import collections
import hashlib
import os
import re
import subprocess
import sys

HERE = os.path.dirname(os.path.abspath(__file__))
ROWS = os.path.join(HERE, "graphs.tsv")
SECONDS = int(os.environ.get("CONFORMANCE_SECONDS", "60"))
LONGEST = int(os.environ.get("CONFORMANCE_LONGEST", "0"))
COMMANDS = ("names", "list", "save")
WAYS = (*COMMANDS, "refusals")

# A graph: its expression, its numbers of vertices and arcs, and the SHA-256 of what each command writes.
Graph = collections.namedtuple("Graph", "expression n m sums")
# A refusal: the expression, the status, and the line on standard error.
Refusal = collections.namedtuple("Refusal", "expression status line")
# What a run came to.
Got = collections.namedtuple("Got", "status out err")


def rows(path=ROWS):
    """The rows of the table. A line that is no row ends it with an error that names the line."""
    found, seen = [], set()
    with open(path, encoding="ascii") as file:
        for number, line in enumerate(file, 1):
            if line.startswith("#"):
                continue
            row = read_row(line.rstrip("\n").split("\t"))
            if row is None:
                raise ValueError(f"{path}, line {number}: no row of a graph or a refusal")
            if row.expression in seen:
                raise ValueError(f"{path}, line {number}: an expression that stands above")
            seen.add(row.expression)
            if not LONGEST or len(row.expression) <= LONGEST:
                found.append(row)
    return found


def read_row(parts):
    if len(parts) != 6:
        return None
    if parts[3:] == ["-", "-", "-"]:
        if not re.fullmatch("[123]", parts[1]) or not parts[2]:
            return None
        return Refusal(written_out(parts[0]), int(parts[1]), parts[2])
    if not all(re.fullmatch("[0-9]+", part) for part in parts[1:3]):
        return None
    if not all(re.fullmatch("[0-9a-f]{64}", part) for part in parts[3:]):
        return None
    return Graph(parts[0], int(parts[1]), int(parts[2]), dict(zip(COMMANDS, parts[3:])))


def written_out(text):
    """`65 x (` stands for 65 times `(`; any other text for itself."""
    found = re.fullmatch("([0-9]+) x (.)", text)
    return int(found[1]) * found[2] if found else text


def run(program, *words, given=None, seconds=SECONDS):
    """One run, with an empty standard input if nothing is given."""
    try:
        got = subprocess.run(
            [program, *words], input=given or b"", capture_output=True, timeout=seconds,
        )
    except subprocess.TimeoutExpired:
        return Got(None, b"", b"did not end")
    return Got(got.returncode, got.stdout, got.stderr)


def counts(listing):
    """The numbers of vertices and arcs: those of the listing's head, and those that are there."""
    head = re.match(rb"[^\n]*\n[^\n]*\n  has ([0-9]+) vertices and ([0-9]+) arcs:\n\n", listing)
    if not head:
        return None
    lines = listing[head.end():].split(b"\n")[:-1]
    arcs = sum(line.startswith(b"  -> ") for line in lines)
    return (int(head[1]), int(head[2])), (len(lines) - arcs, arcs)


def compared(program, row, ways=WAYS):
    """The comparisons of one row: the name of each, and None or what differs."""
    if isinstance(row, Refusal):
        return list(refused(program, row, ways))
    return list(answered(program, row, ways))


def refused(program, row, ways):
    if "refusals" not in ways:
        return
    for command in COMMANDS:
        got = run(program, command, row.expression)
        wanted = Got(row.status, b"", row.line.encode() + b"\n")
        yield command, None if got == wanted else f"gave {got}, and not {wanted}"


def answered(program, row, ways):
    for command in COMMANDS:
        if command not in ways:
            continue
        got = run(program, command, row.expression)
        if got.status != 0 or got.err:
            yield command, f"ended with {got.status} and {got.err}"
            continue
        there = hashlib.sha256(got.out).hexdigest()
        is_same = there == row.sums[command]
        yield command, None if is_same else f"gave {len(got.out)} bytes of SHA-256 {there}, and not {row.sums[command]}"
        if command == "names":
            n = got.out.count(b"\n")
            yield "n of names", None if n == row.n else f"gave {n} names, and not {row.n}"
        if command == "list":
            seen = counts(got.out)
            wanted = (row.n, row.m)
            is_same = seen == (wanted, wanted)
            yield "n and m of list", None if is_same else f"told of and gave {seen}, and not {wanted} twice"


def shown(expression):
    return expression if len(expression) < 80 else f"{expression[:40]} .. {expression[-20:]}"


def main():
    words = sys.argv[2:] or list(WAYS)
    if len(sys.argv) < 2 or not set(words) <= set(WAYS):
        print("usage: compare.py PROGRAM [names|list|save|refusals ..]", file=sys.stderr)
        sys.exit(2)
    program = os.path.abspath(sys.argv[1])
    if not os.access(program, os.X_OK):
        sys.exit(f"compare.py: no such program: {program}")
    passed, failed = 0, 0
    try:
        table = rows()
    except (OSError, ValueError) as fault:
        sys.exit(f"compare.py: {fault}")
    for row in table:
        for name, difference in compared(program, row, words):
            if difference is None:
                passed += 1
            else:
                failed += 1
                print(f"{name} {shown(row.expression)}: {difference}")
    if passed + failed == 0:
        sys.exit("compare.py: nothing was compared")
    print(f"{passed} passed, {failed} failed")
    sys.exit(1 if failed else 0)


if __name__ == "__main__":
    main()
