#!/usr/bin/env python3
"""Holds sgb and the published library of GraphBase against each other: conformance/graphbase.py SGB GRAPHBASE [WORD ..]

    make graphbase GRAPHBASE=FOLDER

SGB is the program, GRAPHBASE is graphbase.c compiled with the library. For each row of graphs.tsv both write names, list
and save; each file that sgb saves is read by restore_graph, and each that save_graph writes is read by sgb. Then come a few
expressions at the library's limits, and random numbers. With words, only those are held whose text has one of them.

Two answers are the same, or a rule of README.md explains how they differ, or they are different. The last line counts the
three; the status is 1 where something is different.
"""

import collections
import hashlib
import itertools
import os
import re
import sys

sys.path.insert(0, os.path.dirname(os.path.abspath(__file__)))
sys.dont_write_bytecode = True
import compare

MOST_DIMENSIONS = 91
MOST_ID = 154  # bytes of an id in a file
MOST_VERTICES = 262_135
MOST_PIECE = 2**31 - 1
MOST_SUM = 10**9

# beside the rows: expressions on both sides of the library's limits
A_LONG_ID = "complement(" * 5 + "board(10,0,0,0,1,0,0)" + ",0,0,0)" * 5
BORDERS = [
    "board(1,-91,0,0,1,0,0)",
    "board(1,-92,0,0,1,0,0)",
    "simplex(1,-91,0,0,0,0,0)",
    "simplex(1,-92,0,0,0,0,0)",
    f"gunion({A_LONG_ID},board(4,0,0,0,1,10000000001,0),0,0)",
    f"gunion({A_LONG_ID},board(4,0,0,0,1,100000000001,0),0,0)",
    "board(262135,0,0,0,2,0,0)",
    "board(262136,0,0,0,2,0,0)",
    "simplex(9,3,4,5,6,-7,0)",
    "induced(petersen(),[-1,-1,0,2,complete(3),-3,1,1,1,1],0,1,1)",
]
NUMBERS = [
    "flip(-314159,0,200,0)",
    "flip(-314159,133,3,1431655765)",
    "flip(0,0,60,0)",
    "flip(2147483647,54,3,6)",
    "flip(2147483648,1000,20,1000)",
    "flip(12345678901,5000,10,2147483648)",
    "flip(271828,100000,10,1)",
]

# What the program says where the library has no such call, with the rule that it is.
REASONS = {
    "size_bits wider than a long": "size_bits of more bits than a long",
    "a number wider than a long": "numbers that a long does not have",
    "a negative number where it has an unsigned one": "negative numbers that GraphBase takes as unsigned",
    "an entry of a billion or more, which stands for a graph": "entries of a billion or more",
    "a list of too few or too many entries": "a list of entries, one for each vertex",
}
TEXTS = "texts that are no expression, which GraphBase does not read"


class Programs:
    """The two programs. What they answered for the expression at hand is kept, so that none is asked twice."""

    def __init__(self, sgb, graphbase):
        self.sgb, self.graphbase = sgb, graphbase
        self.kept = {}

    def forget(self):
        self.kept.clear()

    def answer(self, program, words, given):
        request = program, words, given
        if request not in self.kept:
            self.kept[request] = compare.run(program, *words, given=given)
        return self.kept[request]

    def ours(self, *words, given=None):
        return self.answer(self.sgb, words, given)

    def theirs(self, *words, given=None):
        return self.answer(self.graphbase, words, given)


# ---------------------------------------------------------------------------------------------------------------------
# Listings as graphs


def head_and_blocks(listing):
    """The id, and each vertex's name with its arcs as (name, length)."""
    lines = listing.decode("ascii").split("\n")
    if len(lines) < 5 or lines[-1]:
        return None
    blocks = []
    for line in lines[4:-1]:
        arc = re.fullmatch(r"  -> (.*), length (-?[0-9]+)", line)
        if arc and blocks:
            blocks[-1][1].append((arc[1], int(arc[2])))
        else:
            blocks.append((line, []))
    return lines[1], blocks


def in_any_order(blocks):
    """The same vertices in their order, each with its arcs in any order."""
    return [(name, sorted(arcs)) for name, arcs in blocks]


def each_once(blocks):
    return [(name, sorted(set(arcs))) for name, arcs in blocks]


def without_lengths(blocks):
    return [(name, [tip for tip, _ in arcs]) for name, arcs in blocks]


def least_lengths(ours, theirs):
    """Whether the arcs are the same but for lengths, and none of ours is longer."""
    if without_lengths(ours) != without_lengths(theirs):
        return False
    return all(a <= b for (_, one), (_, other) in zip(ours, theirs) for (_, a), (_, b) in zip(one, other))


# ---------------------------------------------------------------------------------------------------------------------
# What an expression has in it


def calls(expression, name):
    """The arguments of each call of a form whose arguments are numbers."""
    for found in re.finditer(rf"(?<![a-z_]){name}\(([-0-9a-fA-Fx,]*)\)", expression):
        yield [int(text, 0 if text.startswith("0x") else 10) for text in found[1].split(",") if text]


def dimensions(sizes, repeated):
    """How many dimensions these sizes, or bounds, are for; `repeated` is what a -d stands for beside d."""
    for place, size in enumerate([*sizes, 0]):
        if size <= 0:
            return place if size == 0 else -size + repeated
    return 0


def most_dimensions(expression):
    """The most that a board, a simplex or subsets of the expression has: coordinates less one for the last two."""
    found = [dimensions(args[:4], 0) for args in calls(expression, "board")]
    for name in ("simplex", "subsets"):
        found += [dimensions(args[1:6], 1) - 1 for args in calls(expression, name)]
    found += [args[0] - 1 for args in calls(expression, "disjoint_subsets")]
    return max(found, default=0)


def subexpressions(expression):
    """Each call in the expression, with its own arguments."""
    begun = []
    for place, byte in enumerate(expression):
        if byte == "(":
            begin = place
            while begin > 0 and (expression[begin - 1].isalpha() or expression[begin - 1] == "_"):
                begin -= 1
            begun.append(begin)
        elif byte == ")":
            yield expression[begun.pop():place + 1]


def most_vertices(programs, expression):
    """The most vertices that the expression or a part of it has."""
    most = 0
    for part in subexpressions(expression):
        got = programs.ours("names", part)
        most = max(most, got.out.count(b"\n"))
    return most


def reorders(expression):
    """Whether it has an operation whose order of events is this project's own."""
    return bool(re.search(r"intersection\(|lines\(|product\(", expression))


# ---------------------------------------------------------------------------------------------------------------------
# Which rule explains a difference. Each answers the rule, or None.


def why_refused(programs, expression, ours, theirs):
    """The library refused, or has no such call, and sgb answered."""
    if theirs.status == 4:
        said = re.fullmatch(rb"graphbase: not in GraphBase: (.*)\n", theirs.err)
        return REASONS.get(said[1].decode()) if said else None
    code = code_of(theirs)
    if code is None or ours.status != 0:
        return None
    if code // 10 == 3 and most_dimensions(expression) > MOST_DIMENSIONS:
        return f"dimensions above {MOST_DIMENSIONS}"
    if code < 10 and most_vertices(programs, expression) > MOST_VERTICES:
        return f"more than {MOST_VERTICES:,} vertices"
    return None


def code_of(got):
    said = re.fullmatch(rb"Something went wrong \(panic code (-?[0-9]+)\)!\n", got.err)
    return int(said[1]) if said and got.status == 1 and not got.out else None


def why_list(expression, ours, theirs):
    one, other = head_and_blocks(ours.out), head_and_blocks(theirs.out)
    if not one or not other or one[0] != other[0]:
        return None
    if "gunion(" in expression and least_lengths(one[1], other[1]):
        return "the least length of three or more parallel arcs of a union"
    if reorders(expression) and in_any_order(one[1]) == in_any_order(other[1]):
        return "order of events of intersections, lines and direct products"
    if "lines(" in expression and each_once(one[1]) == each_once(other[1]):
        return "lines of parallel edges, joined once"
    return None


def why_save(programs, expression, ours, theirs):
    unhashed = programs.theirs("unhashed", expression)
    if unhashed.out == ours.out:
        return "hash links of simplex"
    # the library's file tells of the library's graph, and that has a list which a rule explains
    listed = programs.ours("list", expression), programs.theirs("list", expression)
    again = programs.ours("list", "stdin", given=theirs.out)
    if again.out != listed[1].out:
        return None
    if not listed[0].out.partition(b"arcs:\n\n")[2] and without_types(theirs.out) == without_types(ours.out):
        return "fields in use of a graph without vertices"
    if listed[0].out == listed[1].out and reorders(expression):
        return "order of events of intersections, lines and direct products"
    return why_list(expression, *listed)


def without_types(file):
    """A file without the letters of its first line."""
    return re.sub(rb"(?<=util_types )[A-Z]{14}(?=,)", b"", file, count=1)


def short_id(file):
    """A file with the id X, and a checksum that is not compared; its id may go on over lines."""
    first, _, rest = file.partition(b"\n")
    joined = re.sub(rb'^"(?:[^"\\]|\\\n)*"', b'"X"', rest)
    return first + b"\n" + re.sub(rb"\* Checksum [0-9]+\n$", b"* Checksum -1\n", joined)


def id_of(listing):
    return listing.split(b"\n")[1] if listing.count(b"\n") > 3 else b""


def with_id(listing, name):
    lines = listing.split(b"\n")
    return b"\n".join([lines[0], name, *lines[2:]])


def why_restored(programs, saved, listed):
    """The library does not read sgb's file as sgb's graph."""
    if len(id_of(listed.out)) > MOST_ID:
        again = programs.theirs("list", "stdin", given=short_id(saved.out))
        if again.status == 0 and again.out == with_id(listed.out, b"X"):
            return f"ids above {MOST_ID} bytes in files"
    if listed.out.count(b"\n") > MOST_VERTICES and code_of(programs.theirs("list", "stdin", given=saved.out)) is not None:
        return f"more than {MOST_VERTICES:,} vertices"
    return None


def why_read(filed, listed, seen):
    """sgb does not read the library's file as the library's graph."""
    name = id_of(listed.out)
    is_rest_same = with_id(seen.out, b"X") == with_id(listed.out, b"X")
    if len(name) > MOST_ID and filed.err and is_rest_same and id_of(seen.out)[:140] == name[:140]:
        return f"ids above {MOST_ID} bytes in files"
    return None


# ---------------------------------------------------------------------------------------------------------------------
# Holding


def held_graph(programs, expression):
    """Each comparison of a graph: its name, and True, a rule, or what differs."""
    listed = {}
    for command in compare.COMMANDS:
        ours, theirs = programs.ours(command, expression), programs.theirs(command, expression)
        if command == "list":
            listed = {"ours": ours, "theirs": theirs}
        yield command, outcome(programs, expression, command, ours, theirs)
    saved = programs.ours("save", expression)
    restored = programs.theirs("list", "stdin", given=saved.out)
    yield "restored", restored == listed["ours"] or why_restored(programs, saved, listed["ours"]) or told(
        listed["ours"], restored)
    if listed["theirs"].status == 0:
        filed = programs.theirs("file", expression)
        seen = programs.ours("list", "stdin", given=filed.out)
        yield "read", seen == listed["theirs"] or why_read(filed, listed["theirs"], seen) or told(
            seen, listed["theirs"])


def outcome(programs, expression, command, ours, theirs):
    if ours == theirs and ours.status == 0:
        return True
    if ours.status == 0 and theirs.status == 0 and not ours.err and not theirs.err:
        if command == "list":
            rule = why_list(expression, ours, theirs)
        elif command == "save":
            rule = why_save(programs, expression, ours, theirs)
        else:
            rule = None
    else:
        rule = why_refused(programs, expression, ours, theirs)
    return rule or told(ours, theirs)


def told(ours, theirs):
    """The first line that differs, or else the whole of both answers."""
    if ours.status == theirs.status == 0 and ours.out != theirs.out:
        pairs = itertools.zip_longest(ours.out.split(b"\n"), theirs.out.split(b"\n"))
        number, (one, other) = next((n, pair) for n, pair in enumerate(pairs, 1) if pair[0] != pair[1])
        return Different(f"line {number}: sgb {one}, GraphBase {other}")
    return Different(f"sgb {brief(ours)}, GraphBase {brief(theirs)}")


class Different(str):
    """What differs, without a rule that explains it."""


def brief(got):
    out = got.out if len(got.out) < 200 else got.out[:100] + b" .. " + got.out[-60:]
    return f"({got.status}) {out!r} {got.err!r}"


def held_refusal(programs, row):
    """A refused expression: both refuse it by the same ten of codes."""
    ours, theirs = programs.ours("names", row.expression), programs.theirs("names", row.expression)
    if row.status == 2:
        is_text = (ours.status, theirs.status) == (2, 2)
        return TEXTS if is_text else told(ours, theirs)
    code = code_of(theirs)
    if code is not None and code_of(ours) == code // 10 * 10:
        return True
    if theirs.status == 4:
        return why_refused(programs, row.expression, ours, theirs) or told(ours, theirs)
    if theirs.status == 0 and code_of(ours) == 40:
        if any(abs(args[4]) > MOST_PIECE for args in calls(row.expression, "board")):
            return f"pieces above {MOST_PIECE:,}"
        if any(args[0] > MOST_SUM for name in ("simplex", "subsets") for args in calls(row.expression, name)):
            return f"sums above {MOST_SUM:,}"
    return told(ours, theirs)


def held_row(programs, row):
    """Each comparison of a row, after one of sgb itself with the row."""
    if isinstance(row, compare.Refusal):
        yield "refused", held_refusal(programs, row)
        return
    for command in compare.COMMANDS:
        if hashlib.sha256(programs.ours(command, row.expression).out).hexdigest() != row.sums[command]:
            yield command, Different("sgb itself does not answer as the row says: make conformance")
            return
    yield from held_graph(programs, row.expression)


def held_numbers(programs, text):
    ours, theirs = programs.ours("flip", text), programs.theirs("flip", text)
    is_same = ours == theirs and ours.status == 0 and bool(ours.out)
    yield "flip", is_same or why_refused(programs, text, ours, theirs) or told(ours, theirs)


def all_held(programs, words):
    """Each comparison: of what, which, and its result."""
    try:
        to_hold = [(row.expression, held_row, row) for row in compare.rows()]
    except (OSError, ValueError) as fault:
        sys.exit(f"graphbase.py: {fault}")
    to_hold += [(expression, held_graph, expression) for expression in BORDERS]
    to_hold += [(text, held_numbers, text) for text in NUMBERS]
    for text, held, what in to_hold:
        if words and not any(word in text for word in words):
            continue
        programs.forget()
        for name, result in held(programs, what):
            yield text, name, result


def main():
    if len(sys.argv) < 3:
        print("usage: graphbase.py SGB GRAPHBASE [WORD ..]", file=sys.stderr)
        sys.exit(2)
    paths = [os.path.abspath(path) for path in sys.argv[1:3]]
    for path in paths:
        if not os.access(path, os.X_OK):
            sys.exit(f"graphbase.py: no such program: {path}")
    programs = Programs(*paths)
    same, rules, different = collections.Counter(), collections.defaultdict(list), 0
    for expression, what, result in all_held(programs, sys.argv[3:]):
        if result is True:
            same[what] += 1
        elif isinstance(result, Different):
            different += 1
            print(f"different: {what} {compare.shown(expression)}: {result}")
        else:
            rules[result].append(f"{what} {compare.shown(expression)}")
    print("the same: " + ", ".join(f"{count} {what}" for what, count in same.items()))
    for rule, found in sorted(rules.items()):
        print(f"by rule, {len(found)}: {rule}")
        for one in found:
            print(f"  {one}")
    if not same and not rules and not different:
        sys.exit("graphbase.py: nothing was held")
    by_rule = sum(len(found) for found in rules.values())
    print(f"{sum(same.values())} the same, {by_rule} different by rule, {different} different")
    sys.exit(1 if different else 0)


if __name__ == "__main__":
    main()
