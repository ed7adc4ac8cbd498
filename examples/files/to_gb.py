#!/usr/bin/env python3
"""Writes the .gb file of a graph that comes in another form, for the expression `stdin`.

    examples/files/to_gb.py edges < graph.txt | sgb list stdin
    examples/files/to_gb.py dimacs graph.col | sgb list "lines(stdin,0)"
    examples/files/to_gb.py graph6 --graph 3 six.g6 > third.gb
    geng -q 6 | examples/files/to_gb.py graph6 --all six

The forms:

    edges       A line for each edge: two names and perhaps a length, with tabs, commas, semicolons or blanks between
                them, as CSV; a name alone is a vertex. A name in quotes is what stands there. A line that begins with
                # or % and a blank is a comment, and so is that sign alone. Vertices are in the order in which they are
                met. convert.awk writes such lines. What can be read in two ways is refused, with the option that says
                which is meant: --sep tab, comma, semicolon or blank; --header or --no-header; --comments '#%', signs
                that begin a comment whatever comes next; --columns 1,2,3, which ones are the ends and the length.
    dimacs      "p edge N M" and lines "e 1 2", which are edges, or "p sp N M" and lines "a 1 2 7", which are arcs.
    metis       Edges, with their weights or without; vertices have no weights.
    mtx         Matrix Market, coordinates: symmetric entries are edges, general ones arcs from row to column.
    graph6, sparse6, digraph6   Of nauty. Where a file has several, a line each, --graph K picks one, and --all DIR
                writes all into the folder DIR, as 1.gb, 2.gb, ..: none if a line is wrong or the folder is not empty.
    graphml, gml   By networkx, where that is installed. The names are the attribute `name` or `label` where all have
                it, else the ids; lengths are the attribute `weight`.

Vertices that have numbers in a form are named 0, 1, .. Numbers are integers in any writing: 5, 5.0 or 5e0. The file is
of UTF-8, and names have ASCII alone: --names escape writes other characters as URLs do (%C3%BC), --names numbers names
all vertices 0, 1, .. --directed takes edges for arcs. --id TEXT is the official name; if it is not said, it has a sum of
all that the graph is. The list of a vertex has its arcs in the order in which they are given. What GraphBase cannot
have, as a length of 1.5, is refused with its line, and the status is 1.

What the package sgb has in memory goes in by its calls from_edges and from_networkx.
"""

import argparse
import gc
import hashlib
import os
import string
import sys
import urllib.parse

HERE = os.path.dirname(os.path.abspath(__file__))
# the package itself wants the library, and the writer of files does not
sys.path[1:1] = [os.path.join(os.path.dirname(os.path.dirname(HERE)), "python/sgb")]

import _files  # noqa: E402  (the folder is put on the path above)
import given_bits  # noqa: E402
import given_edges  # noqa: E402
import given_numbers  # noqa: E402
import given_others  # noqa: E402
from given import Wrong  # noqa: E402

FORMS = {
    "edges": given_edges.edges, "dimacs": given_numbers.dimacs, "metis": given_numbers.metis, "mtx": given_numbers.matrix,
    "graph6": given_bits.of_nauty, "sparse6": given_bits.of_nauty, "digraph6": given_bits.of_nauty,
    "graphml": given_others.graphml, "gml": given_others.gml,
}
# options that some forms have
OF_FORMS = {
    "sep": ["edges"], "header": ["edges"], "comments": ["edges"], "columns": ["edges"],
    "graph": [*given_bits.READERS], "all": [*given_bits.READERS], "names": ["edges", "graphml", "gml"],
}
SAFE = "".join(sorted(set(string.printable[:95]) - set('%"\\')))


def text_of(data):
    """The text of a file, whose lines end as anywhere."""
    try:
        text = data.decode("utf-8-sig")
    except UnicodeDecodeError as why:
        line = data[: why.start].count(b"\n") + 1
        raise Wrong("the file is not of UTF-8: iconv -f latin1 -t utf-8 makes it so where it is Latin-1", line) from None
    return text.replace("\r\n", "\n")


def names_of(given, how):
    """The names of the vertices, those that GraphBase may have."""
    if given.names is None or how == "numbers":
        return [str(v) for v in range(given.n)]
    names = given.names
    if how == "escape":
        names = [urllib.parse.quote(name, safe=SAFE) for name in names]
    for name, raw in zip(names, given.names) if not _files.are_plain(names) else ():
        try:
            _files.text_of(name, _files.LONGEST_STRING, "a name")
        except ValueError as why:
            raise Wrong(f"{why}; --names escape or --names numbers has it", given.line_of(raw)) from None
    return names


def file_of(given, names, title):
    """The .gb file, with an id that tells graphs apart if none is said: sizes, and a sum of all that the graph is."""
    arcs = _files.Arcs(given.n)
    arcs.fill(given.tails, given.tips, given.lengths, given.directed)
    file = _files.File(names, arcs)
    if title is None:
        title = f"given({file.n},{file.m},0x{hashlib.sha256(file.of('')).hexdigest()[:16]})"
    return file.of(title)


def options():
    reader = argparse.ArgumentParser(
        description=__doc__.partition("\n")[0], epilog="The head of this script tells the forms and their options."
    )
    reader.add_argument("form", choices=FORMS)
    reader.add_argument("file", nargs="?", help="the graph; standard input if it is not said")
    reader.add_argument("--directed", action="store_true", help="whether edges are arcs")
    reader.add_argument("--id", metavar="TEXT", help="the official name")
    reader.add_argument("--names", choices=["escape", "numbers"], help="what is done with names that are not of ASCII")
    reader.add_argument("--graph", type=int, metavar="K", help="which graph of a file of several, from 1")
    reader.add_argument("--all", metavar="DIR", help="the folder for the files of all graphs of a file of several")
    reader.add_argument("--sep", choices=given_edges.SEPARATORS, help="what stands between the words of a line")
    reader.add_argument("--header", action=argparse.BooleanOptionalAction, help="whether the first line is a head")
    reader.add_argument("--comments", metavar="SIGNS", help="what begins a comment")
    reader.add_argument("--columns", metavar="A,B[,C]", help="which words are the ends and the length, from 1")
    words = reader.parse_intermixed_args()
    for option, forms in OF_FORMS.items():
        if getattr(words, option) is not None and words.form not in forms:
            reader.error(f"--{option} is for {', '.join(forms)}")
    if words.all is not None and (words.graph is not None or words.id is not None):
        reader.error("--all is for all graphs, --graph and --id are for one")
    return words


def write_all(text, words):
    """Writes the files of all graphs, if all are right."""
    for given in given_bits.all_of(text, words):
        _files.Arcs(given.n)  # whether a graph may have so many vertices
    os.makedirs(words.all, exist_ok=True)
    if os.listdir(words.all):
        raise Wrong(f"the folder {words.all} is not empty")
    for number, given in enumerate(given_bits.all_of(text, words), 1):
        with open(os.path.join(words.all, f"{number}.gb"), "wb") as file:
            file.write(file_of(given, names_of(given, None), None))


def main():
    words = options()
    gc.disable()  # much is made here, and nothing of it is garbage
    try:
        if words.file:
            with open(words.file, "rb") as file:
                data = file.read()
        else:
            data = sys.stdin.buffer.read()
        text = text_of(data)
        if words.all is not None:
            write_all(text, words)
            return
        given = FORMS[words.form](text, words)
        made = file_of(given, names_of(given, words.names), words.id)
    except (Wrong, ValueError, OSError) as why:
        sys.exit(f"to_gb.py: {why}")
    sys.stdout.buffer.write(made)


if __name__ == "__main__":
    main()
