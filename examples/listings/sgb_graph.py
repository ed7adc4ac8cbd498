"""Graphs of the Stanford GraphBase in Python, by the program sgb.

    import sgb_graph
    listing = sgb_graph.read("petersen()")
    listing.id, listing.n, listing.m        # 'subsets(2,1,-4,0,0,0,0x1,0)', 10, 30
    for name, arcs in listing:              # the vertices in order, each with its arcs in list order
        for tip, length in arcs:
            ...

    graph = sgb_graph.to_networkx(sgb_graph.read("board(3,3,0,0,1,0,0)"))

It needs the program alone, and is for those, and for listings of any length. The package in python/ makes whole graphs
as arrays by the library for C, in a tenth of the time.

`read` parses the listing as the program writes it, so a listing of any length takes the memory of one vertex's arcs. A
listing is a stream that is read once: it can be gone through once, or handed once to `to_edges` or `to_networkx`. What
comes after that is refused, also where the first pass was cut short. `close`, or a `with`, ends the program of one that
is not gone through to its end. Needs Python's library alone; `to_networkx` needs networkx.

A refusal is a Fault. A listing that does not tell what was asked for is a ValueError: where it was begun before, or is
closed; where it has another number of vertices or arcs than its head says, as where a vertex's name, in a file, looks
like the line of an arc; and in `to_edges` and `to_networkx` also where two vertices have one name, since a listing has
names alone (a line graph of parallel edges is such), where an arc leads to no vertex, and where arcs do not come in
pairs as edges do, unless `directed` says that they are arcs. These two give nothing before all of the listing was read
and found right.
"""

import collections
import re
import subprocess
import tempfile

_ARC = re.compile(r"  -> (.*), length (-?[0-9]+)\n?\Z", re.DOTALL)
_SIZES = re.compile(r"  has ([0-9]+) vertices and ([0-9]+) arcs:\n\Z")
_CODE = re.compile(r"Something went wrong \(panic code ([0-9]+)\)!\Z")


class Fault(Exception):
    """A request that was refused, or stopped. It can be pickled and copied.

    Attributes
    ----------
    status : int
        The program's exit status.
    line : str
        What it said.
    code : int or None
        The panic code in that line, if there is one.
    """

    def __init__(self, status, line):
        super().__init__(line or "sgb ended with status %d" % status)
        self.status = status
        self.line = line
        found = _CODE.match(line)
        self.code = int(found.group(1)) if found else None

    def __reduce__(self):
        # what Python would make it of again are its words alone
        return type(self), (self.status, self.line), self.__dict__


class Listing:
    """A listing under way: it is iterated once, over pairs of a vertex's name and the list of its arcs (tip, length).

    `iter` of a listing that was begun before, whether to its end or not, or that is closed, is a ValueError.

    Attributes
    ----------
    id : str
        The graph's official name.
    n, m : int
        The numbers of vertices and arcs, as the head says. Where the expression is `stdin`, m is what the file says,
        and it is not compared.
    """

    def __init__(self, process, kept, is_file=False):
        self._process = process
        self._kept = kept
        self._is_file = is_file
        lines = [process.stdout.readline() for _ in range(4)]
        sizes = _SIZES.match(lines[2])
        if lines[0] != "  The graph whose official name is\n" or not sizes or lines[3] != "\n":
            self._end()
            raise ValueError("no head of a listing: %r" % lines)
        self.id = lines[1][:-1]
        self.n = int(sizes.group(1))
        self.m = int(sizes.group(2))
        self._blocks = self._read_blocks()

    def __iter__(self):
        if self._blocks is None:
            raise ValueError("the listing was begun before, and is a stream that is read once: make another by read")
        if self._process.stdout.closed:
            raise ValueError("the listing is closed: make another by read")
        blocks, self._blocks = self._blocks, None
        return blocks

    def __reduce__(self):
        raise TypeError("a listing is a stream that is read once, and is not copied: make another by read")

    def __enter__(self):
        return self

    def __exit__(self, *_):
        self.close()

    def _read_blocks(self):
        try:
            name, arcs, blocks, tips, line = None, [], 0, 0, "\n"
            for line in self._process.stdout:
                arc = _ARC.match(line) if name is not None else None
                if arc:
                    arcs.append((arc.group(1), int(arc.group(2))))
                    tips += 1
                else:
                    if name is not None:
                        yield name, arcs
                    name, arcs = line[:-1], []
                    blocks += 1
            # What was cut off in its middle is not given as a vertex.
            self._end()
            if not line.endswith("\n"):
                raise ValueError("the listing is cut off in the middle of a line")
            if blocks != self.n or (tips != self.m and not self._is_file):
                said = "the head has %d vertices and %d arcs, the listing %d and %d"
                raise ValueError(said % (self.n, self.m, blocks, tips))
            if name is not None:
                yield name, arcs
        finally:
            self.close()

    def _end(self):
        """Waits for the program, and raises its fault if it has one."""
        line = self._process.stderr.read().rstrip("\n")
        status = self._process.wait()
        self.close()
        if status:
            raise Fault(status, line)

    def close(self):
        """Ends the program, if it still runs."""
        if self._process.poll() is None:
            self._process.kill()
            self._process.wait()
        self._process.stdout.close()
        self._process.stderr.close()
        if self._kept:
            self._kept.close()


def read(expression, input=None, program="sgb"):
    """The listing of an expression.

    Parameters
    ----------
    expression : str
    input : bytes, bytearray, binary file with a descriptor, or None
        What `stdin` in the expression reads.
    program : str
        The program sgb.

    Returns
    -------
    Listing

    Raises
    ------
    Fault
        Where the request is refused, and, while the listing is gone through, where it is cut off.
    ValueError
        Where what the program writes is no listing.
    """
    kept = None
    if isinstance(input, (bytes, bytearray)):
        kept = tempfile.TemporaryFile()
        kept.write(input)
        kept.seek(0)
    process = subprocess.Popen(
        [program, "list", expression],
        stdin=kept or input or subprocess.DEVNULL,
        stdout=subprocess.PIPE,
        stderr=subprocess.PIPE,
        encoding="ascii",
    )
    return Listing(process, kept, expression == "stdin")


def to_edges(listing, directed=False):
    """The edges of a listing, or its arcs. The whole listing is read and kept first.

    An edge stands on the lists of both its ends, and a loop twice on its vertex's list, with one length. Arcs that come
    in such pairs by chance are taken for edges.

    Parameters
    ----------
    listing : Listing
        One that was not begun.
    directed : bool
        Whether arcs are meant.

    Returns
    -------
    iterator of (name, tip, length)
        Each arc, in order; unless `directed`, of each edge the arc that is on the list of the end that comes first, and
        of a loop the first of two.

    Raises
    ------
    ValueError
        Where arcs do not come in pairs, unless `directed`; where two vertices have one name, or an arc leads to no
        vertex; where the listing is not what its head says, or was begun before, or is closed.
    Fault
        Where the listing is cut off.
    """
    return iter(_edges(_lists(listing), directed))


def _lists(listing):
    """The arcs of each name."""
    lists = {}
    # a listing that was begun before is refused, and stays open for who began it
    blocks = iter(listing)
    with listing:
        for name, arcs in blocks:
            if name in lists:
                raise ValueError("two vertices have the name %r, and a listing has names alone" % name)
            lists[name] = arcs
    for name, arcs in lists.items():
        for tip, _ in arcs:
            if tip not in lists:
                raise ValueError("no vertex has the name %r, but an arc leads there from %r" % (tip, name))
    return lists


def _edges(lists, directed):
    arcs = [(name, tip, length) for name, list_ in lists.items() for tip, length in list_]
    if directed:
        return arcs
    counts = collections.Counter(arcs)
    for (name, tip, length), count in counts.items():
        if count % 2 if name == tip else count > counts[tip, name, length]:
            said = "the arc from %r to %r, length %d, is no edge, since none leads back: " % (name, tip, length)
            raise ValueError(said + "directed=True where arcs are meant")
    places = {name: place for place, name in enumerate(lists)}
    loops = collections.Counter()
    edges = []
    for arc in arcs:
        name, tip, _ = arc
        if name == tip:
            loops[arc] += 1
        if loops[arc] % 2 if name == tip else places[name] < places[tip]:
            edges.append(arc)
    return edges


def to_networkx(listing, directed=False):
    """The graph of a listing in networkx, with the lengths as `weight`, and the id as the graph's name.

    Parameters
    ----------
    listing : Listing
        One that was not begun.
    directed : bool
        Whether arcs are meant.

    Returns
    -------
    networkx.MultiGraph, or MultiDiGraph where `directed`
        Its nodes are the names of the vertices, in order, and its edges those of `to_edges`.

    Raises
    ------
    ValueError, Fault
        As from `to_edges`.
    """
    lists = _lists(listing)
    edges = _edges(lists, directed)
    # a listing that is refused is refused where networkx is not there, too
    import networkx

    graph = networkx.MultiDiGraph() if directed else networkx.MultiGraph()
    graph.graph["name"] = listing.id
    # the vertices as they come, and also those without arcs
    graph.add_nodes_from(lists)
    graph.add_weighted_edges_from(edges)
    return graph
