"""Graphs of names and events, and operations on two of them, plainly after the definitions in crates/sgb_ops/specs: a model for
checks/from_outside/c_operations.py, since the program makes no operation on two graphs of files.

An event is (from, to, length): an arc, or an edge. A link of a list is (number of its record, tip, length).
"""

import string

# printable, without a quotation mark, a backslash or the signs that lines between answers have
LETTERS = string.ascii_letters + string.digits + "+*/<>#.'"
FAR = [1, 1, 1, 2, 3, 0, -5, 2**40 + 7, -(2**40), 2**63 - 1, -(2**63)]


class Plain:
    """A graph of events."""

    def __init__(self, names, events, directed, title):
        self.names, self.events, self.directed, self.id = names, events, directed, title
        self.n = len(names)
        self.lists = [[] for _ in names]
        for number, (start, tip, length) in self.numbered():
            self.lists[start].append((number, tip, length))
        # later events come first, and the two records of a loop in their order
        for v, links in enumerate(self.lists):
            links.sort(key=lambda link: (-self.event_of(link[0]), link[0]))

    def records(self):
        """Of each event its records: an edge is two, the first of them at the smaller end."""
        found = []
        for start, tip, length in self.events:
            if self.directed:
                found.append((start, tip, length))
            else:
                low, high = sorted((start, tip))
                found += [(low, high, length), (high, low, length)]
        return found

    def numbered(self):
        return enumerate(self.records())

    def event_of(self, number):
        return number if self.directed else number // 2

    def taken(self, directed, v):
        """The arcs of v that count for a result: all, or of each edge the one at its smaller end, and of a loop one."""
        if directed:
            return self.lists[v]
        found, skipped = [], None
        for number, tip, length in self.lists[v]:
            if number == skipped:
                skipped = None
                continue
            skipped = None
            if tip >= v:
                found.append((number, tip, length))
                skipped = number + 1 if tip == v else None
        return found

    def listing(self):
        lines = ["  The graph whose official name is", self.id, f"  has {self.n} vertices and {len(self.records())} arcs:", ""]
        for name, links in zip(self.names, self.lists):
            lines.append(name)
            lines += [f"  -> {self.names[tip]}, length {length}" for _, tip, length in links]
        return "".join(line + "\n" for line in lines).encode()

    def file(self):
        """A `.gb` file of the graph, whose lines are short where names are."""
        def arc(number):
            return "0" if number is None else f"A{number}"

        following = {}
        for links in self.lists:
            following.update(zip([number for number, *_ in links], [number for number, *_ in links[1:]]))
        records = self.records()
        lines = [f"* GraphBase graph (util_types {'Z' * 14},{self.n}V,{len(records)}A)"]
        lines += [f'"{self.id}",{self.n},{len(records)}', "* Vertices"]
        lines += [f'"{name}",{arc(links[0][0] if links else None)}' for name, links in zip(self.names, self.lists)]
        lines.append("* Arcs")
        lines += [f"V{tip},{arc(following.get(number))},{length}" for number, (_, tip, length) in enumerate(records)]
        return "".join(line + "\n" for line in [*lines, "* Checksum -1"])

    def given(self):
        """What c_operations makes the graph of."""
        lines = [f"{self.n} {len(self.events)} {int(self.directed)} {self.id}", *self.names]
        lines += [f"{start} {tip} {length}" for start, tip, length in self.events]
        return "".join(line + "\n" for line in lines)


def random_graph(dice, most_vertices=7, most_events=10):
    """A graph of some vertices with names and an id, loops and parallel arcs among its own."""
    def text(most):
        return "".join(dice.choices(LETTERS, k=dice.randint(1, most)))

    n = dice.randint(0, most_vertices)
    events = [(dice.randrange(n), dice.randrange(n), dice.choice(FAR)) for _ in range(dice.randint(0, most_events) if n else 0)]
    return Plain([text(12) for _ in range(n)], events, dice.random() < 0.5, text(20))


def merged(events, directed):
    """Of events with the same ends the first, with the least length of them."""
    found = {}
    for start, tip, length in events:
        ends = (start, tip) if directed else tuple(sorted((start, tip)))
        if ends in found:
            found[ends][2] = min(found[ends][2], length)
        else:
            found[ends] = [start, tip, length]
    return list(map(tuple, found.values()))


def gunion(g, h, multi, directed):
    events = []
    for v in range(g.n):
        events += [(v, tip, length) for _, tip, length in g.taken(directed, v)]
        if v < h.n:
            events += [(v, tip, length) for _, tip, length in h.taken(directed, v) if tip < g.n]
    title = f"gunion({g.id},{h.id},{multi},{directed})"
    return Plain(g.names, events if multi else merged(events, directed), directed, title)


def intersection(g, h, multi, directed):
    events = []
    for v in range(min(g.n, h.n)):
        own, others = g.taken(directed, v), h.taken(directed, v)
        for place, (_, tip, length) in enumerate(others):
            in_own = [far for _, end, far in own if end == tip]
            in_others = [far for _, end, far in others if end == tip]
            most = min(len(in_own), len(in_others)) if multi else min(1, len(in_own), len(in_others))
            if sum(end == tip for _, end, _ in others[:place]) < most:
                events.append((v, tip, max(min(in_own), length if multi else min(in_others))))
    return Plain(g.names, events, directed, f"intersection({g.id},{h.id},{multi},{directed})")


def product(g, h, kind, directed):
    single = [(x * h.n + y, x * h.n + tip, far) for y in range(h.n) for _, tip, far in h.taken(directed, y) for x in range(g.n)]
    single += [(x * h.n + y, tip * h.n + y, far) for x in range(g.n) for _, tip, far in g.taken(directed, x) for y in range(h.n)]
    both = [(x * h.n + y, a * h.n + b, min(far, other)) for x in range(g.n) for y in range(h.n)
            for _, a, far in g.taken(directed, x) for _, b, other in h.lists[y]]
    events = [single, both, single + both][kind]
    names = [f"{a},{b}" for a in g.names for b in h.names]
    return Plain(names, events, directed, f"product({g.id},{h.id},{kind},{directed})")


class Places:
    """The vertices that stand in the place of each vertex, for `induced`: merged ones come first."""

    def __init__(self, g, entries):
        count = max([-entry for entry in entries if isinstance(entry, int) and entry < 0], default=0)
        self.names, self.copies = [f"-{k}" for k in range(1, count + 1)], []
        for name, entry in zip(g.names, entries):
            if isinstance(entry, int) and entry < 0:
                self.copies.append([-entry - 1])
                continue
            first, called = len(self.names), names_of(name, entry)
            self.names += called
            self.copies.append(list(range(first, first + len(called))))


def names_of(name, entry):
    """The names of what stands in the place of a vertex alone."""
    if isinstance(entry, Plain):
        return [f"{name}:{other}" for other in entry.names]
    return [[], [name], [name, name + "'"]][entry] if entry < 3 else [f"{name}:{k}" for k in range(entry)]


def induced(g, entries, self_loops, multi, directed):
    places = Places(g, entries)
    events = [
        (copies[w], copies[tip], far) for entry, copies in zip(entries, places.copies) if isinstance(entry, Plain)
        for w in range(entry.n) for _, tip, far in entry.taken(directed, w)
    ]
    for v in range(g.n):
        for u in places.copies[v]:
            for _, tip, far in g.taken(directed, v):
                events += [(u, t, far) for t in places.copies[tip] if directed or tip != v or u <= t]
    events = [event for event in events if self_loops or event[0] != event[1]]
    title = f"induced({g.id},,{self_loops},{multi},{directed})"
    return Plain(places.names, events if multi else merged(events, directed), directed, title)


def on_two(dice, graphs, operands, operation):
    """An operation on two graphs, for c_operations, and the listing of what it makes."""
    (g, h), flags = graphs, [dice.randint(0, 1) for _ in range(3)]
    name = dice.choice(["gunion", "intersection", "product", "induced"])
    if name == "product":
        flags[0] = dice.randint(0, 2)
    if name != "induced":
        made = {"gunion": gunion, "intersection": intersection, "product": product}[name](g, h, *flags[:2])
        return operation(name, flags[:2], operands), made.listing()
    entries = [h if dice.random() < 0.4 else dice.choice([0, 1, 1, 2, 3, -1, -3]) for _ in range(g.n)]
    words = [operands[1] if isinstance(entry, Plain) else type(operands[1])(str(entry)) for entry in entries]
    return operation(name, flags, [operands[0], *words]), induced(g, entries, *flags).listing()
