"""Arcs or edges of a graph of one's own, as the library is handed them: one after another, in arrays.

An event is an arc or an edge: where it begins, where it leads, its length. Where numpy is there the arrays are numpy's, and
those that are handed in are taken as they are, if they are of the type that C has; else they are Python's.
"""

from __future__ import annotations

import array
import hashlib
import operator
from typing import Any, Iterable, Optional

from . import _files, _library

try:
    import numpy
except ImportError:
    numpy = None  # type: ignore[assignment]

# the bits of what numpy has for the types of `array`
DTYPES = {"I": "uint32", "q": "int64", "Q": "uint64"}


def is_array(values: object) -> bool:
    """Whether these values are an array of numpy."""
    return numpy is not None and isinstance(values, numpy.ndarray)


def count(n: int) -> int:
    """A number of vertices that a graph may have, or ValueError."""
    if not 0 <= n <= _files.MOST_VERTICES:
        raise ValueError(f"a graph has at most {_files.MOST_VERTICES} vertices, and there are {n}")
    return n


def bounds(values: Any) -> tuple[int, int]:
    """The least and the greatest of some integers; 0 and -1 where there are none."""
    if is_array(values):
        return (int(values.min()), int(values.max())) if values.size else (0, -1)
    return min(values, default=0), max(values, default=-1)


def integers(values: Any) -> Any:
    """Ends of arcs as integers, an array of numpy as it is; TypeError where they are none."""
    if not is_array(values):
        return [operator.index(value) for value in values]
    if values.ndim != 1 or (values.dtype.kind not in "iu" and values.size):
        raise TypeError(f"the ends of arcs are integers in one dimension, and this is {values.dtype} in {values.ndim}")
    return values


def ends(values: Any, n: int) -> Any:
    """Such integers as an array; ValueError where one is no vertex of n."""
    least, greatest = bounds(values)
    if least < 0 or greatest >= n:
        raise ValueError(f"there are {n} vertices, and there is an arc of vertex {least if least < 0 else greatest}")
    return packed("I", values)


def falls(places: Any) -> bool:
    """Whether a list would end before it begins."""
    if is_array(places):
        return bool((places[1:] < places[:-1]).any())
    return any(a > b for a, b in zip(places, places[1:]))


def tails_of(places: Any) -> Any:
    """Of each arc the vertex on whose list it is."""
    if is_array(places):
        sizes = (places[1:] - places[:-1]).astype("int64")
        return numpy.repeat(numpy.arange(len(sizes), dtype="uint32"), sizes)
    return [v for v, (a, b) in enumerate(zip(places, places[1:])) for _ in range(a, b)]


def lengths(values: Any, many: int) -> Any:
    """The lengths of so many arcs as an array, 1 each where they are not said; ValueError where one is none."""
    if values is None:
        return numpy.ones(many, dtype="int64") if numpy is not None else array.array("q", [1]) * many
    if not is_array(values):
        return packed("q", [_files.length_of(value) for value in values])
    if values.ndim != 1:
        raise TypeError(f"lengths are an array of one dimension, and this has {values.ndim}")
    is_plain = values.dtype.kind == "i" or (values.dtype.kind == "u" and values.dtype.itemsize < 8)
    return packed("q", values if is_plain else [_files.length_of(value) for value in values.tolist()])


def packed(code: str, values: Any) -> Any:
    """The same numbers as an array of this type, one after another: what is such an array is not copied."""
    if numpy is not None:
        return numpy.ascontiguousarray(values, dtype=DTYPES[code])
    return array.array(code, values)


def handed(values: Any) -> tuple[Any, int]:
    """An array as C takes it: where it is, and how many places it has. It has to be kept while the call runs."""
    if not len(values):
        return _library.NOWHERE, 0
    return (values.ctypes.data, values.size) if numpy is not None else values.buffer_info()


class Events:
    """Arcs, or edges, of n vertices."""

    def __init__(self, n: int, tails: Any, tips: Any, sizes: Any, directed: bool) -> None:
        if not len(tails) == len(tips) == len(sizes):
            raise ValueError(f"there are {len(tails)} arcs by where they begin, {len(tips)} by where they lead, {len(sizes)} lengths")
        self.n, self.tails, self.tips, self.lengths, self.directed = n, tails, tips, sizes, directed

    @property
    def m(self) -> int:
        """How many arcs they make."""
        return len(self.tips) * (1 if self.directed else 2)

    def turned(self) -> Events:
        """The same in the other order."""
        tails, tips, sizes = (packed(code, column[::-1]) for code, column in zip("IIq", (self.tails, self.tips, self.lengths)))
        return Events(self.n, tails, tips, sizes, self.directed)

    def ordered(self) -> tuple[Any, Any]:
        """Of each the two ends, of an edge the smaller one first."""
        if self.directed:
            return self.tails, self.tips
        if numpy is not None:
            return numpy.minimum(self.tails, self.tips), numpy.maximum(self.tails, self.tips)
        return array.array("I", map(min, self.tails, self.tips)), array.array("I", map(max, self.tails, self.tips))

    def records(self) -> _files.Arcs:
        """The same as a file has them."""
        arcs = _files.Arcs(self.n)
        add = arcs.arc if self.directed else arcs.edge
        for event in zip(self.tails.tolist(), self.tips.tolist(), self.lengths.tolist()):
            add(*event)
        return arcs


class Names:
    """The names of n vertices, their numbers where none are said: the bytes of all, and where each begins and ends."""

    def __init__(self, names: Optional[Iterable[str]], n: int) -> None:
        self.all = [str(v) for v in range(n)] if names is None else list(names)
        if len(self.all) != n:
            raise ValueError(f"there are {len(self.all)} names, and {n} vertices")
        if names is not None:
            for name in self.all:
                _files.text_of(name, _files.LONGEST_STRING, "a name")
        self.bytes = "".join(self.all).encode()
        at, places = 0, [0]
        for name in self.all:
            at += len(name)
            places.append(at)
        self.starts = packed("Q", places)


def own_id(names: Names, events: Events) -> str:
    """An id that tells graphs apart, of events as the library is handed them: how many vertices and arcs there are, and a sum of all
    that the graph is."""
    found = hashlib.sha256(b"%d %d\n" % (events.n, events.m))
    for part in (names.starts, names.bytes, *events.ordered(), events.lengths):
        found.update(memoryview(part).cast("B") if len(part) else b"")
    return f"given({events.n},{events.m},0x{found.hexdigest()[:16]})"


def made(names: Names, events: Events, id: str) -> _library.Held:  # noqa: A002
    """The graph of these events, one after another: of each list the last one comes first."""
    title = _files.text_of(id, _files.LONGEST_ID, "an id").encode()
    words = [*handed(names.starts), names.bytes, len(names.bytes)]
    for column in (events.tails, events.tips, events.lengths):
        words += handed(column)
    return _library.Held("sgb_make", *words, events.directed, title, len(title))
