"""The .gb file of a graph that is given by its arcs (GB_SAVE). It needs nothing but Python.

The list of a vertex has its arcs in the order in which they are given. An edge is two arcs there and back, whose
records follow each other, that on the list of the smaller end first; so is a loop, whose two arcs follow each other
on one list. """

from __future__ import annotations

import operator
import re
from typing import Any, Sequence

MOST_VERTICES = 1_000_000_000
LONGEST_ID = 160
LONGEST_STRING = 4095
LONGEST_LINE = 79
MODULUS = 2**30 - 83
NONE = -1  # the number of no record
# what bytes count for in the checksum, from 0 on (GB_IO, imap)
_COUNTED = (
    b"0123456789ABCDEFGHIJKLMNOPQRSTUVWXYZabcdefghijklmnopqrstuvwxyz_^~&@,;.:?!%#$+-*/|\\<=>()[]{}`'\" \n"
)
_VALUES = bytes(max(_COUNTED.find(byte), 0) for byte in range(256))


def text_of(text: object, longest: int, what: str) -> str:
    """The text, where it is one that a graph may have."""
    if not isinstance(text, str):
        raise TypeError(f"{what} is a str, and this is {type(text).__name__}: {text!r:.60}")
    if len(text) > longest:
        raise ValueError(f"{what} has at most {longest} bytes, and there is one of {len(text)}: {text[:40]!r} ..")
    if not (text.isascii() and text.isprintable()) or '"' in text or "\\" in text:
        raise ValueError(f"{what} has printable ASCII alone, without quotation mark and backslash: {text!r:.60}")
    return text


def _text(text: object, longest: int, what: str) -> str:
    """A text as a string of the file, in its quotes."""
    return f'"{text_of(text, longest, what)}"'


def length_of(length: Any) -> int:
    """The length of an arc, which is an integer of 64 bits; a floating number of such a value will do."""
    try:
        number = int(length) if isinstance(length, float) and length.is_integer() else operator.index(length)
    except TypeError:
        raise ValueError(f"the length of an arc is an integer, and there is one of {length!r:.40}") from None
    if not -(2**63) <= number < 2**63:
        raise ValueError(f"the length of an arc has 64 bits with its sign, and there is one of {number}")
    return number


class Arcs:
    """The records of arcs of a graph of n vertices, and its lists."""

    def __init__(self, n: int) -> None:
        if not 0 <= n <= MOST_VERTICES:
            raise ValueError(f"a graph has at most {MOST_VERTICES} vertices, and there are {n}")
        self.tips: list[int] = []
        self.lengths: list[int] = []
        self.following: list[int] = []  # the record that comes next on its list, or NONE
        self.firsts = [NONE] * n
        self._lasts = [NONE] * n

    def _add(self, v: int, tip: int, length: int) -> None:
        place = len(self.tips)
        self.tips.append(tip)
        self.lengths.append(length)
        self.following.append(NONE)
        last = self._lasts[v]
        if last == NONE:
            self.firsts[v] = place
        else:
            self.following[last] = place
        self._lasts[v] = place

    def _vertex(self, v: Any) -> int:
        number = operator.index(v)
        if not 0 <= number < len(self.firsts):
            raise ValueError(f"there are {len(self.firsts)} vertices, and there is an arc of vertex {number}")
        return number

    def arc(self, v: Any, tip: Any, length: Any = 1) -> None:
        """One more arc, the last one of its list."""
        self._add(self._vertex(v), self._vertex(tip), length_of(length))

    def edge(self, v: Any, tip: Any, length: Any = 1) -> None:
        """One more edge, the last one of both lists."""
        small, great = sorted((self._vertex(v), self._vertex(tip)))
        number = length_of(length)
        self._add(small, great, number)
        self._add(great, small, number)

    def fill(self, tails: Sequence[int], tips: Sequence[int], lengths: Sequence[int], directed: bool) -> None:
        """What `arc` or `edge` does of each in turn, where all are known to be right, and the only ones."""
        firsts, owners, leads = self.firsts, tails, tips
        if not directed:
            small = [v if v <= tip else tip for v, tip in zip(tails, tips)]
            great = [tip if v <= tip else v for v, tip in zip(tails, tips)]
            owners, leads = [NONE] * (2 * len(tips)), [NONE] * (2 * len(tips))
            owners[::2], owners[1::2] = small, great
            leads[::2], leads[1::2] = great, small
            lengths = [length for length in lengths for _ in (0, 1)]
        following = [NONE] * len(owners)
        for place in range(len(owners) - 1, -1, -1):
            v = owners[place]
            following[place] = firsts[v]
            firsts[v] = place
        self.tips += leads
        self.following += following
        self.lengths += lengths


def checksum(data: bytes) -> int:
    """The checksum of lines (GB_IO, new_checksum): the value at 2 of the polynomial of what its bytes count for."""
    found = 0
    for at in range(0, len(data), 65536):
        part = data[at : at + 65536].translate(_VALUES)
        power = pow(2, len(part), MODULUS)
        # every eighth byte, from each of the first eight on: the digits of a number to base 2^8
        part = bytes(-len(part) % 8) + part
        value = sum(int.from_bytes(part[place::8], "big") << 7 - place for place in range(8))
        found = (found * power + value) % MODULUS
    return found


def _lines(fields: Sequence[str]) -> str:
    """A record as the lines of the file, none of which is longer than the reader of the published programs takes."""
    whole = ",".join(fields)
    if len(whole) <= LONGEST_LINE:
        return whole + "\n"
    lines, current = [], ""
    for place, field in enumerate(fields, 1):
        piece = field + "," * (place < len(fields))
        if len(current) + len(piece) > LONGEST_LINE:
            if current:
                lines.append(current)
            while len(piece) > LONGEST_LINE:
                lines.append(piece[: LONGEST_LINE - 1] + "\\")
                piece = piece[LONGEST_LINE - 1 :]
            current = ""
        current += piece
    return "".join(line + "\n" for line in [*lines, current])


def are_plain(names: Sequence[str]) -> bool:
    """Whether all are names that a graph may have, and so short that a record with one is one line."""
    try:
        whole = "".join(names)
    except TypeError:
        return False
    is_text = whole.isascii() and whole.isprintable() and '"' not in whole and "\\" not in whole
    return is_text and max(map(len, names), default=0) <= 60


def _vertex_lines(names: Sequence[str], arcs: Arcs) -> str:
    if are_plain(names):
        whole = "".join([f'"{name}",A{first}\n' for name, first in zip(names, arcs.firsts)])
        return whole.replace(f'",A{NONE}\n', '",0\n')
    return "".join([_lines([_text(name, LONGEST_STRING, "a name"), "0" if first == NONE else f"A{first}"])
                    for name, first in zip(names, arcs.firsts)])


def _arc_lines(arcs: Arcs) -> str:
    """Records of arcs, each of which is one line."""
    parts = []
    for at in range(0, len(arcs.tips), 4096):
        fields = [arcs.tips[at : at + 4096], arcs.following[at : at + 4096], arcs.lengths[at : at + 4096]]
        records = "V%d,A%d,%d\n" * len(fields[0])
        met = set(fields[2])
        if len(met) < 256:
            # few lengths, each of which is written once
            written = {length: "V%%d,A%%d,%d\n" % length for length in met}
            records = "".join(map(written.__getitem__, fields.pop()))
        some = [0] * (len(fields) * len(fields[0]))
        for place, field in enumerate(fields):
            some[place :: len(fields)] = field
        parts.append((records % tuple(some)).replace(f",A{NONE},", ",0,"))
    return "".join(parts)


class File:
    """The file of a graph, with a name for each vertex, but for its id."""

    def __init__(self, names: Sequence[str], arcs: Arcs) -> None:
        self.n, self.m = len(arcs.firsts), len(arcs.tips)
        vertices, records = _vertex_lines(names, arcs), _arc_lines(arcs).encode()
        self.text = b"".join([b"* Vertices\n", vertices.encode(), b"* Arcs\n", records])
        # a line that begins so is left out, also where a string that was broken goes on with a star
        counted = (re.sub(r"^\*.*\n", "", vertices, flags=re.MULTILINE) if "\n*" in vertices else vertices).encode()
        self._size = len(counted) + len(records)
        self._sum = (checksum(counted) * pow(2, len(records), MODULUS) + checksum(records)) % MODULUS

    def of(self, id: str) -> bytes:  # noqa: A002
        """The file of the graph that has this id."""
        title = _lines([_text(id, LONGEST_ID, "an id"), str(self.n), str(self.m)])
        first = checksum(re.sub(r"^\*.*\n", "", title, flags=re.MULTILINE).encode())
        summed = (first * pow(2, self._size, MODULUS) + self._sum) % MODULUS
        head = f"* GraphBase graph (util_types {'Z' * 14},{self.n}V,{self.m}A)\n{title}".encode()
        return b"".join([head, self.text, f"* Checksum {summed}\n".encode()])


def gb_file(names: Sequence[str], arcs: Arcs, id: str) -> bytes:  # noqa: A002
    """The file of a graph, with a name for each vertex."""
    return File(names, arcs).of(id)
