"""The names of some vertices."""

from __future__ import annotations

import operator
import sys
from typing import Any, Iterator, Optional, Sequence, SupportsIndex, Union, overload

from . import _library

# where one of so many names was asked for, all are cut out
MANY = 8
# so many names are fetched and cut out at once: few enough that what is made on the way stays near
PIECE = 4_096


class Names(Sequence[str]):
    """The names of some vertices, one after another: a sequence of str, which cannot be changed.

    `Graph.names` and `Rows.names` make it. It is equal to a list of the same names and printed like one; a slice of it,
    and what is added to it, are lists. The names stand in texts: one that is asked for is cut out alone, and all when
    they are first gone through, or many were asked for. `list(names)` is a list of them, where one is wanted, as by
    `json.dumps`.
    """

    def __init__(self, pieces: list[tuple[bytes, Any]], begin: int, count: int) -> None:
        # texts of PIECE names each, or fewer in the last one, and where in its text each name starts, and then where the
        # last one ends; these names are those from number `begin` of the first text on
        self._pieces, self._begin, self._count = pieces, begin, count
        self._cut: Optional[list[str]] = None
        self._asked = 0

    def _all(self) -> list[str]:
        if self._cut is None:
            names: list[str] = []
            for text, starts in self._pieces:
                names += _cut_out(text, starts)
            del names[self._begin + self._count :], names[: self._begin]
            self._cut = names
        return self._cut

    def part(self, begin: int, end: int) -> Names:
        """The names from number `begin` on and before `end`, which are there."""
        if (begin, end) == (0, len(self)):
            return self
        first, skipped = divmod(self._begin + begin, PIECE)
        return Names(self._pieces[first : -(-(self._begin + end) // PIECE)], skipped, end - begin)

    def __len__(self) -> int:
        return self._count

    def __iter__(self) -> Iterator[str]:
        return iter(self._all())

    @overload
    def __getitem__(self, k: SupportsIndex) -> str: ...
    @overload
    def __getitem__(self, k: slice) -> list[str]: ...
    def __getitem__(self, k: Union[SupportsIndex, slice]) -> Union[str, list[str]]:
        if self._cut is not None:
            return self._cut[k]
        if isinstance(k, slice):
            begin, end, step = k.indices(len(self))
            return list(self.part(begin, max(begin, end))) if step == 1 else self._all()[k]
        place = operator.index(k)
        if place < 0:
            place += len(self)
        if not 0 <= place < len(self):
            raise IndexError(f"no name {k}: there are {len(self)}")
        self._asked += 1
        if MANY * self._asked > len(self):
            return self._all()[place]
        piece, number = divmod(self._begin + place, PIECE)
        text, starts = self._pieces[piece]
        return text[int(starts[number]) : int(starts[number + 1])].decode(errors="surrogateescape")

    def __contains__(self, name: object) -> bool:
        return name in self._all()

    def index(self, name: str, start: SupportsIndex = 0, stop: SupportsIndex = sys.maxsize) -> int:
        """The first place of this name. ValueError where it is not there."""
        return self._all().index(name, start, stop)

    def __eq__(self, other: object) -> bool:
        if isinstance(other, (list, Names)):
            return self._all() == (other._all() if isinstance(other, Names) else other)
        return NotImplemented

    __hash__ = None  # type: ignore[assignment]

    def __add__(self, other: Sequence[str]) -> list[str]:
        if isinstance(other, (list, Names)):
            return [*self, *other]
        return NotImplemented

    def __radd__(self, other: list[str]) -> list[str]:
        return [*other, *self] if isinstance(other, list) else NotImplemented

    def __repr__(self) -> str:
        return repr(self._all())

    def __reduce__(self) -> Any:
        return _made_again, ([(text, starts.tobytes()) for text, starts in self._pieces], self._begin, self._count)


def _made_again(pieces: list[tuple[bytes, bytes]], begin: int, count: int) -> Names:
    """The names that were pickled, in another process."""
    return Names([(text, _library.array_of("Q", starts)) for text, starts in pieces], begin, count)


def fetched(held: _library.Held, first: int, count: int) -> Names:
    """The names of a run of the graph, piece by piece."""
    pieces = []
    for begin in range(first, first + max(count, 1), PIECE):
        many = min(PIECE, first + count - begin)
        size = held.number("sgb_names_size", begin, many)
        starts, names = _library.Array("Q", many + 1), _library.Array("B", size)
        held.call("sgb_names", begin, many, *starts.words, *names.words)
        pieces.append((names.bytes(), starts.seen()))
    return Names(pieces, 0, count)


def _cut_out(text: bytes, starts: Any) -> list[str]:
    """The names of a piece: of their lines, which are split at once. No name has a newline in it."""
    places = starts.tobytes(), len(starts)
    lines = _library.Array("B", len(text) + len(starts) - 1)
    _library.must(_library.lib.sgb_name_lines(*places, text, len(text), *lines.words))
    names = str(lines.seen(), "utf-8", "surrogateescape").split("\n")
    names.pop()
    return names
