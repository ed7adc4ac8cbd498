"""The calls of libsgb.so, on Windows sgb.dll: what they take, the arrays that they fill, and what their answers mean."""

from __future__ import annotations

import contextlib
import ctypes
import os
import threading
import weakref
from typing import Any, Optional, Sequence

try:
    import numpy
except ImportError:
    numpy = None  # type: ignore[assignment]

BAD_EXPRESSION = 1000
# the words of each answer, as include/sgb.h has them
ANSWERS = {
    1: "out of memory",
    10: "the head of the .gb file is wrong",
    11: "the end of the .gb file is wrong",
    20: "a record of the .gb file is wrong",
    30: "parameters that make no sense",
    40: "parameters that ask for too much",
    60: "a graph that the operation cannot take",
    100: "the expression is too large",
    101: "an array has another length than it must have",
    102: "there is no such field, or it holds no integers",
    103: "a uniform draw has a bound from 1 to 2^31",
    104: "a graph is open",
    105: "no graph is open",
    106: "there are not so many vertices",
    107: "a name or an id is no text",
    108: "more vertices or arcs than a graph may have",
}
VERSION = "1.2.0"
# another first number means other calls
MAJOR = int(VERSION.partition(".")[0])


class GraphError(ValueError):
    """Why there is no graph.

    It can be pickled and copied, so that it comes out of another process as it was raised there.

    Attributes
    ----------
    code : int
        The library's answer: GraphBase's panic code where it is below 100.
    byte : int or None
        Of a bad expression the length of the longest prefix that begins one, else None.
    """

    def __init__(self, code: int) -> None:
        self.code = code
        self.byte: Optional[int] = code - BAD_EXPRESSION if code >= BAD_EXPRESSION else None
        if self.byte is None:
            super().__init__(f"{ANSWERS.get(code, 'something went wrong')} (code {code})")
        else:
            super().__init__(f"bad expression at byte {self.byte}")

    def __reduce__(self) -> Any:
        # an exception is made again from its `args`, which are its words: this one is made from its code
        return type(self), (self.code,), self.__dict__


class Sizes(ctypes.Structure):
    """How large a graph is."""

    _fields_ = [("vertices", ctypes.c_uint64), ("id", ctypes.c_uint64)]


class Handle(ctypes.Structure):
    """A graph that is open, or none."""

    _fields_ = [("held", ctypes.c_void_p), ("is_open", ctypes.c_bool)]


class EntryList(ctypes.Structure):
    """A list of entries of `induced`."""

    _fields_ = [("held", ctypes.c_void_p), ("is_held", ctypes.c_bool)]


_ARRAY = [ctypes.c_void_p, ctypes.c_size_t]
_TEXT = [ctypes.c_char_p, ctypes.c_size_t]
_ON = [ctypes.POINTER(Handle)]
_RUN = [*_ON, ctypes.c_uint32, ctypes.c_uint32]
_NUMBER = [ctypes.POINTER(ctypes.c_uint64)]
_FLAG = [ctypes.c_bool]
_INTEGER = [ctypes.c_int64]
_ENTRIES = [ctypes.POINTER(EntryList)]
# the calls of sgb.h: what each takes, and what it answers
CALLS: dict[str, Any] = {
    "sgb_open": (_TEXT + _TEXT + _ON, ctypes.c_uint64),
    "sgb_close": (_ON, None),
    "sgb_sizes": (_ON + [ctypes.POINTER(Sizes)], ctypes.c_uint64),
    "sgb_arcs": (_ON + _NUMBER, ctypes.c_uint64),
    "sgb_rows_size": (_RUN + _NUMBER, ctypes.c_uint64),
    "sgb_names_size": (_RUN + _NUMBER, ctypes.c_uint64),
    "sgb_rows": (_RUN + 3 * _ARRAY, ctypes.c_uint64),
    "sgb_tips": (_RUN + 2 * _ARRAY, ctypes.c_uint64),
    "sgb_names": (_RUN + 2 * _ARRAY, ctypes.c_uint64),
    "sgb_name_lines": (3 * _ARRAY, ctypes.c_uint64),
    "sgb_ints": (_ON + 3 * [ctypes.c_uint32] + _ARRAY, ctypes.c_uint64),
    "sgb_id": (_ON + _ARRAY, ctypes.c_uint64),
    "sgb_kinds": (_ON + _ARRAY, ctypes.c_uint64),
    "sgb_file_size": (_ON + _NUMBER, ctypes.c_uint64),
    "sgb_file": (_ON + _ARRAY, ctypes.c_uint64),
    "sgb_draws": ([ctypes.c_int64, ctypes.c_uint64] + _ARRAY, None),
    "sgb_uniform_draws": ([ctypes.c_int64, ctypes.c_uint64, ctypes.c_uint32] + _ARRAY, ctypes.c_uint64),
    "sgb_make": (5 * _ARRAY + _FLAG + _TEXT + _ON, ctypes.c_uint64),
    "sgb_complement": (_ON + 3 * _FLAG + _ON, ctypes.c_uint64),
    "sgb_lines": (_ON + _FLAG + _ON, ctypes.c_uint64),
    "sgb_gunion_of": (2 * _ON + 2 * _FLAG + _ON, ctypes.c_uint64),
    "sgb_gunion_self": (_ON + 2 * _FLAG + _ON, ctypes.c_uint64),
    "sgb_intersection_of": (2 * _ON + 2 * _FLAG + _ON, ctypes.c_uint64),
    "sgb_intersection_self": (_ON + 2 * _FLAG + _ON, ctypes.c_uint64),
    "sgb_product_of": (2 * _ON + _INTEGER + _FLAG + _ON, ctypes.c_uint64),
    "sgb_product_self": (_ON + _INTEGER + _FLAG + _ON, ctypes.c_uint64),
    "sgb_entries_number": (_ENTRIES + _INTEGER, ctypes.c_uint64),
    "sgb_entries_graph": (_ENTRIES + _ON, ctypes.c_uint64),
    "sgb_entries_close": (_ENTRIES, None),
    "sgb_induced_by": (_ON + _ENTRIES + 3 * _FLAG + _ON, ctypes.c_uint64),
    "sgb_bi_complete": (2 * _INTEGER + _FLAG + _ON, ctypes.c_uint64),
    "sgb_wheel": (2 * _INTEGER + _FLAG + _ON, ctypes.c_uint64),
    "sgb_version": ([], ctypes.c_uint64),
}


def _path() -> str:
    if path := os.environ.get("SGB_LIBRARY"):
        return path
    here = os.path.dirname(os.path.abspath(__file__))
    top = os.path.dirname(os.path.dirname(here))
    name = "sgb.dll" if os.name == "nt" else "libsgb.so"
    places = [os.path.join(folder, name) for folder in (here, top)]
    # that which the system finds has the name that programs keep of it
    return next(filter(os.path.exists, places), name if os.name == "nt" else f"{name}.{MAJOR}")


def _library() -> ctypes.CDLL:
    path = _path()
    try:
        library = ctypes.CDLL(path)
        for name, (takes, answers) in CALLS.items():
            call = getattr(library, name)
            call.argtypes, call.restype = takes, answers
    except (OSError, AttributeError) as why:
        raise ImportError(f"{why}: `make lib` makes libsgb.so, and SGB_LIBRARY may name it") from None
    version = library.sgb_version()
    if version // 1_000_000 != MAJOR:
        raise ImportError(f"{path} has calls of version {version // 1_000_000}, and those of version {MAJOR} are wanted")
    return library


lib = _library()


def must(answer: int) -> None:
    """Raises what an answer means, where it is not 0."""
    if answer == 1:
        raise MemoryError("out of memory (code 1)")
    if answer:
        raise GraphError(answer)


_TYPES: dict[str, Any] = {"B": ctypes.c_uint8, "I": ctypes.c_uint32, "Q": ctypes.c_uint64, "q": ctypes.c_int64}


class Array:
    """An array of so many numbers: what C is handed, and what Python sees, which it cannot change."""

    def __init__(self, code: str, count: int) -> None:
        self.code, self.count = code, count
        if count >= 2**56:
            raise MemoryError(f"out of memory: an array of {count} numbers")
        self.kept: Any
        # one place more than is handed over, so that there is always an address
        if numpy is None:
            self.kept = (_TYPES[code] * (count + 1))()
            address = ctypes.addressof(self.kept)
        else:
            self.kept = numpy.empty(count + 1, dtype=code)
            address = self.kept.ctypes.data
        self.words = (address, count)

    def seen(self) -> Any:
        """The numbers: a numpy array, or a memory view."""
        if numpy is None:
            return memoryview(self.kept).cast("B").cast(self.code)[: self.count].toreadonly()
        self.kept.flags.writeable = False
        return self.kept[: self.count]

    def bytes(self) -> bytes:
        """The same as bytes."""
        return bytes(self.seen())


# an address that fits every type, for arrays without places
_PLACE = ctypes.c_uint64()
NOWHERE = ctypes.addressof(_PLACE)


def array_of(code: str, data: bytes) -> Any:
    """The numbers that these bytes hold, as `Array.seen` shows them."""
    return memoryview(data).cast(code) if numpy is None else numpy.frombuffer(data, dtype=code)


class Held:
    """A graph that the library holds, until it is closed, or until nothing leads to this object any more.

    It is what a call makes, which is handed these words, and then the handle. Its lock is that of all that is asked of it.
    """

    def __init__(self, name: str, *words: Any) -> None:
        self._handle, self.lock = Handle(), threading.RLock()
        must(getattr(lib, name)(*words, self._handle))
        _all_held.add(self)

    @property
    def is_open(self) -> bool:
        """Whether the graph is held."""
        return bool(self._handle.is_open)

    def call(self, name: str, *words: Any) -> None:
        """A call on the graph: one at a time. ValueError where it is closed."""
        with self.lock:
            if not self._handle.is_open:
                raise ValueError("the graph is closed: only what was asked for before is there")
            must(getattr(lib, name)(self._handle, *words))

    def number(self, name: str, *words: Any) -> int:
        """A call that says a number."""
        number = ctypes.c_uint64()
        self.call(name, *words, number)
        return number.value

    def close(self) -> None:
        """Gives the graph back."""
        with self.lock:
            # taken away first: what a fork sees of it is open, or closed
            handle, self._handle = self._handle, Handle()
            lib.sgb_close(handle)

    def __del__(self) -> None:
        # nobody else has it any more; where it was not made in full, its handle may not be there
        if handle := getattr(self, "_handle", None):
            lib.sgb_close(handle)


_all_held: weakref.WeakSet[Held] = weakref.WeakSet()


def _renew_locks() -> None:
    """A lock that another thread held when this process was forked would stay so: that thread is not there.

    Its call is not there either, and has changed nothing: calls on a graph that is open leave it as it is.
    """
    for held in _all_held:
        held.lock = threading.RLock()


# Windows has no fork
if hasattr(os, "register_at_fork"):
    os.register_at_fork(after_in_child=_renew_locks)


def made_of(operands: Sequence[Held], name: str, *words: Any) -> Held:
    """The graph that a call makes of these operands, which stay as they are. ValueError where one is closed.

    Each is used by this call alone while it runs; of one that comes twice there is one lock, and all are taken in one order.
    """
    with contextlib.ExitStack() as stack:
        for operand in sorted(set(operands), key=id):
            stack.enter_context(operand.lock)
        if not all(operand.is_open for operand in operands):
            raise ValueError("the graph is closed")
        made = Held(name, *(operand._handle for operand in operands), *words)
    return made


class Entries:
    """A list of entries of `induced`, until nothing leads to it any more."""

    def __init__(self) -> None:
        self.held = EntryList()

    def add_number(self, number: int) -> None:
        """One more entry, a number."""
        must(lib.sgb_entries_number(self.held, number))

    def add_graph(self, graph: Held) -> None:
        """One more entry, a copy of the graph, which may be closed then. ValueError where it is closed before."""
        with graph.lock:
            if not graph.is_open:
                raise ValueError("a graph among the entries is closed")
            must(lib.sgb_entries_graph(self.held, graph._handle))

    def __del__(self) -> None:
        if held := getattr(self, "held", None):
            lib.sgb_entries_close(held)


def expression(text: object) -> bytes:
    """The bytes of an expression."""
    if not isinstance(text, str):
        more = ", which .decode() makes one" if isinstance(text, (bytes, bytearray)) else ""
        raise TypeError(f"an expression is a str, and this is {type(text).__name__}{more}")
    return text.encode(errors="surrogatepass")


def input_bytes(given: Any) -> bytes:
    """The bytes that are handed in, or stand in the file."""
    if given is None:
        return b""
    if isinstance(given, str) and "\n" in given:
        raise TypeError("a str as input is the path of a file, and this is the text of one: .encode() makes bytes of it")
    if isinstance(given, (str, os.PathLike)):
        with open(given, "rb") as file:
            return file.read()
    if hasattr(given, "read"):
        given = given.read()
        if isinstance(given, str):
            raise TypeError("the input is a file that is open for text: it has to be open for bytes, with mode 'rb'")
    try:
        return bytes(memoryview(given))
    except TypeError:
        said = f"the input is bytes, a path, an open file or a graph, and this is {type(given).__name__}"
        raise TypeError(said) from None
