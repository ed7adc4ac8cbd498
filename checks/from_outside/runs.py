"""Runs of the program, what is counted of them, and the files and requests that several checks have."""

import collections
import contextlib
import mmap
import os
import resource
import signal
import struct
import subprocess
import sys

TOP = os.path.dirname(os.path.dirname(os.path.dirname(os.path.abspath(__file__))))
PROGRAM = os.path.abspath(sys.argv[1]) if len(sys.argv) > 1 else os.path.join(TOP, "sgb")
SECONDS = int(os.environ.get("OUTSIDE_SECONDS", "60"))  # that one run may take
MOST = 100_000_000  # bytes that a run may take where it has to take little
ENDLESS = 2**64 - 1

WRITE_FAULT = (3, b"sgb: write fault\n")
READ_FAULT = (3, b"sgb: read fault\n")
USAGE = (2, b"usage: sgb (names|list) EXPR [--after NAME|--skip K], sgb save EXPR, sgb queen, sgb flip EXPR\n")

# what `save "complete(2)"` writes, and the answers on that file
FILE = b"""\
* GraphBase graph (util_types ZZZIIIZZZZZZZZ,2V,2A)
"board(2,0,0,0,-1,0,0)",2,2
* Vertices
"0",A0,0,0,0
"1",A1,1,0,0
* Arcs
V1,0,1
V0,0,1
* Checksum 1066721325
"""
ANSWERS = {
    "names": b"0\n1\n",
    "list": b"  The graph whose official name is\nboard(2,0,0,0,-1,0,0)\n  has 2 vertices and 2 arcs:\n\n"
    b"0\n  -> 1, length 1\n1\n  -> 0, length 1\n",
    "save": FILE,
}

# the smallest file, and the answers on it
SMALLEST = b"""\
* GraphBase graph (util_types ZZZZZZZZZZZZZZ,0V,0A)
"",0,0
* Vertices
* Arcs
* Checksum 10363
"""
NO_VERTICES = {
    "names": b"",
    "list": b"  The graph whose official name is\n\n  has 0 vertices and 0 arcs:\n\n",
    "save": SMALLEST,
}

BAD = (2, b"sgb: bad expression at byte 8\n")  # of `board(3,`
MANY_SIDES = (1, b"Something went wrong (panic code 30)!\n")  # of a board of more dimensions than there may be
# one request of each status, with its input: 0, then faults of words, of texts, of graphs, of names, of files
STATUSES = [
    (("names", "complete(2)"), b"", (0, b"")),
    (("list", "stdin"), FILE, (0, b"")),
    (("list", "complete(2)", "--after", "0", "--skip", "1"), b"", USAGE),
    (("list", "board(3,"), b"", BAD),
    (("save", "board(2,-251,0,0,1,0,0)"), b"", MANY_SIDES),
    (("list", "board(1,-251,0,0,1,0,0)"), b"", MANY_SIDES),
    (("names", "complete(2)", "--after", "2"), b"", (1, b"sgb: no such vertex\n")),
    (("names", "stdin"), b"", (1, b"Something went wrong (panic code 10)!\n")),
]
# whose outputs go to devices that fail
WRITTEN = [
    ("names", "board(2,3,0,0,1,0,0)"),
    ("list", "simplex(2,0,0,0,0,0,0)"),
    ("queen",),
    ("save", "complete(2)"),
]


def code(number):
    return 1, b"Something went wrong (panic code %d)!\n" % number


# What a run came to: its status, what it wrote, and what it used.
Got = collections.namedtuple("Got", "status out err usage")


def said(got):
    """The parts that an answer has."""
    return got.status, got.out, got.err


class Library:
    """checks/from_outside/preloaded.c, preloaded: its page of orders, and of what happened."""

    ORDERS = struct.Struct("4Q")
    EVENTS = struct.Struct("6Q")
    Events = collections.namedtuple("Events", "calls refused most outputs errors late")

    def __init__(self, folder):
        self.path = os.path.join(folder, "outside.so")
        source = os.path.join(TOP, "checks", "from_outside", "preloaded.c")
        subprocess.run(["cc", "-O2", "-shared", "-fPIC", "-o", self.path, source], check=True)
        executable = os.environ.get("OUTSIDE_PROGRAM", PROGRAM)
        place = os.path.join(folder, "page")
        with open(place, "wb") as file:
            file.write(bytes(80) + os.fsencode(os.path.realpath(executable)).ljust(2048, b"\0"))
        with open(place, "r+b") as file:
            self.page = mmap.mmap(file.fileno(), 0)
        self.environment = dict(os.environ, LD_PRELOAD=self.path, OUTSIDE=place)

    def order(self, first=0, last=0, readable=ENDLESS, step=ENDLESS):
        self.page[:80] = self.ORDERS.pack(first, last, readable, step) + bytes(48)

    def events(self):
        return self.Events._make(self.EVENTS.unpack(self.page[32:80]))


class DidNotEnd(Exception):
    pass


def too_long(*_):
    raise DidNotEnd


class Runs:
    """Runs of the program."""

    def __init__(self, folder):
        self.folder = folder
        self.program = PROGRAM
        self.library = Library(folder)
        self.files = {}
        signal.signal(signal.SIGALRM, too_long)

    def file(self, contents):
        """A file with these contents."""
        if contents not in self.files:
            self.files[contents] = os.path.join(self.folder, f"file.{len(self.files)}")
            with open(self.files[contents], "wb") as file:
                file.write(contents)
        return self.files[contents]

    def run(self, words, given=b"", out=None, err=None, orders=None, shell=None, limit=None, signals=False, fed=None):
        """One run. `given` is what standard input has, or a descriptor; `out` and `err` are descriptors for what is not
        kept; `orders` are those of the library; `shell` is a command that runs "$@"; `limit` is the size that a file may
        have; without `signals` a closed pipe and a full file are no signals; `fed` is called while it runs."""
        environment = None
        if orders is not None:
            self.library.order(**orders)
            environment = self.library.environment
        command = ["sh", "-c", shell, PROGRAM, PROGRAM, *words] if shell else [PROGRAM, *words]
        with contextlib.ExitStack() as stack:
            if isinstance(given, bytes):
                given = os.open(self.file(given), os.O_RDONLY)
                stack.callback(os.close, given)
            if out is None:
                kept = out = os.memfd_create("out")
                stack.callback(os.close, kept)
            else:
                kept = None
            heard = None
            if err is None:
                heard, err = os.pipe()
                heard = stack.enter_context(open(heard, "rb"))
                mouth = stack.enter_context(open(err, "wb", 0))
            soft, hard = resource.getrlimit(resource.RLIMIT_FSIZE)
            signal.alarm(SECONDS)
            process = None
            try:
                if limit is not None:
                    resource.setrlimit(resource.RLIMIT_FSIZE, (limit, hard))
                try:
                    process = subprocess.Popen(
                        command, stdin=given, stdout=out, stderr=err, env=environment, restore_signals=signals
                    )
                finally:
                    resource.setrlimit(resource.RLIMIT_FSIZE, (soft, hard))
                if heard:
                    mouth.close()
                if fed:
                    fed()
                _, status, usage = os.wait4(process.pid, 0)
                process.returncode = os.waitstatus_to_exitcode(status)
                line = heard.read() if heard else b""
            except DidNotEnd:
                if process and process.returncode is None:
                    process.kill()
                    process.wait()
                raise DidNotEnd(shown((*words, "did not end"))) from None
            finally:
                signal.alarm(0)
            text = b"" if kept is None else os.pread(kept, os.fstat(kept).st_size, 0)
        return Got(process.returncode, text, line, usage)


class Tally:
    """The checks of one name: how many passed, and what the others saw."""

    def __init__(self):
        self.passed, self.failed = 0, []

    def check(self, is_right, *seen):
        if is_right:
            self.passed += 1
        else:
            self.failed.append(" ".join(shown(part) for part in seen))

    def same(self, what, seen, wanted):
        self.check(seen == wanted, what, "gave", seen, "and not", wanted)


def shown(part):
    text = part if isinstance(part, str) else " ".join(part) if is_words(part) else repr(part)
    return text if len(text) < 400 else text[:200] + " .. " + text[-200:]


def is_words(part):
    return isinstance(part, tuple) and all(isinstance(word, str) for word in part)


@contextlib.contextmanager
def opened(path, flags):
    file = os.open(path, flags)
    try:
        yield file
    finally:
        os.close(file)
