"""Checks of the library for C that make many calls, for checks/outside.py: checks/from_outside/c_many.c.

- 3,000 random expressions, each with a run of its vertices, are listed and saved by the library, and held against the text that
  the program writes. The seed is printed: `OUTSIDE_SEED=SEED checks/outside.py ./sgb "library random"` makes the same ones again.
- 10^5 openings and closings of each kind leave the process as large as before.
- Each call runs in a thread with a stack of 128 KB, or of more where it needs more, and touches no more of it than
  include/sgb.h says. With OUTSIDE_STACK=1 it prints how much each touches.
- The callers are built with AddressSanitizer and ThreadSanitizer, where the compiler has them, and run.
- A hostile file of 10 MB, whose vertices share one list, opens within a second, and its size is told.
"""

import concurrent.futures
import os
import random
import re
import subprocess
import time

from . import c_library, random_requests

TOP = c_library.TOP
HEADER = os.path.join(TOP, "include/sgb.h")
REQUESTS = 3000
SECONDS = 120  # after so many no new expression is begun; what is left out is told
ROUNDS = 100_000
STACK = 128  # kilobytes
FLAGS = ["-pthread"]

# a `.gb` file of ten vertices
TEN = "circuit(10)"


def compiled(runs, tally, source, name, *more, link=None):
    """A program of this folder, or None where it does not compile without a warning."""
    path = os.path.join(runs.folder, name)
    words = ["cc", *c_library.WARNINGS, *more, "-I", os.path.join(TOP, "include"), os.path.join(TOP, "checks/from_outside", source), "-o", path]
    status, out, err = c_library.ran(*words, *(link or c_library.LIBRARIES["libsgb.a"]))
    tally.check(status == 0 and not out and not err, " ".join(words), "gave", (status, out, err))
    return path if status == 0 else None


def many(runs, tally, name="c_many", *more):
    """checks/from_outside/c_many.c, or None where it is not built."""
    return c_library.is_there(tally, "libsgb.a") and compiled(runs, tally, "c_many.c", name, *FLAGS, *more)


# ---------------------------------------------------------------------------------------------------------------------
# Random expressions


def expression(dice):
    """An expression, and the one whose file it reads, or None."""
    kind = dice.random()
    if kind < 0.55:
        return random_requests.generator(dice, 60)[0], None
    if kind < 0.6:
        return random_requests.of_boards(dice), None
    operand, n = random_requests.generator(dice, 9)
    template = random_requests.with_operand(dice, n)
    reads = kind < 0.75
    return template.replace(random_requests.OPERAND, "stdin" if reads else operand), operand if reads else None


class Wanted:
    """An expression, and what the program writes of it; its run."""

    def __init__(self, program, folder, seed, number):
        dice = random.Random(f"{seed}:C:{number}")
        self.text, operand = expression(dice)
        self.place, given = "-", b""
        if operand:
            status, given, _ = c_library.ran(program, "save", operand)
            self.place = os.path.join(folder, f"input.{number}")
            with open(self.place, "wb") as file:
                file.write(given)
        status, listed, err = c_library.ran(program, "list", self.text, given=given)
        self.first = self.count = 0
        if status:
            told = re.search(rb"panic code ([0-9]+)|byte ([0-9]+)", err)
            self.answer = f"refused {int(told[1]) if told[1] else 1000 + int(told[2])}\n".encode() if told else err
            return
        listing = random_requests.Listing(listed)
        n = len(listing.blocks)
        self.first = dice.randint(0, n)
        self.count = dice.randint(0, n - self.first)
        blocks = listing.blocks[self.first : self.first + self.count]
        saved = c_library.ran(program, "save", self.text, given=given)[1]
        run = b"".join(name + b"".join(arcs) for name, arcs in blocks)
        self.answer = b"".join(listing.head) + run + b"--\n" + saved

    def line(self):
        return f"{self.first} {self.count} {self.place} {self.text}\n"


def random_runs(program):
    def checks(runs, tally):
        """3,000 random expressions with a run of each, listed and saved in C as the program does."""
        path = many(runs, tally)
        if not path:
            return
        seed, _, number = os.environ.get("OUTSIDE_SEED", str(random.SystemRandom().getrandbits(32))).partition(":")
        print(f"  random runs in C: OUTSIDE_SEED={seed}", flush=True)
        folder = os.path.join(runs.folder, "random")
        os.makedirs(folder, exist_ok=True)
        numbers = [int(number)] if number else range(REQUESTS)
        end = time.monotonic() + SECONDS
        wanted = []
        with concurrent.futures.ThreadPoolExecutor(os.cpu_count() or 1) as pool:
            for begin in range(0, len(numbers), 100):
                if time.monotonic() > end:
                    print(f"  random runs in C: {len(wanted)} of {len(numbers)} in {SECONDS} seconds", flush=True)
                    break
                part = numbers[begin : begin + 100]
                wanted += pool.map(lambda one: (one, Wanted(program, folder, seed, one)), part)
        lines = os.path.join(folder, "lines")
        with open(lines, "w", encoding="utf-8") as file:
            file.writelines(one.line() for _, one in wanted)
        status, out, err = c_library.ran(path, "runs", lines)
        tally.check(status == 0 and not err and wanted, path, "runs gave", (status, err))
        seen = out.split(b"==\n")
        tally.same("graphs in C", len(seen) - 1, len(wanted))
        for (one, request), answer in zip(wanted, seen):
            what = f"OUTSIDE_SEED={seed}:{one}", request.text, str(request.first), str(request.count)
            tally.same(what, answer, request.answer)

    return checks


# ---------------------------------------------------------------------------------------------------------------------


def leaks(program):
    def checks(runs, tally):
        """10^5 openings and closings of each kind, with calls in between, leave the process as large as before."""
        path = many(runs, tally)
        if path:
            place = os.path.join(runs.folder, "ten.gb")
            with open(place, "wb") as file:
                file.write(c_library.ran(program, "save", TEN)[1])
            tally.same((path, "leaks"), c_library.ran(path, "leaks", str(ROUNDS), place, seconds=1200), (0, b"right\n", b""))

    return checks


def stack_said():
    """What include/sgb.h says that calls touch of their stack, in bytes: to open a generator's call, any other expression, and for
    each pair of parentheses in it, and of all other calls."""
    with open(HEADER, encoding="utf-8") as file:
        text = re.sub(r"\n \* ?", " ", file.read())
    return [1024 * int(number) for number in re.findall(r"([0-9]+) KB", re.search(r" Stack[.] .*? (?=Threads[.])", text)[0])]


def nested(depth, of="petersen()"):
    """An expression with so many pairs of parentheses in one another."""
    return "complement(" * (depth - 1) + of + ",0,0,0)" * (depth - 1)


# of each form of expressions one, with the depth of its parentheses
STACKS = [
    ("board(8,8,0,0,-1,0,0)", 1), ("board(3,3,3,0,2,7,0)", 1), ("board(2,-9,0,0,1,0,0)", 1), ("complete(50)", 1),
    ("simplex(10,-3,0,0,0,0,0)", 1), ("simplex(4,2,2,2,2,0,1)", 1), ("subsets(3,2,2,2,0,0,3,0)", 1), ("disjoint_subsets(8,3)", 1),
    ("disjoint_subsets(12,5)", 1),
    ("petersen()", 1), ("complement(petersen(),0,0,0)", 2), ("gunion(petersen(),complete(9),0,0)", 2),
    ("intersection(complete(4),circuit(4),1,1)", 2), ("lines(complete(9),0)", 2), ("product(petersen(),complete(2),2,0)", 2),
    ("induced(complete(3),[1,2,circuit(3)],0,0,0)", 2), ("bi_complete(2,3,0)", 1), ("wheel(5,1,0)", 1), ("stdin", 0),
]


def stack(runs, tally):
    """Calls in a thread with a stack of 128 KB, and expressions in one another opened with more: they touch no more of it than
    sgb.h says."""
    path = many(runs, tally, "c_many", "-Wl,-z,now")
    if not path:
        return
    generator, other, pair, all_else = stack_said()
    deep = [(nested(depth), depth) for depth in (2, 8, 32, 64)]
    deep += [(f"{name}(" * 63 + "complete(1)" + ",complete(1),0,0)" * 63, 64) for name in ("product", "gunion")]
    most = {}
    for text, depth in STACKS + deep:
        is_generator = c_library.is_generator(text)
        allowed = {"sgb_open": generator if is_generator else other + pair * depth}
        words = ("stack", str(STACK), str(STACK if is_generator else 4096), text)
        status, out, err = c_library.ran(path, *words, given=c_library.SHARED)
        tally.check(status == 0 and not err, path, *words, "gave", (status, out, err))
        for line in out.decode().splitlines():
            name, touched = line.split()
            most[name] = max(most.get(name, 0), int(touched))
            most_here = allowed.get(name, all_else)
            tally.check(int(touched) <= most_here, name, text[:60], "touches", touched, "bytes of its stack, of", str(most_here))
    if os.environ.get("OUTSIDE_STACK"):
        print("\n".join(f"  {name}: {touched} bytes of stack" for name, touched in most.items()))


def has(runs, flag):
    """Whether the compiler has a sanitizer, and what it builds runs here."""
    source, path = os.path.join(runs.folder, "none.c"), os.path.join(runs.folder, "none")
    with open(source, "w", encoding="utf-8") as file:
        file.write("int main(void) { return 0; }\n")
    return c_library.ran("cc", flag, source, "-o", path)[0] == 0 and c_library.ran(path) == (0, b"", b"")


THREADS = ["complement(petersen(),0,0,0)", "board(8,8,0,0,-1,0,0)", "simplex(4,2,2,2,2,0,1)", "disjoint_subsets(5,2)", "stdin",
           "lines(petersen(),0)", "gunion(stdin,stdin,1,1)", "petersen()"]


def threads(runs, tally):
    """Eight threads with graphs of their own, and one that they share under a lock; so too with ThreadSanitizer."""
    for name, more in (("c_threads", ()), ("c_tsan", ("-fsanitize=thread", "-g"))):
        if more and not has(runs, more[0]):
            print("  skipped, without ThreadSanitizer: threads of it")
            continue
        path = many(runs, tally, name, *more)
        if path:
            for shared in THREADS[:2]:
                words = ("threads", "8", shared, *THREADS)
                tally.same((path, *words), c_library.ran(path, *words, given=c_library.SHARED), (0, b"right\n", b""))


def addresses(program):
    def checks(runs, tally):
        """Callers that are built with AddressSanitizer, which also tells what is never given back."""
        flags = ("-fsanitize=address,undefined", "-fno-sanitize-recover=all", "-g")
        if not has(runs, flags[0]):
            print("  skipped, without AddressSanitizer: callers of it")
            return
        path = c_library.is_there(tally, "libsgb.a") and compiled(runs, tally, "c_arrays.c", "c_asan", *flags)
        for text in c_library.EXPRESSIONS if path else ():
            given = c_library.input_of(text)
            tally.same((path, "list", text), c_library.ran(path, "list", text, given=given), c_library.said(program, "list", text))
            for word in "wrong", "handles", "chunk_wrong":
                tally.same((path, word, text), c_library.ran(path, word, text, given=given), (0, b"right\n", b""))
        for text, given, _ in c_library.ANSWERS if path else ():
            status, out, err = c_library.ran(path, "answer", text, given=given)
            tally.check(status == 0 and out and not err, path, "answer", text[:40], "gave", (status, out, err))
        path = path and many(runs, tally, "c_asan_many", *flags)
        if path:
            words = ("threads", "4", *THREADS)
            tally.same((path, *words), c_library.ran(path, *words, given=c_library.SHARED), (0, b"right\n", b""))

    return checks


def hostile(vertices, arcs):
    """A file whose vertices share one long list."""
    return (
        f"* GraphBase graph (util_types ZZZZZZZZZZZZZZ,{vertices}V,{arcs}A)\n"
        f'"shared",{vertices},{arcs}\n* Vertices\n' + '"",A0\n' * vertices
        + "* Arcs\n" + "".join(f"V0,A{k + 1},0\n" for k in range(arcs - 1)) + "V0,0,0\n* Checksum -1\n"
    ).encode()


def shared_lists(runs, tally):
    """A file of 10 MB whose vertices share one list opens within a second, and its size is told, with nothing of it taken."""
    path = many(runs, tally)
    if not path:
        return
    vertices, arcs = 800_000, 320_000
    file = hostile(vertices, arcs)
    begun = time.monotonic()
    try:
        status, out, err = c_library.ran(path, "great", "stdin", given=file, seconds=20)
    except subprocess.TimeoutExpired:
        tally.check(False, "a file of", str(len(file)), "bytes whose vertices share a list does not open in 20 seconds")
        return
    tally.check(status == 0 and not err, path, "great stdin of", str(len(file)), "bytes gave", (status, out, err))
    if status == 0:
        seconds, listed, kilobytes = out.decode().split()
        tally.check(float(seconds) < 1, "a file whose vertices share a list opens in", seconds, "s of", f"{time.monotonic() - begun:.1f}")
        tally.same("the arcs on its lists", int(listed), vertices * arcs)
        tally.check(int(kilobytes) < 400_000, "it takes", kilobytes, "KB")


def all_checks(program):
    if os.environ.get("OUTSIDE_WITHOUT_LIBRARY") == "1":
        return
    yield "library random", random_runs(program)
    yield "library leaks", leaks(program)
    yield "library stack", stack
    yield "library threads", threads
    yield "library addresses", addresses(program)
    yield "library shared lists", shared_lists
