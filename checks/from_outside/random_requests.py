"""Random requests in which two ways inside the program have to agree: a part of checks/outside.py.

    checks/outside.py ./sgb random                      # those of a new seed, which is printed
    OUTSIDE_SEED=SEED checks/outside.py ./sgb random    # those of that seed once more
    OUTSIDE_SEED=SEED:NUMBER ..                        # one of them alone

Each request is an expression, or numbers of `flip`. No answer is known beforehand. What is compared:

- `names`, `list`, `save` and a resumed listing give the same status and line; the names are those of the listing.
- What `save` writes is read: its `list`, `names` and `save` are those of the graph itself. The listing of a generator makes
  each list from its vector, and that of the file walks a graph which was kept: neither has code of the other.
- The union with an empty graph, which copies the graph into a new one, has the same vertices, and each list turned round.
- Every resume is the rest of the whole, also past the end; a name that no vertex has is refused.
- An operation on a generator's graph and on the same graph from standard input give the same listing.
- Random numbers after some that are skipped are those that come after them; below a bound they follow from the plain ones.
"""

import multiprocessing
import os
import random

REQUESTS = 2000
FLIPS = 100  # of them are numbers of `flip`
ALL_RESUMED = 12  # a graph of so few vertices is resumed after each
NO_VERTEX = (1, b"sgb: no such vertex\n")
NO_NAME = "no vertex has this name"

# ---------------------------------------------------------------------------------------------------------------------
# Expressions, each with the number of its vertices, or None where that is left to the program. They are small: most give
# graphs of a few dozen vertices, operands of operations have fewer.

REFUSED = [
    "board(1,-251,0,0,1,0,0)",
    "board(1000,1000,1001,0,1,0,0)",
    "board(2,0,0,0,2147483648,0,0)",
    "board(2,0,0,0,-2147483648,0,0)",
    "simplex(-1,0,0,0,0,0,0)",
    "simplex(1000000001,3,0,0,0,0,0)",
    "simplex(3,-251,0,0,0,0,0)",
    "simplex(2000,-3,0,0,0,0,0)",
    "subsets(-1,1,-3,0,0,0,1,0)",
    "subsets(16,1,-33,0,0,0,1,0)",
    "complete(1000000001)",
    "disjoint_subsets(5,-1)",
]


def call(name, *numbers):
    return f"{name}({','.join(map(str, numbers))})"


def flag(dice):
    return dice.choice([0, 0, 0, 1, 1, 1, -1, 2, 999999999999999999])


def sequence(dice, most, least=1):
    """Four parameters that give up to so many numbers, and these numbers: written one by one, or repeated."""
    written = [dice.randint(least, 6) for _ in range(dice.randint(1, min(4, most)))]
    if dice.random() < 0.4 and len(written) < 4:
        count = dice.randint(1, most)
        padding = [dice.randint(-9, 9) for _ in range(3 - len(written))]
        return [*written, -count, *padding], [written[place % len(written)] for place in range(count)]
    padding = [dice.randint(-9, 9) for _ in range(3 - len(written))]
    return [*written, *([0] if len(written) < 4 else []), *padding], written


def product(numbers):
    result = 1
    for number in numbers:
        result *= number
    return result


def board(dice, most):
    if most >= 60 and dice.random() < 0.05:
        # 8 by 8, whatever stands behind the first number
        numbers = (dice.randint(-3, 0), *(dice.randint(-9, 9) for _ in range(3)))
        return call("board", *numbers, dice.randint(-5, 10), dice.randint(-4, 4), flag(dice)), 64
    while True:
        parameters, sizes = sequence(dice, dice.choice([1, 2, 2, 3, 4, 9]))
        if product(sizes) <= most:
            break
    piece = dice.randint(-4, 4) if len(sizes) > 4 else dice.choice([-1, 1, -2, 2, dice.randint(-13, 13)])
    wrap = dice.choice([0, 0, -1, dice.randint(-9, 15)])
    return call("board", *parameters, piece, wrap, flag(dice)), product(sizes)


def vectors_within(total, bounds):
    """How many vectors within these bounds have this sum."""
    counts = [1] + [0] * total
    for bound in bounds:
        counts = [sum(counts[max(0, at - bound):at + 1]) for at in range(total + 1)]
    return counts[total]


def bounded(dice, most):
    """The parameters that simplex and subsets share, and how many vectors they name."""
    while True:
        total = dice.randint(0, 7)
        if dice.random() < 0.3:
            places = dice.choice([0, dice.randint(1, 5)])
            parameters = [-places, *(dice.randint(-9, 9) for _ in range(4))]
            bounds = [total] * (places + 1 if places else 3)
        else:
            four, bounds = sequence(dice, 6)
            # the count of a repeated row is one more than what is written
            cut = next((place for place, number in enumerate(four) if number <= 0), 4)
            if cut < 4 and four[cut] < 0:
                bounds = [four[place % cut] for place in range(1 - four[cut])]
            parameters = [*four, 0]
        count = vectors_within(total, bounds)
        if count <= most:
            return total, parameters, count


def simplex(dice, most):
    total, parameters, count = bounded(dice, most)
    return call("simplex", total, *parameters, flag(dice)), count


def subsets(dice, most):
    total, parameters, count = bounded(dice, most)
    bits = dice.getrandbits(total + 2)
    written = dice.choice([str(bits), f"0x{bits:x}", f"0x{bits:08X}", f"0x{dice.getrandbits(128):x}"])
    return call("subsets", total, *parameters, written, flag(dice)), count


def shorthand(dice, most):
    kind = dice.randrange(8)
    if kind == 0:
        return ("petersen()", 10) if most >= 10 else ("complete(1)", 1)
    if kind == 1:
        n, k = dice.randint(0, 6), dice.randint(0, 3)
        # subsets(k,1,1-n,0,0,0,1,0)
        bounds = [1] * n if n > 1 else [1] if n == 1 else [1, 1]
        count = vectors_within(k, bounds)
        return (call("disjoint_subsets", n, k), count) if count <= most else ("empty(1)", 1)
    n = dice.randint(1, min(most, 24))
    return call(dice.choice(["complete", "transitive", "empty", "circuit", "cycle"]), n), n


def generator(dice, most):
    if dice.random() < 0.02:
        return dice.choice(REFUSED), 1
    return dice.choices([board, simplex, subsets, shorthand], [4, 3, 3, 2])[0](dice, most)


def entry(dice):
    number = dice.random()
    if number < 0.7:
        return str(dice.choice([0, 1, 1, 1, 2, 3, 4, -1, -1, -2, -4]))
    return generator(dice, 4)[0]


def operation(dice, first, n, other):
    """An operation on the graph `first`, of n vertices; `other` makes a second operand."""
    kind = dice.randrange(7)
    if kind == 0:
        return f"complement({first},{flag(dice)},{flag(dice)},{flag(dice)})"
    if kind == 1:
        return f"gunion({first},{other()},{flag(dice)},{flag(dice)})"
    if kind == 2:
        return f"intersection({first},{other()},{flag(dice)},{flag(dice)})"
    if kind == 3:
        return f"lines({first},{flag(dice)})"
    if kind == 4:
        return f"product({first},{other()},{dice.randint(-3, 5)},{flag(dice)})"
    count = n if dice.random() < 0.95 else n + 1
    entries = ",".join(entry(dice) for _ in range(count))
    return f"induced({first},[{entries}],{flag(dice)},{flag(dice)},{flag(dice)})"


OPERAND = "\0"  # stands for an operand that is put in afterwards


def with_operand(dice, n):
    """An expression with OPERAND in it, a graph of n vertices, which is evaluated first."""

    def other():
        return OPERAND if dice.random() < 0.3 else generator(dice, 8)[0]

    text = operation(dice, OPERAND, n, other)
    while dice.random() < 0.25:
        text = dice.choice(
            [
                f"complement({text},{flag(dice)},{flag(dice)},{flag(dice)})",
                f"gunion({text},{other()},{flag(dice)},{flag(dice)})",
                f"intersection({text},{other()},{flag(dice)},{flag(dice)})",
            ]
        )
    return text


def of_boards(dice):
    if dice.random() < 0.5:
        return call("bi_complete", dice.randint(-1, 6), dice.randint(0, 6), flag(dice))
    return call("wheel", dice.randint(0, 9), dice.randint(-1, 4), flag(dice))


# ---------------------------------------------------------------------------------------------------------------------
# Listings


class Listing:
    """A listing taken apart: its head, and for each vertex its name and the lines of its arcs."""

    def __init__(self, text):
        lines = text.splitlines(keepends=True)
        self.head, self.blocks = lines[:4], []
        for line in lines[4:]:
            if line.startswith(b"  -> ") and self.blocks:
                self.blocks[-1][1].append(line)
            else:
                self.blocks.append((line, []))

    def rest(self, count):
        return b"".join(name + b"".join(arcs) for name, arcs in self.blocks[count:])

    def turned_round(self):
        return b"".join(name + b"".join(reversed(arcs)) for name, arcs in self.blocks)


class Request:
    """One request, and what was seen that is not right."""

    def __init__(self, runs, what):
        self.runs, self.what, self.passed, self.failed = runs, what, 0, []

    def run(self, *words, given=b""):
        with File(given) as file:
            got = self.runs.run(words, file)
        return got.status, got.out, got.err

    def same(self, what, seen, wanted):
        if seen == wanted:
            self.passed += 1
        else:
            self.failed.append((self.what, what, seen, wanted))

    # an expression, and its answers
    def expression(self, dice, text):
        listed = self.run("list", text)
        named = self.run("names", text)
        saved = self.run("save", text)
        refusal = listed[0], listed[2]
        self.same("names", (named[0], named[2]), refusal)
        self.same("save", (saved[0], saved[2]), refusal)
        union = f"gunion({text},empty(1),1,1)"
        united = self.run("list", union)
        self.same(f"list {union}", (united[0], united[2]), refusal)
        if listed[0] != 0:
            self.same("what a refused request writes", (listed[1], named[1], saved[1], united[1]), (b"",) * 4)
            self.same("list --skip 1", self.run("list", text, "--skip", "1"), listed)
            self.same("names --after 0", self.run("names", text, "--after", "0"), listed)
            return listed
        listing = Listing(listed[1])
        names = [name.rstrip(b"\n").decode() for name, _ in listing.blocks]
        self.same("names", named[1], b"".join(name for name, _ in listing.blocks))
        for word, answer in ("list", listed), ("names", named), ("save", saved):
            self.same(f"{word} of what is saved", self.run(word, "stdin", given=saved[1]), answer)
        copied = Listing(united[1])
        self.same(f"{union}, the last lines of its head", copied.head[2:], listing.head[2:])
        self.same(f"{union}, its lists", copied.turned_round(), listing.rest(0))
        self.resumes(dice, text, listing, names)
        return listed

    # the whole, resumed after some vertices, or after each where there are few
    def resumes(self, dice, text, listing, names):
        n = len(names)
        counts = range(n + 2) if n <= ALL_RESUMED and dice.random() < 0.1 else {dice.randint(0, n + 1), max(0, n - 1)}
        for count in counts:
            self.resumed(text, ("--skip", str(count)), listing, count)
            if count < n:
                # in one word, since a name may begin with a minus sign
                self.resumed(text, ("--after=" + names[count],), listing, names.index(names[count]) + 1)
        for word in "names", "list":
            status, out, err = self.run(word, text, "--after", NO_NAME)
            self.same(f"{word} after no vertex", (status, err, out), (*NO_VERTEX, b""))

    def resumed(self, text, words, listing, count):
        rest = b"".join(name for name, _ in listing.blocks[count:])
        self.same(("names", *words), self.run("names", text, *words), (0, rest, b""))
        self.same(("list", *words), self.run("list", text, *words), (0, listing.rest(count), b""))

    # an operation on a generator's graph, and on what `save` writes of that
    def from_input(self, template, operand, listed):
        saved = self.run("save", operand)
        text = template.replace(OPERAND, "stdin")
        if saved[0] == 0:
            self.same(f"list {text} of {operand}", self.run("list", text, given=saved[1]), listed)
        else:
            self.same("the refusal of an operand", listed, saved)

    # random numbers
    def flips(self, dice):
        start = dice.choice([0, -314159, dice.randint(-(10**18) + 1, 10**18 - 1)])
        skip = dice.choice([0, 1, 54, 55, 56, dice.randint(0, 3000), dice.randint(10**6, 10**9)])
        count = dice.randint(0, 200)
        bound = dice.choice([1, 2, 6, 1000, 3 * 2**29, 2**30 + 1, 2**31 - 1, dice.randint(1, 2**31)])
        self.what = ("flip", f"flip({start},{skip},{count},..)")
        flips = {}
        for name, numbers in {
            "plain": (start, skip, count, 0),
            "modulo 2^31": (start % 2**31, skip, count, 0),
            "below 2^31": (start, skip, count, 2**31),
            "before": (start, skip - min(skip, 30), count + min(skip, 30), 0),
            "more": (start, skip, 3 * count + 60, 0),
            "below": (start, skip, count, bound),
        }.items():
            status, out, err = self.run("flip", call("flip", *numbers))
            self.same((name, "status and line"), (status, err), (0, b""))
            flips[name] = [int(line) for line in out.splitlines()]
        self.same("the start modulo 2^31", flips["modulo 2^31"], flips["plain"])
        self.same("numbers below 2^31", flips["below 2^31"], flips["plain"])
        self.same("after fewer skipped", flips["before"][min(skip, 30):], flips["plain"])
        # those at least `limit` are thrown away, the others count modulo the bound
        limit = 2**31 - 2**31 % bound
        kept = [number % bound for number in flips["more"] if number < limit]
        shown = min(len(kept), count)
        self.same(f"numbers below {bound}", flips["below"][:shown], kept[:shown])
        self.same("how many there are", len(flips["below"]), count)


class File:
    """A descriptor of a file in memory with these contents."""

    def __init__(self, contents):
        self.file = os.memfd_create("given")
        if contents:
            os.pwrite(self.file, contents, 0)

    def __enter__(self):
        return self.file

    def __exit__(self, *_):
        os.close(self.file)


# ---------------------------------------------------------------------------------------------------------------------

runs_here = stopped = seed_here = None


def try_one(number):
    """How many comparisons of the request of this number passed, and the others."""
    if stopped.value:
        return number, 0, []
    dice = random.Random(f"{seed_here}:{number}")
    request = Request(runs_here, None)
    try:
        if number % (REQUESTS // FLIPS) == 0:
            request.flips(dice)
            return number, request.passed, request.failed
        kind = dice.random()
        if kind < 0.6:
            text = generator(dice, 60)[0]
        elif kind < 0.65:
            text = of_boards(dice)
        else:
            operand, n = generator(dice, 9)
            template = with_operand(dice, n)
            text = template.replace(OPERAND, operand)
        request.what = text
        listed = request.expression(dice, text)
        if kind >= 0.65:
            request.from_input(template, operand, listed)
        return number, request.passed, request.failed
    except Exception as fault:
        # a run that does not end, or an answer that is no listing: the others are not tried any more
        stopped.value = 1
        return number, request.passed, [*request.failed, (request.what, repr(fault), "", "")]


def requests(runs, tally):
    """Some 2,000 requests; see above what is compared."""
    global runs_here, stopped, seed_here
    seed, _, number = os.environ.get("OUTSIDE_SEED", str(random.SystemRandom().getrandbits(32))).partition(":")
    print(f"  random requests: OUTSIDE_SEED={seed}", flush=True)
    runs_here, seed_here = runs, seed
    processes = multiprocessing.get_context("fork")
    stopped = processes.Value("b", 0)
    numbers = [int(number)] if number else range(REQUESTS)
    tried = 0
    with processes.Pool(os.cpu_count()) as pool:
        for number, passed, failed in pool.imap_unordered(try_one, numbers, chunksize=5):
            tried += passed + len(failed) > 0
            tally.passed += passed
            for request, what, seen, wanted in failed:
                tally.check(False, f"OUTSIDE_SEED={seed}:{number}", request, what, "gave", seen, "and not", wanted)
    tally.same("requests that were tried", tried, len(numbers))


def all_checks():
    yield "random requests", requests
