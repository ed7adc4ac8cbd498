"""Checks of the operations of the library for C, for checks/outside.py: checks/from_outside/c_operations.c.

- Of sixty graphs operations are made on handles, and are what the program writes of the same expression: listing and file. One
  handle is both operands, or an entry of its own; the operands stay as they are.
- 500 random graphs are made by sgb_make, and handed to the program as files. Operations on one, or on one and another graph, are
  held against the program; those on two such graphs, of which it has none, against a plain model of the definitions
  (plain_graphs.py), which is held against the program too.
- Each call for memory is refused, alone and with all after it; answers that no expression has; the stack that is touched; 10^5
  results that are made and closed again leave the process as large as before.

The seed of the random graphs is printed: `OUTSIDE_SEED=SEED checks/outside.py ./sgb "library operations"` makes the same again.
"""

import concurrent.futures
import os
import random
import re

from . import c_library, c_many, plain_graphs

SMALL = ["petersen()", "circuit(3)", "transitive(4)", "board(3,3,0,0,1,0,0)", "complete(2)", "empty(2)", "bi_complete(2,3,0)"]
RANDOM = 500
# graphs of more vertices or arcs have no complement, lines and products here: these would be too large
VERTICES, ARCS = 150, 1500
ROUNDS = 5000


class Operation:
    """A line of c_operations, and the expression that the program is asked; or what a model says of it."""

    def __init__(self, name, flags, operands, place="-", given=b""):
        self.name, self.flags, self.operands, self.place, self.given = name, flags, operands, place, given

    def line(self):
        flags = [*self.flags, 0, 0, 0][:3]
        return " ".join([self.place, self.name, *map(str, flags), *(operand.word for operand in self.operands)]) + "\n"

    def text(self):
        """The expression: each operand in it as the program is told of it."""
        texts = [operand.text for operand in self.operands]
        if self.name == "make":
            return texts[0]
        if self.name == "induced":
            texts = [texts[0], "[" + ",".join(texts[1:]) + "]"]
        if self.name == "wheel_around":
            n, directed = self.flags
            return f"induced(board(2,0,0,0,1,0,{directed}),[{texts[0]},board({n},0,0,0,1,1,{directed})],0,0,{directed})"
        return f"{self.name}({','.join([*texts, *map(str, self.flags)])})"

    def wanted(self, program):
        """What the program writes, or the code that it refuses with."""
        status, listed, err = c_library.ran(program, "list", self.text(), given=self.given)
        if status:
            told = re.search(rb"panic code ([0-9]+)", err)
            return b"refused %s\n" % told[1] if told else err
        return listed + b"--\n" + c_library.ran(program, "save", self.text(), given=self.given)[1]


class Operand:
    """An operand as c_operations is told of it, and as the program is."""

    def __init__(self, word, text=None):
        self.word, self.text = word, word if text is None else text


def flag(dice):
    return dice.randint(0, 1)


def entries(dice, n, first):
    """So many entries: numbers, graphs, and the operand itself."""
    found = []
    for _ in range(n):
        kind = dice.random()
        if kind < 0.75:
            found.append(Operand(str(dice.choice([0, 1, 1, 1, 2, 3, -1, -2, -4]))))
        elif kind < 0.9:
            found.append(Operand(dice.choice(SMALL[:5])))
        else:
            found.append(Operand("=", first.text))
    return found


def on_one(dice, first, n, arcs, place="-", given=b""):
    """Operations on a graph, and on it and others."""
    other = Operand(dice.choice(SMALL))
    same = Operand("=", first.text)
    made = [
        ("gunion", [flag(dice), flag(dice)], [first, other]), ("gunion", [flag(dice), flag(dice)], [other, first]),
        ("gunion", [flag(dice), flag(dice)], [first, same]), ("intersection", [flag(dice), flag(dice)], [first, other]),
        ("intersection", [flag(dice), flag(dice)], [other, first]), ("intersection", [flag(dice), flag(dice)], [first, same]),
    ]
    if n <= VERTICES and arcs <= ARCS:
        made += [
            ("complement", [flag(dice), flag(dice), flag(dice)], [first]), ("lines", [flag(dice)], [first]),
            ("product", [dice.randint(-3, 3), flag(dice)], [first, other]), ("product", [dice.randint(-3, 3), flag(dice)], [other, first]),
            ("wheel_around", [dice.randint(1, 6), flag(dice)], [first]),
        ]
    if n <= 12:
        made.append(("product", [dice.randint(0, 2), flag(dice)], [first, same]))
    if n <= 50:
        wrong = dice.random() < 0.1
        made.append(("induced", [flag(dice), flag(dice), flag(dice)], [first, *entries(dice, n + wrong, first)]))
    return [Operation(*one, place, given) for one in made]


def of_sixty(program, folder, dice):
    """Operations on the graphs of the library's checks."""
    place = os.path.join(folder, "shared.gb")
    with open(place, "wb") as file:
        file.write(c_library.SHARED)
    found = []
    for text in c_library.EXPRESSIONS:
        listed = c_library.said(program, "list", text)[1]
        n, arcs = map(int, re.search(rb"has ([0-9]+) vertices and ([0-9]+) arcs", listed).groups())
        words = (place, c_library.SHARED) if "stdin" in text else ("-", b"")
        found += on_one(dice, Operand(text), n, arcs, *words)
    numbers = [(2, 3), (0, 0), (0, 4), (-1, 2), (2, -1), (5, 1), (1, 5), (3, 0)]
    for name in "bi_complete", "wheel":
        found += [Operation(name, [*pair, directed], []) for pair in numbers for directed in (0, 1)]
    for n in -1, 0, 10**9 + 1:
        found += [Operation("wheel_around", [n, directed], [Operand("petersen()")]) for directed in (0, 1)]
    # more vertices than a graph may have
    many = [Operand("empty(40000)"), Operand("empty(40000)")]
    return [*found, Operation("bi_complete", [10**9, 1, 0], []), Operation("product", [0, 0], many)]


def of_random(folder, dice, number):
    """A random graph made by sgb_make, and an operation on it as the program has them; and one on two such graphs, by the model."""
    graphs = [plain_graphs.random_graph(dice) for _ in range(2)]
    operands = []
    for k, graph in enumerate(graphs):
        place = os.path.join(folder, f"graph.{number}.{k}")
        for end, text in (".gb", graph.file()), (".own", graph.given()):
            with open(place + end, "w", encoding="ascii") as file:
                file.write(text)
        operands.append(Operand(f"#{place}.own", "stdin"))
    place, given = os.path.join(folder, f"graph.{number}.0.gb"), graphs[0].file().encode()
    first = operands[0]
    one = dice.choice(on_one(dice, first, len(graphs[0].names), len(graphs[0].records()), place, given))
    return [Operation("make", [], [first], place, given), one], plain_graphs.on_two(dice, graphs, operands, Operation)


def compiled(runs, tally, name="c_operations", *more):
    return c_library.is_there(tally, "libsgb.a") and c_many.compiled(runs, tally, "c_operations.c", name, *c_many.FLAGS, *more)


def written(runs, name, operations):
    """The file of these lines."""
    path = os.path.join(runs.folder, name)
    with open(path, "w", encoding="ascii") as file:
        file.writelines(operation.line() for operation in operations)
    return path


def held_against(tally, path, lines, operations, wanted, seed):
    """What is made of each line is what is wanted."""
    status, out, err = c_library.ran(path, "runs", lines)
    tally.check(status == 0 and not err and operations, path, "runs", lines, "gave", (status, err), "OUTSIDE_SEED=" + seed)
    seen = out.split(b"==\n")
    tally.same("operations in C", len(seen) - 1, len(operations))
    for operation, answer, right in zip(operations, seen, wanted):
        tally.same((f"OUTSIDE_SEED={seed}", operation.line().strip(), operation.text()), answer, right)


def dice_of(what):
    seed = os.environ.get("OUTSIDE_SEED", str(random.SystemRandom().getrandbits(32))).partition(":")[0]
    print(f"  {what}: OUTSIDE_SEED={seed}", flush=True)
    return seed, random.Random(f"{seed}:{what}")


def sixty(program):
    def checks(runs, tally):
        """Operations on the graphs of the library's checks are what the program writes."""
        path = compiled(runs, tally)
        if not path:
            return
        seed, dice = dice_of("operations in C")
        operations = of_sixty(program, runs.folder, dice)
        with concurrent.futures.ThreadPoolExecutor(os.cpu_count() or 1) as pool:
            wanted = list(pool.map(lambda operation: operation.wanted(program), operations))
        refused = sum(right.startswith(b"refused ") for right in wanted)
        tally.check(len(operations) > 500 and 0 < refused < 100, "operations", len(operations), "of them refused", refused)
        held_against(tally, path, written(runs, "operations.sixty", operations), operations, wanted, seed)
        tally.same((path, "answers"), c_library.ran(path, "answers"), (0, b"right\n", b""))
        answer = c_library.ran(path, "many")
        if answer == (0, b"no addresses\n", b""):
            print("  skipped, without 8 GB of addresses: sgb_make of more vertices than there may be")
        else:
            tally.same((path, "many"), answer, (0, b"right\n", b""))

    return checks


def own(program):
    def checks(runs, tally):
        """Graphs that are made by sgb_make, and operations on them, against the program and the model."""
        path = compiled(runs, tally)
        if not path:
            return
        seed, dice = dice_of("own graphs in C")
        folder = os.path.join(runs.folder, "own")
        os.makedirs(folder, exist_ok=True)
        asked, told = [], []
        for number in range(RANDOM):
            by_program, by_model = of_random(folder, dice, number)
            asked += by_program
            told.append(by_model)
        with concurrent.futures.ThreadPoolExecutor(os.cpu_count() or 1) as pool:
            wanted = list(pool.map(lambda operation: operation.wanted(program), asked))
        held_against(tally, path, written(runs, "operations.own", asked), asked, wanted, seed)
        against_model(tally, program, path, written(runs, "operations.two", [one for one, _ in told]), told, seed)

    return checks


def against_model(tally, program, path, lines, told, seed):
    """Operations on two graphs of one's own: the listing is the model's, and the file that of this graph."""
    status, out, err = c_library.ran(path, "runs", lines)
    tally.check(status == 0 and not err, path, "runs", lines, "gave", (status, err))
    seen = out.split(b"==\n")
    tally.same("operations on two graphs in C", len(seen) - 1, len(told))
    with concurrent.futures.ThreadPoolExecutor(os.cpu_count() or 1) as pool:
        files = pool.map(lambda answer: c_library.ran(program, "list", "stdin", given=answer.partition(b"--\n")[2]), seen[:-1])
    for (operation, model), answer, listed in zip(told, seen, files):
        what = f"OUTSIDE_SEED={seed}", operation.line().strip()
        tally.same(what, answer.partition(b"--\n")[0], model)
        tally.same((*what, "its file"), listed, (0, model, b""))


# of each operation one or two, on operands that are built and that are not
KINDS = [
    ("complement", [0, 0, 0], ["petersen()"]), ("complement", [1, 1, 1], ["lines(complete(4),0)"]), ("lines", [0], ["complete(5)"]),
    ("lines", [1], ["gunion(petersen(),circuit(4),1,1)"]), ("gunion", [0, 0], ["petersen()", "complete(9)"]),
    ("gunion", [1, 1], ["stdin", "circuit(4)"]), ("gunion", [0, 0], ["petersen()", "="]),
    ("intersection", [0, 0], ["complete(4)", "circuit(4)"]), ("intersection", [1, 0], ["stdin", "="]),
    ("product", [0, 0], ["complete(2)", "complete(3)"]), ("product", [1, 1], ["circuit(3)", "stdin"]),
    ("product", [2, 0], ["circuit(3)", "="]),
    ("induced", [0, 0, 0], ["complete(4)", "1", "2", "circuit(3)", "-1"]), ("induced", [1, 1, 1], ["stdin", "=", "="]),
    ("bi_complete", [2, 3, 0], []), ("wheel", [5, 1, 0], []), ("wheel_around", [5, 0], ["petersen()"]),
    ("lines", [0], ["transitive(3)"]), ("induced", [0, 0, 0], ["complete(2)", "1"]), ("wheel", [3, -1, 0], []),
]
REFUSED = 3  # of these, the last ones, are refused by the definitions


def of_kinds(runs, kinds):
    """These operations, and sgb_make."""
    place, own_place = (os.path.join(runs.folder, name) for name in ("shared.gb", "own.kinds"))
    with open(place, "wb") as file:
        file.write(c_library.SHARED)
    with open(own_place, "w", encoding="ascii") as file:
        file.write(plain_graphs.random_graph(random.Random(1), 9, 20).given())
    found = [Operation(name, numbers, list(map(Operand, words)), place) for name, numbers, words in kinds]
    return written(runs, "operations.kinds", [*found, Operation("make", [], [Operand("#" + own_place)])])


def memory(runs, tally):
    """Each call for memory refused, alone and with all after it: nothing is made, changed or held."""
    path = compiled(runs, tally, "c_operations_counted", *c_library.WRAPPED)
    if path:
        status, out, err = c_library.ran(path, "refuse", of_kinds(runs, KINDS))
        refusals = re.fullmatch(rb"right ([0-9]+)\n", out)
        tally.check(status == 0 and not err and refusals and int(refusals[1]) > 300, path, "refuse gave", (status, out, err))


def leaks(runs, tally):
    """Results that are made and closed again and again, refused ones too, leave the process as large as before."""
    path = compiled(runs, tally)
    if path:
        lines = of_kinds(runs, KINDS)
        tally.same((path, "leaks"), c_library.ran(path, "leaks", str(ROUNDS), lines, seconds=600), (0, b"right\n", b""))


def stack(runs, tally):
    """What the calls touch of their stack is no more than sgb.h says."""
    path = compiled(runs, tally, "c_operations", "-Wl,-z,now")
    if not path:
        return
    status, out, err = c_library.ran(path, "stack", str(c_many.STACK), of_kinds(runs, KINDS[:-REFUSED]))
    tally.check(status == 0 and not err, path, "stack gave", (status, out, err))
    most = c_many.stack_said()[-1]
    for line in out.decode().splitlines():
        name, touched = line.split()
        tally.check(int(touched) <= most, name, "touches", touched, "bytes of its stack, of", str(most))
        if os.environ.get("OUTSIDE_STACK"):
            print(f"  sgb_{name}: {touched} bytes of stack")


def addresses(program):
    def checks(runs, tally):
        """The same with AddressSanitizer, which also tells what is never given back."""
        flags = ("-fsanitize=address,undefined", "-fno-sanitize-recover=all", "-g")
        if not c_many.has(runs, flags[0]):
            print("  skipped, without AddressSanitizer: operations of it")
            return
        path = compiled(runs, tally, "c_operations_asan", *flags)
        if path:
            lines = of_kinds(runs, KINDS)
            status, out, err = c_library.ran(path, "runs", lines)
            tally.check(status == 0 and out.count(b"==\n") == len(KINDS) + 1 and not err, path, "runs", lines, "gave", (status, err))
            tally.same((path, "answers"), c_library.ran(path, "answers"), (0, b"right\n", b""))

    return checks


def all_checks(program):
    if os.environ.get("OUTSIDE_WITHOUT_LIBRARY") == "1":
        return
    yield "library operations", sixty(program)
    yield "library own graphs", own(program)
    yield "library operations, memory", memory
    yield "library operations, leaks", leaks
    yield "library operations, stack", stack
    yield "library operations, addresses", addresses(program)
