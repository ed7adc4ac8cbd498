"""Requests to which calls for memory are refused."""

import os

from .runs import ANSWERS, BAD, ENDLESS, FILE, MANY_SIDES, USAGE, WRITE_FAULT, code, opened, said

# where memory is refused: each expression for names, list and save, with the fault of those that have one
EXPRESSIONS = {
    "petersen()": None,
    "induced(complete(2),[0,3],0,0,0)": None,
    "board(2,2,0,0,1,0,0)": None,
    "board(3,0,0,0,-1,1,0)": None,
    "simplex(2,0,0,0,0,0,0)": None,
    "subsets(3,2,2,2,0,0,3,0)": None,
    "induced(circuit(4),[-1,1,-1,1],0,0,0)": None,
    "lines(complete(3),0)": None,
    "product(complete(2),complete(2),0,0)": None,
    "gunion(complete(3),circuit(3),0,0)": None,
    "complement(simplex(0,-1,0,0,0,0,0),1,1,1)": None,
    "intersection(board(3,3,0,0,1,0,0),complete(9),0,0)": None,
    "lines(complete(3),1)": None,
    "induced(complete(3),[1,2,circuit(3)],0,0,0)": None,
    "product(circuit(3),circuit(3),0,0)": None,
    "bi_complete(2,3,0)": None,
    "wheel(4,2,0)": None,
    "stdin": None,
    "gunion(stdin,stdin,1,1)": None,
    "board(2,-251,0,0,1,0,0)": MANY_SIDES,
    "board(3,": BAD,
}
# with other words; the last ones are listed with no head, of a board whose starts want a sort too
OTHERS = {
    ("queen",): None,
    ("flip", "flip(-314159,0,5,1000)"): None,
    ("names", "simplex(2,-60,0,0,0,0,0)", "--skip", "1880"): None,
    ("list", "board(3,4,0,0,-2,0,0)", "--after", "1.1"): None,
    ("names", "complete(2)", "--after", "0", "--skip", "1"): USAGE,
    ("list", "petersen()", "--after", "1", "--skip", "1"): USAGE,
    ("list", "complete(2)", "--after", "0", "--skip", "1"): USAGE,
    ("list", "board(5,5,0,0,-2,0,0)", "--skip", "0"): None,
    ("list", "simplex(400,2,400,400,0,0,0)", "--skip", "0"): None,
    ("list", "board(9,5,0,0,-4,1,0)", "--skip", "0"): None,
}


def memory(words, given, fault):
    def checks(runs, tally):
        """Each call for memory refused, and each with all after it: the answer in full, or code 1 and nothing written. On
        a device that is full it is code 1 too, and a write fault where the answer comes in full."""
        full = runs.run(words, given, orders={})
        calls = runs.library.events().calls
        is_usual = (full.status, full.err) == (fault or (0, b"")) and bool(full.out) == (fault is None)
        tally.check(is_usual, words, "gave", said(full))
        tally.check(calls > 0, words, "made no call for memory that the library saw")
        for number in range(1, calls + 1):
            for last in (number, ENDLESS):
                orders = {"first": number, "last": last}
                got = runs.run(words, given, orders=orders)
                what = (*words, "without call", str(number), *(["and all after it"] if last == ENDLESS else []))
                events = runs.library.events()
                is_code_1 = (got.status, got.err) == code(1) and events.outputs == 0
                tally.check(events.refused > 0 and (is_code_1 or said(got) == said(full)), what, "gave", said(got))
                with opened("/dev/full", os.O_WRONLY) as device:
                    there = runs.run(words, given, out=device, orders=orders)
                wanted = WRITE_FAULT if got.out else (got.status, got.err)
                tally.same((*what, "on a full device"), (there.status, there.err), wanted)

    return checks


def all_checks():
    for words, fault in OTHERS.items():
        yield "memory " + " ".join(words), memory(words, b"", fault)
    for expression, fault in EXPRESSIONS.items():
        for word in ANSWERS:
            given = FILE if "stdin" in expression else b""
            yield f"memory {word} {expression}", memory((word, expression), given, fault)
