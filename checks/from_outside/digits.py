"""Names and lengths of few digits and of more."""

from .runs import said


def digits(runs, tally):
    """Numbers of few digits and of more: boards of one row, each square with an arc to the next; and all lengths from the last."""
    for places in (9, 10, 11, 99, 100, 101, 999, 1_000, 1_001, 9_999, 10_000, 10_001, 100_001):
        expression = f"board({places},0,0,0,1,0,1)"
        head = f"  The graph whose official name is\n{expression}\n  has {places} vertices and {places - 1} arcs:\n\n"
        blocks = [f"{square}\n  -> {square + 1}, length 1\n" for square in range(places - 1)]
        listing = head + "".join(blocks) + f"{places - 1}\n"
        tally.same(expression, said(runs.run(("list", expression))), (0, listing.encode(), b""))
    last = 10_001
    lines = [f"  -> {last - length}, length {length}\n" for length in range(1, last + 1)]
    words = ("list", f"board({last + 1},0,0,0,-1,0,0)", "--skip", str(last))
    tally.same(words, said(runs.run(words)), (0, f"{last}\n{''.join(lines)}".encode(), b""))


def all_checks():
    yield "digits", digits
