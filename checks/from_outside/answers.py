"""Answers that are known, and requests of each status.

`main` hands standard input on, and gives each output its own words and the status of the answer: where it drops the input,
exchanges the outputs or turns a status, nearly every check here and of inputs and outputs fails.
"""

from .runs import ANSWERS, FILE, NO_VERTICES, SMALLEST, STATUSES, said


def answers(runs, tally):
    """Answers that are known, on three usual devices; the requests of each status; what calls of write they make."""
    for word, answer in ANSWERS.items():
        for expression, given in [("complete(2)", b""), ("stdin", FILE)]:
            words = (word, expression)
            tally.same(words, said(runs.run(words, given)), (0, answer, b""))
    for word, answer in NO_VERTICES.items():
        tally.same((word, "the smallest file"), said(runs.run((word, "stdin"), SMALLEST)), (0, answer, b""))
    for words, given, (status, line) in STATUSES:
        got = runs.run(words, given, orders={})
        events = runs.library.events()
        tally.same(words, (got.status, got.err), (status, line))
        tally.check(bool(got.out) == (status == 0), words, "wrote", got.out)
        calls = (events.outputs > 0, events.errors)
        tally.same((*words, "(calls for output, for errors)"), calls, (status == 0, int(status != 0)))


def all_checks():
    yield "answers", answers
