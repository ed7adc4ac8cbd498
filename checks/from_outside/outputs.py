"""Outputs and standard errors that are full, closed, or take so many bytes."""

import contextlib
import os

from .runs import FILE, STATUSES, WRITE_FAULT, WRITTEN, opened, said


def limited(words):
    def checks(runs, tally):
        """A file that may have k bytes, for each k below the length of the output, and for that length."""
        full = runs.run(words)
        tally.check(full.status == 0 and full.out, words, "gave", said(full))
        place = os.path.join(runs.folder, "limited")
        for size in range(len(full.out) + 1):
            with opened(place, os.O_RDWR | os.O_CREAT | os.O_TRUNC) as file:
                got = runs.run(words, out=file, orders={}, limit=size)
                there = os.pread(file, len(full.out) + 1, 0)
            what = (*words, "into a file of", str(size))
            wanted = (0, b"") if size == len(full.out) else WRITE_FAULT
            tally.same(what, (got.status, got.err, there), (*wanted, full.out[:size]))
            late = runs.library.events().late
            tally.check(late == 0, what, "wrote on after the fault:", late)

    return checks


def no_output(runs, tally):
    """A full device, a closed pipe, an output that is closed or for reading only."""
    for words in WRITTEN:
        with opened("/dev/full", os.O_WRONLY) as device:
            got = runs.run(words, out=device)
        tally.same((*words, "on a full device"), (got.status, got.err), WRITE_FAULT)
        for signals in (False, True):
            ears, mouth = os.pipe()
            os.close(ears)
            got = runs.run(words, out=mouth, signals=signals)
            os.close(mouth)
            what = (*words, "on a closed pipe,", "that is a signal" if signals else "its signal ignored")
            tally.same(what, (got.status, got.err), WRITE_FAULT)
        got = runs.run(words, shell='exec "$@" >&-')
        tally.same((*words, "with standard output closed"), said(got), (WRITE_FAULT[0], b"", WRITE_FAULT[1]))
        with opened(runs.file(FILE), os.O_RDONLY) as file:
            got = runs.run(words, out=file)
        tally.same((*words, "with standard output for reading"), (got.status, got.err), WRITE_FAULT)
    # an answer is written to its end before the status is 0: nothing is lost at the last write
    ears, mouth = os.pipe()
    with open(ears, "rb", 0) as reader:
        def leave():
            os.close(mouth)
            reader.read(100)
            reader.close()

        got = runs.run(("names", "board(300,300,0,0,1,0,0)"), out=mouth, fed=leave)
        tally.same("a pipe whose reader leaves", (got.status, got.err), WRITE_FAULT)


def no_errors(runs, tally):
    """Standard error closed, full, for reading only: no status or output changes."""
    for words, given, _ in STATUSES + [(WRITTEN[2], b"", (0, b""))]:
        for on_full in (False, True):
            with contextlib.ExitStack() as stack:
                def run(**changes):
                    out = stack.enter_context(opened("/dev/full", os.O_WRONLY)) if on_full else None
                    got = runs.run(words, given, out=out, **changes)
                    return got.status, got.out

                usual = run()
                full = stack.enter_context(opened("/dev/full", os.O_WRONLY))
                reading = stack.enter_context(opened(runs.file(FILE), os.O_RDONLY))
                what = (*words, *(["on a full device,"] if on_full else []))
                tally.same((*what, "with standard error closed"), run(shell='exec "$@" 2>&-'), usual)
                tally.same((*what, "with standard error full"), run(err=full), usual)
                tally.same((*what, "with standard error for reading"), run(err=reading), usual)
    got = runs.run(("list", "stdin"), shell='exec "$@" <&- 2>&-')
    tally.same("a read fault with standard error closed", (got.status, got.out), (3, b""))


def all_checks():
    yield "output failing", no_output
    yield "errors failing", no_errors
    for words in WRITTEN:
        yield "output limited " + " ".join(words), limited(words)
