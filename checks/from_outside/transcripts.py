"""Calls of the program and what they leave, as they stand in transcripts/: values of the published programs and their rules.

A call begins with a line `$`, after which a title may stand. The next line has its words, with a `|` between each two. Where
the next is a line `<`, what follows is its standard input, up to a line `>`, or `>.` where the last line has no newline at its
end. What is left stands after that, by the file's name:

- `answers`: the output;
- `parts`: its number of lines, and then how it begins and how it ends, with a `~` between them;
- `refusals`: the status, a space, and the line.

An answer calls for output where it has any, and never for errors; a refusal calls for errors once, and never for output. A
refusal is made with a full device as its output, and once more with one for errors too. A call with no `<` would fail if it
read standard input.
"""

import os
import re

from .runs import TOP, opened

FOLDER = os.path.join(TOP, "checks/from_outside/transcripts")
CALL = re.compile(r"\$([^\n]*)\n([^\n]*)\n(?:<\n(.*?)^>(\.?)\n)?(.*)\Z", re.DOTALL | re.MULTILINE)


def calls(path):
    """The calls of a transcript: the title, the words, standard input, and what is left."""
    with open(path, encoding="utf-8") as file:
        text = file.read()
    for part in re.split(r"^(?=\$)", text, flags=re.MULTILINE)[1:]:
        title, words, given, is_cut, left = CALL.match(part).groups()
        if given is not None:
            given = given[:-1] if is_cut else given
        yield title.strip(), tuple(words.split("|")) if words else (), given, left


def has_parts(output, left):
    """Whether an output has so many lines, and begins and ends so."""
    count, _, text = left.partition("\n")
    start, _, end = text.partition("~")
    return output.count("\n") == int(count) and output.startswith(start) and output.endswith(end)


def answered(runs, tally, words, given, is_left):
    """One call that is answered in full."""
    got = runs.run(words, given, orders={})
    events = runs.library.events()
    output = got.out.decode("utf-8", "replace")
    tally.check((got.status, got.err) == (0, b"") and is_left(output), words, "gave", got.status, got.out, got.err)
    called = (events.outputs > 0, events.errors)
    tally.same((*words, "(calls for output, for errors)"), called, (bool(got.out), 0))


def refused(runs, tally, words, given, left):
    """One call that is refused, also where the line cannot be written."""
    status, _, line = left.partition(" ")
    with opened("/dev/full", os.O_WRONLY) as full:
        for errors in None, full:
            got = runs.run(words, given, out=full, err=errors, orders={})
            events = runs.library.events()
            wanted = (int(status), b"" if errors else line.encode())
            tally.same(words, (got.status, got.err), wanted)
            tally.same((*words, "(calls for output, for errors)"), (events.outputs, events.errors), (0, 1))


def transcript(name):
    """The check of one transcript."""
    kind = name.rpartition(".")[2]

    def check(runs, tally):
        made = 0
        with opened("/", os.O_RDONLY) as unread:
            for _, words, given, left in calls(os.path.join(FOLDER, name)):
                given = unread if given is None else given.encode()
                made += 1
                if kind == "refusals":
                    refused(runs, tally, words, given, left)
                elif kind == "parts":
                    answered(runs, tally, words, given, lambda output, left=left: has_parts(output, left))
                else:
                    answered(runs, tally, words, given, lambda output, left=left: output == left)
        tally.check(made > 0, name, "has no call")

    return check


def all_checks():
    for name in sorted(os.listdir(FOLDER)):
        yield f"transcript {name}", transcript(name)
