"""Lines of edges, for to_gb.py: names in words or in quotes, with tabs, commas, semicolons or blanks between them."""

import collections
import csv
import re

from given import Given, Wrong, is_number, numbers

SEPARATORS = {"tab": "\t", "comma": ",", "semicolon": ";", "blank": " "}
QUOTED = re.compile('"[^"]*"')


def edges(text, words):
    """A graph of lines. Where all have as many words, with nothing else in them, they are taken column by column."""
    places, lines = counted(text, words.comments)
    places, lines = places[bool(words.header):], lines[bool(words.header):]
    sep = words.sep or separator(places, lines)
    given = Given(directed=words.directed, lines=zip(places, lines))
    # a name that is met has the next number
    vertices = collections.defaultdict()
    vertices.default_factory = vertices.__len__
    columns = None if words.columns else in_columns(lines, SEPARATORS[sep])
    if columns:
        names, lengths = columns
        ends = list(map(vertices.__getitem__, names))
        given.tails, given.tips = ends[::2], ends[1::2]
        where, alone = places, ()
    else:
        where, alone, lengths = by_lines(given, vertices, places, lines, sep, columns_of(words.columns))
    given.names, given.n = list(vertices), len(vertices)
    has_length = where and lengths and lengths[0] is not None and is_number(lengths[0])
    if words.header is None and len(lines) > 1 and where and where[0] == places[0] and not has_length:
        refuse_head(given, alone, lines[0], where[0])
    if lengths is None:
        given.lengths = [1] * len(given.tips)
    else:
        words_of = lengths if columns else ["1" if word is None else word for word in lengths]
        given.lengths = numbers(words_of, "a length", where)
    return given


def in_columns(lines, letter):
    """The names in lines that have two words each, or three, and the third words, if there are; None where names are in
    quotes, or further blanks are there."""
    text = "\n".join(lines)
    around = f"\n{text}\n"
    others = ("  ", "\n ", " \n", "\t") if letter == " " else (" ",)
    if '"' in text or any(met in around for met in others):
        return None
    between = lines[0].count(letter) if lines else 0
    # what is left of the text without its words
    bare = text.encode().translate(None, bytes(set(range(256)) - set(f"\n{letter}".encode())))
    if between not in (1, 2) or bare != "\n".join([letter * between] * len(lines)).encode():
        return None
    found, lengths = text.replace("\n", letter).split(letter), None
    if between == 2:
        lengths = found[2::3]
        del found[2::3]
    return None if "" in found else (found, lengths)


def by_lines(given, vertices, places, lines, sep, columns):
    """Adds the edges of lines: of each its line and the word of its length, and the vertices that stand alone."""
    where, alone, lengths = [], set(), []
    for at, line, fields in zip(places, lines, rows_of(places, lines, sep)):
        if columns:
            fields = picked(fields, columns, at)
        if fields.count("") > line.count('""'):
            raise Wrong(f"a word is missing, or a name that is empty stands without quotes: {line[:40]!r}", at)
        if len(fields) == 1:
            alone.add(vertices[fields[0]])
        elif len(fields) in (2, 3):
            given.tails.append(vertices[fields[0]])
            given.tips.append(vertices[fields[1]])
            lengths.append(fields[2] if len(fields) == 3 else None)
            where.append(at)
        else:
            raise Wrong(f"a line of an edge has two names and a length, and here are {len(fields)} words; --columns A,B picks "
                        f"two of them: {line[:40]!r}", at)
    return where, alone, lengths


def counted(text, signs):
    """The lines that are no comments, and their numbers."""
    lines = text.removesuffix("\n").split("\n")
    around = "\n" + text
    if not any(met in around for met in ("#", "%", "\n\n", "\n ", "\n\t")) and text:
        return range(1, len(lines) + 1), lines
    places = []
    for at, line in enumerate(lines, 1):
        sign = line.lstrip(" \t")[:1]
        if not sign or signs and sign in signs:
            continue
        if signs is None and sign in "#%":
            rest = line.lstrip(" \t").lstrip(sign)
            if not rest or rest[0] == " ":
                continue
            raise Wrong(f"a comment, or a name that begins with {sign}? A name stands in quotes; --comments '{sign}' "
                        f"takes such lines for comments, --comments '' for edges: {line[:40]!r}", at)
        places.append(at)
    return places, [lines[at - 1] for at in places]


def separator(places, lines):
    """What stands between the words of all lines, where they can be read in one way alone."""
    text = "\n".join(lines)
    kinds = [kind for kind, letter in SEPARATORS.items() if letter in text]
    if len(kinds) < 2:
        return kinds[0] if kinds else "tab"
    first = None
    for at, line in zip(places, lines):
        kind = kind_of(QUOTED.sub("x", line) if '"' in line else line, at)
        if first and kind and kind != first:
            raise Wrong(f"there is a {kind} between words, and a {first} in the lines before: --sep {first} or --sep {kind} "
                        f"says what stands there: {line[:40]!r}", at)
        first = first or kind
    return first or "tab"


def kind_of(bare, at):
    """What stands between the words of a line, whose names in quotes are left out; None where there is one word."""
    if "\t" in bare:
        if " " in bare:
            # names with blanks between tabs, or words with blanks and tabs between them
            words = bare.split()
            if len(words) == 3 and is_number(words[2]) and len([word for word in bare.split("\t") if word.strip()]) == 2:
                raise Wrong(f"words with tabs and blanks between them, or a name with a blank? --sep tab or --sep blank says "
                            f"which: {bare[:40]!r}", at)
        return "tab"
    kinds = [kind for kind in ("comma", "semicolon") if SEPARATORS[kind] in bare]
    bare = bare.strip(" ")
    for kind in kinds:
        bare = re.sub(f" *{SEPARATORS[kind]} *", SEPARATORS[kind], bare)
    kinds += ["blank"] * (" " in bare)
    if len(kinds) > 1:
        raise Wrong(f"there are words with a {kinds[0]} and a {kinds[1]} between them: --sep {kinds[0]} or --sep {kinds[1]} "
                    f"says what ends a name: {bare[:40]!r}", at)
    return kinds[0] if kinds else None


def rows_of(places, lines, sep):
    """The words of each line."""
    letter = SEPARATORS[sep]
    around = re.compile(f'("[^"]*")| *{letter} *')

    def tidied():
        for at, line in zip(places, lines):
            if '"' in line and line.count('"') % 2:
                raise Wrong(f"a quotation mark is not closed: {line[:40]!r}", at)
            if sep == "blank":
                line = line.replace("\t", " ").strip(" ")
            elif " " in line:
                line = around.sub(lambda met: met[1] or letter, line.strip(" "))
            yield line

    reader = csv.reader(tidied(), delimiter=letter, skipinitialspace=sep == "blank", strict=True)
    try:
        yield from reader
    except csv.Error as why:
        raise Wrong(f"not a line of CSV, {why}", places[reader.line_num - 1]) from None


def columns_of(said):
    if said is None:
        return None
    if not re.fullmatch("[1-9][0-9]*(,[1-9][0-9]*){1,2}", said):
        raise Wrong(f"--columns has two numbers or three, from 1, with commas: {said}")
    return [int(word) - 1 for word in said.split(",")]


def picked(fields, columns, at):
    if max(columns) >= len(fields):
        raise Wrong(f"there are {len(fields)} words, and --columns asks for number {max(columns) + 1}", at)
    return [fields[column] for column in columns]


def refuse_head(given, alone, line, at):
    """Refuses a first line of two words that can be the head of a table: neither stands in another line."""
    u, v = given.tails[0], given.tips[0]
    first, second = given.names[u], given.names[v]
    if is_number(first) or is_number(second) or u == v:
        return
    if all(given.tails.count(w) + given.tips.count(w) == 1 and w not in alone for w in (u, v)):
        raise Wrong(f"the head of a table, or an edge? No other line has these names; --header or --no-header says which: {line[:40]!r}", at)
