"""The forms of nauty, six bits a letter, for to_gb.py: graph6, sparse6, digraph6."""

from given import Given, Wrong


def lines_of(text, form):
    """The lines of graphs, with their numbers."""
    lines = [(at, line.removeprefix(f">>{form}<<")) for at, line in enumerate(text.split("\n"), 1)]
    lines = [(at, line) for at, line in lines if line]
    if not lines:
        raise Wrong(f"there is no {form}")
    return lines


def one_of(text, words):
    """The line of the graph that is asked for."""
    lines = lines_of(text, words.form)
    if words.graph is None and len(lines) > 1:
        raise Wrong(f"there are {len(lines)} graphs: --graph K picks one, from 1, --all DIR has a file of each", lines[1][0])
    if words.graph is not None and not 0 < words.graph <= len(lines):
        raise Wrong(f"there are {len(lines)} graphs, and --graph asks for number {words.graph}")
    return lines[(words.graph or 1) - 1]


def all_of(text, words):
    """The graphs of all lines, one after another."""
    for at, line in lines_of(text, words.form):
        yield READERS[words.form](at, line, words.directed)


def six_bits(at, line, form, mark):
    """Of a line: how many vertices it says, and the bits of what comes after that."""
    found = [ord(letter) - 63 for letter in line.removeprefix(mark)]
    if not line.startswith(mark) or (not mark and line[0] in ":&") or not found or not all(0 <= bits < 64 for bits in found):
        raise Wrong(f"the line is no {form}", at)
    long = 0 if found[0] < 63 else 1 if found[1:2] != [63] else 2
    size = found[long : 1 if long == 0 else 4 if long == 1 else 8]
    n = 0
    for bits in size:
        n = 64 * n + bits
    return n, "".join(f"{bits:06b}" for bits in found[long + len(size) :])


def in_order(n, bits, form, at, pairs, count):
    """The pairs of vertices whose bits are set."""
    if len(bits) != -(-count // 6) * 6:
        raise Wrong(f"{n} vertices have {-(-count // 6)} letters in {form}, and here are {len(bits) // 6}", at)
    return [pair for pair, bit in zip(pairs, bits) if bit == "1"]


def graph6(at, line, directed):
    n, bits = six_bits(at, line, "graph6", "")
    given = Given(n, directed)
    for pair in in_order(n, bits, "graph6", at, ((u, v) for v in range(n) for u in range(v)), n * (n - 1) // 2):
        given.add(*pair)
    return given


def digraph6(at, line, directed):
    n, bits = six_bits(at, line, "digraph6", "&")
    given = Given(n, True)
    for pair in in_order(n, bits, "digraph6", at, ((u, v) for u in range(n) for v in range(n)), n * n):
        given.add(*pair)
    return given


def sparse6(at, line, directed):
    n, bits = six_bits(at, line, "sparse6", ":")
    wide = (n - 1).bit_length()  # one vertex has none, as nauty reads it
    given, v, at = Given(n, directed), 0, 0
    while at + 1 + wide <= len(bits):
        v += bits[at] == "1"
        u = int(bits[at + 1 : at + 1 + wide] or "0", 2)
        at += 1 + wide
        if u >= n or v >= n:
            break
        if u > v:
            v = u
        else:
            given.add(u, v)
    return given


READERS = {"graph6": graph6, "sparse6": sparse6, "digraph6": digraph6}


def of_nauty(text, words):
    """The graph of a line, the one that is there or that --graph picks."""
    return READERS[words.form](*one_of(text, words), words.directed)
