"""Files that are cut, long, broken, or promise more than they have, and records of lines of each length."""

import re

from .runs import ANSWERS, FILE, MOST, NO_VERTICES, SMALLEST, code, said


def cut_files(runs, tally):
    """The file of complete(2), and the smallest one, cut after k bytes: the newline at the end alone may be missing."""
    for file, found in (FILE, ANSWERS), (SMALLEST, NO_VERTICES):
        arcs = file.index(b"\n* Checksum")
        for size in range(len(file) + 1):
            whole = size >= len(file) - 1
            wanted = code(11) if size >= arcs else code(20) if size > 50 else code(10)
            for word, answer in found.items():
                got = runs.run((word, "stdin"), file[:size])
                right = (0, answer, b"") if whole else (wanted[0], b"", wanted[1])
                tally.same((word, "stdin of", str(size), "bytes of", str(len(file))), said(got), right)


def long_file(runs, tally):
    """A file of some megabytes, read and saved again; the listing of its graph."""
    expression = "board(300,300,0,0,1,0,0)"
    saved = runs.run(("save", expression))
    tally.check(saved.status == 0 and len(saved.out) > 4_000_000 and not saved.err, "save", expression, said(saved))
    again = runs.run(("save", "stdin"), saved.out)
    tally.check(said(again) == said(saved), "save stdin of", len(saved.out), "bytes gave", said(again))
    listed = runs.run(("list", expression))
    from_file = runs.run(("list", "stdin"), saved.out)
    tally.check(said(from_file) == said(listed), "list stdin of", len(saved.out), "bytes gave", said(from_file))


# the 96 characters of a file in the order of its checksum
ORDER = (
    "0123456789ABCDEFGHIJKLMNOPQRSTUVWXYZabcdefghijklmnopqrstuvwxyz_^~&@,;.:?!%#$+-*/|\\<=>()[]{}`'\" \n"
)
# integers of as many digits as have a way of their own, and of one more
INTEGERS = (0, 9, 10, 99, 100, 999, 1_000, 9_999, 10_000, -1, 99_999, 1_000_000)
LENGTHS = (*INTEGERS, 2**63 - 1, -(2**63))


def file_of(kinds, vertices, arcs, closing=0):
    """A file as it is saved, where each record is one line: of records as texts, with its checksum, or with another one."""
    records = [f'"{kinds}",{len(vertices)},{len(arcs)}']
    value = 0
    for line in [*records, *vertices, *arcs]:
        for byte in line + "\n":
            value = (2 * value + ORDER.index(byte)) % 1_073_741_741
    head = f"* GraphBase graph (util_types {kinds},{len(vertices)}V,{len(arcs)}A)"
    lines = [head, *records, "* Vertices", *vertices, "* Arcs", *arcs, f"* Checksum {value + closing}"]
    return "".join(line + "\n" for line in lines).encode()


def records_of(kinds, few):
    """Records of some hundred vertices and as many arcs, each of one line: names of up to 31 bytes, the first few integers."""
    count = 400 + few

    def field(kind, k):
        if kind == "I":
            return str(INTEGERS[k % few])
        return {"V": f"V{k * 7 % count}", "A": f"A{k * 5 % count}", "S": f'"{k}"'}[kind]

    def fields(some, k):
        return [field(kind, k + place) for place, kind in enumerate(some) if kind != "Z"]

    names = ["x" * (v % min(3 + 9 * few, 32)) for v in range(count)]
    vertices = [",".join([f'"{name}"', f"A{v}", *fields(kinds[:6], v)]) for v, name in enumerate(names)]
    arcs = []
    for k in range(count):
        following = f"A{k - 1}" if k % 3 else "0"
        length = str(LENGTHS[k % (few + 2)])
        arcs.append(",".join([f"V{k * 3 % count}", following, length, *fields(kinds[6:8], k)]))
    return names, vertices, arcs


def short_records(runs, tally):
    """Records that are one line each, short ones and longer ones next to them: integers of one digit more than the short ones
    have, fields in use or not; so many that they fill some pages. They are read and saved again as they are, and refused with
    another checksum."""
    for start in ("ZZZIIIZZ", "ZZZZZZZZ", "ZZIIIIZZ", "IZZIIIZZ", "ZZZIIIZI", "ZZZIIVIZ", "SZZIIAZZ"):
        for few in (1, 2, 3, 4, len(INTEGERS)):
            kinds = start + "ZZZZZZ"
            names, vertices, arcs = records_of(kinds, few)
            file = file_of(kinds, vertices, arcs)
            what = f"stdin of {len(vertices)} vertices {kinds}"
            tally.same("save " + what, said(runs.run(("save", "stdin"), file)), (0, file, b""))
            listed = "".join(name + "\n" for name in names).encode()
            tally.same("names " + what, said(runs.run(("names", "stdin"), file)), (0, listed, b""))
            refused = said(runs.run(("save", "stdin"), file_of(kinds, vertices, arcs, 1)))
            tally.same("save " + what + ", another checksum", refused, (code(11)[0], b"", code(11)[1]))


def near_limits(runs, tally):
    """Records of one line about as long as those that are read of the line alone: names, fields and arc records of each length near
    the limits, also with zeros in front, with a `-`, of 18 digits and of 19, and with spaces after the line. They are saved as
    they are said, and refused with another checksum."""
    kinds = "ZZZIIIZZZZZZZZ"
    vertices, arcs, plain_vertices, plain_arcs = [], [], [], []
    for name in range(24, 31):
        for size in range(26, 35):
            v = len(vertices)
            start = f"A{v},{10**9},7,"
            last = 10 ** (size - len(start) - 1)
            text = f"{-last // 10 if v % 11 == 5 else last}"
            zeros = "0" * (18 - len(text)) if v % 7 == 3 else ""
            text = {13: "9" * 18, 17: "1" * 19, 19: "-" + "9" * 18}.get(v % 23, text)
            zeros = zeros if text[0] != "-" and len(text) < 18 else ""
            for records, number in ((vertices, zeros + text), (plain_vertices, text)):
                records.append(f'"{"x" * name}",{start}{number}')
    for name in range(55, 62):
        for records in (vertices, plain_vertices):
            records.append(f'"{"y" * name}",A{len(records)},1,2,3')
    count = len(vertices)
    for v in range(count):
        tip, following = str(v * 3 % count), f"{v - 1}" if v % 5 else ""
        length = {3: "-4", 4: "9" * 18, 5: "9" * 18}.get(v % 13, "12")
        plain_arcs.append(f"V{tip},{'A' * bool(following) + following or '0'},{length}")
        more = 26 + v % 9 - len(plain_arcs[-1])
        if more > 0 and following:
            tip = tip.zfill(min(18, len(tip) + more))
            following = following.zfill(len(following) + max(0, 26 + v % 9 - len(f"V{tip},A{following},{length}")))
        arcs.append(f"V{tip},{'A' * bool(following) + following or '0'},{length}")
    file = file_of(kinds, vertices, arcs)
    saved = file_of(kinds, plain_vertices, plain_arcs)
    spaced = b"".join(line + (b"  " if k % 3 == 0 else b"") + b"\n" for k, line in enumerate(file.split(b"\n")[:-1]))
    for what, text in (("", file), (" and spaces", spaced)):
        tally.same("save stdin of lines near their limits" + what, said(runs.run(("save", "stdin"), text)), (0, saved, b""))
    for closing in (1, -1, 2**20):
        refused = said(runs.run(("save", "stdin"), file_of(kinds, vertices, arcs, closing)))
        tally.same(f"save stdin of lines near their limits, {closing} more as checksum", refused, (code(11)[0], b"", code(11)[1]))


def promises(runs, tally):
    """A first line that promises many arcs or vertices: refused at once, without room for them."""
    for size in ("2V,999999999999999999A", "999999999V,2A", "999999999V,999999999999999999A"):
        n, m = re.fullmatch("([0-9]*)V,([0-9]*)A", size).groups()
        head = b"* GraphBase graph (util_types ZZZZZZZZZZZZZZ,%s)\n" % size.encode()
        record = b'"x",%s,%s\n* Vertices\n' % (n.encode(), m.encode())
        for part, text in [
            ("its head", head),
            ("its graph's record", head + record),
            ("two vertices", head + record + b'"a",A0\n"b",0\n'),
            ("an arc", head + record + b'"a",A0\n"b",0\n* Arcs\nV1,0,1\n'),
        ]:
            # the most memory that a run took is not told: where it begins, it has that of this script
            limits = f'ulimit -t 20; ulimit -v {MOST // 1024}; exec "$@"'
            got = runs.run(("list", "stdin"), text, orders={}, shell=limits)
            what = f"{size}, up to {part}"
            tally.same(what, said(got), (1, b"", code(20)[1]))
            used = got.usage.ru_utime + got.usage.ru_stime
            tally.check(used < 2, what, "took seconds:", used)
            events = runs.library.events()
            tally.check(events.calls > 0 and events.most < MOST, what, "asked for bytes at once:", events.most)


def all_checks():
    yield "file cut", cut_files
    yield "file long", long_file
    yield "file of short records", short_records
    yield "file of lines near their limits", near_limits
    yield "file promising", promises
