#!/usr/bin/env python3
"""Which definitions the contracts of public calls reach, and how many lines a reader has to believe.

    checks/definitions.py [-v]

At the repository's top. A definition stands in a file of crates/*/specs; its lines count with the comment above it. It is
reached where a clause of a public call cites it (requires, ensures, a law or a ghost member of a public trait, a ghost
member of a public impl), or a reached definition does, or a type of the code that one of these names. Left out are a
type's `view`, `invariant` and `coded`, which tie private fields to what callers see (each call says what that is), and
the proofs that an impl gives of a trait's laws.

It prints, of the lines that are reached, those of the tool (from `run_program`), of the libraries (from all public calls)
and of laws alone (from functions of the module `laws` or of an empty body, and from no other call); and how much of clap's
own definitions stands under the two that say which words clap takes. With -v the table has a row for each file: its lines that are reached, those that the tool reaches, and the others.

The status is 1 where a definition stands in the wrong folder (those that are reached belong in specs/, all others in
specs/inner/), or where docs/DEFINITIONS.md does not name a file that has a reached one, or has a name in its tables that
is not there, or where a crate cites specs/inner of another that is not its lower part. The last line counts these three as passed or failed. The
status is 2 where a file cannot be read. The search
is by names in the text: it proves nothing.
"""

import collections
import glob
import os
import re
import subprocess
import sys

KEYWORDS = r"(?:(?:abbrev|unfoldable|mutual|pub|data|record|syntax|law) )*"
IMPORT = re.compile(r"^\s*(pub |ghost )?use\s+Rattle\.(\w+)\.specs\.([\w.]+?)\.\{([^}]*)\}", re.M)
IMPORT_AS = re.compile(r"^\s*(?:pub |ghost )?use\s+Rattle\.(\w+)\.specs\.([\w.]+)\s+as\s+(\w+)", re.M)
SKIPPED = re.compile(r"(pub |ghost )?(use|mod)\b|--|unfolding\b|infix|[})\]]|$")
BEGINS = re.compile(r"(?:abbrev|unfoldable|mutual|pub|data|record|syntax|law)\b|[^\s(){},;:]+ : ")
MEMBER = re.compile(rf"  {KEYWORDS}([^\s:(){{}}]+) [^=]*?: ?")
CONSTRUCTOR = re.compile(r"\s+([^\s:(){}]+(?: [^\s:(){}]+)*) : ")
WORD = re.compile(r"(\w+\.|\.)?([^\s(){}\[\],;.:]+)(?= ?(:|==?|))")
TYPE = re.compile(r"^(?:pub(?:\([^)]*\))? )?(?:struct|enum|trait|type|union) (\w+)", re.M)
STRUCT = re.compile(r"^(?:pub(?:\([^)]*\))? )?(?:struct|enum) (\w+)[^{;(]*([{(])", re.M)
MODEL = re.compile(r"^impl\b[^{;]*\bModel for (\w+)[^{;]*\{", re.M)
ABOVE = ("--", "infix")
# A crate that is the lower part of another one: what it hands on is for that one alone and no public call, and the specs/inner
# of both are one.
LOWER_PARTS = {"sgb_moves": "sgb_gen", "sgb_taken": "sgb_ops"}
CLAP = ("fault_of", "subcommand_of")

# first is the number of its first line, that of its comment; a place is the path and the first and last line of a head with
# its clauses, and the type or trait that it is of
Definition = collections.namedtuple("Definition", "crate module names text count first")
Public = collections.namedtuple("Public", "crate name is_law text uses place")


class Unread(Exception):
    """A file that is written otherwise than this script reads."""


def read(path):
    with open(path) as file:
        return file.read()


def crates():
    """The names of the crates, in the order of crates.txt."""
    return [line.split(":")[0].split()[0] for line in read("crates.txt").split("\n") if line.strip() and line[0] != "#"]


def files_of(folder, ending):
    return sorted(glob.glob(f"{folder}/**/*{ending}", recursive=True))


def crate_in(title):
    """The crate that a heading ends with, or None."""
    return (re.findall(r"\bsgb(?:_\w+)?\b", title) or [None])[-1]


def listed_in(listed):
    """The names between the brackets of a `use` line: (name there, name here)."""
    for item in filter(None, (part.strip() for part in listed.split(","))):
        there, _, here = item.partition(" as ")
        yield there.strip(), here.strip() or there.strip()


def imported(text):
    """The names that `use` lines bring from specs: name here -> (crate, module, name there); a module under a name of its
    own as name. -> (crate, module, "")."""
    names = {}
    for _, crate, module, listed in IMPORT.findall(text):
        names.update({here: (crate, module, there) for there, here in listed_in(listed)})
    for crate, module, here in IMPORT_AS.findall(text):
        names[here + "."] = (crate, module, "")
    return names


def handed_on(text):
    """The names that a file of specs hands on by `pub use`."""
    return imported("\n".join(line for line in text.split("\n") if line.startswith("pub use")))


def names_in(place, lines):
    """The names that a definition's lines give: its own, those of a mutual block, and the constructors of data, but not the
    fields of a record."""
    first = lines[0]
    if not first.split()[-1:] == ["mutual"]:
        found = re.match(rf"{KEYWORDS}([^\s:(){{}}]+)", first)
        if not found:
            raise Unread(f"{place}: no name in '{first}'")
        heads = [(found.group(1), first, 0)]
    else:
        heads = [(found.group(1), line, k) for k, line in enumerate(lines[1:], 1) if (found := MEMBER.match(line))]
    names = []
    for (name, line, start), (_, _, end) in zip(heads, heads[1:] + [("", "", len(lines))]):
        names.append(name)
        if re.match(r"\s*(pub )?data ", line):
            for constructor in filter(None, map(CONSTRUCTOR.match, lines[start + 1:end])):
                names += constructor.group(1).split()
    return names


def lines_in(path):
    """The lines of a file. Those of a `module _ .. where` stand in the first column, as if it were not there."""
    inside = False
    for line in read(path).split("\n"):
        if line[:1].strip():
            inside = line.startswith("module _")
        yield "" if line.startswith("module _") else line.removeprefix("  ") if inside else line


def definitions_in(crate, module, path):
    """The definitions of a file. Each begins in the first column, and ends before the comment of the next."""
    lines = list(lines_in(path))
    starts, name = [], None
    for i, line in enumerate(lines):
        if line[:1].isspace() or SKIPPED.match(line):
            continue
        if BEGINS.match(line):
            starts.append(i)
            name = names_in(f"{path}:{i + 1}", [line])[:1]
        elif not name or line.split()[0] != name[0] and "◌" not in name[0]:
            raise Unread(f"{path}:{i + 1}: neither a definition nor a clause of the one above")
    for start, following in zip(starts, starts[1:] + [len(lines)]):
        end = following
        while end > start + 1 and (not lines[end - 1].strip() or lines[end - 1].startswith(ABOVE)):
            end -= 1
        begin = start
        while begin > 0 and lines[begin - 1].startswith(ABOVE):
            begin -= 1
        body = [re.sub(r"--.*", "", line) for line in lines[start:end]]
        yield Definition(crate, module, names_in(f"{path}:{start + 1}", body), "\n".join(body), end - begin, begin + 1)


class Definitions:
    """All definitions of some crates, and which names stand for them."""

    def __init__(self, folders):
        self.all, self.by_name, self.uses, self.handed, self.types = [], {}, {}, {}, {}
        for crate, folder in folders:
            for path in files_of(folder, ".antt"):
                module = os.path.relpath(path, folder).removesuffix(".antt").replace("/", ".")
                self.uses[crate, module] = imported(read(path))
                self.handed[crate, module] = handed_on(read(path))
                for definition in definitions_in(crate, module, path):
                    self.by_name.update({(crate, module, name): len(self.all) for name in definition.names})
                    self.all.append(definition)

    def named(self, there):
        """The definition, or the type of the code, that (crate, module, name) stands for."""
        while there in self.handed.get(there[:2], {}) or there[2] in self.handed.get(there[:2], {}):
            there = self.handed[there[:2]][there[2]]
        if there[1].startswith("declared."):
            words = (there[2], *there[1].split("."))
            return next(((there[0], word) for word in words if (there[0], word) in self.types), None)
        return self.by_name.get(there)

    def cited(self, text, crate, module, names):
        """The definitions and types that a text names, also by an operator with its places left open. What follows a dot is
        a field, or of a module under a name of its own; what stands before `=` or `:` is a name of this text."""
        found = set()
        for before, word, after in WORD.findall(text):
            if before in names:
                there = names[before]
                found.add(self.named((*there[:2], word)))
                found.add(self.named((*there[:2], "")))
            elif not before and after not in (":", "="):
                found.add(self.named(names.get(word, (crate, module, word))))
        for name, there in names.items():
            if "◌" in name and all(part in text for part in name.split("◌") if part):
                found.add(self.named(there))
        return found - {None}

    def reached(self, work):
        """All that is reached from these."""
        work = list(work)
        reached = set(work)
        while work:
            here = work.pop()
            if isinstance(here, tuple):
                new = self.types[here]
            else:
                crate, module = self.all[here][:2]
                new = self.cited(self.all[here].text, crate, module, self.uses[crate, module])
            work += new - reached
            reached |= new
        return {k for k in reached if not isinstance(k, tuple)}

    def lines(self, reached):
        return sum(self.all[k].count for k in reached)


def closing(text, opening):
    """The place of the bracket that closes the one at `opening`."""
    depth = 0
    for place in range(opening, len(text)):
        depth += {"{": 1, "(": 1, "[": 1, "}": -1, ")": -1, "]": -1}.get(text[place], 0)
        if depth == 0:
            return place
    raise Unread(f"a bracket is not closed: {text[opening:opening + 60]!r}")


def code_of(path):
    return re.sub(r"//[^\n]*", "", read(path))


def exported(crate):
    """The names that a library's root file hands on, and those of the public items of its public modules; of a program
    those of its public functions, which its modules hand to one another. And the public modules."""
    root = f"crates/{crate}/src/lib.rt"
    folder = f"crates/{crate}/src"
    if not os.path.exists(root):
        return set(re.findall(r"^pub fn (\w+)", "\n".join(map(code_of, files_of(folder, ".rt"))), re.M)), set()
    text = code_of(root)
    listed = re.findall(r"pub use [\w:]+?(?:::)?(\{[^}]*\}|\w+);", text, re.S)
    names = {name for part in listed for name in re.findall(r"\w+", part)}
    modules = set(re.findall(r"pub mod (\w+);", text))
    whole = "\n".join(map(code_of, files_of(folder, ".rt")))
    exports = re.findall(r"^pub (?:unsafe )?extern \S* ?fn (\w+)", whole, re.M)
    if exports:
        # a static library: what it exports, and the structs that pass between it and C
        structs = re.findall(r"^pub struct (\w+)", whole, re.M)
        return names | set(exports) | set(structs), modules
    for path in files_of(folder, ".rt"):
        if module_of(path, folder) in modules:
            names.update(name for name in re.findall(r"^pub (?:struct|enum|trait|type) (\w+)", code_of(path), re.M))
    return names, modules


def module_of(path, folder):
    return os.path.relpath(path, folder).split("/")[0].removesuffix(".rt")


def blocks_of(text, names, private):
    """The impl and trait blocks of a file: (start, end, keyword, head, whether it is public). An impl is where its type
    is, and no word of its head is that of a type or trait that is not."""
    for found in re.finditer(r"^(?:pub(?:\([^)]*\))? )?(?:unsafe )?(impl|trait)\b([^{;]*)\{", text, re.M):
        keyword, head = found.groups()
        words = set(re.findall(r"\w+", head))
        plain = re.sub(r"<[^<>]*(<[^<>]*>[^<>]*)*>", " ", head)
        own = re.findall(r"\w+", plain.split(" for ")[-1])[:1]
        is_public = own[:1] != [] and own[0] in names and not words & private
        yield found.start(), closing(text, found.end() - 1), keyword, head, is_public


def clauses_after(text, place):
    """The clauses of the function whose name ends at `place`, whether its body is empty, and where its body begins. Its
    parameters and its result may have brackets of any kind."""
    clauses = ""
    while True:
        found = re.compile(r"[(\[]|\b(?:requires|ensures)\b(?:\s+\w+)?\s*\{|\{|;").search(text, place)
        if not found:
            raise Unread(f"a function without an end: {text[place:place + 60]!r}")
        if found.group() == ";":
            return clauses, False, found.start()
        end = closing(text, found.end() - 1)
        if found.group() == "{":
            return clauses, not text[found.end():end].strip(), found.start()
        if found.group() not in ("(", "["):
            clauses += text[found.end():end] + "\n"
        place = end + 1


def public_texts(crate, laws):
    """The clauses of a crate's public calls, types and traits; of the members of impls not those that prove laws."""
    names, modules = exported(crate)
    folder = f"crates/{crate}/src"
    paths = [path for path in files_of(folder, ".rt") if "/tests" not in path]
    private = {name for path in paths for name in TYPE.findall(code_of(path))} - names
    for path in paths:
        text = code_of(path)
        uses = imported(text)
        blocks = list(blocks_of(text, names, private))
        for start, end, keyword, head, is_public in blocks:
            wanted = r"\bghost\s+(\w+)\s*=\s*\{"
            if keyword == "trait":
                wanted = r"\bghost\s+(\w+)\s*:\s*\{|\blaw\s+(\w+)[^{]*\{"
            for found in re.finditer(wanted, text[start:end]) if is_public else ():
                if found.group(1) not in laws | {"view", "invariant", "coded"}:
                    brace = start + found.end() - 1
                    end = closing(text, brace)
                    place = (path, text.count("\n", 0, start + found.start()) + 1, text.count("\n", 0, end) + 1, head.strip())
                    yield Public(crate, f"{head.strip()} {found.group(1)}", False, text[brace + 1:end], uses, place)
        for found in re.finditer(r"^[ \t]*(pub(?:\([^)]*\))? )?(?:const )?(?:unsafe )?(?:extern \S* ?)?fn (\w+)", text, re.M):
            inside = [block for block in blocks if block[0] < found.start() < block[1]]
            says_public = (found.group(1) or "").strip() == "pub"
            if inside:
                _, _, keyword, head, is_public = inside[-1]
                is_public = is_public and (keyword == "trait" or " for " in head or says_public)
            else:
                is_public = says_public and (found.group(2) in names or module_of(path, folder) in modules)
            if is_public:
                clauses, is_empty, end = clauses_after(text, found.end())
                is_law = is_empty or module_of(path, folder) == "laws"
                last = text.count("\n", 0, found.start() + len(text[found.start():end].rstrip())) + 1
                place = (path, text.count("\n", 0, found.start()) + 1, last, inside[-1][3].strip() if inside else "")
                yield Public(crate, found.group(2), is_law, clauses, uses, place)


def laws_of_traits(order):
    """The ghost members of traits that are laws: their types name a value, `(f : Self) ..`. What an impl has for one is
    its proof, which is checked and not believed."""
    paths = [path for crate in order for path in files_of(f"crates/{crate}/src", ".rt")]
    return {name for path in paths for name in re.findall(r"\bghost\s+(\w+)\s*:\s*\{\s*\(\w+ :", code_of(path))}


def values_in(text):
    """The types of a file that contracts see by a `Value`: the name, and where the bracket of the value opens."""
    for found in MODEL.finditer(text):
        value = re.compile(r"ghost Value = (?=\{)").search(text, found.end())
        if value:
            yield found.group(1), value.end()


def add_types(definitions, order):
    """The types of the code, each with the definitions and types that stand in it: those of its `Value` where contracts
    see it by one, else those of its fields."""
    bodies, scopes = {}, {}
    for crate in order:
        for path in files_of(f"crates/{crate}/src", ".rt"):
            text = code_of(path)
            scope = {name: {crate} for name in TYPE.findall(text)}
            for root, listed in re.findall(r"^\s*(?:pub )?use (\w+)(?:::\w+)*::(\{[^}]*\}|\w+);", text, re.M):
                for word in re.findall(r"\w+", listed):
                    scope.setdefault(word, set()).add(root if root in order else crate)
            for found in STRUCT.finditer(text):
                bodies[crate, found.group(1)] = (text[found.end():closing(text, found.end() - 1)], {})
                scopes[crate, found.group(1)] = scope
        for path in files_of(f"crates/{crate}/src", ".rt"):
            text = code_of(path)
            for name, brace in values_in(text):
                bodies[crate, name] = (text[brace + 1:closing(text, brace)], imported(text))
    definitions.types = {there: set() for there in bodies}
    for (crate, name), (text, uses) in bodies.items():
        scope = {} if uses else scopes[crate, name]
        within = {(there, word) for word in re.findall(r"\w+", text) for there in scope.get(word, ())} & set(bodies)
        definitions.types[crate, name] = (within | definitions.cited(text, crate, "", uses)) - {(crate, name)}


def toolchain():
    """The folder of the toolchain, or None."""
    try:
        page = subprocess.run(["rt", "doc"], capture_output=True, text=True, check=True).stdout.split("\n")[0]
    except (OSError, subprocess.CalledProcessError):
        return None
    return os.path.dirname(page)


def clap_share():
    """How many lines of clap's own definitions the two reach that say which words it takes, of how many; or None."""
    folder = os.path.join(toolchain() or "", "rattle", "clap", "specs")
    if not os.path.isdir(folder):
        return None
    clap = Definitions([("clap", folder)])
    first = {clap.named(("clap", "Words", name)) for name in CLAP}
    if None in first:
        raise Unread(f"{folder}: no {' or '.join(CLAP)}")
    return clap.lines(clap.reached(first)), clap.lines(range(len(clap.all)))


def page_parts(path):
    """The names in backquotes on a page, by the crate that the heading above ends with; and those of the first two columns
    of its tables."""
    parts, tabled, crate = collections.defaultdict(set), collections.defaultdict(set), None
    for line in read(path).split("\n"):
        if line.startswith(("#", "**")):
            crate = crate_in(line)
        parts[crate].update(re.findall(r"`([^`]*)`", line))
        if line.startswith("|"):
            tabled[crate].update(name.split()[0] for name in re.findall(r"`([^`]*)`", "|".join(line.split("|")[1:3])))
    return parts, tabled


def all_of(order):
    """The definitions of these crates, and their public calls, types and traits."""
    definitions = Definitions([(crate, f"crates/{crate}/specs") for crate in order])
    add_types(definitions, order)
    laws = laws_of_traits(order)
    return definitions, [public for crate in order if crate not in LOWER_PARTS for public in public_texts(crate, laws)]


def main():
    order = crates()
    definitions, texts = all_of(order)

    def from_those(wanted):
        found = [public for public in texts if wanted(public)]
        return definitions.reached({k for p in found for k in definitions.cited(p.text, p.crate, "", p.uses)})

    tool = from_those(lambda public: public.name == "run_program")
    library = from_those(lambda public: not public.is_law)
    reached = from_those(lambda public: True)

    misplaced = unnamed = foreign = 0
    page, tabled = page_parts("docs/DEFINITIONS.md")
    for crate in order:
        rows = collections.defaultdict(lambda: [0, 0, 0])
        for k, definition in enumerate(definitions.all):
            if definition.crate != crate:
                continue
            rows[definition.module][0 if k in reached else 2] += definition.count
            rows[definition.module][1] += definition.count if k in tool else 0
            if (k in reached) == definition.module.startswith("inner."):
                misplaced += 1
                place = f"crates/{crate}/specs/{definition.module.replace('.', '/')}.antt"
                how = "is reached" if k in reached else "is not reached"
                print(f"{', '.join(definition.names)} {how}, but stands in {place}")
        for module, (yes, _, _) in sorted(rows.items()):
            if yes and not module.startswith("inner.") and module not in page[crate]:
                unnamed += 1
                print(f"docs/DEFINITIONS.md does not name {module} of {crate}")
        there = {name for d in definitions.all if d.crate == crate for name in (d.module, *d.names)}
        for name in sorted(tabled[crate] - there - {public.name for public in texts if public.crate in (crate, LOWER_PARTS.get(crate))}):
            unnamed += 1
            print(f"docs/DEFINITIONS.md has {name} of {crate}, which is not there")
        if rows:
            yes, of_tool, no = (sum(row[k] for row in rows.values()) for k in range(3))
            print(f"{crate:<28} {yes:6} lines reached, {of_tool:6} by the tool; {no:6} not")
        for module, (yes, of_tool, no) in sorted(rows.items()) if "-v" in sys.argv[1:] else ():
            print(f"    {module:<24} {yes:6} {'':14} {of_tool:6} {'':12} {no:6}")

    for crate in order:
        cites = collections.defaultdict(set)
        for path in files_of(f"crates/{crate}/src", ".rt") + files_of(f"crates/{crate}/specs", ".antt"):
            cites["its code or definitions"].update(re.findall(r"\bRattle\.(sgb\w*)\.specs\.inner\b", read(path)))
        for path in files_of(f"crates/{crate}/proofs", ".antt"):
            cites["its proofs"].update(re.findall(r"\bRattle\.(sgb\w*)\.specs\.inner\b", read(path)))
        for where, others in cites.items():
            foreigners = {other for other in others - {crate} if LOWER_PARTS.get(other) != crate}
            if foreigners:
                foreign += 1
                print(f"{crate}: {where} cite specs/inner of {', '.join(sorted(foreigners))}")

    print(f"Definitions of the tool:          {definitions.lines(tool):5} lines")
    print(f"Definitions of the libraries:     {definitions.lines(library):5} lines")
    print(f"Definitions of laws alone:        {definitions.lines(reached - library):5} lines")
    every = definitions.lines(range(len(definitions.all)))
    print(f"Definitions to believe:           {definitions.lines(reached):5} lines of {every}")
    share = clap_share()
    if share:
        print(f"clap's own, under {' and '.join(CLAP)}: {share[0]} lines of {share[1]}")
    else:
        print(f"clap's own, under {' and '.join(CLAP)}: not counted, since rt doc tells of no folder that has them")
    failed = (misplaced > 0) + (unnamed > 0) + (foreign > 0)
    print(f"{3 - failed} passed, {failed} failed")
    return 1 if failed else 0


if __name__ == "__main__":
    try:
        sys.exit(main())
    except (Unread, OSError, UnicodeDecodeError) as cause:
        print(f"definitions.py: {cause}", file=sys.stderr)
        sys.exit(2)
