#!/usr/bin/env python3
"""Whether an example refuses each definition that is turned.

    checks/turned.py [-v] [--with FOLDER] [--only WORD] [--without WORD] [--batch N] [--jobs N] [--save FILE] CRATE ..

At the repository's top, in a tree where `rt check` has proved the crates. The definitions are those of crates/CRATE/specs
that contracts reach, so all but `inner` and `declared`; the examples are the files crates/CRATE/proofs/Examples*, or those of the
same place in FOLDER, which are to be tried; an example whose name the WORD of --without finds is left out, as a costly one may
be. Each definition is turned a token at a time:

    numbers           one more; one less
    comparisons       `<` for `≤`, `nat_lt` for `nat_le`, and back; operands exchanged
    operators         operands of `-`, `/`, `%`, `^`, `++` exchanged; `-` for `+`, `+` for `-` and `*`, `/` for `%`, `&&` for `||`
    functions         `min` for `max`, `take` for `drop`, `list_all` for `list_any`; arguments of one type exchanged
    cases             one branch of an `if` in the place of the whole; the values of two clauses, or of two arms, exchanged
    lists             `reverse` put in, or taken out; a `filter` taken out
    flags             `true` for `false`; a `not` taken out; a Bool negated
    projections       `.0` for `.1`, a field for another one of the same type; the values of such fields exchanged
    values            one variant for another; `negsuc` for `pos`; a text in quotes without its last character

Each turn stands in modules of its own in a crate over the library (out/turned): the turned definition, all that cites it, and
the examples that reach it; whatever else they cite is that of the library. A type that no other crate can name is declared
there too, and then all that speaks of it is copied. One `rt check` goes over many turns, and its
errors say what became of each:

    of no type        the definition itself, or another one that cites it, is refused: this turn counts for nothing
    seen              an example is refused by itself; "depends on .., which was rejected" tells nothing
    unseen            no example is refused
    no end            its check alone took more than --seconds, which is told apart, and is not taken for seen

A definition is seen where each of its turns is that has a type, or stands in the table ALIKE with its reason. A definition of
which no turn has a type (a record of data, say) is not counted, and no law: a record without parameters, which is proved as it
stands. Each definition stands there as it is once more, too: where
an example fails with that, or an error is none that this script reads, it stops with status 2 and guesses nothing.

What it does not know: it does not turn a record's fields away, `×`, `→` or `≡`; it does not see that two turns are
one; it leaves out examples that cite a file of lemmas with parameters of its own, and the turns of the table ENDLESS, whose value is not to be
had; and what only an example of a crate above would refuse is unseen, unless --above CRATE has the examples of that crate too.

With -v each turn that is unseen is printed. For each crate one line: its definitions, its turns, those that an example
refuses and those that nothing does. The status is 1 where fewer than 95 in a hundred of a crate's definitions are seen.
"""

import argparse
import collections
import glob
import os
import re
import shutil
import subprocess
import sys

TOP = os.path.dirname(os.path.dirname(os.path.abspath(__file__)))
PLACE = "out/turned"
WANTED = 95

# turns that change nothing, or what no example can tell: the definition, a turn as -v prints it, and the reason
ALIKE = {
    ("sgb_vec.Sizes.zero_after_stop", "zero_after_stop 2: reversed"): "each of its entries is 0",
    ("sgb_graph.Graphs.link_of", "link_of 1: reversed"): "it has one entry or none",
    ("sgb_graph.Growth.with_edge", "with_edge 1: u and v exchanged after after_lower"): "an edge has no direction",
    ("sgb_graph.Growth.with_event", "with_event 2: e.from and e.to exchanged after with_edge"): "an edge has no direction",
    ("sgb_graph.Events.HasArcsOf", "lists 4: ≤ for < in `(v : ℕ) → v < length g.vertices → cha`"): "past the last vertex both lists are empty",
    ("sgb_moves.Moves.is_elsewhere", "is_elsewhere 2: y and x exchanged after same_vector"): "it has no order",
    ("sgb_gen.VectorGraphs.vertex_among", "vertex_among 1: w and v exchanged after same_vector"): "it has no order",
    ("sgb_gen.Subsets.moves_to_place", "moves_to_place 1: u and v exchanged after common_size"): "it has no order",
    ("sgb_moves.Moves.reach", "reach 1: reversed"): "it has one entry or none",
    ("sgb_arrays.Fields.IsIntsRefusal", "IsIntsRefusal 1: first and count exchanged after IsThere"): "a sum has no order",
    ("sgb_arrays.Fields.IsIntsRefusal", "IsIntsRefusal 2: first and count exchanged after IsThere"): "a sum has no order",
    ("sgb_arrays.Fields.IsIntsRefusal", "IsIntsRefusal 3: first and count exchanged after IsThere"): "a sum has no order",
    ("sgb_arrays.Runs.IsRunRefusal", "IsRunRefusal 1: first and count exchanged after IsThere"): "a sum has no order",
    ("sgb_arrays.Runs.IsFillRefusal", "IsFillRefusal 1: first and count exchanged after IsThere"): "a sum has no order",
    ("sgb_arrays.Runs.IsFillRefusal", "IsFillRefusal 2: first and count exchanged after IsThere"): "a sum has no order",
    ("sgb_arrays.Runs.IsFillRefusal", "IsFillRefusal 3: first and count exchanged after IsThere"): "a sum has no order",
    ("sgb_arrays.Runs.IsSizeRefusal", "IsSizeRefusal 1: first and count exchanged after IsFillRefusal"): "a sum has no order",
    ("sgb_moves.Displacements.vectors_of_norm", "vectors_of_norm 1: 2 for 1 in `(box (replicate d (p + 1)))`"): "no entry is above the norm",
    ("sgb_file.FileLines.lines_among", "lines_among 2: reversed"): "it has one entry or none",
    ("sgb_file.Saving.field_texts", "field_texts 2: reversed"): "it has one entry",
    ("sgb_file.Saving.field_texts", "field_texts 3: reversed"): "it has one entry",
    ("sgb_file.Saving.field_texts", "field_texts 4: reversed"): "it has one entry",
    ("sgb_file.Saving.field_texts", "field_texts 5: reversed"): "it has one entry",
    ("sgb_ops.BiComplete.bi_complete_of", "bi_complete_of 1: true for false in `described pair) entries false false directed) (λ d.`"): "it has no loops",
    ("sgb_ops.BiComplete.bi_complete_of", "bi_complete_of 1: true for false in `bed pair) entries false false directed) (λ d. Ok`"): "it has no parallel arcs",
    ("sgb_ops.Gunion.union_events", "union_events 1: as if `nat_lt v (order_of h)`"): "past the last vertex the list is empty",
    ("sgb_ops.Gunion.union_events", "union_events 1: nat_le for nat_lt in `ken directed g v ++ (if nat_lt v (order_of h) then fil`"): "past the last vertex the list is empty",
    ("sgb_ops.Intersection.common_events", "common_events 1: gs and hs exchanged after common_count"): "the lesser of two counts has no order",
    ("sgb_ops.Intersection.intersection_events", "intersection_events 1: max for min in `v)) (range_with_len 0 (min (order_of g) (order_of`"): "past the last vertex the list is empty",
    ("sgb_ops.Merged.merged", "merged 2: e and f exchanged after has_ends_of"): "it has no order",
    ("sgb_ops.Merged.IsShortest", "one 1: e and f exchanged after has_ends_of"): "it has no order",
    ("sgb_taken.Taken.each_edge_once", "each_edge_once 2: reversed"): "it has one entry or none",
    ("sgb_ops.Wheel.accepted_rim", "accepted_rim 1: 0 for 1 in `dle. board (line n (pos 1) (pos 1) directed))`"): "piece 0 is piece 1",
    ("sgb_ops.Wheel.wheel_of", "wheel_of 1: 0 for 1 in `hen (board (line n (pos 1) (pos 1) directed)) (λ`"): "piece 0 is piece 1",
    ("sgb_values.FirstRefusals.AreNumbersRefused", "AreNumbersRefused 1: n1 and n2 exchanged after accepted_parts"): "it is refused the same in either order",
}

# definitions of which some turn is seen by no example, with the reason
LISTED = {
    "sgb_vec.Sums.has_great_count": "more than 1,000,000,000 vectors are not to be listed, so no example says yes",
    "sgb_vec.Sums.sum_of": "as has_great_count, which it asks",
    "sgb_graph.Parts.checked": "1,000,000,000 vertices are not to be listed",
    "sgb_graph.Sound.IsGraph": "1,000,000,000 vertices are not to be listed",
    "sgb_arrays.Given.fault_of": "more than 1,000,000,000 names are not to be listed",
}

# turns that are not made, since what they say is too long to evaluate: the definition, the turn, and the reason
ENDLESS = [
    (r"sgb_graph\.Draws\.", r"\w+ \d+: seed and ", "a start value in the place of a count"),
]

USE = re.compile(r"^(?:pub |ghost )?use (?:Rattle\.)?([\w.]+)\.\{([^}]*)\}\s*$", re.M)
USE_AS = re.compile(r"^(?:pub |ghost )?use Rattle\.[\w.]+ as \w+\s*$", re.M)
HEAD = re.compile(r"(?:(?:abbrev|unfoldable|mutual|pub|data|record)\s+)*([^\s:(){}]+)")
BEGINS = re.compile(r"(?:(?:abbrev|unfoldable|mutual|pub|data|syntax|law)\b|record (?!\{))|[^\s(){},;:]+ :(?:\s|$)")
WORD = re.compile(r"[^\s(){}\[\],;:.\"]+")
TOKEN = re.compile(r"\"(?:\\.|[^\"\\])*\"|[(){}\[\],;]|[^\s(){}\[\],;\"]+")
ERROR = re.compile(r"^\S*?proofs/(\w+)\.antt:(\d+):\d+: error: (.*)$")
DEPENDS = re.compile(r"\d+ declarations? that depends? on |.*which was (?:rejected|not admitted)")
OTHER_LIBRARIES = ("Prim.", "mathlib.")
NUMERAL = re.compile(r"\d[\d_]*$")
PRELUDE = {"nat_lt", "nat_le", "reverse", "not", "true", "false", "min", "max", "take", "drop", "map", "pos", "negsuc",
           "◌<◌", "◌≤◌", "◌+◌", "◌-◌", "◌/◌", "◌%◌", "◌&&◌", "◌||◌"}
LIST = {"list_all", "list_any"}
INT = {"int_min", "int_max"}
OTHER = {"nat_lt": "nat_le", "nat_le": "nat_lt", "min": "max", "max": "min", "take": "drop", "drop": "take", "true": "false",
         "false": "true", "list_all": "list_any", "list_any": "list_all", "int_min": "int_max", "int_max": "int_min",
         "pos": "negsuc", "negsuc": "pos"}
OPERATOR = {"+": "-", "-": "+", "*": "+", "/": "%", "%": "/", "&&": "||", "||": "&&", "<": "≤", "≤": "<"}
LEVEL = {"→": 0, "↔": 0, "⊎": 1, "×": 2, "||": 1, "&&": 2, "≡": 3, "≢": 3, "<": 3, "≤": 3, "≤ℤ": 3, "==": 3, "++": 4,
         "+": 5, "-": 5, "*": 6, "/": 6, "%": 6, "^": 7, "∷": 8}
EXCHANGED = ("-", "/", "%", "^", "++", "<", "≤", "≤ℤ")
VARIANTS = ".TheVariants"
KINDS = {**dict.fromkeys(("u8", "u16", "u32", "u64", "usize"), "ℕ"), "i64": "ℤ", "bool": "Bool"}
STOPS = {"=", "then", "else", "if", "in", "let", ",", ";", "|", "↦", "where", "λ", ":"}
PANICS = {"Bad": "VeryBad", "VeryBad": "Bad", "Early": "Late", "Late": "Early", "Syntax": "Early", "NoRoom": "Bad", "Invalid": "Bad"}


class Unread(Exception):
    """Something that this script does not read."""


class Chunk:
    """A definition or an example: its module, the names that it gives, and its lines without the comment above it."""

    def __init__(self, module, names, text, public):
        self.module, self.names, self.text, self.public = module, names, text, public
        self.words = set(WORD.findall(re.sub(r"\"(?:\\.|[^\"\\])*\"", "", text)))

    def key(self):
        return self.module, self.names[0]


class Module:
    """A file: its name with the crate and the folder, what its `use` lines bring, and its chunks."""

    def __init__(self, name, path):
        self.name, self.path = name, path
        with open(path) as file:
            text = file.read()
        self.brought, self.aliases = {}, [found.group().strip() for found in USE_AS.finditer(text)]
        for place, listed in USE.findall(text):
            for item in filter(None, (part.strip() for part in listed.split(","))):
                there, _, here = item.partition(" as ")
                self.brought[(here or there).strip()] = (place, there.strip())
        self.chunks = list(self.read(text.split("\n")))

    def without_lemmas(self, lines):
        """The lines of a file of specs/inner without lemmas over parameters, which no definition that is turned reaches."""
        inside = False
        for line in lines:
            inside = line.startswith("module _") or inside and (not line.strip() or line[:1].isspace())
            if not inside:
                yield line

    def read(self, lines):
        if f"{os.sep}inner{os.sep}" in self.path:
            lines = list(self.without_lemmas(lines))
        starts = []
        for i, line in enumerate(lines):
            if line.startswith("module _"):
                raise Unread(f"{self.path}:{i + 1}: a module with parameters")
            if not line[:1].isspace() and BEGINS.match(line) and not re.match(r"(?:pub |ghost )?(?:use|mod)\b|--", line):
                starts.append(i)
        for start, following in zip(starts, starts[1:] + [len(lines)]):
            body = lines[start:following]
            while not body[-1].strip() or body[-1].startswith(("--", "infix")):
                body.pop()
            body = [line for line in body if not re.match(r"\s*--", line)]
            names = []
            if body[0].split()[-1] == "mutual":
                for line in body[1:]:
                    found = re.match(r"  (?:(?:pub|data|record|abbrev|unfoldable) )*([^\s:(){}]+) [^=]*?:(?: |$)", line)
                    if found and not line.startswith("   "):
                        names.append(found.group(1))
                    elif re.match(r"    ([^\s:(){}]+(?: [^\s:(){}]+)*) : ", line):
                        names += line.split(" : ")[0].split()
            else:
                found = HEAD.match(body[0])
                if not found:
                    raise Unread(f"{self.path}:{start + 1}: no name in {body[0]!r}")
                names.append(found.group(1))
                if re.match(r"(pub )?data ", body[0]):
                    names += [word for line in body[1:] if " : " in line for word in line.split(" : ")[0].split()]
            if not names:
                raise Unread(f"{self.path}:{start + 1}: a block without names")
            yield Chunk(self.name, names, "\n".join(body), "pub" in body[0].split()[:3] or "mutual" in body[0].split())


class Declared(Module):
    """A type that no other crate can name, as the turns declare it: by its fields, all of them numbers or flags, or its variants."""

    def __init__(self, place, path):
        self.name, self.path, self.aliases = place, path, []
        name = place.rsplit(".", 1)[1]
        with open(path) as file:
            found = re.search(rf"^(pub(?:\(\w+\))? )?(struct|enum) {name} {{\n(.*?)^}}", file.read(), re.M | re.S)
        self.is_private = found is not None and found.group(1) != "pub "
        self.brought = {kind: ("std.specs.Prelude", kind) for kind in KINDS.values()}
        if not self.is_private:
            return
        lines = [line.strip().rstrip(",") for line in found.group(3).split("\n") if re.match(r"\s*[^\s/#]", line)]
        if found.group(2) == "enum":
            variants = [re.fullmatch(r"(\w+)(?:\((\w+)\))?", line) for line in lines]
            self.is_private = all(variants)
            if not self.is_private:
                return
            parts = [variant.groups() for variant in variants]
            names, held = [name, *(variant for variant, _ in parts)], [part for _, part in parts if part]
            said = [f"  {variant} : {f'{part} → ' if part else ''}{name}" for variant, part in parts]
            text = "\n".join([f"pub data {name} : Type 0 where", *said])
            self.brought.update((part, (f"{place.rsplit('.', 1)[0]}.{part}", part)) for part in held)
        else:
            fields = [re.sub(r"^pub(\(\w+\))? ", "", line).split(": ") for line in lines]
            self.is_private = all(kind in KINDS for _, kind in fields)
            said = [f"  pub {field} : {KINDS.get(kind)}" for field, kind in fields]
            names, text = [name], "\n".join([f"pub record {name} : Type 0 where", *said])
        self.chunks = [Chunk(place, names, text, True)]


class Universe:
    """The definitions and examples of some crates, and the proofs that the examples cite; and what cites what."""

    def __init__(self, crates, others):
        self.modules = {}
        for crate in crates:
            for path in sorted(glob.glob(f"crates/{crate}/specs/**/*.antt", recursive=True)):
                self.add(crate, "specs", f"crates/{crate}/specs", path)
            folder = f"crates/{crate}/proofs"
            for path in sorted(glob.glob(f"{folder}/Examples*", recursive=True) + glob.glob(f"{folder}/Examples/**/*", recursive=True)):
                if path.endswith(".antt"):
                    self.add(crate, "proofs", folder, path)
            folder = os.path.join(others or "", folder)
            for path in sorted(glob.glob(f"{folder}/**/*.antt", recursive=True)) if others else ():
                self.add(crate, "proofs", folder, path)
        opaque, work = set(), list(self.modules.values())
        while work:
            for place, _ in work.pop().brought.values():
                crate, _, module = place.partition(".proofs.")
                path = f"crates/{crate}/proofs/{module.replace('.', '/')}.antt"
                if not module or crate not in crates or place in self.modules or place in opaque:
                    continue
                try:
                    self.modules[place] = Module(place, path)
                    work.append(self.modules[place])
                except Unread:
                    opaque.add(place)
        types = {place.removesuffix(VARIANTS) for m in self.modules.values() for place, _ in m.brought.values()}
        declared = [self.declared(place) for place in sorted(types) if re.match(rf"(?:{'|'.join(crates)})\.specs\.declared\.", place)]
        self.modules.update({m.name: m for m in declared if m.is_private})
        self.owner = {(m.name, name): c for m in self.modules.values() for c in m.chunks for name in c.names}
        self.owner |= {(place + VARIANTS, name): c for (place, name), c in self.owner.items() if isinstance(self.modules[place], Declared)}
        self.users = collections.defaultdict(set)
        self.cites = {}
        for module in self.modules.values():
            for chunk in module.chunks:
                cited = set()
                for name in chunk.words:
                    there = module.brought.get(name, (module.name, name))
                    if there in self.owner and self.owner[there] is not chunk:
                        cited.add(self.owner[there])
                for name, there in module.brought.items():
                    if there in self.owner and is_there(name, chunk.text):
                        cited.add(self.owner[there])
                self.cites[chunk] = cited
                for other in cited:
                    self.users[other].add(chunk)
        # examples that cite a file of lemmas that is not read here, which speak of the definitions as they are
        self.left_out = set()
        for module in self.modules.values():
            names = {name for name, (place, _) in module.brought.items() if place in opaque}
            for chunk in module.chunks:
                if names & chunk.words:
                    self.left_out |= self.above(chunk)

        # what cannot be said of another type than the one that no other crate can name
        self.of_private = set().union(*(self.above(c) for m in declared if m.is_private for c in m.chunks))

    @staticmethod
    def declared(place):
        crate, _, path = place.partition(".specs.declared.")
        path = path.rpartition(".")[0].replace(".", "/") or "lib"
        return Declared(place, f"crates/{crate}/src/{path}.rt")

    def add(self, crate, area, folder, path):
        module = os.path.relpath(path, folder).removesuffix(".antt").replace("/", ".")
        name = f"{crate}.{area}.{module}"
        if module != "Lib":
            self.modules[name] = Module(name, path)

    def above(self, chunk):
        """All that cites a chunk, by way of others too."""
        work, found = [chunk], {chunk}
        while work:
            new = self.users[work.pop()] - found
            found |= new
            work += new
        return found

    def below(self, chunks, within):
        work, found = list(chunks), set(chunks)
        while work:
            new = (self.cites[work.pop()] & within) - found
            found |= new
            work += new
        return found


def is_short(body):
    """A list of one entry or none, or of equal ones, which reversed is the same."""
    tokens = tokens_of(body)
    end = group_end(tokens, 1 if body.startswith("record {") else 0)
    if re.match(r"replicate |codes \"(?:\\.|[^\"\\])?\"$", body):
        return True
    return body == "[]" or end is not None and [word for word, _, _ in tokens[end:]] == ["∷", "[", "]"]


def is_law(chunk):
    """A record of no parameters whose fields state something: a function of `laws` proves it as it stands."""
    return re.match(r"(?:pub )?record \S+ : Type 0 where", chunk.text) is not None and re.search(r"≡|↔|→", chunk.text) is not None


def is_there(name, text):
    """An operator's name, with its places left open, stands in a text."""
    return "◌" in name and all(part in text for part in name.split("◌") if part)


def is_example(chunk):
    """An example is what an Examples file states: its line names a proof, and it is no definition of its own."""
    return ".proofs.Examples" in chunk.module and not re.match(r"(?:pub )?(?:abbrev|unfoldable|record|data|mutual)\b", chunk.text) \
        and re.search(r"^\S+(?: .*)? = ", chunk.text, re.M) is not None


# ---- turns


def tokens_of(text):
    return [(found.group(), found.start(), found.end()) for found in TOKEN.finditer(text)]


def clauses_of(chunk):
    """(start, end) of each part of a definition that says something, without signatures, heads and patterns; and the name."""
    lines, at, parts = chunk.text.split("\n"), 0, []
    is_record = re.match(r"(?:pub )?record ", chunk.text)
    for line in lines:
        end = at + len(line)
        if is_record:
            found = re.match(r"  (?:pub )?([^\s:]+) :", line)
            if found:
                parts.append([at + found.end(), end, found.group(1)])
            elif parts:
                parts[-1][1] = end
        else:
            first = line.split()[0] if line.split() else ""
            inside = tokens_of(line)
            depth, equals = 0, None
            for word, start, stop in inside:
                depth += (word in "([{") - (word in ")]}")
                if word == "=" and depth == 0:
                    equals = stop
                    break
            if equals and first in chunk.names and re.match(r"(?:  )?\S", line):
                parts.append([at + equals, end, first])
            elif parts and not re.match(r"(?:unfolding|abbrev|unfoldable|pub|data|record)\b", line.strip()) and line[:2] == "  " \
                    and not re.match(r"  \S+ : ", line):
                parts[-1][1] = end
        at = end + 1
    return parts


def group_end(tokens, i):
    """The index after the atom at i: a word, or all to the bracket that closes it."""
    if i >= len(tokens):
        return None
    word = tokens[i][0]
    if word in STOPS or word in LEVEL or word in ")]}" or word.endswith(".") and len(word) > 1:
        return None
    if word not in "([{":
        return i + 1
    depth = 0
    for j in range(i, len(tokens)):
        depth += (tokens[j][0] in "([{") - (tokens[j][0] in ")]}")
        if depth == 0:
            return j + 1
    return None


def is_binder(tokens, i):
    return tokens[i][0].endswith(".") and len(tokens[i][0]) > 1 and not tokens[i][0][0].isdigit()


def left_of(tokens, i, level):
    j, depth = i - 1, 0
    while j >= 0:
        word = tokens[j][0]
        depth += (word in ")]}") - (word in "([{")
        if depth < 0 or depth == 0 and (word in STOPS or is_binder(tokens, j) or word in LEVEL and LEVEL[word] < level):
            break
        j -= 1
    return j + 1


def right_of(tokens, i, level):
    j, depth = i + 1, 0
    while j < len(tokens):
        word = tokens[j][0]
        depth += (word in "([{") - (word in ")]}")
        if depth < 0 or depth == 0 and (word in STOPS - {"λ", "if", "let", "="} or word in LEVEL and LEVEL[word] <= level):
            break
        j += 1
    return j


def branch_end(tokens, i):
    """Where the branch that begins at token i ends: with its bracket, or before what goes on after it."""
    depth, ifs = 0, 0
    for j in range(i, len(tokens)):
        word = tokens[j][0]
        depth += (word in "([{") - (word in ")]}")
        if depth < 0:
            return j
        if depth == 0:
            if word == "if":
                ifs += 1
            elif word == "else":
                if not ifs:
                    return j
                ifs -= 1
            elif word in (",", ";", "|", "in") or word == "then" and not ifs:
                return j
    return len(tokens)


def shown(text):
    return re.sub(r"\s+", " ", text).strip()


class Turner:
    """Turns the definitions of a universe."""

    def __init__(self, universe, everything):
        self.universe = universe
        self.signatures, self.twins = {}, collections.defaultdict(set)
        for module in everything:
            for chunk in module.chunks:
                found = re.match(r"(?:(?:abbrev|unfoldable|pub)\s+)*(\S+) : (.*)", chunk.text)
                if found and not re.match(r"(?:pub )?(?:record|data|mutual)", chunk.text):
                    self.signatures[module.name, found.group(1)] = self.arguments(found.group(2))
                if re.match(r"(?:pub )?record ", chunk.text):
                    fields = re.findall(r"^  (?:pub )?(\w+) : (.*)$", chunk.text, re.M)
                    for name, kind in fields:
                        for other, its in fields:
                            if other != name and its.strip() == kind.strip() and "≡" not in kind:
                                self.twins[name].add(other)

    @staticmethod
    def arguments(signature):
        parts, depth, part = [], 0, ""
        for word in re.findall(r"[(){}]|→|[^(){}→]+", signature):
            depth += (word in "({") - (word in ")}")
            if word == "→" and depth == 0:
                parts.append(part.strip())
                part = ""
            else:
                part += word
        return [p for p in parts + [part.strip()] if not p.startswith("{")]

    def turns(self, chunk):
        """(what is turned, the new text, names that it needs)."""
        module = self.universe.modules[chunk.module]
        seen = {chunk.text}
        parts = clauses_of(chunk)
        for what, text, needs in self.all_turns(chunk, module, parts):
            place = f"{chunk.module.replace('.specs.', '.')}.{chunk.names[0]}"
            endless = any(re.match(which, place) and re.match(turn, what) for which, turn, _ in ENDLESS)
            if text not in seen and not endless:
                seen.add(text)
                yield what, text, needs

    def all_turns(self, chunk, module, parts):
        text = chunk.text
        for k, (start, end, name) in enumerate(parts):
            body = text[start:end]

            def turned(what, first, last, new, needs=(), start=start):
                return f"{name} {k + 1}: {what}", text[:start + first] + new + text[start + last:], set(needs)

            tokens = tokens_of(body)
            yield from self.of_tokens(chunk, module, body, tokens, turned, self.flags(chunk, name, text[:start]))
            kind = self.signatures.get((chunk.module, name), [""])[-1]
            if kind.startswith("List") and not is_short(body.strip()):
                yield turned("reversed", 0, len(body), f" reverse ({body.strip()})", ["reverse"])
        for (a, b, name), (c, d, other) in zip(parts, parts[1:]):
            if name == other and text[a:b].strip() != text[c:d].strip() and not re.match(r"(?:pub )?record ", text):
                new = text[:a] + text[c:d] + text[b:c] + text[a:b] + text[d:]
                yield f"{name}: {shown(text[a:b])} exchanged for {shown(text[c:d])}", new, set()

    def flags(self, chunk, name, before):
        """The variables of this clause that are Bool."""
        flags = set()
        if re.match(r"(?:pub )?record ", chunk.text):
            for names in re.findall(r"\(([^():]+) : Bool\)", chunk.text.split("\n")[0]):
                flags.update(names.split())
            return flags
        kinds = self.signatures.get((chunk.module, name), [])
        line = before.split("\n")[-1]
        tokens, i, place = tokens_of(line), 1, 0
        while i < len(tokens) and tokens[i][0] != "=":
            end = group_end(tokens, i) or i + 1
            if place < len(kinds) and kinds[place] == "Bool" and end == i + 1 and re.match(r"[a-z_]\w+$|[a-z]$", tokens[i][0]) \
                    and tokens[i][0] not in ("true", "false"):
                flags.add(tokens[i][0])
            place, i = place + 1, end
        return flags

    def of_tokens(self, chunk, module, body, tokens, turned, flags):
        near = lambda first, last: shown(body[max(0, first - 24):min(len(body), last + 24)])
        for i, (word, first, last) in enumerate(tokens):
            say = lambda how: f"{how} in `{near(first, last)}`"
            if NUMERAL.match(word):
                number = int(word.replace("_", ""))
                yield turned(say(f"{number + 1} for {word}"), first, last, str(number + 1))
                if number:
                    yield turned(say(f"{number - 1} for {word}"), first, last, str(number - 1))
            elif word in LEVEL and 0 < i < len(tokens) - 1:
                other = OPERATOR.get(word)
                if other:
                    yield turned(say(f"{other} for {word}"), first, last, other, [f"◌{other}◌"])
                if word in EXCHANGED:
                    a, b = left_of(tokens, i, LEVEL[word]), right_of(tokens, i, LEVEL[word])
                    if a < i and b > i + 1 and not (word == "++" and self.is_measured(tokens, a)):
                        left, right = body[tokens[a][1]:tokens[i - 1][2]], body[tokens[i + 1][1]:tokens[b - 1][2]]
                        new = f"{self.wrapped(right)} {word} {self.wrapped(left)}"
                        if shown(left) != shown(right):
                            yield turned(say(f"operands of {word} exchanged"), tokens[a][1], tokens[b - 1][2], new)
            elif word == "if":
                yield from self.branches(body, tokens, i, turned)
            elif word == "not" and group_end(tokens, i + 1):
                yield turned(say("not taken out"), first, last, "")
            elif word == "reverse":
                yield turned(say("reverse taken out"), first, last, "map (λ same. same)", ["map"])
            elif word == "filter" and group_end(tokens, i + 1):
                end = group_end(tokens, i + 1)
                yield turned(say("filter taken out"), first, tokens[end - 1][2], "map (λ same. same)", ["map"])
            elif word == "codes" and i + 1 < len(tokens) and tokens[i + 1][0].startswith('"'):
                quoted = tokens[i + 1][0]
                cut = re.sub(r"(\\.|[^\\])\"$", '"', quoted)
                new = cut if cut != '""' else '"?"'
                yield turned(f"{new} for {quoted}", tokens[i + 1][1], tokens[i + 1][2], new)
            elif word in OTHER:
                yield turned(say(f"{OTHER[word]} for {word}"), first, last, OTHER[word], [OTHER[word]])
            elif word in flags:
                yield turned(say(f"not {word} for {word}"), first, last, f"(not {word})", ["not"])
            else:
                yield from self.of_word(module, body, tokens, i, turned, say)
            if word in ("nat_lt", "nat_le", "range_with_len", "int_lt", "int_le"):
                yield from self.exchanged(body, tokens, i, 1, turned)
            elif not word.startswith('"'):
                there = module.brought.get(word, (module.name, word))
                kinds = self.signatures.get(there, [])
                for k in range(len(kinds) - 2):
                    if kinds[k] == kinds[k + 1]:
                        yield from self.exchanged(body, tokens, i, k + 1, turned)
            if word == "[" and i + 1 < len(tokens):
                yield from self.arms(body, tokens, i, turned)

    @staticmethod
    def is_measured(tokens, i):
        """A text whose length alone is asked: its parts may stand in any order."""
        return i > 1 and tokens[i - 1][0] == "(" and tokens[i - 2][0] == "length"

    @staticmethod
    def wrapped(text):
        return text if re.match(r"[^\s]+$", text) or re.match(r"\([^()]*\)$", text) else f"({text})"

    def of_word(self, module, body, tokens, i, turned, say):
        word, first, last = tokens[i]
        parts = word.split(".")
        for k, part in enumerate(parts):
            if k and part in ("0", "1"):
                new = ".".join(parts[:k] + ["1" if part == "0" else "0"] + parts[k + 1:])
                yield turned(say(f"{new} for {word}"), first, last, new)
            elif k and part in self.twins:
                for other in sorted(self.twins[part])[:2]:
                    new = ".".join(parts[:k] + [other] + parts[k + 1:])
                    yield turned(say(f"{new} for {word}"), first, last, new)
        place = module.brought.get(word, ("", ""))[0]
        if place.endswith(".TheVariants"):
            group = [name for name, there in module.brought.items() if there[0] == place]
            new = PANICS.get(word) if place.endswith(".Panic.TheVariants") else None
            if new is None and len(group) > 1:
                new = group[(group.index(word) + 1) % len(group)]
            if new:
                yield turned(say(f"{new} for {word}"), first, last, new, [(place, new)] if new not in group else [])
        if word in self.twins and i + 1 < len(tokens) and tokens[i + 1][0] == "=" and tokens[i - 1][0] in ("{", ";"):
            end = self.value_end(tokens, i + 2)
            for j in range(end, len(tokens) - 1):
                if tokens[j][0] == "}":
                    break
                if tokens[j][0] in self.twins[word] and tokens[j + 1][0] == "=":
                    stop = self.value_end(tokens, j + 2)
                    a, b = tokens[i + 2][1], tokens[end - 1][2]
                    c, d = tokens[j + 2][1], tokens[stop - 1][2]
                    if body[a:b] != body[c:d]:
                        new = body[c:d] + body[b:c] + body[a:b]
                        yield turned(f"values of {word} and {tokens[j][0]} exchanged", a, d, new)

    @staticmethod
    def value_end(tokens, i):
        depth = 0
        for j in range(i, len(tokens)):
            depth += (tokens[j][0] in "([{") - (tokens[j][0] in ")]}")
            if depth < 0 or depth == 0 and tokens[j][0] == ";":
                return j
        return len(tokens)

    def exchanged(self, body, tokens, i, nth, turned):
        """The arguments nth and nth + 1 of the function at i, exchanged."""
        at, ends = i + 1, []
        for _ in range(nth + 1):
            end = group_end(tokens, at)
            if end is None:
                return
            ends.append((at, end))
            at = end
        (a, b), (c, d) = ends[-2:]
        left, right = body[tokens[a][1]:tokens[b - 1][2]], body[tokens[c][1]:tokens[d - 1][2]]
        if shown(left) != shown(right):
            yield turned(f"{shown(left)} and {shown(right)} exchanged after {tokens[i][0]}", tokens[a][1], tokens[d - 1][2], f"{right} {left}")

    def branches(self, body, tokens, i, turned):
        depth, ifs, then, other = 0, 0, None, None
        for j in range(i + 1, len(tokens)):
            word = tokens[j][0]
            depth += (word in "([{") - (word in ")]}")
            if depth < 0:
                break
            if depth == 0 and word == "if":
                ifs += 1
            elif depth == 0 and word == "then" and not ifs:
                then = then or j
            elif depth == 0 and word == "else":
                if not ifs:
                    other = j
                    break
                ifs -= 1
        if then is None or other is None:
            raise Unread(f"an if without its branches: {shown(body)}")
        end = branch_end(tokens, other + 1)
        yes = body[tokens[then + 1][1]:tokens[other - 1][2]]
        no = body[tokens[other + 1][1]:tokens[end - 1][2]]
        test = shown(body[tokens[i + 1][1]:tokens[then - 1][2]])
        yield turned(f"as if `{test}`", tokens[i][1], tokens[end - 1][2], f"({yes})")
        yield turned(f"as if not `{test}`", tokens[i][1], tokens[end - 1][2], f"({no})")

    def arms(self, body, tokens, i, turned):
        """Two arms of an `elim`, exchanged."""
        depth, arms = 0, []
        for j in range(i, len(tokens)):
            word = tokens[j][0]
            depth += (word in "([{") - (word in ")]}")
            if depth == 0:
                break
            if depth == 1 and word == "↦":
                end = branch_end(tokens, j + 1)
                arms.append((tokens[j + 1][1], tokens[end - 1][2]))
        for (a, b), (c, d) in zip(arms, arms[1:]):
            if body[a:b] != body[c:d]:
                yield turned(f"arms {shown(body[a:b])} and {shown(body[c:d])} exchanged", a, d, body[c:d] + body[b:c] + body[a:b])


# ---- a crate of turns


def source_of(need):
    if isinstance(need, tuple):
        return need
    if need in LIST:
        return "std.specs.List", need
    if need in INT:
        return "std.specs.Int", need
    if need in PRELUDE:
        return "std.specs.Prelude", need
    raise Unread(f"no place for {need}")


def flat(module):
    return re.sub(r"\W", "_", module.replace(".specs.", ".").replace(".proofs.", "."))


def alias_of(line, number, where):
    """A line that gives the variants of a type another name, where that type is declared among the turns too."""
    place = re.match(r"use Rattle\.(\S+?)(?:\.TheVariants)? as ", line).group(1)
    return re.sub(r"Rattle\.\S+", f"Rattle.turned.proofs.T{number}_{flat(place)}", line) if place in {module for module, _ in where} else line


def copies(universe, chunk, text, needs, number):
    """The modules of a turn: name -> (text, the chunk of each line)."""
    affected = universe.above(chunk)
    examples = {c for c in affected if is_example(c) and c not in universe.left_out}
    copied = universe.below(examples, affected) | {chunk}
    # what is not public, and what else of the examples they cite, is copied too
    work = list(copied)
    while work:
        for other in universe.cites[work.pop()]:
            if other not in copied and (not other.public or ".proofs.Examples" in other.module):
                copied.add(other)
                work.append(other)
    copied |= universe.below(copied, universe.of_private)
    by_module = collections.defaultdict(list)
    for c in copied:
        by_module[c.module].append(c)
    where = {(c.module, name) for c in copied for name in c.names}
    result = {}
    for name, chunks in by_module.items():
        module = universe.modules[name]
        chunks.sort(key=module.chunks.index)
        words = set().union(*(c.words for c in chunks)) | set(WORD.findall(text) if chunk in chunks else ())
        whole = "\n".join(text if c is chunk else c.text for c in chunks)
        uses = collections.defaultdict(list)
        for here, (place, there) in module.brought.items():
            if here in words or not WORD.fullmatch(here) and here in whole or is_there(here, whole):
                target = f"turned.proofs.T{number}_{flat(place.removesuffix(VARIANTS))}" if (place.removesuffix(VARIANTS), there) in where else place
                uses[target].append(there if here == there else f"{there} as {here}")
        own = {n for c in module.chunks if c not in copied for n in c.names if n in words and n not in module.brought}
        if own:
            uses[name] += sorted(own)
        if chunk in chunks:
            for place, need in map(source_of, needs):
                if need not in module.brought:
                    uses[place].append(need)
        lines = [f"use {'' if place.startswith(OTHER_LIBRARIES) else 'Rattle.'}{place}.{{{', '.join(names)}}}".replace("{-", "{ -") for place, names in uses.items()] + [alias_of(line.strip(), number, where) for line in module.aliases if line.split()[-1] in words]
        owners = [None] * len(lines)
        for c in chunks:
            body = (text if c is chunk else c.text).split("\n")
            if not c.public:
                body[0] = re.sub(r"^((?:abbrev |unfoldable )*)(?=\S)", r"\1pub ", body[0]) if not body[0].startswith("mutual") else body[0]
            lines += [""] + body
            owners += [None] + [c] * len(body)
        result[f"T{number}_{flat(name)}"] = ("\n".join(lines) + "\n", owners)
    return result


def check(crates, turns, universe, jobs, slot, seconds):
    """What becomes of each turn: (turn, "no type" | "seen" | "unseen", the examples that are refused)."""
    folder = os.path.join(PLACE, slot)
    shutil.rmtree(folder, ignore_errors=True)
    for part in ("src", "specs", "proofs"):
        os.makedirs(os.path.join(folder, part))
    known = crates_of()
    others = sorted({name for crate in crates for name in known[crate] if name not in known})
    deps = ", ".join([f'"//crates/{name}"' for name in crates] + [f'"@rattle//{name}"' for name in others])
    files = {}
    for number, (chunk, _, text, needs) in enumerate(turns):
        files.update(copies(universe, chunk, text, needs, number))
    write(f"{folder}/BUILD.bazel", f'load("@rattle//bazel/rattle:crate.bzl", "rattle_crate")\n\nrattle_crate(\n    name = "turned",\n    deps = [{deps}],\n)\n')
    write(f"{folder}/src/lib.rt", "//! Definitions that are turned.\n#![tactic(auto)]\n")
    write(f"{folder}/proofs/Lib.antt", "-- turns\n" + "".join(f"pub mod {name}\n" for name in files))
    for name, (text, _) in files.items():
        write(f"{folder}/proofs/{name}.antt", text)
    command = [*os.environ.get("TURNED_BEFORE", "").split(), "timeout", "-k", "5", str(seconds), "rt", "check", "--jobs", str(jobs)]
    run = subprocess.run(command, cwd=folder, stdout=subprocess.PIPE, stderr=subprocess.STDOUT, stdin=subprocess.DEVNULL, text=True,
                         errors="replace")
    write(f"{folder}/said", run.stdout)
    if run.returncode in (124, 137):
        half = len(turns) // 2
        if not half:
            return [(turns[0], "no end", [])]
        return [v for part in (turns[:half], turns[half:]) for v in check(crates, part, universe, jobs, slot, seconds)]
    if not re.search(r"^crate turned: modules loaded=", run.stdout, re.M):
        raise Unread(f"{folder}/said: the check did not end")
    bad = collections.defaultdict(list)
    for line in run.stdout.split("\n"):
        found = ERROR.match(line)
        if not found:
            if ": error" in line or line.startswith("error"):
                raise Unread(f"an error of another form: {line}")
            continue
        name, place, said = found.groups()
        if DEPENDS.match(said):
            continue
        owner = files[name][1][int(place) - 1]
        if owner is None:
            raise Unread(f"{folder}/proofs/{name}.antt:{place}: {said}")
        bad[int(re.match(r"T(\d+)_", name).group(1))].append((owner, said))
    verdicts = []
    for number, turn in enumerate(turns):
        ways = bad[number]
        if any(not is_example(owner) for owner, _ in ways):
            verdicts.append((turn, "no type", [f"{o.names[0]}: {s}" for o, s in ways if not is_example(o)]))
        elif ways:
            verdicts.append((turn, "seen", sorted({owner.names[0] for owner, _ in ways})))
        else:
            verdicts.append((turn, "unseen", []))
    return verdicts


def write(path, text):
    with open(path, "w") as file:
        file.write(text)


def crates_of():
    """Each crate of crates.txt with those that it stands on."""
    with open("crates.txt") as file:
        lines = [line.split("#")[0] for line in file]
    return {line.split(":")[0].split()[0]: line.split(":")[1].split() for line in lines if ":" in line}


def main():
    parser = argparse.ArgumentParser(usage=__doc__.split("\n")[2].strip())
    parser.add_argument("crates", nargs="+")
    parser.add_argument("-v", action="store_true")
    parser.add_argument("--with", dest="others")
    parser.add_argument("--above", action="append", default=[])
    parser.add_argument("--only")
    parser.add_argument("--without")
    parser.add_argument("--batch", type=int, default=150)
    parser.add_argument("--jobs", type=int, default=2)
    parser.add_argument("--seconds", type=int, default=300)
    parser.add_argument("--list", action="store_true")
    parser.add_argument("--save")
    args = parser.parse_args()
    os.chdir(TOP)
    known = crates_of()
    status = 0
    for crate in args.crates:
        status = max(status, measure(crate, known, args))
    return status


def measure(crate, known, args):
    below = [name for one in (crate, *args.above) for name in known[one] if name not in (crate, *args.above)]
    universe = Universe([crate, *args.above], args.others)
    modules = [module for module in universe.modules.values() if not isinstance(module, Declared)]
    for name in dict.fromkeys(below):
        for path in glob.glob(f"crates/{name}/specs/**/*.antt", recursive=True):
            module = os.path.relpath(path, f"crates/{name}/specs").removesuffix(".antt").replace("/", ".")
            if module != "Lib" and not path.endswith("inner.antt"):
                modules.append(Module(f"{name}.specs.{module}", path))
    turner = Turner(universe, modules)
    for chunk in [c for module in universe.modules.values() for c in module.chunks if args.without and is_example(c)]:
        if re.search(args.without, chunk.names[0]):
            universe.left_out |= universe.above(chunk)
    definitions = [
        chunk for module in universe.modules.values() if module.name.startswith(f"{crate}.specs.")
        and not re.match(r"(?:inner|declared)(?:\.|$)", module.name.split(".specs.")[1])
        for chunk in module.chunks if not args.only or re.search(args.only, f"{module.name}.{chunk.names[0]}")
    ]
    laws = [chunk for chunk in definitions if is_law(chunk)]
    definitions = [chunk for chunk in definitions if not is_law(chunk)]
    turns = []
    for chunk in definitions:
        own = [(chunk, what, text, needs) for what, text, needs in turner.turns(chunk)]
        if own:
            turns += [(chunk, None, chunk.text, set())] + own
    if args.list:
        for chunk, what, text, _ in turns:
            print(f"{chunk.module}.{chunk.names[0]}: {what}")
        print(f"{len(definitions)} definitions, {len(turns)} turns")
        return 0
    verdicts = []
    for start in range(0, len(turns), args.batch):
        part = turns[start:start + args.batch]
        verdicts += check([name for name in dict.fromkeys([crate, *args.above, *below]) if name in known], part, universe, args.jobs, crate, args.seconds)
        print(f"{crate}: {min(start + args.batch, len(turns))} of {len(turns)}", file=sys.stderr, flush=True)
    return report(crate, definitions, laws, verdicts, args)


def report(crate, definitions, laws, verdicts, args):
    counts, by_chunk = collections.Counter(), collections.defaultdict(collections.Counter)
    unseen = collections.defaultdict(list)
    for (chunk, what, _, _), verdict, names in verdicts:
        place = f"{chunk.module.replace('.specs.', '.')}.{chunk.names[0]}"
        if what is None:
            if verdict != "unseen":
                raise Unread(f"{place} as it is: {verdict}, {names}")
            continue
        if verdict == "unseen" and (place, what) in ALIKE:
            verdict = "alike"
        counts[verdict] += 1
        by_chunk[chunk][verdict] += 1
        if verdict in ("unseen", "no end"):
            unseen[place].append(what + (" (no end)" if verdict == "no end" else ""))
        if args.save:
            with open(args.save, "a") as file:
                print(verdict, place, what, names[:3], sep="\t", file=file)
    turned = [chunk for chunk in definitions if sum(by_chunk[chunk].values()) > by_chunk[chunk]["no type"]]
    seen = [chunk for chunk in turned if not by_chunk[chunk]["unseen"] + by_chunk[chunk]["no end"]]
    for place, ways in unseen.items():
        print(f"    {place}: {len(ways)} unseen{': ' if place in LISTED else ''}{LISTED.get(place, '')}")
        for way in ways if args.v else ():
            print(f"        {way}")
    share = 100 * len(seen) // len(turned) if turned else 100
    print(f"{crate}: {len(definitions)} definitions and {len(laws)} laws; {len(turned)} definitions turned, {len(seen)} seen ({share} in a hundred); "
          f"{sum(counts.values())} turns: {counts['no type']} of no type, {counts['seen']} refused by an example, "
          f"{counts['alike']} alike, {counts['unseen']} by nothing" + (f", {counts['no end']} without an end" if counts["no end"] else ""))
    return 0 if share >= WANTED else 1


if __name__ == "__main__":
    try:
        sys.exit(main())
    except (Unread, OSError, UnicodeDecodeError) as cause:
        print(f"turned.py: {cause}", file=sys.stderr)
        sys.exit(2)
