"""What the book is made of, read from the sources as they stand: definitions, types, examples, contracts, names of the toolchain."""

import collections
import functools
import os
import re
import sys

TOP = os.path.dirname(os.path.dirname(os.path.dirname(os.path.abspath(__file__))))
sys.path.insert(0, os.path.join(TOP, "checks"))
import definitions as counted  # noqa: E402  (the folder is put on the path above)
import lexer  # noqa: E402

ELSEWHERE = re.compile(r"^\s*(?:pub )?use\s+(?!Rattle\.\w+\.specs\.)([\w.]+?)\.\{([^}]*)\}", re.M)
EXAMPLE = re.compile(r"((?:^-- (?!---).*\n)*)^pub \S+ : (.*(?:\n[ \t].*)*)", re.M)
FIELD = re.compile(r"(?:^|[{,(])\s*(?:pub(?:\([^)]*\))? )?(\w+):")
BUILT_IN = {"Unit", "tt", "absurd"}  # names of the language that no `use` brings
PARTS_OF_STD = ("core", "std_alloc", "std_io")  # what std hands on is theirs

Example = collections.namedtuple("Example", "comment rows cites")
Type = collections.namedtuple("Type", "path line comment text view")  # the value that contracts see it by is its view, or None
Std = collections.namedtuple("Std", "module name")  # a name of the toolchain


def sentence(lines):
    """What lines of comment say, as one text."""
    return " ".join(re.sub(r"^\s*(?:--|///?)", "", line).strip() for line in lines)


def comment_above(lines, first):
    """The documentation above a line of code, as one text; a ghost member has its own in a plain comment."""
    above = first - 1
    while above and lines[above - 1].strip().startswith(("//", "#[")):
        above -= 1
    mark = "//" if lines[first - 1].strip().startswith("ghost ") else "///"
    return sentence(line for line in lines[above:first - 1] if line.strip().startswith(mark))


def path_of(crate, module):
    return f"crates/{crate}/specs/{module.replace('.', '/')}.antt"


class Sources:
    """All that the book shows. A definition is a number, a type of the code (crate, name), a toolchain's name a Std."""

    def __init__(self):
        self.order = counted.crates()
        self.defs, self.publics = counted.all_of(self.order)
        self.cited_by_public = cited = [self.defs.cited(one.text, one.crate, "", one.uses) for one in self.publics]
        self.reached = self.defs.reached(set().union(*cited))
        self.tool = self.defs.reached(set().union(*(k for one, k in zip(self.publics, cited) if one.name == "run_program")))
        self.used_by, self.fields = collections.defaultdict(set), collections.defaultdict(list)
        for k in sorted(self.reached):
            for other in self.cited(k) - {k}:
                self.used_by[other].add(k)
            for field in lexer.fields(self.code(k)):
                self.fields[field].append(k)
        self.called_by = {k: [n for n, those in enumerate(cited) if k in those] for k in self.reached}
        self.types, examples = dict(self.read_types()), list(self.read_examples())
        self.examples = {k: [one for one in examples if k in one.cites] for k in self.reached}

    @functools.cache
    def cited(self, k):
        d = self.defs.all[k]
        return self.defs.cited(d.text, d.crate, d.module, self.defs.uses[d.crate, d.module])

    @functools.cache
    def source(self, k):
        """The comment and the code, as they stand."""
        d = self.defs.all[k]
        block = counted.read(path_of(d.crate, d.module)).split("\n")[d.first - 1:d.first - 1 + d.count]
        at = next(n for n, line in enumerate(block) if not line.startswith("--"))
        return sentence(block[:at]), "\n".join(block[at:])

    def code(self, k):
        return self.source(k)[1]

    def read_types(self):
        """The types of the code, each (crate, name) with what it is."""
        texts = [(crate, path, counted.read(path)) for crate in self.order for path in counted.files_of(f"crates/{crate}/src", ".rt")]
        views = {(crate, name): f"ghost Value = {text[at:counted.closing(text, at) + 1]}"
                 for crate, _, text in texts for name, at in counted.values_in(text)}
        for crate, path, text in texts:
            for match in counted.STRUCT.finditer(text):
                key, line = (crate, match.group(1)), text.count("\n", 0, match.start()) + 1
                if key not in self.defs.types:
                    continue
                body = text[match.end() - 1:counted.closing(text, match.end() - 1) + 1]
                comment, whole = comment_above(text.split("\n"), line), text[match.start():match.end() - 1] + body
                yield key, Type(path, line, comment, whole, views.get(key))
                for field in FIELD.findall(re.sub(r"//[^\n]*|#\[[^\n]*", "", body)) if key not in views else ():
                    self.fields[field].append(key)

    def read_examples(self):
        """The examples of proofs/Examples*: each `pub NAME : WHAT HOLDS`; one of `abbrev` is but a value that they use."""
        for crate in self.order:
            for path in counted.files_of(f"crates/{crate}/proofs", ".antt"):
                text = counted.read(path) if "/proofs/Examples" in path else ""
                for comment, stated in EXAMPLE.findall(text):
                    cites = self.defs.cited(stated, crate, "", counted.imported(text))
                    yield Example(sentence(comment.splitlines()), lexer.parts(stated), cites)

    @functools.cache
    def scope_of(self, crate, module):
        """What names stand for in a file of definitions."""
        own = {there[2]: there for there in self.defs.by_name if there[:2] == (crate, module)}
        return self.scope({**self.defs.uses[crate, module], **own}, counted.read(path_of(crate, module)))

    def scope(self, imports, text=""):
        """What names stand for: word -> target, and alias -> module for `alias.word`."""
        names = {name: Std("the language", name) for name in BUILT_IN}
        for place, listed in ELSEWHERE.findall(text):
            names.update({here: Std(place, there) for there, here in counted.listed_in(listed)})
        for word, there in imports.items():
            if not word.endswith("."):
                names.update(dict.fromkeys([word, *filter(None, word.split("◌"))], self.target(there)))
        return names, {word[:-1]: there for word, there in imports.items() if word.endswith(".")}

    def target(self, there):
        """What (crate, module, name) leads to, or None."""
        found = self.defs.named(there)
        if isinstance(found, int):
            return found if found in self.reached else None
        if found in self.defs.types:
            return found
        return Std(f"{there[0]}.{there[1]}", there[2]) if there[0] not in self.order else None


def sentence_of(folder, place, name):
    """What the toolchain's sources say of a name, in the comment above it or in a row at the head of a file, following what
    is handed on; None where they say nothing."""
    crate, _, module = place.partition(".")
    for one in (crate, *PARTS_OF_STD) if crate == "std" else (crate,):
        path = os.path.join(folder, "rlibs", f"{one}.rlib", "lang/antt/specs", module.replace(".", "/") + ".antt")
        if not os.path.isfile(path):
            continue
        text, word = counted.read(path), re.escape(name)
        above = re.search(rf"((?:^ *-- (?!--).*\n)+)(?:^infix.*\n)*^ *{counted.KEYWORDS}{word}(?: [^\n:]*)? : ", text, re.M)
        row = re.search(rf"^-- {{3,}}(?=(?:.*, )?{word}[ ,])(.*?) {{3,}}(.*)$", text, re.M)
        if above:
            return sentence(above.group(1).splitlines())
        if row:
            heads, says = row.group(1).split(", "), row.group(2).split("; ")
            at = next(n for n, head in enumerate(heads) if head.split()[0] == name)
            return f"`{heads[at]}`: {says[at if len(says) == len(heads) else 0]}"
        handed = counted.handed_on(text).get(name)
        says = sentence_of(folder, f"{handed[0]}.{handed[1]}", handed[2]) if handed else None
        if says:
            return says
    return None
