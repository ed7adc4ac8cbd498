#!/usr/bin/env python3
"""Writes the definitions that a reader has to believe as a book: packaging/book/book.py [FOLDER]

    make book

FOLDER is dist/book if it is not given. The sources are read as they stand, and no proof is run. checks/definitions.py says
which definitions count; the order and the words between are those of docs/DEFINITIONS.md, the promises those of
docs/PROVED.md. Where `rt` is on the path a name of the toolchain has its sentence there, else that of std.tsv; the tree at
the front is a picture where Graphviz is. checks/book.py holds the book against the sources.
"""

import collections
import graphlib
import itertools
import json
import os
import re
import shutil
import string
import subprocess
import sys

import pages
import sources
from pages import anchor, codes, esc, paragraphs, said

HERE = os.path.dirname(os.path.abspath(__file__))
TOP = sources.TOP
WORDS_IN_TEN, LINES_IN_TEN = 200, 60  # what is read in ten minutes

Chapter = collections.namedtuple("Chapter", "title file blocks modules crates")


def sections(path):
    return pages.sections_of(sources.counted.read(os.path.join(TOP, path)))


def listing(rows, mark=""):
    """A table of rows (id or None, cells ..)."""
    cell = lambda one: f"<td class=number>{one}</td>" if isinstance(one, int) else f"<td>{one}</td>"  # noqa: E731
    lines = [(f'<tr id="{name}">' if name else "<tr>") + "".join(map(cell, cells)) + "</tr>" for name, *cells in rows]
    return f"<div class=wide><table{mark}>" + "\n".join(lines) + "</table></div>"


def owner_in(head):
    """The type or trait that the head of a block is of."""
    return next(iter(re.findall(r"[A-Za-z]\w*", re.sub(r"<.*?>", " ", head.split(" for ")[-1]))), "")


def subtitle(block):
    """The heading of a part of a chapter, `**TITLE: sgb_CRATE**`, without its stars, or None."""
    return block.strip("*") if isinstance(block, str) and re.match(r"\*\*.*\bsgb_\w+\*\*$", block) else None


def grouped(rows):
    """The rows of a table of files: each file's first row with those below it that name none."""
    groups = []
    for row in rows:
        groups += [[]] if row[0] else []
        groups[-1].append(row)
    return groups


def chapters_of(text, book):
    """The chapters, as DEFINITIONS has them: those whose heading ends with a crate. Each has its modules in order."""
    parts = [(title, blocks) for title, blocks in text.items() if sources.counted.crate_in(title)]
    there = {book.defs.all[k][:2] for k in book.reached}
    placed, crates = {}, []
    for n, (title, blocks) in enumerate(parts):
        crates.append([sources.counted.crate_in(title)])
        for block in blocks:
            crates[n] += [sources.counted.crate_in(block)] if subtitle(block) else []
            for name in codes("".join(row[0] for row in block)) if isinstance(block, list) else ():
                if (crates[n][-1], name) in there:
                    placed.setdefault((crates[n][-1], name), n)
    for module in sorted(there - set(placed)):
        placed[module] = next(n for n in range(len(parts)) if module[0] in crates[n])
    for n, (title, blocks) in enumerate(parts):
        title = title.split(":")[0]
        modules = [module for module, k in placed.items() if k == n]
        yield Chapter(title, f"{n + 1:02}-{re.sub(r'[^a-z]+', '-', title.lower())}.html", blocks, modules, crates[n])


class Book:
    def __init__(self, folder):
        self.folder, self.sources, self.names, self.counts = folder, sources.Sources(), [], {}
        self.text, self.proved = sections("docs/DEFINITIONS.md"), sections("docs/PROVED.md")
        self.toolchain = sources.counted.toolchain() or ""
        table = [line.split("\t") for line in sources.counted.read(os.path.join(HERE, "std.tsv")).splitlines()]
        self.table = {name: says for names, says in table for name in names.split()}
        self.chapters = list(chapters_of(self.text, self.sources))
        of_module = {module: chapter.file for chapter in self.chapters for module in chapter.modules}
        all_of = self.sources.defs.all
        self.modules_in_order = list(of_module)
        self.page_of = {k: of_module[all_of[k][:2]] for k in sorted(self.sources.reached)}
        self.notation = pages.Notation(next(block for block in self.text["How to read them"] if isinstance(block, list))[1:])
        self.render = pages.Renderer(self.sources, self.notation, self.page_of)
        self.call_href, self.promises = dict(self.place_calls()), self.read_promises()
        self.places = collections.defaultdict(list)
        for k in self.page_of:
            for name in all_of[k].names:
                self.places[name].append((all_of[k].crate, self.render.href(k, name)))
        for module, file in of_module.items():
            self.places[module[1]].append((module[0], f"{file}#{anchor(*module)}"))
        for crate, name in self.sources.types:
            self.places[name].append((crate, self.render.href((crate, name))))
        for n, href in self.call_href.items():
            self.places[self.sources.publics[n].name].append((self.sources.publics[n].crate, href))

    def look(self, crates):
        """What a name in a page's words leads to, the first of these crates before others."""
        def href(name):
            those = self.places.get(name.partition(" ")[0], ())
            return min(those, key=lambda one: one[0] not in crates, default=(None, None))[1]
        return href

    def place_calls(self):
        """Where each public contract is: in a chapter of its crate, that where most that it cites is."""
        for n, one in enumerate(self.sources.publics):
            files = collections.Counter(self.page_of.get(k) for k in self.sources.cited_by_public[n])
            own = [chapter.file for chapter in self.chapters if one.crate in chapter.crates]
            if one.text.strip() and own:
                path, first, *_ = one.place
                place = anchor("call", one.crate, os.path.basename(path), re.sub(r"\W+", "_", one.name), str(first))
                yield n, max(own, key=files.__getitem__) + "#" + place

    def call_link(self, n):
        """A call, or a member of a type or trait, as `graph of BoardLists`."""
        *head, name = self.sources.publics[n].name.split()
        name = f"{name} of {owner_in(' '.join(head))}" if head else name
        return name, f'<a href="{self.call_href[n]}">{esc(name)}</a>'

    def read_promises(self):
        """The promises of PROVED by crate and call; `these` are the calls of the row above."""
        found, crate, names = collections.defaultdict(list), None, []
        for title, blocks in self.proved.items():
            crate = sources.counted.crate_in(title) or crate
            for row in itertools.chain.from_iterable(block for block in blocks if isinstance(block, list)):
                names = codes(row[-1]) + (names if row[-1].startswith("these") else [])
                for name in dict.fromkeys(names):
                    found[crate, name].append(row[0])
        return found

    def definition(self, k):
        book, d = self.sources, self.sources.defs.all[k]
        says, path = book.source(k)[0], sources.path_of(d.crate, d.module)
        self.names += [[name, self.render.href(k, name)] for name in d.names]
        users = ", ".join(map(self.render.link, sorted(book.used_by[k])))
        calls = ", ".join(self.call_link(n)[1] for n in book.called_by[k] if n in self.call_href)
        at = [f"{path}:{d.first}", "" if k in book.tool else "* not needed for the tool",
              users and f"used by {users}", calls and f"in the contracts of {calls}"]
        return (f'<section class=def data-source="{path}:{d.first}">' + (f"<p class=says>{said(says)}</p>\n" if says else "")
                + f"<pre>{self.render.definition(k)}</pre>\n<p class=at>{' · '.join(filter(None, at))}</p>\n"
                + self.examples(k) + "</section>\n")

    def examples(self, k):
        those, rows = self.sources.examples[k], []
        for one in those:
            rows += [f"<p>{said(one.comment)}</p>"] if one.comment else []
            rows += [f"<code>{esc(row)}</code>" for row in one.rows]
        head = f"<details{' open' * (len(those) < 4)}><summary>{len(those)} example{'s' * (len(those) != 1)}</summary>"
        return f"{head}<div class=rows>" + "\n".join(rows) + "</div></details>\n" if those else ""

    def modules(self, those):
        for crate, module in those:
            lines = sources.counted.read(sources.path_of(crate, module)).split("\n")
            title = sources.sentence(itertools.takewhile(lambda line: line.startswith("--"), lines))
            yield f"<h3 id={anchor(crate, module)}>{esc(module)} <small>of {esc(crate)}</small></h3>\n<p>{said(title)}</p>\n"
            yield from (self.definition(k) for k in self.page_of if self.sources.defs.all[k][:2] == (crate, module))

    def chapter(self, chapter):
        look, left, crate = self.look(chapter.crates), list(chapter.modules), chapter.crates[0]
        out = [f"<h1>{esc(chapter.title)}</h1>"]

        def taken(is_wanted):
            those = [module for module in left if is_wanted(*module)]
            left[:] = [module for module in left if module not in those]
            return self.modules(those)

        for block in chapter.blocks:
            if subtitle(block):
                out += taken(lambda own, _: own == crate)
                crate = sources.counted.crate_in(block)
                out.append(f"<h2>{esc(subtitle(block).split(':')[0])}</h2>")
            elif isinstance(block, str):
                out.append(paragraphs([block], look))
            for group in grouped(block[1:]) if isinstance(block, list) else ():
                out.append(listing([(None, *(said(cell, look) for cell in row)) for row in group], " class=map"))
                out += taken(lambda own, name: own == crate and name in codes(group[0][0]))
        out += taken(lambda *_: True)
        words = re.sub(r"<section.*?</section>|<[^>]*>", " ", "".join(out), flags=re.S)
        here = {k for k in self.page_of if self.page_of[k] == chapter.file}
        self.counts[chapter.file] = [len(words.split()), *map(self.sources.defs.lines, (here, here & self.sources.tool))]
        calls = [n for n, href in self.call_href.items() if href.startswith(chapter.file)]
        return "\n".join([*out, "<h2>Public contracts</h2>", *(self.call(n, look) for n in calls)])

    def call(self, n, look):
        one = self.sources.publics[n]
        path, first, last, owner = one.place
        lines = sources.counted.read(path).split("\n")
        self.names.append([self.call_link(n)[0], self.call_href[n]])
        code = self.render.contract("\n".join(lines[first - 1:last]), one.uses)
        names = [(one.crate, name) for name in (one.name, f"{owner_in(owner)}::{one.name}", owner_in(owner))]
        texts = dict.fromkeys(text for name in names for text in self.promises.get(name, ()))
        promises = "".join(f"<p class=promise>{said(text, look)}</p>" for text in texts)
        where = f"{path}:{first}" + (f" · of {esc(owner)}" if owner else "")
        return (f'<section class=call id="{self.call_href[n].partition("#")[2]}" data-source="{path}:{first}-{last}"><p class=says>'
                f"{said(sources.comment_above(lines, first))}</p>{promises}<pre>{code}</pre><p class=at>{where}</p></section>\n")

    def front(self):
        book, look = self.sources, self.look(["sgb"])
        blocks = itertools.chain.from_iterable(sections("README.md").values())
        headline = next(one for one in blocks if isinstance(one, str) and one.startswith("Nobody has to take its word"))
        n = next(n for n, one in enumerate(book.publics) if one.name == "run_program")
        path, first, last, _ = book.publics[n].place
        lines = sources.counted.read(path).split("\n")[first - 1:last]
        start = next(k for k, line in enumerate(lines) if "ensures read" in line)
        end = next(k for k in range(start + 1, len(lines)) if re.match(r"\s*(ensures|//)", lines[k]))
        yield f"<h1>What a reader has to believe</h1><p>{said(headline.split(' `make book`')[0], look)}</p>"
        yield (f'<p>One clause carries that: <code>read</code> of <code>{self.call_link(n)[1]}</code>, from which '
               f"{book.defs.lines(book.tool):,} lines of definitions are reached. All public calls together reach "
               f"{book.defs.lines(book.reached):,}.</p>")
        clause = self.render.contract("\n".join(lines[start:end]), book.publics[n].uses)
        yield f"<pre>{clause}</pre><p class=at>{path}:{first + start}</p><h2>Chapters</h2>"
        yield (f"<p>From outside in. A name leads to its definition. The tool rests on some of them; a star stands at the others. "
               f"Minutes are those of {WORDS_IN_TEN} words between definitions, or {LINES_IN_TEN} lines of definitions with "
               "their comments, in ten.</p>")
        rows = [["chapter", "words", "lines of the tool", "minutes", "all lines", "minutes"]]
        for chapter in self.chapters:
            words, lines, of_tool = self.counts[chapter.file]
            minutes = [round(10 * (words / WORDS_IN_TEN + count / LINES_IN_TEN)) if count else 0 for count in (of_tool, lines)]
            rows.append([f'<a href="{chapter.file}">{esc(chapter.title)}</a>', words, of_tool, minutes[0], lines, minutes[1]])
        total = ["all", *map(sum, list(zip(*rows[1:]))[1:])]
        yield listing([(None, *row) for row in [*rows, total]], " class=times")
        yield "<h2>How to read them</h2>"
        yield "<p><a href=notation.html>Notation</a>: what the signs say. On a sign, its row is shown.</p>"
        yield "<h2>What the clause rests on</h2>"
        yield "<p>The files of definitions that it reaches; each leads to those under it.</p>" + self.tree()
        yield "<h2>What is trusted</h2>" + paragraphs(self.proved["What is trusted"], look)
        share = sources.counted.clap_share()
        if share:
            yield f"<p>Of clap's own definitions {share[0]} lines of {share[1]} say which words it takes.</p>"
        yield "<h2>What is not said</h2>" + paragraphs(self.proved["What is neither"], look)

    def tree(self):
        """The files that the tool's definitions stand in, each with those that it cites and that no other of these cites."""
        book, under, below, place = self.sources, collections.defaultdict(set), {}, {}
        module = lambda k: book.defs.all[k][:2]  # noqa: E731
        for k in sorted(book.tool):
            under[module(k)] |= {module(other) for other in book.cited(k) & book.tool} - {module(k)}
            place[module(k)] = f"{self.page_of[k]}#{anchor(*module(k))}"
        for one in graphlib.TopologicalSorter(under).static_order():
            below[one] = under[one].union(*(below[other] for other in under[one]))
        direct = {one: sorted(o for o in under[one] if not any(o in below[p] for p in under[one])) for one in sorted(under)}
        if shutil.which("dot"):
            text = 'digraph { rankdir=LR; node [shape=box, style="rounded,filled", height=0.3, fontname="sans-serif", fontsize=11];\n'
            text += "".join(f'"{".".join(one)}" [label="{one[1]}\\n{one[0]}", URL="{place[one]}"];\n' for one in direct)
            text += "".join(f'"{".".join(one)}" -> "{".".join(other)}";\n' for one in direct for other in direct[one]) + "}\n"
            svg = subprocess.run(["dot", "-Tsvg"], input=text, capture_output=True, text=True, check=True).stdout
            return "<div class=tree>" + re.sub(r"<!--.*?-->\n?", "", svg[svg.index("<svg"):], flags=re.S) + "</div>"

        def listed(those):
            """Each is written with those under it where it is met first."""
            for one in those:
                lower = "".join(listed(direct.pop(one, ())))
                yield f'<li><a href="{place[one]}">{esc(one[1])}</a> of {esc(one[0])}{lower and f"<ul>{lower}</ul>"}</li>'

        roots = under.keys() - set().union(*under.values())
        return f"<ul>{''.join(listed(one for one in self.modules_in_order if one in roots))}</ul>"

    def std(self):
        yield "<h1>Names of the toolchain</h1><p>What definitions take from its library, each in a sentence.</p>"
        for module, those in itertools.groupby(sorted(self.render.std), key=lambda one: one.module):
            rows = [(anchor(*one), f"<code>{esc(one.name)}</code>", self.says(one)) for one in those]
            yield f"<h2>{esc(module)}</h2>" + listing(rows)

    def says(self, one):
        """What a name of the toolchain stands for: by std.tsv, by the comment there, or by the notation."""
        rows = [self.notation.rows[n] for part in (one.name, *one.name.split("◌")) for n in self.notation.of.get(part, ())]
        return said(self.table.get(one.name) or sources.sentence_of(self.toolchain, *one) or ": ".join(rows[0] if rows else ()))

    def types(self):
        yield "<h1>Types of the code</h1>"
        yield "<p>Types that definitions use, as the code has them; below, the value that contracts see.</p>"
        for key, one in sorted(self.sources.types.items()):
            yield f'<section class=type id="{anchor(*key)}"><h3>{esc(key[1])} <small>of {esc(key[0])}</small></h3>'
            yield f"<p class=says>{said(one.comment)}</p>" + "".join(f"<pre>{esc(text)}</pre>" for text in (one.text, one.view) if text)
            yield f"<p class=at>{one.path}:{one.line}</p></section>"
            self.names.append([key[1], self.render.href(key)])

    def fields(self):
        rows = []
        for field in sorted(set(self.sources.fields) | self.render.far_fields):
            those = ", ".join(map(self.render.link, dict.fromkeys(self.sources.fields.get(field, ()))))
            rows.append((anchor(field), f"<code>{esc(field)}</code>", those or "of the toolchain"))
        yield "<h1>Fields</h1><p>What has a field of this name.</p>" + listing(rows)

    def write(self):
        made = [(chapter.file, chapter.title, [self.chapter(chapter)]) for chapter in self.chapters]
        self.names += [[chapter.title, chapter.file] for chapter in self.chapters]
        rows = [(f"row{n}", said(written), said(read)) for n, (written, read) in enumerate(self.notation.rows)]
        words = paragraphs((one for one in self.text["How to read them"] if isinstance(one, str)), self.look([]))
        turned = [("index.html", "What a reader has to believe", self.front()),
                  ("notation.html", "Notation", ["<h1>How to read them</h1>", listing(rows), words]), *made,
                  ("types.html", "Types of the code", self.types()), ("fields.html", "Fields", self.fields()),
                  ("std.html", "Names of the toolchain", self.std())]
        turned = [(name, title, "\n".join(body)) for name, title, body in turned]
        shutil.rmtree(self.folder, ignore_errors=True)
        os.makedirs(self.folder)
        template = string.Template(sources.counted.read(os.path.join(HERE, "page.html")))
        for before, (name, title, body), after in zip([None, *turned], turned, [*turned[1:], None]):
            turn = [f'<a href="{before[0]}">← {esc(before[1])}</a>' if before else "<span></span>"]
            turn += [f'<a href="{after[0]}">{esc(after[1])} →</a>'] if after else []
            self.put(name, template.substitute(title=esc(title), body=body, turn=" ".join(turn)))
        self.put("style.css", "\n".join([sources.counted.read(os.path.join(HERE, "style.css")), *self.notation.style(), ""]))
        names = json.dumps(self.names, ensure_ascii=False)
        self.put("search.js", f"const NAMES = {names};\n" + sources.counted.read(os.path.join(HERE, "search.js")))

    def put(self, name, text):
        with open(os.path.join(self.folder, name), "w") as file:
            file.write(text)


if __name__ == "__main__":
    place = os.path.abspath(sys.argv[1]) if sys.argv[1:] else os.path.join(TOP, "dist/book")
    os.chdir(TOP)
    Book(place).write()
    print(f"{place}: {len(os.listdir(place))} files")
