#!/usr/bin/env python3
"""Holds the book of definitions against the sources: checks/book.py [FOLDER]

At the repository's top. The book is made twice (packaging/book/book.py), which has to give the same bytes; or FOLDER is a
book that was made. Each definition that checks/definitions.py counts is there once, and no other; its comment and its text
are those of the source, byte for byte, and so are the public contracts; each link leads somewhere; each name that a
definition uses is a link, unless it is bound in it, names a field where it stands, or is a word of the language; each name of
the toolchain has a sentence, where `rt` is on the path. The last line is `N passed, M failed`.
"""

import filecmp
import html.parser
import os
import re
import subprocess
import sys
import tempfile
import urllib.parse

import definitions

TOP = os.path.dirname(os.path.dirname(os.path.abspath(__file__)))
WORDS = {"abbrev", "unfoldable", "mutual", "pub", "data", "record", "where", "let", "in", "elim", "Type", "_", "=", "|", "↦"}


class Page(html.parser.HTMLParser):
    """The places and links of a page, the rows of its tables, and its sections: their source, their sentence, and their text
    as pieces, each with whether it is a link or a name that is defined there."""

    def __init__(self):
        super().__init__()
        self.ids, self.links, self.sections, self.rows, self.inside = [], [], [], [], []

    def handle_starttag(self, tag, attributes):
        given = dict(attributes)
        if "id" in given:
            self.ids.append(given["id"])
        if tag in ("a", "link", "script"):
            self.links += [value for key, value in attributes if key in ("href", "src", "xlink:href")]
        if tag == "section":
            self.sections.append({"kind": given["class"], "source": given.get("data-source"), "says": "", "text": []})
        if tag == "tr":
            self.rows.append([])
        if tag == "td":
            self.rows[-1].append("")
        self.inside.append((tag, given))
        if tag in ("meta", "link", "input", "path", "polygon"):
            self.inside.pop()

    def handle_startendtag(self, tag, attributes):
        pass

    def handle_endtag(self, tag):
        while self.inside and self.inside.pop()[0] != tag:
            pass

    def handle_data(self, data):
        tags = [tag for tag, _ in self.inside]
        if "section" in tags and "pre" in tags:
            how = next((tag for tag in ("a", "b", "i", "q") if tag in tags), "")
            self.sections[-1]["text"].append((how, data))
        elif "section" in tags and any(given.get("class") == "says" for _, given in self.inside):
            self.sections[-1]["says"] += data
        elif "td" in tags:
            self.rows[-1][-1] += data


class Tally:
    def __init__(self):
        self.passed = self.failed = 0

    def holds(self, is_so, what):
        self.passed += is_so
        self.failed += not is_so
        if not is_so:
            print(f"failed: {what}")


def wanted():
    """The definitions that are counted: path and first line -> the comment as a sentence, and the text."""
    every, texts = definitions.all_of(definitions.crates())
    reached = every.reached({k for one in texts for k in every.cited(one.text, one.crate, "", one.uses)})
    found = {}
    for d in map(every.all.__getitem__, reached):
        path = f"crates/{d.crate}/specs/{d.module.replace('.', '/')}.antt"
        lines = definitions.read(path).split("\n")[d.first - 1:d.first - 1 + d.count]
        at = next(n for n, line in enumerate(lines) if not line.startswith("--"))
        says = " ".join(line[2:].strip() for line in lines[:at]).replace("`", "")
        found[f"{path}:{d.first}"] = (says, "\n".join(lines[at:]))
    return found


def bound(text):
    """All words of a text that stand where a name is bound: after λ and let, in brackets before a colon, left of `=` where
    an equation begins or before `↦`, as the field of a record, and as an argument by its name."""
    found = set()
    for part in re.findall(r"λ ([^.]*)\.", text) + re.findall(r"[({]([^\s(){}:][^(){}:]*) : ", text):
        found.update(part.split())
    for part in re.findall(r"\blet (.*?) [=:] ", text) + re.findall(r"^ {0,2}(\S.*?) = ?", text, re.M):
        found.update(re.findall(r"[^\s(){},.]+", part))
    for part in re.findall(r"[\[|]([^\[|]*?)↦", text) + re.findall(r"^\s+(?:pub )?(\S+) : ", text, re.M) + re.findall(r"\{(\w+) =", text):
        found.update(re.findall(r"[^\s(){},.]+", part))
    return found


def unlinked(pieces):
    """The words of a definition that are no link and have to be."""
    text = "".join(piece for _, piece in pieces)
    names = bound(text)
    plain = " ".join(piece for how, piece in pieces if how == "")
    words = re.findall(r"[^\s(){}\[\],;.:λ]+", plain)
    return sorted({word for word in words if word not in names | WORDS and not re.fullmatch(r"[\d_]+", word)})


def main():
    os.chdir(TOP)
    tally = Tally()
    with tempfile.TemporaryDirectory() as room:
        folder = sys.argv[1] if sys.argv[1:] else os.path.join(room, "book")
        for place in (folder, os.path.join(room, "again")) if not sys.argv[1:] else ():
            subprocess.run([sys.executable, "packaging/book/book.py", place], check=True, stdout=subprocess.DEVNULL)
        names = sorted(os.listdir(folder))
        if not sys.argv[1:]:
            _, other, unread = filecmp.cmpfiles(folder, os.path.join(room, "again"), names, shallow=False)
            tally.holds(not other + unread, f"made twice, other bytes: {other + unread}")
        pages = {}
        for name in names:
            if name.endswith(".html"):
                pages[name] = Page()
                pages[name].feed(definitions.read(os.path.join(folder, name)))
        check(tally, pages, names)
    print(f"{tally.passed} passed, {tally.failed} failed")
    return 1 if tally.failed else 0


def check(tally, pages, names):
    sections = [one for page in pages.values() for one in page.sections]
    definitions_there = [one for one in sections if one["kind"] == "def"]
    sources, there = wanted(), [one["source"] for one in definitions_there]
    tally.holds(len(set(there)) == len(there), "a definition stands twice")
    for source in sorted(set(sources) ^ set(there)):
        tally.holds(False, f"{source}: is counted and not there" if source in sources else f"{source}: is there and not counted")
    for one in definitions_there:
        says, text = sources.get(one["source"], ("", ""))
        tally.holds(one["says"] == says, f"{one['source']}: the sentence is not the comment of the source")
        tally.holds("".join(piece for _, piece in one["text"]) == text, f"{one['source']}: the text is not that of the source")
        words = unlinked(one["text"])
        tally.holds(not words, f"{one['source']}: no links: {' '.join(words)}")
    calls = [one for one in sections if one["kind"] == "call"]
    tally.holds(len(calls) > 0, "no public contract is there")
    for one in calls:
        path, first, last = re.fullmatch(r"(.*):(\d+)-(\d+)", one["source"]).groups()
        text = "\n".join(definitions.read(path).split("\n")[int(first) - 1:int(last)])
        tally.holds("".join(piece for _, piece in one["text"]) == text, f"{one['source']}: the contract is not that of the source")
    for name, says in pages["std.html"].rows if definitions.toolchain() else ():
        tally.holds(says != "", f"std.html: {name} has no sentence in the toolchain, and none in std.tsv")
    tabled = [name for line in definitions.read("packaging/book/std.tsv").splitlines() for name in line.split("\t")[0].split()]
    lost = sorted(set(tabled) - {name for name, _ in pages["std.html"].rows})
    tally.holds(not lost and len(set(tabled)) == len(tabled), f"std.tsv: names that no definition uses, or twice: {' '.join(lost)}")
    places = {name: set(page.ids) for name, page in pages.items()}
    for name, page in pages.items():
        tally.holds(len(set(page.ids)) == len(page.ids), f"{name}: a place has a name twice")
        lost = []
        for link in page.links:
            target, _, place = link.partition("#")
            is_there = (target or name) in names and (not place or bool({place, urllib.parse.unquote(place)} & places[target or name]))
            lost += [] if is_there else [link]
        tally.holds(not lost, f"{name}: {len(lost)} links lead nowhere: {' '.join(sorted(set(lost))[:8])}")


if __name__ == "__main__":
    sys.exit(main())
