#!/usr/bin/env python3
"""Which lemmas and definitions of crates/*/proofs nothing cites.

    checks/lemmas.py

At the repository's top. A name is cited where it stands in another place than its own signature and clauses, in any file of
proofs, specs or sources. Names of goals, invariants and worked examples are left out. The search is by names in the text: a
tactic may have found what no text cites, so `rt check` has the last word. The status is 1 where there is one.
"""

import collections
import glob
import re
import sys

WORD = re.compile(r"[^\s(){}\[\],;.]+")
SIGNED = re.compile(r"^( *)(?:(?:abbrev|unfoldable|pub|record|data) )*([^\s:({,=|]+) (?:[({].*[)}] )?: ")
GOALS = ("Answers.antt", "Invariants.antt", "Proof.antt")


def signatures(text):
    """The names that a file signs, each with how often its signature and its clauses name it."""
    found = {}
    lines = text.split("\n")
    for at, line in enumerate(lines):
        signed = SIGNED.match(line)
        if not signed or signed[2] in ("--", "let", "use"):
            continue
        begins = signed[1] + signed[2] + " "
        count = 1
        for later in lines[at + 1 :]:
            if not later.strip():
                break
            count += later.startswith(begins)
        found.setdefault(signed[2], count)
    return found


def main():
    files = [it for it in glob.glob("crates/*/*/**/*.*", recursive=True) if it.endswith((".antt", ".rt"))]
    texts = {it: open(it, encoding="utf-8").read() for it in files if "/out/" not in it}
    uses = collections.Counter(word for text in texts.values() for word in WORD.findall(text))
    lost = []
    for file, text in sorted(texts.items()):
        if "/proofs/" not in file or "/Examples" in file:
            continue
        for name, count in signatures(text).items():
            is_goal = file.endswith(GOALS) and re.search(rf"^ *(?:abbrev )?(?:pub )?{re.escape(name)} : goal\.", text, re.M)
            is_field = re.search(rf"^  {re.escape(name)} : .*;$", text, re.M)
            if uses[name] <= count and not is_goal and not is_field:
                lost.append(f"{file}: {name}")
    print("\n".join(lost) if lost else "each lemma is cited")
    return bool(lost)


if __name__ == "__main__":
    sys.exit(main())
