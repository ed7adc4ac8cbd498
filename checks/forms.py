#!/usr/bin/env python3
"""Finds the places that name each form of expressions, and fails where one lacks a form, or another version or other words of an
answer stand: checks/forms.py [FORM ..]

At the repository's top. The forms are those that `name_opening` gives (crates/sgb_expr/specs/Names.antt); each is of one sort:
a generator, a short name, an operation, one on numbers alone, or `stdin`. PLACES has what each sort is named in: a file, and what
stands there for it. So who adds a form adds its name, and is told what else it wants. Where FORMs are given their places are
printed, too.

The version is that of the file VERSION, and NUMBERS has where it stands, too. The numbers of the answers and their words are
those of include/sgb.h, and LANGUAGES has the tables of others.

A place that no form, version or answer is found in has lost its text: that fails as well. The last line is `N passed, M failed`;
the status is 1 where one failed.
"""

import re
import sys

NAMES = "crates/sgb_expr/specs/Names.antt"
OPENING = re.compile(r'^name_opening (\(Generator (\w+)\)|(\w+)) = codes "(\w+)\(?"$', re.M)
GENERATORS = ("crates/sgb_gen/src/params.rt", re.compile(r"^    (\w+)\(\w+Params\),$", re.M))
ON_NUMBERS = ("crates/sgb_expr/specs/Expression.antt", re.compile(r"^  (\w+) : .* → OnNumbers$", re.M))

# of these sorts: g a generator, s a short name, o an operation, n one on numbers alone (an o, too), i `stdin`; NAME is the form's
# text, VARIANT its variant
PLACES = [
    ("gso", "crates/sgb_expr/src/names.rt", r'VARIANT\)? => b"NAME\("'),
    ("i", "crates/sgb_expr/src/names.rt", r'VARIANT => b"NAME"'),
    ("gs", "crates/sgb_expr/src/names.rt", r"^    FormName::Generator\(GeneratorName::VARIANT\),$"),
    ("oi", "crates/sgb_expr/src/names.rt", r"^    FormName::VARIANT,$"),
    ("gsoi", "crates/sgb_expr/specs/inner/Names.antt", r"\bVARIANT\b.*∷"),
    ("gs", "crates/sgb_expr/specs/Forms.antt", r"^IsGeneratorCall VARIANT "),
    ("gs", "crates/sgb_expr/specs/inner/Reading.antt", r"^generator_at VARIANT "),
    ("gs", "crates/sgb_expr/proofs/GeneratorReaders.antt", r"^reads_generator VARIANT\b"),
    ("gs", "crates/sgb_expr/src/arguments.rt", r"GeneratorName::VARIANT =>"),
    ("oi", "crates/sgb_expr/src/expressions.rt", r"^    VARIANT(,| \{)$"),
    ("oi", "crates/sgb_expr/specs/Expression.antt", r"^ +VARIANT : "),
    ("oi", "crates/sgb_expr/specs/Expression.antt", r"^ +expression_of \(?expr\.VARIANT\b"),
    ("oi", "crates/sgb_expr/src/operations.rt", r"FormName::VARIANT =>"),
    ("oi", "crates/sgb_expr/specs/Operations.antt", r"^IsCallOf .*\bVARIANT\b"),
    ("oi", "crates/sgb_expr/specs/inner/Reading.antt", r"^arguments_with .*\bVARIANT\b"),
    ("oi", "crates/sgb_expr/proofs/Forms.antt", r"^form_of VARIANT\b"),
    ("oi", "crates/sgb_expr/src/stdin_uses.rt", r"Expr::VARIANT\b"),
    ("oi", "crates/sgb_values/src/evaluation.rt", r"Expr::VARIANT\b"),
    ("oi", "crates/sgb_values/specs/Values.antt", r"^(of_\w+ \(| +value_of stdin \(?)VARIANT\b"),
    ("n", "crates/sgb_values/specs/FirstRefusals.antt", r"^AreNumbersRefused \(VARIANT\b"),
    ("g", "crates/sgb_gen/src/params.rt", r"^    VARIANT\(VARIANTParams\),$"),
    ("g", "crates/sgb_gen/src/generators.rt", r"Generator::VARIANT\(params\) =>"),
    ("g", "crates/sgb_gen/src/locals.rt", r"^    VARIANT\(VARIANT\),$"),
    ("g", "crates/sgb_gen/src/locals.rt", r"Generator::VARIANT\(params\) =>"),
    ("g", "crates/sgb_gen/src/visits.rt", r"Local::VARIANT\("),
    ("g", "crates/sgb_gen/specs/Generators.antt", r"^generator_value \(generator\.VARIANT "),
    ("g", "crates/sgb_gen/specs/Generators.antt", r"^vector_graph_of \(local\.VARIANT "),
    ("g", "crates/sgb_gen/specs/Generators.antt", r"^IsGeneratorRefused \(generator\.VARIANT "),
    ("gs", "crates/sgb_gen/CALLING.md", r"`NAME\("),
    ("o", "crates/sgb_ops/CALLING.md", r"`NAME\("),
    ("gsoi", "crates/sgb/CALLING.md", r"\bNAME\b"),
    ("gso", "conformance/graphs.tsv", r"\bNAME\("),
    ("gso", "conformance/graphbase.c", r"\bNAME\b"),
    ("gso", "include/graphbase/gb_basic.h", r"\bNAME\("),
    ("gsoi", "checks/from_outside/random_requests.py", r"[\"'(,]NAME[(\"']"),
    ("o", "checks/calls/graphs.in", r"\bNAME\("),
    ("go", "checks/calls.py", r"^    \"NAME\b"),
    ("gso", "checks/from_outside/c_library.py", r"[\"'(, ]NAME\("),
    ("i", "checks/from_outside/c_library.py", r"[\"'(,]NAME\b"),
    ("o", "checks/from_outside/memory.py", r"[\"'(, ]NAME\("),
    ("i", "checks/from_outside/memory.py", r"[\"'(,]NAME\b"),
    ("gs", "examples/parts/shards.sh", r"\bNAME\b"),
    ("gsoi", "README.md", r"`NAME\b"),
    ("gsoi", "man/sgb.1", r"\bNAME\b"),
    ("gsoi", "completions/sgb.bash", r"\bNAME\b"),
    ("gsoi", "completions/_sgb", r"\bNAME\b"),
    ("gsoi", "completions/sgb.fish", r"\bNAME\b"),
    ("gsoi", "completions/sgb.ps1", r"\bNAME\b"),
    ("gso", "docs/DEFINITIONS.md", r"NAME(_of)?\b|VARIANT"),
    ("gso", "docs/COOKBOOK.md", r"\bNAME\b"),
]

# @ is the number, which the library's code has as one integer
NUMBERS = [
    ("crates/sgb_c/src/lib.rt", "^const VERSION: u64 = @;$"),
    ("crates/sgb_c/src/lib.rt", "^// The version of the library, @:"),
    ("include/sgb.h", '^#define SGB_VERSION "@"$'),
    ("python/sgb/_library.py", '^VERSION = "@"$'),
    ("examples/rust/Cargo.toml", '^version = "@"$'),
    ("web/package.json", '^  "version": "@",$'),
    ("web/README.md", r"\bsgb-@"),
    ("docs/INSTALL.md", r"\bsgb[-_](?:page-|book-)?@"),
    ("man/sgb.1", "^[.]Os sgb @$"),
    ("CHANGELOG.md", r"\bsgb @"),
    ("CHANGELOG.md", r"\A(?:.*\n)*?## @$"),  # the newest
]
HEADER = "include/sgb.h"
LANGUAGES = ["python/sgb/_library.py", "examples/rust/src/errors.rs", "web/sgb.js"]


def read(path):
    with open(path, encoding="utf-8") as file:
        return file.read()


def variants(place):
    """The variants that a pattern finds in a file."""
    path, pattern = place
    return pattern.findall(read(path))


def forms():
    """The forms by their texts: the variant and the sorts of each."""
    found = {}
    generators = variants(GENERATORS)
    on_numbers = variants(ON_NUMBERS)
    for _, generator, other, text in OPENING.findall(read(NAMES)):
        variant = generator or other
        if generator:
            sort = "g" if variant in generators else "s"
        else:
            sort = "i" if variant == "Stdin" else "on" if variant in on_numbers else "o"
        found[text] = (variant, sort)
    return found


def stands(pattern, name, variant, text):
    return re.search(pattern.replace("NAME", re.escape(name)).replace("VARIANT", variant), text, re.M)


def other_numbers():
    """What is wrong of each place of the version, or nothing."""
    wanted = read("VERSION").strip()
    integer = "{}_{:03}_{:03}".format(*map(int, wanted.split(".")))
    for path, pattern in NUMBERS:
        text = read(path)
        found = list(re.finditer(pattern.replace("@", r"(\d+[._]\d+[._]\d+)"), text, re.M))
        if not found:
            yield f"{path} has no version, where {pattern} is looked for"
        for one in found:
            place = f"{path}:{text.count(chr(10), 0, one.start(1)) + 1}"
            yield None if one[1] in (wanted, integer) else f"{place} has the version {one[1]}, and VERSION has {wanted}"


def other_words():
    """What is wrong of each answer in each language, or nothing: of its words, and of its number by its name."""
    header = read(HEADER)
    numbers = dict(re.findall(r"^#define SGB_([A-Z_]+) ([0-9]+)\b", header, re.M))
    said = {numbers[name]: words for name, words in re.findall(r'^    case SGB_([A-Z_]+): return "(.*)";$', header, re.M)}
    yield from (f"{HEADER} has no words of the answer {number}" for number in {*numbers.values()} - {*said, "1000"})
    said.pop("0", None)
    for path in LANGUAGES:
        text = read(path)
        found = dict(re.findall(r'^ *\(?([0-9]+)[:,] "(.*)"\)?,$', text, re.M))
        for number in sorted({*said, *found}, key=int):
            words, wanted = found.get(number), said.get(number)
            yield None if words == wanted else f"{path} has {words!r} for the answer {number}, and {HEADER} {wanted!r}"
        for name, number in re.findall(r"^(?:const )?([A-Z_]+)(?:: u64)? = ([0-9]+);?$", text, re.M):
            is_right = numbers.get(name, number) == number
            yield None if is_right else f"{path} has {name} = {number}, and {HEADER} {numbers[name]}"


def main():
    found = forms()
    if not {"g", "s", "o", "on", "i"} <= {sort for _, sort in found.values()}:
        sys.exit(f"checks/forms.py: {NAMES} does not tell the forms")
    asked = sys.argv[1:]
    for name in asked:
        if name not in found:
            sys.exit(f"checks/forms.py: there is no form {name}")
    passed = failed = 0
    for sorts, path, pattern in PLACES:
        text = read(path)
        for name, (variant, sort) in found.items():
            if not set(sort) & set(sorts):
                continue
            if stands(pattern, name, variant, text):
                passed += 1
                if name in asked:
                    print(f"{name}: {path}")
            else:
                failed += 1
                print(f"{name} is not in {path}, where {pattern} is looked for")
    for fault in [*other_numbers(), *other_words()]:
        passed, failed = (passed, failed + 1) if fault else (passed + 1, failed)
        if fault:
            print(fault)
    print(f"{passed} passed, {failed} failed")
    sys.exit(1 if failed else 0)


if __name__ == "__main__":
    main()
