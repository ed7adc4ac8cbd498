#!/usr/bin/env python3
"""Builds the programs and the library for C unproved and optimized: checks/quick.py

    make quick

It leaves sgb, sgb_levels, libsgb.a, libsgb.so and libgb.a in out/quick, compiled from the sources as they stand, with nothing
proved; its last line says so. What is built of the same sources already is not built again.

A program is built as `rt try` does it, up to the module that LLVM is handed: rt runs over a folder like the toolchain's, whose
clang keeps the module and stops. Of that, what finds faults of memory is left out (`sanitize_address`, the bytes that fill what is
not written yet, the checks of each step), since checks/outside.py counts allocations and gives programs little memory. A sum
that overflows, or an index that is too large, still ends the program. In that folder the check of names that rt makes beside
each try, and that takes as long, does nothing.

`rt try` makes no library. So the module of sgb_c is that of a test which calls each export, and the exports, which take words and
pointers alone, get the names that they have in the library. Nor does a try hand on the hint that a function stands by itself,
without which its stack would be that of its caller: so it is put back into the modules.
"""

import concurrent.futures
import fcntl
import glob
import hashlib
import json
import os
import re
import shutil
import subprocess
import sys
import time

import edits
import prove

TOP = os.path.dirname(os.path.dirname(os.path.abspath(__file__)))
PLACE = os.path.join(TOP, "out/quick")
SUMS = os.path.join(PLACE, "sums.json")
WORK = os.path.join(PLACE, "work")
TREE = os.path.join(WORK, "tree")
CRATES = {"sgb": "sgb_cli", "libsgb_c.a": "sgb_c", "sgb_levels": "sgb_levels"}  # that which takes longest first
LIBRARY = "libsgb_c.a"
ARCHIVES = "libsgb.a"  # and what else `make archives` makes of the library
# what has to be installed: a command, and the Debian package that has it
WANTED = {"cc": "gcc", "ar": "binutils", "ld": "binutils", "nm": "binutils", "objcopy": "binutils", "make": "make", "git": "git"}

TARGET = ["--target=x86_64-unknown-linux-gnu", "--no-default-config", "-no-canonical-prefixes", "-Wno-override-module"]
# as the toolchain compiles a program
OPTIONS = ["-march=x86-64", "-O2", "-fPIE", "-ffunction-sections", "-fdata-sections", "-mllvm", "-no-trap-after-noreturn",
           "-mllvm", "-trap-unreachable"]

# clang, for rt, which optimizes nothing: for tests it does
QUICKER = """#!{python}
import os, sys
os.execv({clang!r}, [{clang!r}, *("-O1" if word == "-O0" else word for word in sys.argv[1:])])
"""

# clang, for rt, where a module is wanted: a small one is the toolchain's own
KEEPING = """#!{python}
import os, shutil, sys
if os.path.exists("module.bc") and os.path.getsize("module.bc") > 65536:
    shutil.copy("module.bc", {kept!r})
    sys.exit(1)
os.execv({clang!r}, [{clang!r}, *sys.argv[1:]])
"""

# the lines of a module that find faults of memory
CHECKS = re.compile(
    r'^ *call void @(?:"rattle-llvm-checks::|llvm\.memset\.p0\.i64\(ptr %r\d+, i8 -86,).*\n', re.MULTILINE
)

# a test that calls each export of the library; what it hands over by the name and type of each parameter
REACHES = """
#[test]
fn reaches(rt: HostRuntime) {{
    let alloc = rt.alloc();
    let mut graph = GraphHandle::closed();
    let mut second = GraphHandle::closed();
    let mut made = GraphHandle::closed();
    let mut list = entry_handles::EntriesHandle::closed();
    let mut sizes = Sizes {{ vertices: 0, id: 0 }};
    {calls}
}}
"""
HANDED = [("alloc: Global", "alloc"), ("(graph|first): &mut GraphHandle", "&mut graph"), ("second: &mut GraphHandle", "&mut second"),
          ("made: &mut GraphHandle", "&mut made"), (r"\w+: &mut EntriesHandle", "&mut list"), (r"\w+: &mut Sizes", "&mut sizes"),
          (r"\w+: &\[\w+\]", "&[]"), (r"\w+: &mut \[\w+\]", "&mut []"), (r"\w+: &mut u\d+", "&mut 0"),
          (r"\w+: [ui]\d+", "0"), (r"\w+: bool", "false")]


# a function that is to stand by itself, in a source; and the head of one in a module, with the last name in its path
APART = re.compile(r"#\[inline\(never\)\]\s+(?:pub(?:\(\w+\))? )?fn (\w+)")
HEAD = re.compile(r'^(define [^@\n]*@"(?:[^"<]*::)?(\w+)(?:::<[^"]*)?"\([^\n]*\) )#0 \{', re.MULTILINE)


class NotBuilt(Exception):
    """What could not be built, and why."""


def ran(words, folder, **more):
    return subprocess.run(
        words, cwd=folder, stdin=subprocess.DEVNULL, stdout=subprocess.PIPE, stderr=subprocess.STDOUT, text=True,
        errors="replace", check=False, **more,
    )


def built(words, folder, **more):
    got = ran(words, folder, **more)
    if got.returncode:
        raise NotBuilt(f"{words[0]} gave {got.returncode}: {got.stdout[-3000:]}")


def toolchain():
    """The folder of the toolchain."""
    page = subprocess.run(["rt", "doc"], capture_output=True, text=True, check=True).stdout.strip()
    return os.path.dirname(page)


def script(path, text):
    os.remove(path)
    with open(path, "w", encoding="utf-8") as file:
        file.write(text)
    os.chmod(path, 0o755)


def shadow(kit, name, place):
    """A folder like the toolchain's, in which a try checks no names; the path of rt there."""
    folder = os.path.join(place, "kits", name)
    os.makedirs(os.path.dirname(folder), exist_ok=True)
    for part in "", "bin", "toolchain", "toolchain/bin":
        os.mkdir(os.path.join(folder, part))
        for other in os.listdir(os.path.join(kit, part)):
            if os.path.join(part, other) not in ("bin", "toolchain", "toolchain/bin"):
                os.symlink(os.path.join(kit, part, other), os.path.join(folder, part, other))
    # rt takes its own place for the toolchain's
    for own in "bin/rt", "bin/rtlib.py":
        os.remove(os.path.join(folder, own))
        shutil.copy(os.path.join(kit, own), os.path.join(folder, own))
    script(os.path.join(folder, "bin/rattle"), "#!/bin/sh\nexit 0\n")
    set_clang(kit, folder, QUICKER)
    return os.path.join(folder, "bin/rt")


def set_clang(kit, folder, text, **more):
    clang = os.path.join(kit, "toolchain/bin/clang")
    script(os.path.join(folder, "toolchain/bin/clang"), text.format(python=sys.executable, clang=clang, **more))
    return clang


def module(kit, crate, *words):
    """The module of a crate, as text, without what finds faults of memory."""
    rt, kept = shadow(kit, crate, WORK), os.path.join(WORK, crate + ".bc")
    clang = set_clang(kit, os.path.join(WORK, "kits", crate), KEEPING, kept=kept)
    got = ran([rt, "try", *words, "--steps", "1"], os.path.join(TREE, "crates", crate))
    if not os.path.exists(kept):
        raise NotBuilt(f"{crate}: rt try handed no module to clang: {got.stdout[-3000:]}")
    text = kept + ".ll"
    built([clang, *TARGET, "-O0", "-S", "-emit-llvm", "-x", "ir", kept, "-o", text], WORK)
    with open(text, encoding="utf-8") as lines:
        return kept_apart(crate, CHECKS.sub("", lines.read().replace(" sanitize_address", "")))


def sources(top, crate):
    """The sources of a crate and of those below it."""
    folders = [os.path.join(top, "crates", name) for name in prove.needed([crate], prove.uses())]
    return [path for folder in folders for path in glob.glob(os.path.join(folder, "src/**/*.rt"), recursive=True)]


def kept_apart(crate, text):
    """The module whose functions stand by themselves where the sources say so."""
    names = set()
    for path in sources(TREE, crate):
        with open(path, encoding="utf-8") as source:
            names.update(APART.findall(source.read()))
    return HEAD.sub(lambda head: f"{head[1]}{'noinline ' if head[2] in names else ''}#0 {{", text)


def compiled(kit, crate, text):
    """The object file of a module."""
    path = os.path.join(WORK, crate)
    with open(path + ".ll", "w", encoding="utf-8") as file:
        file.write(text)
    built([os.path.join(kit, "toolchain/bin/clang"), *TARGET, *OPTIONS, "-c", "-x", "ir", path + ".ll", "-o", path + ".o"], WORK)
    return path + ".o"


def program(kit, crate, path):
    """Builds a program."""
    made = compiled(kit, crate, module(kit, crate))
    archives = [os.path.join(kit, "c", archive) for archive in ("libos_c.a", "liblibc_c.a")]
    built(["cc", made, *archives, "-o", path], WORK)


def call(name, parameters):
    """A call of an export."""
    handed = []
    for parameter in filter(None, map(str.strip, parameters.split(","))):
        value = next((value for form, value in HANDED if re.fullmatch(form, parameter)), None)
        if value is None:
            raise NotBuilt(f"{name}: no value is known for the parameter {parameter}")
        handed.append(value)
    return f"let _ = {name}({', '.join(handed)});"


def reached(folder):
    """Adds the test that calls each export of the library; their paths in it."""
    exports = []
    for source in sorted(glob.glob(os.path.join(folder, "src/*.rt"))):
        module = os.path.basename(source).removesuffix(".rt")
        with open(source, encoding="utf-8") as file:
            found = re.findall(r'^pub extern "C" fn (\w+)\((.*?)\)', file.read(), re.MULTILINE | re.DOTALL)
        exports += [(name if module == "lib" else f"{module}::{name}", parameters) for name, parameters in found]
    with open(os.path.join(folder, "src/lib.rt"), "a", encoding="utf-8") as file:
        file.write(REACHES.format(calls="\n    ".join(call(*export) for export in exports)))
    return [path for path, _ in exports]


def open_up(source):
    """Makes the function `closed` of a handle's file public, which the test of all exports begins with."""
    with open(source, encoding="utf-8") as file:
        text = file.read()
    if text.count("    fn closed()") != 1:
        raise NotBuilt(f"{source}: no function closed")
    with open(source, "w", encoding="utf-8") as file:
        file.write(text.replace("    fn closed()", "    pub fn closed()"))


def library(kit, crate, path):
    """Builds the archive of the library for C, as `rt lib` leaves it."""
    folder = os.path.join(TREE, "crates", crate)
    for name in "handles", "entry_handles":
        open_up(os.path.join(folder, f"src/{name}.rt"))
    paths = reached(folder)
    text = module(kit, crate, "--test")
    for export in paths:
        name = export.rpartition("::")[2]
        text, defined = re.subn(rf'^define internal (.*)@"{crate}::{export}"\(', rf"define \1@{name}(", text, flags=re.MULTILINE)
        if defined != 1:
            raise NotBuilt(f"{export} is defined {defined} times")
        text = text.replace(f'@"{crate}::{export}"(', f"@{name}(")
    made = compiled(kit, crate, text.replace("define i32 @main(", "define internal i32 @main("))
    built(["ar", "rcs", path, made], WORK)


def archives():
    """Makes libsgb.a, libsgb.so and libgb.a of that archive."""
    left = os.path.join(TREE, "crates", CRATES[LIBRARY], "out")
    os.makedirs(left)
    shutil.copy(os.path.join(PLACE, LIBRARY), left)
    # a make that this one runs in has no orders for that one
    environment = {name: value for name, value in os.environ.items() if not name.startswith(("MAKE", "MFLAGS"))}
    built(["make", "-s", "archives"], TREE, env=environment)
    for path in made_archives(TREE):
        shutil.move(path, os.path.join(PLACE, os.path.basename(path)))


def made_archives(folder):
    """The archives that stand in a folder."""
    return [path for name in ("libsgb.a", "libsgb.so*", "libgb.a") for path in glob.glob(os.path.join(folder, name))]


def sum_of(paths, *texts):
    """A sum of these files, their names, and texts."""
    total = hashlib.sha256(repr(texts).encode())
    for path in sorted(paths):
        with open(path, "rb") as file:
            total.update(f"{os.path.relpath(path, TOP)} {hashlib.sha256(file.read()).hexdigest()}\n".encode())
    return total.hexdigest()


def sums():
    """Of what is built, the sum of all that it is built of."""
    own, kit = [os.path.abspath(__file__), os.path.join(TOP, "crates.txt")], ran(["rt", "version"], TOP).stdout
    found = {name: sum_of([*own, *sources(TOP, crate)], kit) for name, crate in CRATES.items()}
    forms = [os.path.join(TOP, form) for form in ("include/**/*.h", "graphbase/*.[ch]", "lib.mk")]
    of_archives = [path for form in forms for path in glob.glob(form, recursive=True)]
    return {**found, ARCHIVES: sum_of(of_archives, found[LIBRARY])}


def kept_sums():
    """The sums that what stands in out/quick was built of."""
    try:
        with open(SUMS, encoding="utf-8") as file:
            kept = json.load(file)
    except FileNotFoundError:
        return {}
    return {name: one for name, one in kept.items() if os.path.exists(os.path.join(PLACE, name))}


def keep_sums(kept):
    with open(SUMS, "w", encoding="utf-8") as file:
        json.dump(kept, file)


def build(kit, name):
    """Builds a part and says so, or why it could not be built; whether it was."""
    begun = time.monotonic()
    try:
        if name == ARCHIVES:
            archives()
        else:
            (library if name == LIBRARY else program)(kit, CRATES[name], os.path.join(PLACE, name))
    except NotBuilt as error:
        print(f"{error}\n  {name} not built", flush=True)
        return False
    print(f"  {name} built, {time.monotonic() - begun:.0f} s", flush=True)
    return True


def build_all(kit, wanted):
    """Builds what was built of other sources, or was not; whether all of it was."""
    kept = kept_sums()
    left = [name for name in wanted if kept.get(name) != wanted[name]]
    if not left:
        return True
    print(f"Compiling {', '.join(left)}, unproved, of the sources as they stand: some two minutes on four processors", flush=True)
    shutil.rmtree(WORK, ignore_errors=True)
    os.makedirs(os.path.join(WORK, "kits"))
    edits.lay(TREE)
    kept = {name: one for name, one in kept.items() if name not in left}
    keep_sums(kept)
    # what is there is of other sources
    for path in [os.path.join(PLACE, name) for name in left] + (made_archives(PLACE) if ARCHIVES in left else []):
        if os.path.lexists(path):
            os.remove(path)
    with concurrent.futures.ThreadPoolExecutor(os.cpu_count() or 1) as pool:
        running = {name: pool.submit(build, kit, name) for name in CRATES if name in left}
        kept.update({name: wanted[name] for name, one in running.items() if one.result()})
    if LIBRARY in kept and ARCHIVES in left and build(kit, ARCHIVES):
        kept[ARCHIVES] = wanted[ARCHIVES]
    keep_sums(kept)
    return kept == wanted


def main():
    missing = [f"no {name} (Debian package {package})" for name, package in WANTED.items() if not shutil.which(name)]
    if missing:
        sys.exit(f"quick.py: there is {', '.join(missing)}")
    kit = toolchain()
    os.makedirs(PLACE, exist_ok=True)
    with open(os.path.join(PLACE, "lock"), "w", encoding="ascii") as lock:
        # a second run in this tree waits, and finds what the first one built
        fcntl.flock(lock, fcntl.LOCK_EX)
        if not build_all(kit, sums()):
            sys.exit("quick.py: not built")
        shutil.rmtree(WORK, ignore_errors=True)
    made = [*(name for name in CRATES if name != LIBRARY), *sorted(map(os.path.basename, made_archives(PLACE)))]
    print(f"unproved: {', '.join(os.path.join('out/quick', name) for name in made)}. make proves them")


if __name__ == "__main__":
    main()
