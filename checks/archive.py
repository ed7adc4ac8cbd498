#!/usr/bin/env python3
"""Makes crates/sgb_c/out/libsgb_c.a of what `rt ci` proved and left: checks/archive.py

`rt lib` proves each crate below sgb_c once more, which takes half as long as the gate itself. This proves sgb_c alone, over the
libraries that `rt ci` left in crates/NAME/out/rlib, and compiles it with them, as `rt ci` does with programs. Where one of these
libraries is not there, or this toolchain's rattle does not take the words, `rt lib` makes the archive. An archive that was there
before is removed first. The last line is `N passed, M failed`, and the status 0 where the new one is there.
"""

import os
import subprocess
import sys

TOP = os.path.dirname(os.path.dirname(os.path.abspath(__file__)))
CRATE = os.path.join(TOP, "crates/sgb_c")
ARCHIVE = "out/libsgb_c.a"


def uses():
    """What each crate uses, by crates.txt."""
    found = {}
    with open(os.path.join(TOP, "crates.txt"), encoding="utf-8") as lines:
        for line in lines:
            name, colon, used = line.partition("#")[0].partition(":")
            if colon:
                found[name.split()[0]] = used.split()
    return found


def below(crate, found):
    """The crates of the repository that this one stands on."""
    for name in found.get(crate, ()):
        if name in found:
            yield name
            yield from below(name, found)


def words(kit):
    """The words of rattle, or None where a library is not there."""
    found = uses()
    rlibs = {name: os.path.join(TOP, "crates", name, "out/rlib", name + ".rlib") for name in below("sgb_c", found)}
    if not all(map(os.path.isdir, rlibs.values())):
        return None
    said = [os.path.join(kit, "bin/rattle"), "build", "--crate-name", "sgb_c", "src/lib.rt", "--crate-type", "staticlib"]
    said += ["--extern", f"std={kit}/rlibs/std.rlib", "-L", f"dependency={kit}/rlibs"]
    for name, rlib in rlibs.items():
        said += ["--extern", f"{name}={rlib}"] if name in found["sgb_c"] else []
        said += ["-L", "dependency=" + os.path.dirname(rlib)]
    said += ["--antt-project", f"{kit}/rattle/logic/antt-project.json", "--logic-built", f"{kit}/logic_built"]
    return said + ["--toolchain", f"{kit}/toolchain", "--backend", "llvm", "--jobs", "2", "-o", ARCHIVE]


def main():
    os.makedirs(os.path.join(CRATE, "out"), exist_ok=True)
    path = os.path.join(CRATE, ARCHIVE)
    if os.path.exists(path):
        os.remove(path)
    page = subprocess.run(["rt", "doc"], capture_output=True, text=True, check=True).stdout.strip()
    said = words(os.path.dirname(page))
    if said:
        got = subprocess.run(said, cwd=CRATE, stdin=subprocess.DEVNULL, capture_output=True, text=True, check=False)
        told = got.stdout + got.stderr
        if got.returncode == 0 and "\nlogic=proved" in told and os.path.exists(path):
            return 0
        print(f"archive.py: rattle gave {got.returncode}: {told[-600:]}", file=sys.stderr)
    print("archive.py: rt lib makes the archive, and proves the crates below once more", file=sys.stderr)
    done = subprocess.run(["rt", "lib"], cwd=CRATE, stdin=subprocess.DEVNULL, stdout=subprocess.DEVNULL, check=False)
    return 0 if done.returncode == 0 and os.path.exists(path) else 1


if __name__ == "__main__":
    failed = main()
    print(f"{1 - failed} passed, {failed} failed")
    sys.exit(failed)
