"""A repository in a folder: crates of this one, and over them a crate that nothing proves, of a folder of checks/.

The files of that folder end with `.in`, since the gate wants each `.rt` file in a crate that it proves.
"""

import glob
import os
import shutil

from prove import needed, uses

TOP = os.path.dirname(os.path.dirname(os.path.abspath(__file__)))


def lay(folder, name, libraries):
    """Lays these crates and all below them, and the crate of checks/NAME, which has them all as its libraries; the folder of
    that crate."""
    known = uses()
    laid = needed(libraries, known)
    below = [crate for crate in known if crate in laid]
    for crate in below:
        for part in ("src", "specs", "proofs"):
            there = os.path.join(TOP, "crates", crate, part)
            if os.path.isdir(there):
                shutil.copytree(there, os.path.join(folder, "crates", crate, part))
    own = os.path.join(TOP, "checks", name)
    for path in glob.glob(os.path.join(own, "**", "*.in"), recursive=True):
        source = os.path.join(folder, "crates", name, "src", os.path.relpath(path, own)[: -len(".in")] + ".rt")
        os.makedirs(os.path.dirname(source), exist_ok=True)
        shutil.copy(path, source)
    shutil.copy(os.path.join(TOP, "HANDLES"), folder)
    with open(os.path.join(TOP, "crates.txt"), encoding="utf-8") as file:
        lines = [line for line in file if line.split(":")[0] in below]
    with open(os.path.join(folder, "crates.txt"), "w", encoding="utf-8") as file:
        file.writelines([*lines, f"{name}: {' '.join(below)}\n"])
    return os.path.join(folder, "crates", name)
