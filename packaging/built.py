"""The programs and the library for each processor, of what was proved: for packaging/dist.py."""

import collections
import hashlib
import os
import re
import shutil
import subprocess
import sys

HERE = os.path.dirname(os.path.abspath(__file__))
TOP = os.path.dirname(HERE)
with open(os.path.join(TOP, "VERSION"), encoding="utf-8") as file:
    VERSION = file.read().strip()
sys.path.insert(0, os.path.join(TOP, "checks"))

from archive import below, uses  # noqa: E402  (the folder is put on the path above)

ROOM = os.path.join(TOP, "out/dist")
PROGRAMS = {"sgb": "sgb_cli", "sgb_levels": "sgb_levels"}
LIBRARY = "sgb_c"

# A processor: its name here and to Debian, rattle's target, the C compiler, the archiver, and what runs its programs here.
Machine = collections.namedtuple("Machine", "name debian target cc ar runner")
NATIVE = Machine("x86_64", "amd64", None, "cc", "ar", None)
ARM = Machine(
    "aarch64", "arm64", "aarch64-unknown-linux-gnu", "aarch64-linux-gnu-gcc", "aarch64-linux-gnu-ar", "qemu-aarch64-static"
)
MACHINES = [NATIVE, ARM]
# the Debian package that has each command
PACKAGES = {
    "cc": "gcc", "ar": "binutils", "readelf": "binutils", "dpkg": "dpkg", "dpkg-deb": "dpkg",
    "aarch64-linux-gnu-gcc": "gcc-aarch64-linux-gnu", "aarch64-linux-gnu-ar": "binutils-aarch64-linux-gnu",
    "qemu-aarch64-static": "qemu-user-static", "node": "nodejs", "chromium": "chromium", "chromedriver": "chromium-driver",
}


class Failed(Exception):
    """Why something was not made, or does not work."""


def ran(words, folder=TOP, **more):
    """What a command wrote. One that fails ends it."""
    got = subprocess.run(
        list(map(str, words)), cwd=folder, stdin=subprocess.DEVNULL, stdout=subprocess.PIPE, stderr=subprocess.STDOUT, text=True,
        errors="replace", check=False, **more,
    )
    if got.returncode:
        raise Failed(f"{' '.join(map(str, words))[:200]} gave {got.returncode}: {got.stdout[-3000:]}")
    return got.stdout


def missing(*commands):
    """Those of the commands that are not here, each with the Debian package that has it."""
    return [f"{name} (Debian package {PACKAGES[name]})" for name in commands if not shutil.which(name)]


def kit():
    """The folder of the toolchain."""
    return os.path.dirname(ran(["rt", "doc"]).strip())


def rattle(crate, target, made):
    """The words of rattle that prove a crate, over what was proved below it, and compile it for a target, or for this machine."""
    found, there = uses(), kit()
    is_program = os.path.exists(os.path.join(TOP, "crates", crate, "src/main.rt"))
    said = [f"{there}/bin/rattle", "build", "--crate-name", crate, "src/main.rt" if is_program else "src/lib.rt"]
    said += [] if is_program else ["--crate-type", "staticlib"]
    for name in ["std", *(name for name in found[crate] if name not in found)]:
        said += ["--extern", f"{name}={there}/rlibs/{name}.rlib"]
    said += ["-L", f"dependency={there}/rlibs"]
    for name in dict.fromkeys(below(crate, found)):
        rlib = os.path.join(TOP, "crates", name, "out/rlib", name + ".rlib")
        said += ["--extern", f"{name}={rlib}"] if name in found[crate] else []
        said += ["-L", "dependency=" + os.path.dirname(rlib)]
    said += ["--antt-project", f"{there}/rattle/logic/antt-project.json", "--logic-built", f"{there}/logic_built"]
    said += ["--incremental", "out/incremental", "--toolchain", f"{there}/toolchain", "--backend", "llvm", "--jobs", "2"]
    return said + (["--target", target] if target else []) + ["-o", made]


def state():
    """A sum of the crates as they are committed, and of the toolchain: of one state one thing is built."""
    tree = ran(["git", "rev-parse", "HEAD:crates"])
    with open(os.path.join(kit(), "WHAT"), "rb") as file:
        return hashlib.sha256(tree.encode() + file.read()).hexdigest()


def compiled(crate, machine, room):
    """The path of what a crate is compiled to for another processor. What was built of the same state is kept."""
    made, key = os.path.join(room, crate + ".built"), os.path.join(room, crate + ".state")
    now = state()
    if os.path.exists(made) and os.path.exists(key):
        with open(key, encoding="utf-8") as file:
            if file.read() == now:
                return made
    print(f"  {crate} for {machine.name}: some minutes", flush=True)
    said = ran(rattle(crate, machine.target, made), os.path.join(TOP, "crates", crate))
    if "\nlogic=proved" not in said or not os.path.exists(made):
        raise Failed(f"{crate} was not proved for {machine.name}: {said[-600:]}")
    with open(key, "w", encoding="utf-8") as file:
        file.write(now)
    return made


def object_of(machine, name, room):
    """The object file of a C file beside this one. No path is in it."""
    made = os.path.join(room, name + ".o")
    ran([machine.cc, "-std=gnu11", "-O2", "-fPIC", "-Wall", "-Wextra", "-Werror", "-c", name + ".c", "-o", made], HERE)
    return made


def programs(machine, room):
    """The programs, linked statically, as name and path."""
    if machine.target:
        others = [object_of(machine, name, room) for name in ("words", "heap")]
    else:
        others = [os.path.join(kit(), "c", name) for name in ("libos_c.a", "liblibc_c.a")]
    for name, crate in PROGRAMS.items():
        if machine.target:
            proved = compiled(crate, machine, room)
        else:
            proved = left_by_make(os.path.join("crates", crate, "out", crate + ".o"))
        path = os.path.join(room, name)
        # the linker tells programs by what they end with: an object
        whole = os.path.join(room, name + "_whole.o")
        shutil.copy(proved, whole)
        ran([machine.cc, "-static", "-s", "-o", path, whole, *others])
        yield name, path


def left_by_make(path):
    if not os.path.exists(os.path.join(TOP, path)):
        raise Failed(f"{path} is not there: it is what `make` and `make lib` leave when they have proved the crates")
    return os.path.join(TOP, path)


def graphbase(machine, room):
    """The archive of GraphBase's own calls. No path is in it."""
    folder, path = os.path.join(room, "graphbase"), os.path.join(room, "libgb.a")
    shutil.rmtree(folder, ignore_errors=True)
    os.makedirs(folder)
    for name in sorted(os.listdir(os.path.join(TOP, "graphbase"))):
        if name.endswith(".c"):
            words = [machine.cc, "-std=c99", "-O2", "-fPIC", "-Wall", "-Wextra", "-Werror", "-Iinclude/graphbase", "-Iinclude"]
            ran([*words, "-c", "graphbase/" + name, "-o", os.path.join(folder, name[:-2] + ".o")])
    if os.path.exists(path):
        os.remove(path)
    ran([machine.ar, "rcsD", path, *sorted(os.path.join(folder, name) for name in os.listdir(folder))])
    os.chmod(path, 0o644)
    return path


def library(machine, room):
    """The library for C, as names and paths: its archive, that of GraphBase's own calls, and the shared one. Programs keep the
    name `soname` of that."""
    own = {"libgb.a": graphbase(machine, room)}
    if machine.target is None:
        return {**own, **{name: left_by_make(name) for name in ("libsgb.a", "libsgb.so")}}
    archive, shared = os.path.join(room, "libsgb.a"), os.path.join(room, "libsgb.so")
    shutil.copy(compiled(LIBRARY, machine, room), archive)
    os.chmod(archive, 0o644)
    ran([machine.ar, "rsD", archive, object_of(machine, "heap", room)])
    exports = os.path.join(room, "sgb.map")
    with open(exports, "w", encoding="utf-8") as file:
        file.write("{ global: sgb_*; local: *; };\n")
    name = "libsgb.so." + VERSION.partition(".")[0]
    ran([machine.cc, "-shared", "-o", shared, "-Wl,-soname," + name, "-Wl,--version-script=" + exports, "-Wl,--whole-archive",
         archive, "-Wl,--no-whole-archive"])
    return {**own, "libsgb.a": archive, "libsgb.so": shared}


def soname(shared):
    """The name that programs keep of a shared library."""
    return re.search(r"\(SONAME\).*\[(.*)\]", ran(["readelf", "-dW", shared]))[1]


def glibc(shared):
    """The oldest glibc that a shared library runs with, as a pair of numbers; it may want no other library."""
    wanted = set(re.findall(r"\(NEEDED\).*\[(.*)\]", ran(["readelf", "-dW", shared])))
    if not wanted <= {"libc.so.6"}:
        raise Failed(f"{shared} wants other libraries: {' '.join(sorted(wanted))}")
    found = re.findall(r"@GLIBC_(\d+)\.(\d+)", ran(["readelf", "--dyn-syms", "-W", shared]))
    return max((int(major), int(minor)) for major, minor in found)
