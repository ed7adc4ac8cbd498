#!/usr/bin/env python3
"""Makes the package for Node and browsers: web/build.py [--again]

    make wasm

It leaves dist/sgb-VERSION.tgz, made in these steps, each of which ends it where it fails:

1. The heap is tried by itself, with random calls.
2. The crates that sgb_c uses are proved, if they are not, and then sgb_c: `rattle build` compiles nothing else. Its
   toolchain is a folder like the real one, whose clang keeps the LLVM module that it is handed.
3. The module is compiled for WebAssembly of 64 bits and linked with the heap, then lowered to 32 bits, which every
   browser and Node run. Addresses stay 64 bits wide in the signatures of the calls.
4. The files of the package are laid into out/web/package, and tested there by Node.
5. They are packed, unpacked in a folder of its own, and imported by their name.

With --again the module of the last build is taken as it is, without a proof, and nothing is packed: for work on the
other files.
"""

import argparse
import gzip
import io
import os
import re
import shutil
import subprocess
import sys
import tarfile
import tempfile

HERE = os.path.dirname(os.path.abspath(__file__))
TOP = os.path.dirname(HERE)
PLACE = os.path.join(TOP, "out/web")
PACKAGE = os.path.join(PLACE, "package")
MODULE = os.path.join(PLACE, "module.bc")
with open(os.path.join(TOP, "VERSION"), encoding="utf-8") as file:
    VERSION = file.read().strip()
FILES = ["README.md", "package.json", "sgb.d.ts", "sgb.js"]

# what has to be installed: a command, and the Debian package that has it
WANTED = {"cc": "gcc", "wasm-ld": "lld", "wasm-opt": "binaryen", "node": "nodejs"}

# clang, for rattle: it keeps the module
KEEPING = """#!{python}
import os, shutil, sys
if os.path.exists("module.bc"):
    shutil.copy("module.bc", {kept!r})
os.execv({clang!r}, [{clang!r}, *sys.argv[1:]])
"""

WARNINGS = ["-Wall", "-Wextra", "-Werror"]
TARGET = ["--target=wasm64-unknown-unknown", "-mbulk-memory", "-O3", "-c"]
# Boards take more than the 64 KB of stack that the linker gives. Below it is nothing: a stack that is used up traps.
LINK = ["-mwasm64", "-z", "stack-size=8388608", "--stack-first", "--no-entry", "--gc-sections", "--strip-all"]
FORMS = ["memory64", "bulk-memory", "sign-ext", "mutable-globals"]
LOWER = [*(f"--enable-{form}" for form in FORMS), "--memory64-lowering"]
HEAP_CALLS = ["sgb_take", "sgb_give", "sgb_taken", "sgb_limit"]

TRIAL = """
import { load } from "sgb";
const graph = (await load()).graph("petersen()");
if (graph.n !== 10 || graph.m !== 30 || graph.names()[0] !== "0.0.0.1.1") throw new Error("no Petersen graph");
"""

sys.path.insert(0, os.path.join(TOP, "checks"))
import archive  # noqa: E402  (the folder is put on the path above)


def stop(why):
    sys.exit(f"web/build.py: {why}")


def told(what):
    print(f"web/build.py: {what}", flush=True)


def must(words, folder=TOP):
    """Runs a command, and ends all where it fails."""
    got = subprocess.run(
        words, cwd=folder, stdin=subprocess.DEVNULL, stdout=subprocess.PIPE, stderr=subprocess.STDOUT, text=True,
        errors="replace", check=False,
    )
    if got.returncode:
        stop(f"{' '.join(words[:3])} .. gave {got.returncode}:\n{got.stdout[-3000:]}")
    return got.stdout


def last_line(text):
    return text.rstrip().rpartition("\n")[2]


def toolchain():
    """The folder of the toolchain."""
    page = subprocess.run(["rt", "doc"], capture_output=True, text=True, check=True).stdout.strip()
    return os.path.dirname(page)


def try_heap():
    program = os.path.join(PLACE, "heap_test")
    must(["cc", "-O2", *WARNINGS, "-o", program, os.path.join(HERE, "heap_test.c"), os.path.join(HERE, "heap.c")])
    told(f"the heap, by itself: {last_line(must([program]))}")


def shadow(kit):
    """A folder like the toolchain's, whose clang keeps the module."""
    folder, real = os.path.join(PLACE, "toolchain"), os.path.join(kit, "toolchain")
    shutil.rmtree(folder, ignore_errors=True)
    os.makedirs(os.path.join(folder, "bin"))
    os.symlink(os.path.join(real, "lib"), os.path.join(folder, "lib"))
    for name in os.listdir(os.path.join(real, "bin")):
        if name != "clang":
            os.symlink(os.path.join(real, "bin", name), os.path.join(folder, "bin", name))
    clang = os.path.join(folder, "bin/clang")
    with open(clang, "w", encoding="utf-8") as file:
        file.write(KEEPING.format(python=sys.executable, kept=MODULE, clang=os.path.join(real, "bin/clang")))
    os.chmod(clang, 0o755)
    return folder


def prove(kit):
    """Proves the library, and leaves its module."""
    told("proving the library for C and all below it: minutes where proofs are kept, else the better part of an hour")
    # the check of sgb_c leaves the libraries of the crates that it uses, and what it proved itself
    must([os.path.join(TOP, "checks/prove.py"), "sgb_c"])
    words = archive.words(kit)
    if words is None:
        stop("a library of crates/*/out/rlib is not there")
    words[words.index("--toolchain") + 1] = shadow(kit)
    words[words.index("-o") + 1] = os.path.join(PLACE, "libsgb_c.a")
    if os.path.exists(MODULE):
        os.remove(MODULE)
    os.makedirs(os.path.join(archive.CRATE, "out/incremental"), exist_ok=True)
    said = must([*words, "--incremental", "out/incremental"], archive.CRATE)
    if "\nlogic=proved" not in said or not os.path.exists(MODULE):
        stop(f"no module of a proved library: {said[-3000:]}")
    told("the library for C: proved")


def calls():
    """The calls of sgb.h."""
    with open(os.path.join(TOP, "include/sgb.h"), encoding="utf-8") as file:
        return sorted(set(re.findall(r"^(?:uint64_t|void) (sgb_\w+)\(", file.read(), re.MULTILINE)))


def compile_wasm(kit):
    clang = os.path.join(kit, "toolchain/bin/clang")
    objects = [os.path.join(PLACE, name + ".o") for name in ("module", "heap", "machine")]
    must([clang, *TARGET, "-Wno-override-module", "-ffunction-sections", "-x", "ir", MODULE, "-o", objects[0]])
    for path in objects[1:]:
        source = os.path.join(HERE, os.path.basename(path)[:-2] + ".c")
        must([clang, *TARGET, *WARNINGS, "-ffreestanding", "-nostdinc", "-ffunction-sections", source, "-o", path])
    wide, made = os.path.join(PLACE, "sgb64.wasm"), os.path.join(PLACE, "sgb.wasm")
    must(["wasm-ld", *LINK, *(f"--export={name}" for name in [*calls(), *HEAP_CALLS]), *objects, "-o", wide])
    must(["wasm-opt", *LOWER, wide, "-o", made])
    return made


def lay(wasm):
    """The files of the package, in a folder of their own."""
    shutil.rmtree(PACKAGE, ignore_errors=True)
    os.makedirs(PACKAGE)
    for path in [wasm, *(os.path.join(HERE, name) for name in FILES)]:
        shutil.copyfile(path, os.path.join(PACKAGE, os.path.basename(path)))
    told(f"sgb.wasm: {os.path.getsize(wasm)} bytes")


def try_package():
    tested = subprocess.run(["node", os.path.join(HERE, "test.mjs"), PACKAGE], stdin=subprocess.DEVNULL, check=False)
    if tested.returncode:
        stop("the package does not pass its tests")


def pack(path):
    """The package as one file, in which no time, user or order of this machine is."""
    packed = io.BytesIO()
    with tarfile.open(fileobj=packed, mode="w", format=tarfile.USTAR_FORMAT) as tar:
        for name in sorted(os.listdir(PACKAGE)):
            entry = tarfile.TarInfo(f"package/{name}")
            entry.size, entry.mode = os.path.getsize(os.path.join(PACKAGE, name)), 0o644
            with open(os.path.join(PACKAGE, name), "rb") as file:
                tar.addfile(entry, file)
    with open(path, "wb") as file, gzip.GzipFile(filename="", mode="wb", fileobj=file, mtime=0) as zipped:
        zipped.write(packed.getvalue())


def try_packed(path):
    """Unpacks it as npm does, and imports it by its name."""
    with tempfile.TemporaryDirectory() as folder:
        modules = os.path.join(folder, "node_modules")
        os.mkdir(modules)
        must(["tar", "xzf", path, "-C", modules])
        os.rename(os.path.join(modules, "package"), os.path.join(modules, "sgb"))
        with open(os.path.join(folder, "trial.mjs"), "w", encoding="utf-8") as file:
            file.write(TRIAL)
        must(["node", "trial.mjs"], folder)


def main():
    reader = argparse.ArgumentParser(description=__doc__.partition("\n")[0])
    reader.add_argument("--again", action="store_true", help="take the last build's module: prove and pack nothing")
    again = reader.parse_args().again
    missing = [package for command, package in WANTED.items() if not shutil.which(command)]
    if missing:
        stop(f"these Debian packages are wanted: apt-get install {' '.join(missing)}")
    name = f"sgb-{VERSION}.tgz"
    packed, path = os.path.join(PLACE, name), os.path.join(TOP, "dist", name)
    for folder in PLACE, os.path.dirname(path):
        os.makedirs(folder, exist_ok=True)
    # what an earlier build left is not taken for this one's
    if os.path.exists(path) and not again:
        os.remove(path)
    kit = toolchain()
    try_heap()
    if not again:
        prove(kit)
    elif not os.path.exists(MODULE):
        stop("there is no module of an earlier build")
    lay(compile_wasm(kit))
    try_package()
    if not again:
        pack(packed)
        try_packed(packed)
        os.replace(packed, path)
        told(f"done: {os.path.relpath(path, TOP)}, {os.path.getsize(path)} bytes")


if __name__ == "__main__":
    main()
