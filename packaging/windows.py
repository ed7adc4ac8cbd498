"""What runs on Windows, of what was proved: for packaging/dist.py. The modules are those that LLVM is handed for Linux on x86-64,
with the names of the other system in them; no proof speaks of what is made of them here."""

import importlib.util
import os
import random
import re
import shutil
import subprocess
import sys
import zipfile

import built
import packed
from built import HERE, TOP, VERSION, Failed, ran

NAME = "x86_64-windows"
CC, AR, DLLTOOL, RUNNER = *(f"x86_64-w64-mingw32-{tool}" for tool in ("gcc", "ar", "dlltool")), "wine"
MACHINE = built.Machine(NAME, None, None, CC, AR, RUNNER)
OF_BINUTILS = "binutils-mingw-w64-x86-64"
built.PACKAGES.update({CC: "gcc-mingw-w64-x86-64", AR: OF_BINUTILS, DLLTOOL: OF_BINUTILS, RUNNER: "wine with wine64"})
TARGET = ["--target=x86_64-w64-windows-gnu", "--no-default-config", "-no-canonical-prefixes", "-Wno-override-module"]
OPTIONS = ["-march=x86-64", "-O2", "-ffunction-sections", "-fdata-sections", "-mllvm", "-no-trap-after-noreturn",
           "-mllvm", "-trap-unreachable", "-c", "-x", "ir"]
LINK = ["-s", "-Wl,--no-insert-timestamp", "-Wl,--gc-sections"]
# the programs have the stack that Linux gives
PROGRAM = ["-nostartfiles", "-Wl,--stack,8388608"]
# what is turned in a module: the stack is probed by a call there, objects have other names, and so has the system
TURNED = [(' "probe-stack"="inline-asm"', ""), ('target datalayout = "e-m:e-', 'target datalayout = "e-m:w-'),
          ('target triple = "x86_64-unknown-linux-gnu"', 'target triple = "x86_64-w64-windows-gnu"')]

# of a command line there are 32,767 characters at most
LONGEST = {"CONFORMANCE_LONGEST": "32000"}

# of a process, in kilobytes, where memory is refused
LIMIT = "200000"

# clang, for rattle: it keeps the module
KEEPING = """#!{python}
import os, shutil, sys
if os.path.exists("module.bc"):
    shutil.copy("module.bc", {kept!r})
os.execv({clang!r}, [{clang!r}, *sys.argv[1:]])
"""


def left_out():
    """Why nothing is made for Windows, or nothing."""
    lacking = built.missing(CC, AR, DLLTOOL, RUNNER)
    return f"all for Windows: there is no {', no '.join(lacking)}" if lacking else None


def names(folder):
    """What is made: the paths of the zip file and the wheel."""
    return [os.path.join(folder, f"sgb-{VERSION}-{name}") for name in (NAME + ".zip", "py3-none-win_amd64.whl")]


def shadow(kept, room):
    """A folder like that of the toolchain's compiler, whose clang keeps the module."""
    folder, real = os.path.join(room, "toolchain"), os.path.join(built.kit(), "toolchain")
    shutil.rmtree(folder, ignore_errors=True)
    os.makedirs(os.path.join(folder, "bin"))
    os.symlink(os.path.join(real, "lib"), os.path.join(folder, "lib"))
    for name in os.listdir(os.path.join(real, "bin")):
        if name != "clang":
            os.symlink(os.path.join(real, "bin", name), os.path.join(folder, "bin", name))
    clang = os.path.join(folder, "bin/clang")
    with open(clang, "w", encoding="utf-8") as file:
        file.write(KEEPING.format(python=sys.executable, kept=kept, clang=os.path.join(real, "bin/clang")))
    os.chmod(clang, 0o755)
    return folder


def module(crate, room):
    """The path of the proved module of a crate. What was kept of the same state is taken."""
    kept, key, now = os.path.join(room, crate + ".bc"), os.path.join(room, crate + ".state"), built.state()
    if os.path.exists(kept) and os.path.exists(key) and packed.read(key).decode() == now:
        return kept
    for path in kept, key:
        if os.path.exists(path):
            os.remove(path)
    print(f"  {crate} for Windows: some minutes", flush=True)
    said = built.rattle(crate, None, os.path.join(room, crate + ".linux"))
    said[said.index("--toolchain") + 1] = shadow(kept, room)
    os.makedirs(os.path.join(TOP, "crates", crate, "out/incremental"), exist_ok=True)
    told = ran(said, os.path.join(TOP, "crates", crate))
    if "\nlogic=proved" not in told or not os.path.exists(kept):
        raise Failed(f"{crate}: no module of what was proved: {told[-600:]}")
    with open(key, "w", encoding="utf-8") as file:
        file.write(now)
    return kept


def turned(text):
    """A module for Windows, as text."""
    for old, new in TURNED:
        if old not in text:
            raise Failed(f"a module has no {old.strip()}")
        text = text.replace(old, new)
    return text


def compiled(crate, room):
    """The object file of a crate."""
    clang, path = os.path.join(built.kit(), "toolchain/bin/clang"), os.path.join(room, crate)
    ran([clang, "--target=x86_64-unknown-linux-gnu", "--no-default-config", "-Wno-override-module", "-O0", "-S", "-emit-llvm",
         "-x", "ir", module(crate, room), "-o", path + ".ll"])
    with open(path + ".ll", encoding="utf-8") as file:
        text = turned(file.read())
    with open(path + ".ll", "w", encoding="utf-8") as file:
        file.write(text)
    ran([clang, *TARGET, *OPTIONS, path + ".ll", "-o", path + ".o"])
    return path + ".o"


def heap(room):
    made = os.path.join(room, "heap.o")
    ran([os.path.join(built.kit(), "toolchain/bin/clang"), *TARGET, *OPTIONS, "heap.ll", "-o", made], HERE)
    return made


def calls():
    """The calls of sgb.h."""
    text = packed.read(TOP, "include/sgb.h").decode()
    return sorted(set(re.findall(r"^(?:uint64_t|void) (sgb_\w+)\(", text, re.MULTILINE)))


def library(room):
    """The library, what a linker of MinGW takes for it, and what Microsoft's makes one of; and GraphBase's own calls."""
    exports, made = os.path.join(room, "sgb.def"), os.path.join(room, "sgb.dll")
    with open(exports, "w", encoding="ascii") as file:
        file.write("\n".join(["LIBRARY sgb.dll", "EXPORTS", *("    " + name for name in calls()), ""]))
    # by its name alone: the linker makes an address of the path that it is given
    ran([CC, "-shared", *LINK, "-o", "sgb.dll", compiled(built.LIBRARY, room), heap(room), "sgb.def"], room)
    imports = "libsgb.dll.a"
    ran([DLLTOOL, "--temp-prefix", "sgb", "-d", "sgb.def", "-l", imports], room)
    return {"sgb.dll": made, "lib/sgb.def": exports, "lib/" + imports: os.path.join(room, imports),
            "lib/libgb.a": built.graphbase(MACHINE, room)}


def programs(room):
    own = os.path.join(room, "windows.o")
    ran([CC, "-std=gnu11", "-O2", "-Wall", "-Wextra", "-Werror", "-c", "windows.c", "-o", own], HERE)
    for name, crate in built.PROGRAMS.items():
        path = os.path.join(room, name + ".exe")
        ran([CC, *PROGRAM, *LINK, "-o", path, compiled(crate, room), own, heap(room)])
        yield name + ".exe", path


def make(folder, moment):
    """Makes the zip file and the wheel."""
    print("Windows:", flush=True)
    room = os.path.join(built.ROOM, NAME)
    os.makedirs(room, exist_ok=True)
    made = {**dict(programs(room)), **library(room)}
    tree = {name: (packed.read(path), 0o644) for name, path in made.items()}
    for path in ["include/sgb.h", "include/sgb.hpp", *packed.tracked("include/graphbase"), *packed.tracked("conformance")]:
        packed.add_file(tree, path, path)
    packed.add_file(tree, "sgb.ps1", "completions/sgb.ps1")
    for name in "INSTALL.md", "CALLING_FROM_C.md", "GRAPHBASE.md", "COOKBOOK.md", "RECIPES.md", "ERRORS.md":
        packed.add_file(tree, "doc/" + name, "docs/" + name)
    for name in packed.package_files():
        packed.add_file(tree, "python/sgb/" + name, "python/sgb/" + name)
    tree["python/sgb/sgb.dll"] = tree["sgb.dll"]
    zipped, wheel = names(folder)
    packed.write_zip(zipped, os.path.basename(zipped)[: -len(".zip")], tree, moment)
    packed.write_wheel(wheel, ("sgb.dll", made["sgb.dll"]), "py3-none-win_amd64", moment)


def asked(draw):
    """Words of a random request, and what standard input holds."""
    few = [str(draw.choice([draw.randrange(-3, 5), draw.randrange(1, 4), -251])) for _ in range(6)]
    of = [f"board({','.join(few)},0)", f"simplex({','.join(few)},0)", f"subsets({','.join(few)},0x5,0)", "petersen()", "stdin",
          f"circuit({few[1]})", f"wheel({few[0]},{few[1]},0)", f"bi_complete({few[2]},{few[3]},1)"]
    text = draw.choice(of)
    # what a command line writes in a way of its own stands in the middle, where less of it would be another expression
    place, odd = draw.randrange(len(text)), draw.choice(["\\", '"', '\\"', "\\\\", '\\\\"', " ", "\t", "é", "", '"" '])
    text = draw.choice([text, text, f"lines({text},0)", f"gunion({text},{draw.choice(of)},1,0)", text[:place] + odd + text[place:]])
    more = draw.choice([[], [], ["--after", "0.0"], ["--skip", few[4]], ["x y"]])
    return [draw.choice(["names", "list", "save"]), text, *more], draw.choice([b"", b"\r\n\x1a", None])


def answered_alike(program, requests):
    """Holds answers of the program, byte for byte, against those of the program for Linux; and those of one large file."""
    here = built.left_by_make("crates/sgb_cli/out/sgb_cli")

    def run(own, words, given):
        return subprocess.run([own, *words], input=given, capture_output=True, check=False)

    # a line in front of a file may have the byte that ends texts there
    draw, file = random.Random(1), b"* \x1a\r\n" + run(here, ["save", "petersen()"], b"").stdout
    great = run(here, ["save", "board(800,800,0,0,1,0,0)"], b"").stdout
    pairs = [(["save", "board(800,800,0,0,1,0,0)"], b""), (["save", "stdin"], great)]
    pairs += [asked(draw) for _ in range(requests)]
    for words, given in pairs:
        given = file if given is None else given
        one, other = run(here, words, given), run(program, words, given)
        if (one.returncode, one.stdout, one.stderr) != (other.returncode, other.stdout, other.stderr):
            raise Failed(f"Windows: sgb.exe {words} gave {other.returncode} and {other.stderr[:200]}, here {one.returncode}")
    print(f"  Windows, sgb.exe: {len(pairs)} requests are answered as on Linux, with a file of {len(great)} bytes", flush=True)


def limited(kilobytes, *words):
    """A command whose process has so much memory of its own."""
    return ["sh", "-c", f'ulimit -d {kilobytes} && exec "$0" "$@"', *words]


def fails_alike(program):
    """A full device, a pipe that nobody reads, and refused memory: of wine's process here, since wine's jobs limit none."""
    here, (read_end, unread), great = built.left_by_make("crates/sgb_cli/out/sgb_cli"), os.pipe(), "board(1500,1500,0,0,1,0,0)"
    os.close(read_end)
    fault, refused = (3, b"sgb: write fault\n"), (1, b"Something went wrong (panic code 1)!\n")
    with open("/dev/full", "wb") as full, open(unread, "wb") as pipe:
        for out, limit, text, wanted in [(full, "unlimited", great, fault), (pipe, "unlimited", great, fault),
                                         (pipe, LIMIT, f"gunion({great},{great},0,0)", refused)]:
            for own in here, program:
                got = subprocess.run(limited(limit, own, "names", text), stdin=subprocess.DEVNULL, stdout=out, stderr=subprocess.PIPE, check=False)
                if (got.returncode, got.stderr) != wanted:
                    raise Failed(f"Windows: {own} {text} into {out.name}, with {limit} KB, gave {got.returncode} and {got.stderr}")
    print("  Windows, sgb.exe: a full device, a pipe that nobody reads and refused memory end it as on Linux", flush=True)


def old_programs_work(top, room, tried):
    """Programs over GraphBase's own calls, as they stand: those of the examples, and that of conformance/ with the whole table."""
    def made(source):
        path = os.path.join(top, os.path.basename(source)[:-2] + ".exe")
        ran([CC, "-std=gnu99", "-O2", f"-I{top}/include/graphbase", source, f"{top}/lib/libgb.a", f"{top}/lib/libsgb.dll.a", "-o", path])
        return path

    sources = [path for path in packed.tracked("examples/graphbase") if path.endswith(".c")]
    for source in sources:
        if ran([RUNNER, made(source)], room).encode() != packed.read(TOP, source[:-2] + ".out"):
            raise Failed(f"Windows: {source} over libgb.a writes something else")
    program = tried.script(os.path.join(room, "run_over_libgb"), f"exec {RUNNER} '{made('conformance/graphbase.c')}' \"$@\"")
    words = ["conformance/graphbase.py", built.left_by_make("crates/sgb_cli/out/sgb_cli"), program]
    told = ran(words, env={**os.environ, **LONGEST, "CONFORMANCE_SECONDS": "300"}).splitlines()[-1]
    print(f"  Windows, libgb.a: {len(sources)} programs of GraphBase; and the table by it: {told}", flush=True)


def wheel_is_whole(wheel, dll, room):
    """The wheel has the package and the library of the zip file, for Windows alone, as pip finds where it is there."""
    with zipfile.ZipFile(wheel) as packed_files:
        found = {name: packed_files.read(name) for name in packed_files.namelist()}
    about = f"sgb-{built.calls_version()}.dist-info/"
    wanted = {"sgb/" + name: packed.read(TOP, "python/sgb", name) for name in packed.package_files()}
    wanted["sgb/sgb.dll"] = packed.read(dll)
    tags = re.findall(rb"^(?:Tag|Root-Is-Purelib): (.*)$", found[about + "WHEEL"], re.MULTILINE)
    sums = {name: packed.record_of(name, data) for name, data in found.items() if name != about + "RECORD"}
    told = found[about + "RECORD"].decode().splitlines(keepends=True)
    if ({name: data for name, data in found.items() if not name.startswith(about)} != wanted or tags != [b"false", b"py3-none-win_amd64"]
            or sorted(told) != sorted([*sums.values(), about + "RECORD,,\n"])):
        raise Failed(f"{wheel} does not have what it should have: {' '.join(found)}")
    words = [sys.executable, "-m", "pip", "install", "--no-index", "--no-deps", "--disable-pip-version-check", "--only-binary=:all:"]
    if importlib.util.find_spec("pip"):
        ran([*words, "--platform", "win_amd64", "--target", os.path.join(room, "wheel"), wheel])
    print(f"  {os.path.basename(wheel)}: its files and sums hold; there is no Python for Windows here", flush=True)


def works(folder, room, tried):
    """Tries both under wine: the programs and a C program with the library against the whole table, and what else they do."""
    room = tried.fresh(room, NAME + "_tried")
    environment = {"WINEPREFIX": os.path.join(room, "wine"), "WINEDEBUG": "-all", "WINEDLLOVERRIDES": "mscoree,mshtml="}
    os.environ.update(environment)
    zipped, wheel = names(folder)
    shutil.unpack_archive(zipped, room, "zip")
    top = os.path.join(room, os.path.basename(zipped)[: -len(".zip")])
    os.makedirs(environment["WINEPREFIX"])
    ran([RUNNER, "wineboot", "-i"])
    # the server stays, so that a run takes some 20 ms; what the first run starts beside it would keep a pipe open
    for words in ["wineserver", "-p"], [RUNNER, "wineboot"]:
        subprocess.run(words, stdin=subprocess.DEVNULL, stdout=subprocess.DEVNULL, stderr=subprocess.DEVNULL, check=False)
    try:
        program = tried.script(os.path.join(room, "run_sgb"), f"exec {RUNNER} '{top}/sgb.exe' \"$@\"")
        tried.conforms(program, "Windows, sgb.exe under wine", **LONGEST)
        levels = tried.script(os.path.join(room, "run_levels"), f"exec {RUNNER} '{top}/sgb_levels.exe' \"$@\"")
        tried.distances_hold("Windows", levels)
        answered_alike(program, 2000)
        fails_alike(program)
        for name in "caller", "many":
            ran([CC, "-std=gnu11", "-O2", "-Wall", "-Wextra", "-Werror", f"-I{top}/include", os.path.join(HERE, name + ".c"),
                 f"{top}/lib/libsgb.dll.a", "-o", os.path.join(top, name + ".exe")])
        # what is not given back, of so many, has no room
        if ran(limited(LIMIT, RUNNER, os.path.join(top, "many.exe"))).split() != ["done"]:
            raise Failed("Windows: 100,000 openings and closings, and operations, do not end well")
        caller = os.path.join(top, "caller.exe")
        called = tried.script(os.path.join(room, "run_caller"), f"exec {RUNNER} '{caller}' \"$@\"")
        tried.conforms(called, "Windows, a C program with sgb.dll under wine", **LONGEST)
        old_programs_work(top, room, tried)
    finally:
        subprocess.run(["wineserver", "-k"], check=False)
    wheel_is_whole(wheel, os.path.join(top, "sgb.dll"), room)
