"""Tries what packaging/dist.py made, from the files in dist/ alone. What does not work ends it with a line that says so."""

import glob
import hashlib
import os
import re
import shutil
import socket
import subprocess
import sys
import tarfile
import time

import built
from built import HERE, TOP, Failed, ran

COMPARE = os.path.join(TOP, "conformance/compare.py")
PETERSEN = """import sgb
graph = sgb.graph("petersen()")
print(graph.n, graph.m, list(graph[0]), graph.name(0))
"""
WANTED = "10 30 [9, 8, 5] 0.0.0.1.1\n"


def script(path, text):
    with open(path, "w", encoding="utf-8") as file:
        file.write("#!/bin/sh\n" + text + "\n")
    os.chmod(path, 0o755)
    return path


def fresh(room, name):
    folder = os.path.join(room, name)
    shutil.rmtree(folder, ignore_errors=True)
    os.makedirs(folder)
    return folder


def conforms(program, what, **more):
    """Holds a program against the whole table: names, list and save of each graph, and each refusal."""
    got = subprocess.run(
        [COMPARE, program], stdin=subprocess.DEVNULL, capture_output=True, text=True, check=False,
        env={**os.environ, "CONFORMANCE_SECONDS": "300", **more},
    )
    last = got.stdout.rstrip().rpartition("\n")[2]
    if got.returncode or not re.fullmatch(r"\d+ passed, 0 failed", last):
        raise Failed(f"{what}: {got.stdout[:2000]}{got.stderr[-500:]}{last}")
    print(f"  {what}: {last}", flush=True)


def alone(machine, program, room):
    """A script that runs a program in a folder with nothing in it but the program, and what runs it if it is another
    processor's, and no root but that folder."""
    name = os.path.basename(program)
    folder = fresh(room, "alone_" + name)
    shutil.copy(program, folder)
    inside = ["/" + name]
    if machine.runner:
        shutil.copy(shutil.which(machine.runner), folder)
        inside.insert(0, "/" + machine.runner)
    own = "chroot" if os.geteuid() == 0 else "unshare -r chroot"
    return script(os.path.join(room, "run_" + name), f"exec {own} {folder} {' '.join(inside)} \"$@\"")


def distances_hold(where, program):
    """The distances of Petersen's graph: three neighbours, and six vertices behind them."""
    seen = [line.split()[-1] for line in ran([program, "petersen()"]).splitlines()]
    if sorted(seen) != ["0"] + 3 * ["1"] + 6 * ["2"]:
        raise Failed(f"{where}: sgb_levels gives distances {' '.join(seen)} in Petersen's graph")


def runs(machine, program):
    return [machine.runner, program] if machine.runner else [program]


def unpack(path, room):
    """Unpacks a tarball; the one folder in it."""
    folder = fresh(room, "unpacked")
    with tarfile.open(path) as tar:
        tar.extractall(folder)
    names = os.listdir(folder)
    if names != [os.path.basename(path)[: -len(".tar.gz")]]:
        raise Failed(f"{path} holds {names}")
    return os.path.join(folder, names[0])


def installed(tree, room):
    """Installs a tarball's tree below a fresh prefix, whose files must be the tree's."""
    prefix = os.path.join(fresh(room, "installed"), "a prefix")
    ran(["sh", os.path.join(tree, "install.sh"), prefix], room)
    for part in "bin", "include", "lib", "share":
        ran(["diff", "-r", os.path.join(tree, part), os.path.join(prefix, part)])
    return prefix


def removed(tree, prefix):
    ran(["sh", os.path.join(tree, "install.sh"), "--remove", prefix])
    left = files_below(prefix)
    if left:
        raise Failed(f"install.sh --remove left {' '.join(left)[:500]}")


def files_below(folder):
    return sorted(os.path.join(here, name) for here, _, names in os.walk(folder) for name in names)


def library_works(machine, prefix, room):
    """A C program compiled against what was installed, once with each library, against the whole table."""
    include, lib = os.path.join(prefix, "include"), os.path.join(prefix, "lib")
    own = [machine.cc, "-std=gnu11", "-O2", "-Wall", "-Wextra", "-Werror", "-I" + include, os.path.join(HERE, "caller.c")]
    for name in "libsgb.a", "libsgb.so":
        made = os.path.join(room, "caller_" + name)
        if os.path.exists(made):
            os.remove(made)
        ran(own + [os.path.join(lib, name), "-Wl,-rpath," + lib, "-o", made])
        # the C library of the other processor, where a program is linked with it
        words = [machine.runner, "-L", "/usr/" + machine.cc[: -len("-gcc")]] if machine.runner else []
        called = script(os.path.join(room, "run_" + name), " ".join(["exec", *words, f"'{made}'", '"$@"']))
        conforms(called, f"{machine.name}, a C program with {name}")
    old_program_works(machine, prefix, room)
    if shutil.which("pkg-config") and not machine.runner:
        old = os.path.join(prefix, "share/sgb/examples/graphbase/queen.c")
        for name, source in ("sgb", os.path.join(HERE, "caller.c")), ("gb", old):
            words = ran(["pkg-config", "--cflags", "--libs", name], env={**os.environ, "PKG_CONFIG_PATH": lib + "/pkgconfig"})
            ran(["sh", "-c", f'{machine.cc} "$0" {words.strip()} -o "$1"', source, made])


def old_program_works(machine, prefix, room):
    """A program of the examples over GraphBase's own calls, compiled against what was installed."""
    include, lib = os.path.join(prefix, "include/graphbase"), os.path.join(prefix, "lib")
    source, made = os.path.join(prefix, "share/sgb/examples/graphbase/queen"), os.path.join(room, "queen")
    words = [machine.cc, "-static", "-I" + include, source + ".c", *(os.path.join(lib, name) for name in ("libgb.a", "libsgb.a"))]
    ran([*words, "-o", made])
    with open(source + ".out", encoding="ascii") as file:
        if ran(runs(machine, made)) != file.read():
            raise Failed(f"{machine.name}: examples/graphbase/queen.c over libgb.a writes something else")


def in_python(python, what, **more):
    """Petersen's graph by a Python that has the package, and then the whole table."""
    environment = {**os.environ, "PYTHONDONTWRITEBYTECODE": "1", **more}
    for name in "PYTHONPATH", "SGB_LIBRARY":
        environment.pop(name, None) if name not in more else None
    seen = ran([python, "-c", PETERSEN], "/", env=environment)
    if seen != WANTED:
        raise Failed(f"{what}: Petersen's graph is {seen}")
    return environment


def tarball_works(machine, path, room):
    """The programs with nothing beside them, the library in C and Python, after install.sh; and that it takes all away."""
    tree = unpack(path, room)
    for name in built.PROGRAMS:
        program = alone(machine, os.path.join(tree, "bin", name), room)
        if name == "sgb":
            conforms(program, f"{machine.name}, sgb alone in a root of its own")
        else:
            distances_hold(machine.name, program)
    prefix = installed(tree, room)
    library_works(machine, prefix, room)
    if not machine.runner:
        conforms_there = os.path.join(prefix, "share/sgb/conformance/compare.py")
        ran([conforms_there, os.path.join(prefix, "bin/sgb"), "refusals"])
        in_python(sys.executable, "the tarball's Python package", PYTHONPATH=os.path.join(prefix, "share/sgb/python"))
    removed(tree, prefix)


def deb_works(machine, path, room):
    """Installs a Debian package below a folder, tries it there, and removes it again."""
    root = fresh(room, "debian")
    if os.geteuid() == 0:
        for name in "info", "updates", "triggers":
            os.makedirs(os.path.join(root, "var/lib/dpkg", name))
        open(os.path.join(root, "var/lib/dpkg/status"), "w", encoding="ascii").close()
        own = ["dpkg", "--root=" + root, "--log=" + os.path.join(root, "log"), "--force-depends", "--force-architecture"]
        ran(own + ["--install", path])
    else:
        ran(["dpkg-deb", "-x", path, root])
    seen = ran(runs(machine, os.path.join(root, "usr/bin/sgb")) + ["list", "petersen()"]).encode()
    if hashlib.sha256(seen).hexdigest() != digest_of_petersen():
        raise Failed(f"{path}: its program does not list Petersen's graph")
    if not machine.runner:
        folder, library = os.path.join(root, "usr/lib/python3/dist-packages"), os.path.join(root, "usr/lib/libsgb.so")
        in_python(sys.executable, "the Debian package's Python package", PYTHONPATH=folder, SGB_LIBRARY=library)
    if os.geteuid() == 0:
        ran(own + ["--remove", "sgb"])
        left = files_below(os.path.join(root, "usr"))
        if left:
            raise Failed(f"{path}: removed, it leaves {' '.join(left)[:500]}")
    print(f"  {os.path.basename(path)}: installed, tried and removed", flush=True)


def digest_of_petersen():
    with open(os.path.join(TOP, "conformance/graphs.tsv"), encoding="ascii") as lines:
        return next(line.split("\t")[4] for line in lines if line.startswith("petersen()\t"))


def commands(page):
    """The commands of a page, each with its heading and what it is to write. A block's lines begin with four spaces."""
    heading, found, blank = "", [], False
    for line in page.split("\n"):
        if line.startswith("    $ "):
            found.append([heading, line[6:], ""])
        elif line.startswith("    "):
            found[-1][2] += "\n" * blank + line[4:] + "\n"
        elif line:
            heading = line[3:] if line.startswith("## ") else heading
        blank = not line
    return found


def install_works(files, room, sections):
    """Gives the commands of docs/INSTALL.md in a fresh folder, which has the files of dist/ and is the home. Of each section
    there is a reason to leave it out, or none; the reasons that held."""
    folder = fresh(room, "page")
    for path in files:
        shutil.copy(path, folder)
    environment = {name: value for name, value in os.environ.items() if name not in ("PYTHONPATH", "SGB_LIBRARY")}
    environment["HOME"] = folder
    with open(os.path.join(TOP, "docs/INSTALL.md"), encoding="utf-8") as file:
        found = commands(file.read())
    if {heading for heading, _, _ in found} != {"", *sections}:
        raise Failed(f"docs/INSTALL.md has commands in other sections than {', '.join(sections)}")
    given = [one for one in found if not sections.get(one[0])]
    for _, command, wanted in given:
        if command.startswith("cat "):
            with open(os.path.join(folder, command[len("cat "):]), "w", encoding="utf-8") as file:
                file.write(wanted)
        elif command.startswith("python3 -m http.server "):
            serves(command, folder, environment)
        elif (seen := ran(["sh", "-c", command], folder, env=environment)) != wanted:
            raise Failed(f"docs/INSTALL.md: {command} writes {seen[-2000:]!r}, and not {wanted!r}")
    print(f"  docs/INSTALL.md: {len(given)} of {len(found)} commands in a fresh folder", flush=True)
    return [f"'{heading}' of docs/INSTALL.md: {why}" for heading, why in sections.items() if why]


def serves(command, folder, environment):
    """Gives a command that serves the page, at a port that is free, tries the page there, and ends it."""
    with socket.create_server(("", 0)) as free:
        port = free.getsockname()[1]
    server = subprocess.Popen(
        ["sh", "-c", f"exec {command} {port}"], cwd=folder, env=environment, stdin=subprocess.DEVNULL,
        stdout=subprocess.DEVNULL, stderr=subprocess.DEVNULL,
    )
    try:
        end = time.monotonic() + 20
        while not answers(port):
            if server.poll() is not None or time.monotonic() > end:
                raise Failed(f"docs/INSTALL.md: {command} serves nothing")
            time.sleep(0.1)
        ran([os.path.join(TOP, "page/test.py"), f"http://localhost:{port}/"])
    finally:
        server.terminate()
        server.wait()


def answers(port):
    try:
        socket.create_connection(("localhost", port), 1).close()
    except OSError:
        return False
    return True


def wheel_works(machine, path, room):
    """Installs a wheel in a fresh environment. One for another processor is unpacked, and its library held against the
    tarball's, which was tried."""
    if machine.runner:
        folder = fresh(room, "wheel")
        shutil.unpack_archive(path, folder, "zip")
        ran(["cmp", os.path.join(folder, "sgb/libsgb.so"), glob.glob(os.path.join(room, "unpacked/*/lib/libsgb.so"))[0]])
        print(f"  {os.path.basename(path)}: its library is the tarball's; there is no Python for {machine.name} here", flush=True)
        return
    folder = fresh(room, "venv")
    ran([sys.executable, "-m", "venv", folder])
    python = os.path.join(folder, "bin/python")
    ran([python, "-m", "pip", "install", "--no-index", "--disable-pip-version-check", path])
    in_python(python, "the wheel")
    called = script(os.path.join(room, "run_wheel"), f"cd / && exec {python} -I {os.path.join(HERE, 'caller.py')} \"$@\"")
    conforms(called, f"{machine.name}, the wheel in a fresh environment")
