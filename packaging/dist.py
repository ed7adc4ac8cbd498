#!/usr/bin/env python3
"""Makes dist/ of what `make` and `make lib` proved and left, and tries it: packaging/dist.py [make|windows|page|sums|try|windows-try|commands ..]

    make dist

The programs, the library for C and the Python package for x86-64 and aarch64, as tarballs, Debian packages and wheels, the
book of definitions, and SHA256SUMS. The same commit gives the same bytes. Without a word it makes them, tries them, and gives the commands of
docs/INSTALL.md; else it does what the words say, in this order:

- `make` takes away what is in dist/, which may be of another commit, and makes these files anew;
- `windows` makes those for Windows, which `make` does not;
- `page` packs dist/page, which `make page` leaves, as one file;
- `sums` writes the digests of all files there, those of `make wasm` and `make page` among them;
- `try` tries the files that `make` makes, `windows-try` those for Windows alone, under wine;
- `commands` gives the commands of docs/INSTALL.md for which there are files.

It says what it leaves out where a file or a Debian package is missing; the status is 1 where something that it made does
not work.
"""

import hashlib
import importlib.util
import os
import shutil
import subprocess
import sys
import tarfile

import built
import packed
import tried
import windows
from built import MACHINES, NATIVE, ROOM, TOP, VERSION, Failed, ran

DIST = os.path.join(TOP, "dist")
SUMS = os.path.join(DIST, "SHA256SUMS")
OLDEST = (2, 17)  # the glibc that wheels name
COMMIT = os.path.join(ROOM, "commit")  # that of the files that were made here
WORDS = ["make", "windows", "page", "sums", "try", "windows-try", "commands"]


def moment():
    """When the commit was made: the time of each file."""
    changed = ran(["git", "status", "--porcelain", "--untracked-files=no"])
    if changed:
        raise Failed(f"files differ from the commit, which is what dist/ is made of:\n{changed}")
    return int(ran(["git", "log", "-1", "--format=%ct"]))


def names(machine):
    """What is made for a processor: the paths of the tarball, the Debian package and the wheel."""
    tag = f"py3-none-manylinux_{OLDEST[0]}_{OLDEST[1]}_{machine.name}"
    made = [f"sgb-{VERSION}-{machine.name}-linux.tar.gz", f"sgb_{VERSION}_{machine.debian}.deb", f"sgb-{VERSION}-{tag}.whl"]
    return [os.path.join(DIST, name) for name in made]


def package():
    """The package for Node and browsers, which `make wasm` leaves."""
    return os.path.join(DIST, f"sgb-{VERSION}.tgz")


def page():
    """The page as one file."""
    return os.path.join(DIST, f"sgb-page-{VERSION}.tar.gz")


def book():
    """The book of definitions as one file."""
    return os.path.join(DIST, f"sgb-book-{VERSION}.tar.gz")


def left_out(machine):
    """Why nothing is made for a processor, or nothing."""
    wanted = [machine.cc, machine.ar, "readelf"] + ([machine.runner] if machine.runner else [])
    lacking = built.missing(*wanted)
    return f"all for {machine.name}: there is no {', no '.join(lacking)}" if lacking else None


def no_deb():
    lacking = built.missing("dpkg", "dpkg-deb")
    return f"Debian packages: there is no {', no '.join(lacking)}" if lacking else None


def no_venv():
    is_there = importlib.util.find_spec("ensurepip") is not None
    return None if is_there else "the trial of the wheel: there is no ensurepip (Debian package python3-venv)"


def no_browser():
    lacking = built.missing("chromium", "chromedriver")
    debian = "/usr/bin/python3"  # which runs page/test.py
    if not os.path.exists(debian) or subprocess.run([debian, "-c", "import selenium"], stderr=subprocess.DEVNULL).returncode:
        lacking.append("selenium (Debian package python3-selenium)")
    return f"there is no {', no '.join(lacking)}" if lacking else None


def no_node():
    lacking = built.missing("node")
    return f"there is no {lacking[0]}" if lacking else None


def sections():
    """The sections of docs/INSTALL.md that have commands: of each its file, what makes it, and why it is not tried."""
    tarball, _, wheel = names(NATIVE)
    needs = {
        "In a shell": (tarball, "dist", None), "In C": (tarball, "dist", None), "In Python": (wheel, "dist", no_venv()),
        "In Node": (package(), "wasm", no_node()), "In a browser": (page(), "page", no_browser()),
        "What is known of these files": (tarball, "dist", None),
    }
    is_there = {path: os.path.exists(path) for path, _, _ in needs.values()}
    absent = {heading: f"there is no dist/{os.path.basename(path)}, which make {target} makes"
              for heading, (path, target, _) in needs.items() if not is_there[path]}
    return {heading: absent.get(heading, why) for heading, (_, _, why) in needs.items()}


def make(machine, when):
    """Makes all for a processor."""
    print(f"{machine.name}:", flush=True)
    room = os.path.join(ROOM, machine.name)
    os.makedirs(room, exist_ok=True)
    programs, library = dict(built.programs(machine, room)), built.library(machine, room)
    needs = built.glibc(library["libsgb.so"])
    if needs > OLDEST:
        raise Failed(f"libsgb.so for {machine.name} wants glibc {needs[0]}.{needs[1]}")
    values = {"VERSION": VERSION, "GLIBC": "{}.{}".format(*OLDEST)}
    tarball, deb, wheel = names(machine)
    tree = packed.prefix_tree(programs, library)
    under = ", under " + machine.runner if machine.runner else ""
    about = packed.filled("README", MACHINE=machine.name, UNDER=under, **values)
    tree["share/doc/sgb/README.md"] = about, 0o644
    if not no_deb():
        packed.write_deb(deb, packed.debian_tree(tree), {"ARCHITECTURE": machine.debian, **values}, when, room)
    packed.write_wheel(wheel, ("libsgb.so", library["libsgb.so"]), wheel.split("-", 2)[2][: -len(".whl")], when)
    tree["README.md"], tree["install.sh"] = (about, 0o644), (packed.read(built.HERE, "install.sh"), 0o755)
    packed.write_tar(tarball, os.path.basename(tarball)[: -len(".tar.gz")], tree, when)
    print(f"  libsgb.so wants glibc {needs[0]}.{needs[1]}, the programs none", flush=True)


def files():
    """The files of dist/, by their names: the folders there are of the page and the book."""
    return [name for name in sorted(os.listdir(DIST)) if os.path.isfile(os.path.join(DIST, name))]


def sums():
    """The digests of all that is in dist/, as sha256sum writes them."""
    found = [name for name in files() if name != os.path.basename(SUMS)]
    return "".join(f"{hashlib.sha256(packed.read(DIST, name)).hexdigest()}  {name}\n" for name in found)


def write_sums():
    """Writes the digests. Beside what is made here, all has to be of the same commit."""
    if any(map(os.path.exists, [*(path for machine in MACHINES for path in names(machine)), *windows.names(DIST)])):
        moment()
        if not os.path.exists(COMMIT) or packed.read(COMMIT).decode() != commit():
            raise Failed("dist/ has files of another commit: make dist makes them anew, and then make wasm page the others")
    with open(SUMS, "w", encoding="ascii") as file:
        file.write(sums())


def commit():
    return ran(["git", "rev-parse", "HEAD"])


def clear():
    """Takes away what is in dist/: it may be of another commit."""
    shutil.rmtree(DIST, ignore_errors=True)
    os.makedirs(DIST)
    os.makedirs(ROOM, exist_ok=True)
    with open(COMMIT, "w", encoding="ascii") as file:
        file.write(commit())


def pack_page():
    """Packs the page, whose wasm and calls have to be those of the package that is there."""
    folder = os.path.join(DIST, "page")
    if not os.path.exists(package()):
        raise Failed(f"there is no dist/{os.path.basename(package())}: make wasm makes it")
    tree = {name: (packed.read(folder, name), 0o644) for name in sorted(os.listdir(folder))}
    with tarfile.open(package()) as tar:
        for name in "sgb.js", "sgb.wasm":
            if tar.extractfile("package/" + name).read() != tree[name][0]:
                raise Failed(f"dist/page has another {name} than the package: make wasm page makes both anew")
    packed.write_tar(page(), os.path.basename(page())[: -len(".tar.gz")], tree, moment())


def make_book(when):
    """Writes the book of definitions, holds it against the sources, and packs it."""
    folder = os.path.join(DIST, "book")
    ran([sys.executable, os.path.join(built.HERE, "book/book.py"), folder])
    ran([sys.executable, os.path.join(TOP, "checks/book.py"), folder])
    tree = {name: (packed.read(folder, name), 0o644) for name in sorted(os.listdir(folder))}
    packed.write_tar(book(), os.path.basename(book())[: -len(".tar.gz")], tree, when)


def try_all(machine):
    """Tries all that was made for a processor."""
    tarball, deb, wheel = names(machine)
    room = os.path.join(ROOM, machine.name, "tried")
    os.makedirs(room, exist_ok=True)
    tried.tarball_works(machine, tarball, room)
    if not no_deb():
        tried.deb_works(machine, deb, room)
    if machine is not NATIVE or not no_venv():
        tried.wheel_works(machine, wheel, room)


def same_sums():
    """Holds what is in dist/ against its digests, and the files that have to be there."""
    with open(SUMS, encoding="ascii") as file:
        told = file.read()
    if told != sums():
        raise Failed("SHA256SUMS does not hold of what is in dist/")
    for machine in filter(lambda one: not left_out(one), MACHINES):
        for path in names(machine):
            if not os.path.exists(path) and not (path.endswith(".deb") and no_deb()):
                raise Failed(f"dist/{os.path.basename(path)} is not there")
    if not os.path.exists(book()):
        raise Failed(f"dist/{os.path.basename(book())} is not there")


def make_windows():
    """Makes what is for Windows. Other files in dist/ stay, where they are of this commit."""
    if not os.path.exists(COMMIT) or packed.read(COMMIT).decode() != commit():
        clear()
    windows.make(DIST, moment())


def make_all(here):
    when = moment()
    clear()
    for machine in here:
        make(machine, when)
    make_book(when)


def main():
    words = sys.argv[1:] or ["make", "sums", "try", "commands"]
    if not set(words) <= set(WORDS):
        sys.exit(f"usage: packaging/dist.py [{'|'.join(WORDS)} ..]")
    here = [machine for machine in MACHINES if not left_out(machine)]
    reasons = [*map(left_out, MACHINES), no_deb(), no_venv()] if {"make", "try"} & set(words) else []
    try:
        if {"make", "try"} & set(words) and NATIVE not in here:
            raise Failed(left_out(NATIVE))
        if "make" in words:
            make_all(here)
        if {"windows", "windows-try"} & set(words) and windows.left_out():
            raise Failed(windows.left_out())
        if "windows" in words:
            make_windows()
        if "page" in words:
            pack_page()
        if "sums" in words:
            write_sums()
        if "try" in words:
            same_sums()
            for machine in here:
                try_all(machine)
        if "windows-try" in words:
            windows.works(DIST, ROOM, tried)
        if "commands" in words:
            reasons += tried.install_works([os.path.join(DIST, name) for name in files()], ROOM, sections())
    except (Failed, OSError) as why:
        sys.exit(f"dist.py: {why}")
    for why in filter(None, reasons):
        print(f"left out, {why}")
    print(f"Done: {' '.join(sorted(os.listdir(DIST)))}")


if __name__ == "__main__":
    main()
