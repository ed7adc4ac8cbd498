"""Archives whose bytes depend on what is in them alone: for packaging/dist.py.

A tree is a dict of paths: each has a pair of bytes and mode, or a text, which is where a link leads.
"""

import base64
import gzip
import hashlib
import io
import os
import re
import shutil
import tarfile
import time
import zipfile

from built import HERE, TOP, VERSION, ran, soname

LEFT_OUT = re.compile(r"examples/tests/|.*\.gitignore$")  # of the examples: what tries them in the repository


def read(*path):
    with open(os.path.join(*path), "rb") as file:
        return file.read()


def filled(name, **values):
    """A template of this folder, with a value for each @NAME@ in it."""
    text = read(HERE, name + ".in").decode()
    for key, value in values.items():
        text = text.replace(f"@{key}@", str(value))
    return text.encode()


# what pkg-config finds: what each is, what is linked, and the folder of its headers
FOUND = {
    "sgb": ("Graphs of the Stanford GraphBase as arrays, proved", "-lsgb", ""),
    "gb": ("Calls of the Stanford GraphBase over sgb", "-lgb -lsgb", "/graphbase"),
}


def pkg_configs(prefix):
    """The files of pkg-config, by their names."""
    for name, (what, libraries, folder) in FOUND.items():
        lines = [
            "prefix=" + prefix, "libdir=${prefix}/lib", "includedir=${prefix}/include", "", "Name: " + name,
            "Description: " + what, "Version: " + VERSION, "Libs: -L${libdir} " + libraries,
            "Cflags: -I${includedir}" + folder,
        ]
        yield name + ".pc", ("\n".join(lines).encode() + b"\n", 0o644)


def tracked(folder):
    """The files of a folder of the repository, as git has them."""
    return [path for path in ran(["git", "ls-files", "-z", folder]).split("\0") if path]


def add_file(tree, path, source):
    tree[path] = read(TOP, source), 0o755 if os.access(os.path.join(TOP, source), os.X_OK) else 0o644


def package_files():
    """The files of the Python package."""
    return [os.path.basename(path) for path in tracked("python/sgb")]


def shared_part():
    """What is the same for each processor."""
    tree = {}
    for path in ["include/sgb.h", "include/sgb.hpp", *tracked("include/graphbase")]:
        add_file(tree, path, path)
    add_file(tree, "share/man/man1/sgb.1", "man/sgb.1")
    add_file(tree, "share/bash-completion/completions/sgb", "completions/sgb.bash")
    add_file(tree, "share/zsh/site-functions/_sgb", "completions/_sgb")
    add_file(tree, "share/fish/vendor_completions.d/sgb.fish", "completions/sgb.fish")
    for name in "INSTALL.md", "CALLING_FROM_C.md", "GRAPHBASE.md", "COOKBOOK.md", "RECIPES.md":
        add_file(tree, "share/doc/sgb/" + name, "docs/" + name)
    for path in tracked("examples") + tracked("conformance"):
        if not LEFT_OUT.match(path):
            add_file(tree, "share/sgb/" + path, path)
    return tree


def prefix_tree(programs, library):
    """What stands below a prefix; the library is found from where it stands."""
    tree = shared_part()
    for name, path in programs.items():
        tree["bin/" + name] = read(path), 0o755
    for name in "libsgb.a", "libgb.a":
        tree["lib/" + name] = read(library[name]), 0o644
    name = soname(library["libsgb.so"])
    tree["lib/" + name] = read(library["libsgb.so"]), 0o755
    if name != "libsgb.so":
        tree["lib/libsgb.so"] = name  # where a linker looks
    for name, file in pkg_configs("${pcfiledir}/../.."):
        tree["lib/pkgconfig/" + name] = file
    for name in package_files():
        add_file(tree, "share/sgb/python/sgb/" + name, "python/sgb/" + name)
    tree["share/sgb/python/sgb/libsgb.so"] = "../../../../lib/libsgb.so"
    return tree


def debian_tree(tree):
    """The same for a Debian package."""
    moved = {"usr/" + path: there for path, there in tree.items() if not path.startswith("share/sgb/python/")}
    for name, file in pkg_configs("/usr"):
        moved["usr/lib/pkgconfig/" + name] = file
    for name in package_files():
        moved["usr/lib/python3/dist-packages/sgb/" + name] = tree["share/sgb/python/sgb/" + name]
    return moved


def write_tar(path, top, tree, moment):
    """A .tar.gz of a tree below a folder; owner, order and time are fixed."""
    whole = io.BytesIO()
    with tarfile.open(fileobj=whole, mode="w", format=tarfile.GNU_FORMAT) as tar:
        folders = {top}
        for name in tree:
            parts = f"{top}/{name}".split("/")[:-1]
            folders |= {"/".join(parts[:count + 1]) for count in range(len(parts))}
        for name in sorted(folders | {f"{top}/{name}" for name in tree}):
            entry = tarfile.TarInfo(name)
            entry.mtime, entry.uname, entry.gname = moment, "root", "root"
            there = tree.get(name[len(top) + 1:])
            data = b""
            if there is None:
                entry.type, entry.mode = tarfile.DIRTYPE, 0o755
            elif isinstance(there, str):
                entry.type, entry.mode, entry.linkname = tarfile.SYMTYPE, 0o777, there
            else:
                data, entry.mode = there
                entry.size = len(data)
            tar.addfile(entry, io.BytesIO(data))
    with open(path, "wb") as file, gzip.GzipFile("", "wb", 9, file, mtime=0) as packed:
        packed.write(whole.getvalue())


def lay(tree, folder, moment):
    """Writes a tree of files and links below a new folder."""
    shutil.rmtree(folder, ignore_errors=True)
    for path, what in tree.items():
        there = os.path.join(folder, path)
        os.makedirs(os.path.dirname(there), exist_ok=True)
        if isinstance(what, str):
            os.symlink(what, there)
            continue
        data, mode = what
        with open(there, "wb") as file:
            file.write(data)
        os.chmod(there, mode)
    for here, _, names in os.walk(folder, topdown=False):
        for name in names:
            os.utime(os.path.join(here, name), (moment, moment), follow_symlinks=False)
        os.chmod(here, 0o755)
        os.utime(here, (moment, moment))


def write_deb(path, tree, values, moment, room):
    """A Debian package of a tree."""
    files = {name: what[0] for name, what in sorted(tree.items()) if not isinstance(what, str)}
    size = sum(map(len, files.values()))
    sums = [f"{hashlib.md5(data).hexdigest()}  {name}\n" for name, data in files.items()]
    control = {
        "DEBIAN/control": (filled("control", KILOBYTES=-(-size // 1024), **values), 0o644),
        "DEBIAN/md5sums": ("".join(sums).encode(), 0o644),
        "DEBIAN/triggers": (b"activate-noawait ldconfig\n", 0o644),
    }
    folder = os.path.join(room, "deb")
    lay({**tree, **control}, folder, moment)
    ran(["dpkg-deb", "--root-owner-group", "-Zgzip", "-z9", "--build", folder, path],
        env={**os.environ, "SOURCE_DATE_EPOCH": str(moment)})


def zip_entry(name, moment, mode):
    entry = zipfile.ZipInfo(name, time.gmtime(moment)[:6])
    entry.compress_type, entry.create_system, entry.external_attr = zipfile.ZIP_DEFLATED, 3, (0o100000 | mode) << 16
    return entry


def write_zip(path, top, tree, moment):
    """A .zip of a tree of files below a folder."""
    with zipfile.ZipFile(path, "w", zipfile.ZIP_DEFLATED, compresslevel=9) as whole:
        for name, (data, mode) in sorted(tree.items()):
            whole.writestr(zip_entry(f"{top}/{name}", moment, mode), data)


def record_of(name, data):
    """What a wheel tells of a file."""
    digest = base64.urlsafe_b64encode(hashlib.sha256(data).digest()).rstrip(b"=").decode()
    return f"{name},sha256={digest},{len(data)}\n"


def write_wheel(path, library, tag, moment):
    """A wheel, which is a zip file: the package, the library beside it, as name and path, and what pip reads."""
    about = f"sgb-{VERSION}.dist-info"
    files = {
        **{"sgb/" + name: read(TOP, "python/sgb", name) for name in package_files()},
        "sgb/" + library[0]: read(library[1]),
        about + "/METADATA": filled("METADATA", VERSION=VERSION),
        about + "/WHEEL": f"Wheel-Version: 1.0\nGenerator: sgb dist\nRoot-Is-Purelib: false\nTag: {tag}\n".encode(),
    }
    record = [record_of(name, data) for name, data in files.items()]
    files[about + "/RECORD"] = "".join(record + [f"{about}/RECORD,,\n"]).encode()
    with zipfile.ZipFile(path, "w", zipfile.ZIP_DEFLATED, compresslevel=9) as packed:
        for name, data in files.items():
            packed.writestr(zip_entry(name, moment, 0o755 if name.endswith(".so") else 0o644), data)
