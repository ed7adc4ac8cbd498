"""A folder with the program, the scripts of examples/ and small files, in which commands are run."""

import os
import shutil
import subprocess

from .runs import SECONDS, TOP

# a graph of two vertices whose file says another number of arcs, and one with a name like the line of an arc
FILES = {
    "seven.gb": '"seven",2,7\n* Vertices\n"a",A0\n"b",A1\n* Arcs\nV1,0,5\nV0,0,5\n',
    "like.gb": '"like",2,2\n* Vertices\n"a",A0\n"  -> a, length 3",A1\n* Arcs\nV1,0,5\nV0,0,5\n',
    "lengths.gb": '"lengths",2,2\n* Vertices\n"a",A0\n"b",A1\n* Arcs\nV1,0,5\nV0,0,6\n',
    "loops.gb": '"loops",2,4\n* Vertices\n"a",A3\n"b c",0\n* Arcs\nV0,0,1\nV0,A0,-2\nV0,A1,1\nV0,A2,-2\n',
    "loop.gb": '"loop",1,2\n* Vertices\n"a",A1\n* Arcs\nV0,0,1\nV0,A0,2\n',
    "signs.gb": '"signs",4,4\n* Vertices\n"#a",A0\n"b # c",A3\n"#",A2\n"# d",0\n'
    "* Arcs\nV1,0,5\nV0,0,5\nV1,0,7\nV2,A1,7\n",
    "empty.gb": '"empty",3,2\n* Vertices\n"a",0\n"",A0\n"c",A1\n* Arcs\nV2,0,1\nV1,0,1\n',
    "before.gb": '"before",2,2\n* Vertices\n"a",A0\n" b",A1\n* Arcs\nV1,0,1\nV0,0,1\n',
    "behind.gb": '"behind",2,2\n* Vertices\n"a",A0\n"b ",A1\n* Arcs\nV1,0,1\nV0,0,1\n',
}


class Shell:
    """A folder with the program as sgb, the examples and the files above, in which commands are run."""

    def __init__(self, runs, program, name):
        self.folder = os.path.join(runs.folder, name)
        os.mkdir(self.folder)
        os.symlink(program, self.file("sgb"))
        os.symlink(os.path.join(TOP, "examples"), self.file("examples"))
        for place, records in FILES.items():
            vertices, arcs = records.count('"') // 2 - 1, records.count("\nV")
            head = f"* GraphBase graph (util_types ZZZZZZZZZZZZZZ,{vertices}V,{arcs}A)\n"
            self.write(place, head + records + "* Checksum -1\n")
        self.environment = dict(os.environ, PATH=self.folder + os.pathsep + os.environ.get("PATH", os.defpath))

    def file(self, name):
        return os.path.join(self.folder, name)

    def write(self, name, text, mode=0o644):
        with open(self.file(name), "w", encoding="utf-8") as file:
            file.write(text)
        os.chmod(self.file(name), mode)

    def text(self, name):
        """What the file has, or None where there is none."""
        if not os.path.exists(self.file(name)):
            return None
        with open(self.file(name), encoding="utf-8") as file:
            return file.read()

    def run(self, command, **variables):
        """Its status, output and lines."""
        try:
            got = subprocess.run(
                ["sh", "-c", command], cwd=self.folder, env=dict(self.environment, **variables), stdin=subprocess.DEVNULL,
                capture_output=True, timeout=SECONDS,
            )
        except subprocess.TimeoutExpired:
            return None, "", "it did not end"
        return got.returncode, got.stdout.decode(), got.stderr.decode()


def awks():
    """The kinds of awk that are there."""
    found = [name for name in ("mawk", "gawk", "original-awk") if shutil.which(name)]
    if shutil.which("busybox") and not subprocess.run(["busybox", "awk", ""], capture_output=True).returncode:
        found.append("busybox awk")
    for name in ("mawk", "gawk", "original-awk", "busybox awk"):
        if name not in found:
            print(f"  skipped, without {name}: the scripts of awk by it")
    return found or ["awk"]
