#!/usr/bin/env python3
"""Tries dask_degrees.py: examples/tests/dask_degrees_test.py [PROGRAM]. Its counts are held against the program's listings.

    make lib && make examples

On two processes of this machine, and by the address of a scheduler; with a worker that is killed in the middle of 10^6
vertices; with refusals, and with packages that tell something wrong, which have to be found out. Where this Python has
no distributed, Debian's is taken; a line says where all is left out. DASK_SECONDS is how long one run may take, 120 if
it is not set.
"""

import collections
import os
import signal
import subprocess
import sys
import tempfile

HERE = os.path.dirname(os.path.abspath(__file__))
TOP = os.path.dirname(os.path.dirname(HERE))
SCRIPTS = os.path.join(TOP, "examples", "parts")
SCRIPT = os.path.join(SCRIPTS, "dask_degrees.py")
PROGRAM = os.path.abspath(sys.argv[1]) if len(sys.argv) > 1 else os.path.join(TOP, "sgb")
DEBIAN = "/usr/bin/python3"
SECONDS = int(os.environ.get("DASK_SECONDS", "120"))
sys.path[:0] = [SCRIPTS, os.path.join(TOP, "python")]
sys.dont_write_bytecode = True

# an expression, and how it is cut: parts and chunks that do not go into it, that do, and one that is all of it
GRAPHS = [
    ("petersen()", ()), ("board(30,31,0,0,5,0,0)", ("--part", "100", "--chunk", "7")),
    ("simplex(12,-3,0,0,0,0,1)", ("--part", "91", "--chunk", "91")), ("board(1,0,0,0,1,1,0)", ("--part", "1")),
    ("subsets(3,1,-9,0,0,0,0x2,0)", ("--part", "50", "--chunk", "1000")), ("empty(7)", ("--part", "3", "--chunk", "2")),
    ("lines(petersen(),0)", ("--part", "4", "--chunk", "3")),
]
GREAT = "board(1000,1000,0,0,1,0,0)"
# a corner has two neighbours, the other squares of a side three
OF_GREAT = (1_000_000, 3_996_000, {2: 4, 3: 4 * 998, 4: 998 * 998})
REFUSED = [
    ("board(3,", "bad expression at byte 8"), ("stdin", "the head of the .gb file is wrong"),
    ("board(2,-251,0,0,1,0,0)", "parameters that make no sense"),
]
# a package of six vertices with two arcs each, and what is told wrong in it
PACKAGE = """
class Some:
    def __init__(self, first, n):
        self.first, self.n, self.tips, self.starts = first, n, 2 * n * [0], memoryview(bytes(range(0, 2 * n + 1, 2)))
class graph:
    def __init__(self, text):
        self.n, self.m = 6, 12
    def __enter__(self):
        return self
    def __exit__(self, *_):
        pass
    def chunks(self, size, first, count, lengths):
        return [Some(first, count)]
"""
TOLD_WRONG = [
    ("6, 12", "6, 13", "12 arcs came, and the head has 13"),
    ("2 * n * [0]", "(2 * n - (first == 0)) * [0]", "11 arcs came, and the head has 12"),
    ("Some(first, count)", "Some(first, count - (first > 0))", "the part from vertex 3 on came twice, or with 2"),
    ("bytes(range(0, 2 * n + 1, 2))", "bytes(range(n + 1))", "the degrees do not add up to the arcs"),
    ("bytes(range(0, 2 * n + 1, 2))", "bytes([0, 2 * n])", "the degrees do not add up to the arcs"),
    ("return [Some", "raise MemoryError('out of memory') or [Some", "out of memory"),
]
tried = 0


def must(is_right, *seen):
    global tried
    tried += 1
    if not is_right:
        sys.exit("dask_degrees_test.py: " + " ".join(str(part)[-600:] for part in seen))


def run(*words, **more):
    environment = {**os.environ, "PYTHONDONTWRITEBYTECODE": "1", **more}
    got = subprocess.run(
        [sys.executable, SCRIPT, *words], stdin=subprocess.DEVNULL, capture_output=True, text=True, check=False,
        timeout=SECONDS, env=environment,
    )
    return got.returncode, got.stdout, got.stderr


def listed(text):
    """What the script is to write of a graph, by the program's listing."""
    seen = subprocess.run([PROGRAM, "list", text], capture_output=True, text=True, check=True).stdout
    lines = seen.partition("\n\n")[2].splitlines()
    lists = []
    for line in lines:
        if line.startswith("  -> "):
            lists[-1] += 1
        else:
            lists.append(0)
    counts = "".join(f"{degree} {count}\n" for degree, count in sorted(collections.Counter(lists).items()))
    return f"{len(lists)} vertices, {sum(lists)} arcs\n{counts}"


def is_refused(got, line):
    return got[0] == 1 and got[1] == "" and got[2].startswith("dask_degrees.py: " + line) and got[2].count("\n") == 1


def refusals():
    for text, line in REFUSED:
        got = run(text)
        must(is_refused(got, line), text, "gave", got)
    for words in ["--part", "0"], ["--chunk", "x"], ["--workers", "-1"]:
        got = run("petersen()", *words)
        must(got[:2] == (2, "") and got[2], words, "gave", got)
    got = run("petersen()", "--scheduler", "tcp://127.0.0.1:1", DASK_DISTRIBUTED__COMM__TIMEOUTS__CONNECT="1s")
    must(is_refused(got, "Timed out trying to connect"), "an address without a scheduler gave", got)
    with tempfile.TemporaryDirectory() as folder:
        for before, after, line in [("", "", None), *TOLD_WRONG]:
            with open(os.path.join(folder, "sgb.py"), "w", encoding="utf-8") as file:
                file.write(PACKAGE.replace(before, after))
            got = run("any", "--part", "3", PYTHONPATH=folder)
            must(is_refused(got, line) if line else got[:2] == (0, "6 vertices, 12 arcs\n2 6\n"), after, "gave", got)


def killed(client, degrees_of):
    """One of the two workers is killed when ten of a thousand parts have come."""
    killed_at = []

    def heard(left):
        if left < 990 and not killed_at:
            killed_at.append(left)
            os.kill(before[0], signal.SIGKILL)

    before = sorted(client.run(os.getpid).values())
    seen = degrees_of(client, GREAT, part=1000, heard=heard)
    must(seen == OF_GREAT, GREAT, "with a worker that was killed gave", seen)
    must(len(before) == 2 and killed_at[0] > 500, "the worker was not killed in the middle:", killed_at)
    client.wait_for_workers(2)
    after = client.run(os.getpid).values()
    must(before[0] not in after and before[1] in after, "the workers", before, "are", after)


def main():
    try:
        import distributed
    except ImportError:
        there = [DEBIAN, "-c", "import distributed"]
        if os.path.exists(DEBIAN) and subprocess.run(there, capture_output=True, check=False).returncode == 0:
            os.execv(DEBIAN, [DEBIAN, *sys.argv])
        print("  skipped, without Dask's distributed (Debian package python3-distributed): examples/parts/dask_degrees.py")
        return
    if not os.environ.get("SGB_LIBRARY") and not os.path.exists(os.path.join(TOP, "libsgb.so")):
        print("  skipped, without libsgb.so, which `make lib` leaves: examples/parts/dask_degrees.py")
        return
    import dask_degrees

    refusals()
    for text, words in GRAPHS:
        seen, wanted = run(text, *words), (0, listed(text), "")
        must(seen == wanted, text, *words, "gave", seen, "and not", wanted)
    with tempfile.TemporaryDirectory() as folder, dask_degrees.cluster_here(2, folder) as cluster:
        for text, words in GRAPHS[:2]:
            seen, wanted = run(text, "--scheduler", cluster.scheduler_address, *words), (0, listed(text), "")
            must(seen == wanted, text, "by the address of a scheduler gave", seen, "and not", wanted)
        with distributed.Client(cluster) as client:
            killed(client, dask_degrees.degrees_of)
    print(f"dask_degrees.py counts what the program lists, also where a worker is killed: {tried} checks")


if __name__ == "__main__":
    main()
