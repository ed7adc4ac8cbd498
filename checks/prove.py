#!/usr/bin/env python3
"""Proves crates and those below them, and builds the programs among those that are named: checks/prove.py CRATE ..

It is what `make` and `make lib` run. Only the crates that are named and what they use are proved, lowest first, as many at once as
there are processors, with 4 GB of memory for each. What earlier checks kept is not proved again. A program is built by `rt run`, on
the words of its file `args`. It prints a line a crate, and every half minute what is under way, with the seconds of a processor that
it took, and how much is left, by the times in docs/GATE.md. The first crate that fails ends it, with what rt printed; the status is
then 1.
"""

import collections
import os
import subprocess
import sys
import tempfile
import time

import gate_times

TOP = os.path.dirname(os.path.dirname(os.path.abspath(__file__)))


def uses():
    """What each crate of crates.txt uses of the others there."""
    found = {}
    with open(os.path.join(TOP, "crates.txt"), encoding="utf-8") as file:
        for line in file:
            name, colon, used = line.partition("#")[0].partition(":")
            if colon and name.split():
                found[name.split()[0]] = used.split()
    return {name: [other for other in used if other in found] for name, used in found.items()}


def needed(names, below):
    """These crates and all below them."""
    found, work = set(), list(names)
    while work:
        name = work.pop()
        if name not in below:
            sys.exit(f"crates.txt has no crate {name}")
        if name not in found:
            found.add(name)
            work += below[name]
    return found


def lanes():
    """How many checks run at once: one a processor, and 4 GB for each."""
    with open("/proc/meminfo", encoding="utf-8") as file:
        free = next(int(line.split()[1]) for line in file if line.startswith("MemAvailable"))
    return max(1, min(os.cpu_count() or 1, free // 4_194_304))


class Work:
    """What rt does in the folder of a crate, under way."""

    def __init__(self, name, *words):
        self.start = time.monotonic()
        self.lines = tempfile.TemporaryFile()
        folder = os.path.join(TOP, "crates", name)
        self.process = subprocess.Popen(
            ["rt", *words], cwd=folder, stdin=subprocess.DEVNULL, stdout=self.lines, stderr=subprocess.STDOUT
        )

    def said(self):
        self.lines.seek(0)
        return self.lines.read().decode("utf-8", "replace")

    def spent(self):
        """The seconds of a processor that it took so far."""
        found, below = gate_times.processes(), collections.defaultdict(list)
        for pid, (parent, _, _) in found.items():
            below[parent].append(pid)
        return sum(found[pid][1] for pid in gate_times.family(self.process.pid, below) if pid in found)


class Progress:
    """What is said every half minute."""

    def __init__(self, names):
        self.begun, self.told = time.monotonic(), 0
        self.known = {name: seconds for name, seconds in gate_times.known()[0].items() if name in names}

    def tell(self, running, left):
        """Once half a minute has gone by: what is under way, and how much is left by the known times."""
        passed = time.monotonic() - self.begun
        if passed < self.told + 30:
            return
        self.told = passed
        spent = {name: work.spent() for name, work in running.items()}
        rest = sum(max(0, self.known.get(name, 0) - spent.get(name, 0)) for name in [*running, *left])
        said = [f"{name} {spent[name]:.0f} s" + (f" of some {self.known[name]}" if name in self.known else "") for name in sorted(running)]
        then = f", then {len(left)} more" if left else ""
        of_all = f"; some {rest / 60:.0f} minutes of a processor are left" if self.known else ""
        print(f"  by second {passed:.0f}: {', '.join(said)}{then}{of_all}", flush=True)

    def ended(self, running, left=()):
        """The name of what has ended, once something has."""
        while True:
            for name, work in running.items():
                try:
                    work.process.wait(0.2)
                    return name
                except subprocess.TimeoutExpired:
                    self.tell(running, left)


def main():
    names = sys.argv[1:]
    if not names:
        sys.exit("usage: checks/prove.py CRATE ..")
    left = needed(names, uses())
    progress = Progress(left)
    prove(left, progress)
    # the known times are of proofs
    progress.known = {}
    for name in filter(is_program, names):
        run = Work(name, "run", "--", *words_of(name))
        progress.ended({name: run})
        if run.process.returncode:
            sys.exit(f"{run.said()}\n{name}: not built")
        print(f"  {name:14} built, {time.monotonic() - run.start:.0f} s", flush=True)


def prove(left, progress):
    """Proves these crates, lowest first."""
    below, proved, running, most = uses(), set(), {}, lanes()
    print(f"Proving {len(left)} crates, lowest first, {most} at once: from nothing some {sum(progress.known.values()) / 60:.0f} minutes "
          "of a processor as fast as that of docs/GATE.md, less where proofs are kept", flush=True)
    while left or running:
        for name in sorted(left):
            if len(running) < most and all(other in proved for other in below[name]):
                left.remove(name)
                running[name] = Work(name, "check")
        if not running:
            sys.exit(f"crates.txt goes in a circle: {' '.join(sorted(left))}")
        name = progress.ended(running, left)
        check = running.pop(name)
        if check.process.returncode:
            for other in running.values():
                other.process.terminate()
            sys.exit(f"{check.said()}\n{name}: not proved")
        proved.add(name)
        print(f"  {name:14} proved, {time.monotonic() - check.start:.0f} s", flush=True)
    print(f"{len(proved)} crates proved in {time.monotonic() - progress.begun:.0f} s", flush=True)


def is_program(name):
    return os.path.exists(os.path.join(TOP, "crates", name, "src/main.rt"))


def words_of(name):
    """The words that a program is run on in the gate."""
    with open(os.path.join(TOP, "crates", name, "args"), encoding="utf-8") as file:
        return file.read().splitlines()


if __name__ == "__main__":
    main()
