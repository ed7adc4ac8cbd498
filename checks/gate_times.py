#!/usr/bin/env python3
"""How long the gate takes, task by task: checks/gate_times.py run NAME COMMAND .., sum, table

`run` runs a step of the gate, hands its output on, and adds to out/gate.tsv what each of its tasks took of a processor: of
`rt ci` the proofs, the proofs of tests, the proofs that edits begin with, and edits, by the words of its processes, which are
read twice a second; so a task may have half a second more. Once the first proof has ended, and once that of sgb_vec has, it says
how long the whole may take on this machine, by what the table in docs/GATE.md says of these proofs there. Its status is
that of the command.

`sum` says what the steps in out/gate.tsv took in all, and how many times the proof of sgb_vec that is: the one measure of the
gate that is the same on a slow machine and on a fast one.

`table` writes out/gate.tsv into docs/GATE.md, where every proof and edit was made in that run.
"""

import collections
import os
import re
import resource
import subprocess
import sys
import threading
import time

TOP = os.path.dirname(os.path.dirname(os.path.abspath(__file__)))
ROWS = os.path.join(TOP, "out/gate.tsv")
PAGE = os.path.join(TOP, "docs/GATE.md")
MEASURE = "sgb_vec"
HEAD = ["sgb_vec", "sgb_graph"]  # beside the proofs of these there is next to nothing to do
KINDS = ["proof", "tests", "base", "edits"]
BESIDE = ["library calls", "library tests"]
TICK = os.sysconf("SC_CLK_TCK")


def processes():
    """Of each process: its parent, the seconds of a processor of it and of those that it has waited for, and when it began."""
    found = {}
    for pid in filter(str.isdigit, os.listdir("/proc")):
        try:
            with open(f"/proc/{pid}/stat", encoding="utf-8", errors="replace") as stat:
                fields = stat.read().rpartition(")")[2].split()
        except OSError:
            continue
        found[int(pid)] = int(fields[1]), sum(map(int, fields[11:15])) / TICK, int(fields[19])
    return found


def task_of(pid):
    """The crate and the kind of the task that a process is a check of, or None."""
    try:
        with open(f"/proc/{pid}/cmdline", "rb") as file:
            words = file.read().decode("utf-8", "replace").split("\0")
        room = os.path.basename(os.readlink(f"/proc/{pid}/cwd"))
    except OSError:
        return None
    if os.path.basename(words[0]) != "rattle" or "--crate-name" not in words:
        return None
    crate = words[words.index("--crate-name") + 1]
    kept = words[words.index("--incremental") + 1] if "--incremental" in words else ""
    if "/rt-edits-" in kept:
        return crate, "base" if kept.endswith("/seed") else "edits"
    # the only edit of a crate has no base: it is a check of the crate in a room of its own
    if room.startswith("rt-edit-"):
        return crate, "edits"
    return crate, "tests" if "--test" in words else "proof"


class Watch(threading.Thread):
    """Reads, until it is stopped, what each check below a process takes."""

    def __init__(self, top):
        super().__init__(daemon=True)
        self.top, self.ended = top, threading.Event()
        self.tasks, self.seconds = {}, {}

    def run(self):
        while not self.ended.wait(0.5):
            self.look()

    def look(self):
        found = processes()
        below = collections.defaultdict(list)
        for pid, (parent, _, _) in found.items():
            below[parent].append(pid)
        work = list(below[self.top])
        while work:
            pid = work.pop()
            # a number is used again once its process has ended
            one = pid, found[pid][2]
            if one not in self.tasks:
                self.tasks[one] = task_of(pid)
            if self.tasks[one]:
                self.seconds[one] = sum(found[other][1] for other in family(pid, below))
            else:
                work += below[pid]
                # before it is a check it may be a shell or a fork of rt
                del self.tasks[one]

    def sums(self):
        """The seconds of each task, and how many checks it is."""
        sums = collections.defaultdict(lambda: [0.0, 0])
        for process, seconds in list(self.seconds.items()):
            one = sums[self.tasks[process]]
            one[0], one[1] = one[0] + seconds, one[1] + 1
        return sums


def family(pid, below):
    yield pid
    for child in below[pid]:
        yield from family(child, below)


def lanes():
    """How many tasks run at once."""
    return int(os.environ.get("RT_JOBS") or len(os.sched_getaffinity(0)))


def known():
    """What the table in docs/GATE.md has: the seconds of each proof, and those of all."""
    with open(PAGE, encoding="utf-8") as page:
        lines = page.read().partition("<!-- times -->")[2].partition("<!-- /times -->")[0].splitlines()
    rows = [[cell.strip() for cell in line.strip("|").split("|")] for line in lines if line.startswith("|")]
    proofs = {row[0].strip("`"): int(row[1]) for row in rows if len(row) > 1 and row[1].isdigit()}
    total = next((int(row[-1]) for row in rows if row[0] == "in all" and row[-1].isdigit()), 0)
    return proofs, total


def expected(crate, seconds):
    """A line that says how long the gate may take on this machine, by the proof of one crate."""
    proofs, total = known()
    if not proofs.get(crate) or not total:
        return None
    slower, most = seconds / proofs[crate], lanes()
    alone = sum(proofs.get(name, 0) for name in HEAD)
    wall = slower * (total / most + alone * (1 - 1 / most))
    return (
        f"gate: the proof of {crate} took {seconds:.0f} s of a processor, {slower:.2f} times what docs/GATE.md has: "
        f"the whole may take {wall / 60:.0f} minutes from nothing, {most} tasks at once"
    )


def run(name, words):
    begun, before = time.monotonic(), resource.getrusage(resource.RUSAGE_CHILDREN)
    step = subprocess.Popen(words, stdout=subprocess.PIPE, text=True, errors="replace", bufsize=1)
    watch = Watch(step.pid)
    watch.start()
    told, notes = set(), {}
    for line in step.stdout:
        print(line, end="", flush=True)
        for what, crate in (("proofs", r"rt: (\w+)(?:: its tests are)? proved"), ("edits", r"rt: must-fail (\w+)/")):
            if re.match(crate, line):
                notes[what] = time.monotonic() - begun
        ended = re.match(r"rt: (\w+) proved", line)
        if ended and (not told or ended[1] == MEASURE):
            told.add(ended[1])
            watch.look()
            said = expected(ended[1], watch.sums()[ended[1], "proof"][0])
            if said:
                print(said, flush=True)
    status = step.wait()
    watch.ended.set()
    watch.join()
    after = resource.getrusage(resource.RUSAGE_CHILDREN)
    spent = after.ru_utime + after.ru_stime - before.ru_utime - before.ru_stime
    os.makedirs(os.path.dirname(ROWS), exist_ok=True)
    with open(ROWS, "a", encoding="utf-8") as rows:
        for (crate, kind), (seconds, checks) in sorted(watch.sums().items()):
            print(name, kind, crate, f"{seconds:.1f}", checks, sep="\t", file=rows)
        for what, seconds in notes.items():
            print(name, "by", what, f"{seconds:.0f}", 1, sep="\t", file=rows)
        print(name, "lanes", "all", lanes(), 1, sep="\t", file=rows)
        print(name, "step", "all", f"{spent:.1f}", f"{time.monotonic() - begun:.0f}", sep="\t", file=rows)
    return status


def rows():
    with open(ROWS, encoding="utf-8") as lines:
        return [line.rstrip("\n").split("\t") for line in lines]


def whole(found):
    """The seconds of a processor of all steps, and those of the proof of sgb_vec, or None where it was kept."""
    all_seconds = sum(float(seconds) for _, kind, _, seconds, _ in found if kind == "step")
    measure = [float(seconds) for _, kind, crate, seconds, _ in found if (kind, crate) == ("proof", MEASURE)]
    return all_seconds, measure[0] if measure else None


def sum_up():
    seconds, measure = whole(rows())
    times = f"{seconds / measure:.1f} times the proof of {MEASURE}" if measure else f"the proof of {MEASURE} was kept"
    print(f"gate: {seconds / 60:.0f} minutes of a processor, {times}")
    return 0


def table():
    found = rows()
    seconds, measure = whole(found)
    with open(os.path.join(TOP, "crates.txt"), encoding="utf-8") as file:
        every = [line.split(":")[0].split()[0] for line in file if ":" in line.partition("#")[0]]
    # of rt ci alone: the other steps are rows of their own
    tasks = [row for row in found if row[0] == "rt ci" and row[2] in every]
    crates = list(dict.fromkeys(crate for _, kind, crate, _, _ in tasks if kind in KINDS))
    cells = collections.defaultdict(float)
    for _, kind, crate, spent, _ in tasks:
        cells[crate, kind] += float(spent)
    lacking = [crate for crate in every if not cells[crate, "proof"]]
    if lacking:
        sys.exit(f"kept, and so not measured: {' '.join(lacking)}")
    lines = ["| | proof | proof of tests | base of edits | edits | in all |", "|---|---|---|---|---|---|"]
    for crate in sorted(crates, key=every.index):
        own = [cells[crate, kind] for kind in KINDS]
        lines.append(f"| `{crate}` | " + " | ".join(f"{one:.0f}" if one else "" for one in own) + f" | {sum(own):.0f} |")
    steps = [(name, float(spent), int(took)) for name, kind, _, spent, took in found if kind == "step"]
    checks = sum(cells[crate, kind] for crate in crates for kind in KINDS)
    for name, spent, _ in steps:
        rest = spent - checks if name == "rt ci" else spent
        lines.append(f"| {'programs, tests, copies' if name == 'rt ci' else name} | | | | | {rest:.0f} |")
    lines.append("| in all | " + " | ".join(f"{sum(cells[crate, kind] for crate in crates):.0f}" for kind in KINDS) + f" | {seconds:.0f} |")
    by = {crate: int(float(spent)) for _, kind, crate, spent, _ in found if kind == "by"}
    # the libraries are tried beside the archive
    took = sum(took for name, _, took in steps if name not in BESIDE)
    most = next(lanes for _, kind, _, lanes, _ in found if kind == "lanes")
    lines += [
        "",
        f"Seconds of a processor, {most} tasks at once: in all {seconds / measure:.1f} times the proof of `{MEASURE}`. All proofs and tests",
        f"by minute {by.get('proofs', 0) // 60}, edits by minute {by.get('edits', 0) // 60}, all in {took // 60} min {took % 60} s.",
    ]
    with open(PAGE, encoding="utf-8") as page:
        before, mark, after = page.read().partition("<!-- times -->")
    _, close, rest = after.partition("<!-- /times -->")
    if not mark or not close:
        sys.exit("docs/GATE.md has no place for the table")
    with open(PAGE, "w", encoding="utf-8") as page:
        page.write(before + mark + "\n" + "\n".join(lines) + "\n" + close + rest)
    return 0


def main():
    said = sys.argv[1:]
    if said[:1] == ["run"] and len(said) > 2:
        return run(said[1], said[2:])
    if said in (["sum"], ["table"]):
        return sum_up() if said == ["sum"] else table()
    sys.exit("usage: checks/gate_times.py run NAME COMMAND .. | sum | table")


if __name__ == "__main__":
    sys.exit(main())
