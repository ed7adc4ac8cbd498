#!/usr/bin/env python3
"""Tries the must-fail edits that the gate leaves out: checks/edits.py [CRATE ..]

    make edits

They are those of crates/*/more-edits; the gate tries those of crates/*/must-fail. It lays a copy of the tree as it stands,
with these edits in the place of those, and proves the crates there, which begins with what checks here have kept. Then
`rt must-fail` tries the edits of each crate, the crates side by side: as many at once as there are processors, with 4 GB
of memory for each. What it says of a crate is printed when all edits of the crate were tried.

The prover has to refuse each edit. The last line is `N passed, M failed`, the one before it how long it took; the status
is 1 where an edit was not refused, could not be applied or read, or was not tried.
"""

import glob
import os
import re
import shutil
import subprocess
import sys
import tempfile
import time
from concurrent.futures import ThreadPoolExecutor, as_completed

from prove import lanes

TOP = os.path.dirname(os.path.dirname(os.path.abspath(__file__)))
VERDICT = re.compile(r"(?:rt: )?must-fail ([^\s/]+)/(\S+\.edit): (.*)")


def lay(copy):
    """A copy of what git has or would have."""
    listed = subprocess.run(
        ["git", "ls-files", "-z", "--cached", "--others", "--exclude-standard"], cwd=TOP, check=True, capture_output=True
    ).stdout
    for name in filter(None, listed.decode().split("\0")):
        there = os.path.join(copy, name)
        if os.path.exists(os.path.join(TOP, name)):
            os.makedirs(os.path.dirname(there), exist_ok=True)
            shutil.copy2(os.path.join(TOP, name), there)


def take_edits(copy, crate):
    """Puts the other edits of a crate in the place of those that the gate tries, and gives their names."""
    folder = os.path.join(copy, "crates", crate)
    others = os.path.join(folder, "more-edits")
    names = sorted(map(os.path.basename, glob.glob(os.path.join(others, "*.edit"))))
    if not names:
        sys.exit(f"{crate} has no more-edits")
    shutil.rmtree(os.path.join(folder, "must-fail"), ignore_errors=True)
    os.rename(others, os.path.join(folder, "must-fail"))
    return names


def refused_of(crate, names, said):
    """Which of these edits were refused, by what `rt must-fail` said: each told of once, and no other."""
    verdicts = [found.groups() for found in map(VERDICT.match, said.splitlines()) if found]
    told = [name for of, name, _ in verdicts if of == crate]
    refused = {name for of, name, verdict in verdicts if of == crate and verdict.startswith("refused, as it must be")}
    return [name for name in names if name in refused and told.count(name) == 1]


def try_edits(copy, crate, names, jobs):
    """Tries the edits of a crate; gives what was said, how many passed and how many failed."""
    begun = time.monotonic()
    run = subprocess.run(
        ["rt", "must-fail", crate],
        cwd=copy,
        env={**os.environ, "RT_JOBS": str(jobs)},
        stdin=subprocess.DEVNULL,
        stdout=subprocess.PIPE,
        stderr=subprocess.STDOUT,
        text=True,
        errors="replace",
    )
    passed = len(refused_of(crate, names, run.stdout))
    failed = len(names) - passed
    if run.returncode and not failed:
        failed = 1
    took = time.monotonic() - begun
    return f"{run.stdout}{crate}: {passed} of {len(names)} edits refused, status {run.returncode}, {took:.0f} s", passed, failed


def main():
    crates = list(dict.fromkeys(sys.argv[1:])) or sorted(
        path.split("/")[-2] for path in glob.glob(os.path.join(TOP, "crates", "*", "more-edits"))
    )
    begun, passed, failed = time.monotonic(), 0, 0
    with tempfile.TemporaryDirectory() as copy:
        lay(copy)
        edits = {crate: take_edits(copy, crate) for crate in crates}
        wanted = sum(map(len, edits.values()))
        print(f"{wanted} edits of {len(crates)} crates", flush=True)
        if subprocess.run([sys.executable, os.path.join(copy, "checks", "prove.py"), *crates]).returncode:
            print(f"0 passed, {wanted} failed")
            sys.exit(1)
        # the crates with the most edits first, so that no long one is left to the end
        most = lanes()
        with ThreadPoolExecutor(most) as pool:
            runs = [
                pool.submit(try_edits, copy, crate, edits[crate], max(1, most // len(crates)))
                for crate in sorted(crates, key=lambda crate: -len(edits[crate]))
            ]
            for run in as_completed(runs):
                said, refused, others = run.result()
                print(said, flush=True)
                passed += refused
                failed += others
    if passed + failed < wanted:
        failed = wanted - passed
    print(f"{wanted} edits of {len(crates)} crates tried in {time.monotonic() - begun:.0f} s")
    print(f"{passed} passed, {failed} failed")
    sys.exit(1 if failed else 0)


if __name__ == "__main__":
    main()
