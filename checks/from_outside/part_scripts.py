"""Checks of the scripts in examples/ that make a listing in parts, on one machine and on many."""

import fcntl
import os
import re
import select
import shutil
import subprocess

from .script_shells import Shell

# graphs of all kinds, of whose parts memory.py tells the memory, each with a listing of more than a pipe takes
MEASURED = [
    "board(8,8,0,0,5,0,0)",
    "board(3000000,0,0,0,-1,0,0)",
    "board(3000000,0,0,0,-1,1,0)",
    "board(2999999,0,0,0,-4,1,0)",
    "board(1009,1013,0,0,-2,3,0)",
    "board(600,600,0,0,-5,1,0)",
    "board(2,-18,0,0,1,-1,0)",
    "board(2,-20,0,0,4,0,0)",
    "cycle(1000)",
    "simplex(3,1,-199,0,0,0,0)",
    "simplex(2000,-2,0,0,0,0,0)",
    "disjoint_subsets(20,5)",
    "disjoint_subsets(30,6)",
    "subsets(2,1,-199,0,0,0,0x1,0)",
    "subsets(4,1,-59,0,0,0,0x3,0)",
    "subsets(6,3,3,2,1,-9,0x7,0)",
    "subsets(9,4,-5,0,0,0,0xff,1)",
    "complement(empty(1500),0,0,0)",
    "lines(complete(60),0)",
    "product(circuit(300),circuit(300),0,0)",
    "gunion(board(300,300,0,0,1,0,0),board(300,300,0,0,2,0,0),0,0)",
]
ENOUGH = 2_000_000  # bytes of a listing, after which no longer list comes


def parts(program):
    def checks(runs, tally):
        """A part fails where the program does, but for the closed pipe, or where awk does; what they say is shown."""
        shell = Shell(runs, program, "parts")
        _, text, _ = shell.run('sgb list "board(4,4,0,0,1,0,0)" --skip 3')
        lines = text.split("\n")
        wanted = "".join(line + "\n" for line in lines[:lines.index("2.0")])
        part = 'examples/parts/part.sh "board(4,4,0,0,1,0,0)" 3 5'
        tally.same(part, shell.run(part), (0, wanted, ""))
        # programs that end otherwise: what they write, their line and status, and what the command's line and status are
        some, all_ = "sed -n 1,9p", "cat"
        ends = "no vertex comes after 3 blocks, and 5 whole ones are wanted"
        code_1, fault = "Something went wrong (panic code 1)!", "sgb: write fault"
        for taken, line, status, said in [
            (some, "", 0, (1, [ends])),
            (some, fault, 3, (3, [ends, fault])),
            (some, code_1, 1, (1, [ends, code_1])),
            (all_, code_1, 1, (1, [code_1])),
            (all_, "sgb: read fault", 3, (3, ["sgb: read fault"])),
            (all_, fault, 1, (1, [fault])),
            (all_, fault + ".", 3, (3, [fault + "."])),
            (all_, "", 7, (7, [])),
            (all_, fault, 3, (0, [])),
        ]:
            told = f'echo "{line}" >&2\n' if line else ""
            shell.write("other sgb", f'#!/bin/sh\nsgb "$@" 2>&- | {taken}\n{told}exit {status}\n', 0o755)
            got, out, err = shell.run(part, SGB="./other sgb")
            err = sorted(heard.replace("blocks.awk: ", "") for heard in err.splitlines())
            what = f"a part of a program that writes by {taken}, says {line!r} and ends with {status}"
            tally.same(what, (got, err), (said[0], sorted(said[1])))
            tally.check(out == wanted if taken == all_ else wanted.startswith(out), what, "gave", out)
        # where no head comes: the program's own line, or that it writes no listing, also where it cannot write on
        shell.write("queens", '#!/bin/sh\nexec sgb queen\n', 0o755)
        shell.write("names", '#!/bin/sh\nexec sgb names "board(300,300,0,0,1,0,0)"\n', 0o755)
        no_listing = "part.sh: no listing with its head, as sgb list EXPR begins, comes from the program"
        for words, sgb, line in [
            ('"board(2,-251,0,0,1,0,0)" 0 1', "sgb", "Something went wrong (panic code 30)!"),
            ('"board(4,4" 0 1', "sgb", "sgb: bad expression at byte 9"),
            ("queen 0 1", "sgb", "sgb: bad expression at byte 0"),
            ("queen 0 1", "./queens", no_listing),
            ("names 0 1", "./names", no_listing),
        ]:
            command = f"examples/parts/part.sh {words}"
            status, out, err = shell.run(command, SGB=sgb)
            is_right = status and (out, err) == ("", line + "\n")
            tally.check(is_right, "$", command, sgb, "gave", (status, out, err))
        for command, line in [
            ('examples/parts/part.sh "board(4,4,0,0,1,0,0)" 3 13', "blocks.awk: no vertex comes after 13 blocks"),
            ('examples/parts/part.sh "board(4,4,0,0,1,0,0)" 3', "usage: part.sh"),
            ('examples/parts/part.sh "board(4,4,0,0,1,0,0)" 3 x', "part.sh: no number: x"),
            (part + " > /dev/full", ""),
        ]:
            status, out, err = shell.run(command)
            tally.check(status != 0 and line in err and err, "$", command, "gave", (status, out, err))
        status, out, err = shell.run(part, SGB="./none")
        is_right = status != 0 and not out and "none" in err
        tally.check(is_right, "a part of a program that is not there gave", (status, out, err))

    return checks


def shards(program):
    def checks(runs, tally):
        """The parts of shards.sh, put together, are the listing; what it does not take is refused with a line."""
        shell = Shell(runs, program, "shards")
        for expression, number, files in [
            ("board(30,30,0,0,1,0,0)", "4", ""),
            ("simplex(12,-3,0,0,0,0,1)", "008", ""),
            ("subsets(2,1,-4,0,0,0,0xF,0)", "3", ""),
            ("petersen()", "3", "it's $HOME's part"),
            ("board(1,0,0,0,1,1,0)", "4", "a;b"),
            ("simplex(5,2,2,0,0,0,0)", "2", ""),
            ("board(2,2,0,0,1,0,0)", "7", "part"),
        ]:
            command = 'examples/parts/shards.sh "$EXPR" "$PARTS"' + (' "$FILES"' if files else "")
            variables = {"EXPR": expression, "PARTS": number, "FILES": files}
            status, out, err = shell.run(command, **variables)
            made, lines = [], out.splitlines()
            for line in lines:
                made.append(shell.run(line))
            right = [(0, each[1] if not files else "", "") for each in made]
            what = f"the {number} parts of {expression}"
            tally.same(what, (status, err, len(lines), made), (0, "", int(number), right))
            texts = [each[1] for each in made]
            if files:
                texts = [shell.text(f"{files}.{place + 1}") for place in range(len(lines))]
            _, whole, _ = shell.run('sgb list "$EXPR"', EXPR=expression)
            tally.check(None not in texts and "".join(texts) == whole, what, "gave", texts, "and not", whole)
        command = 'examples/parts/shards.sh "board(3,3,0,0,1,0,0)" 2 part'
        status, out, err = shell.run(command, SGB="./none")
        tally.check(status != 0 and not out and "none" in err, "shards.sh without the program gave", (status, out, err))
        shell.write("other", '#!/bin/sh\necho "Something went wrong (panic code 1)!" >&2\nexit 1\n', 0o755)
        tally.same(command, shell.run(command, SGB="./other"), (1, "", "Something went wrong (panic code 1)!\n"))
        for words, line in [
            ('"board(3,3" 2', "sgb: bad expression at byte 9"),
            ('"board(2,-251,0,0,1,0,0)" 2', "Something went wrong (panic code 30)!"),
            ('"lines(complete(4),0)" 2', "shards.sh: no expression of a generator"),
            ('"stdin" 2', "shards.sh: no expression of a generator"),
            ('"board(3,3,0,0,1,0,0)\\$(echo)" 2', "shards.sh: no expression of a generator"),
            ('"petersen()" 0', "shards.sh: PARTS is a number from 1"),
            ('"petersen()" 000', "shards.sh: PARTS is a number from 1"),
            ('"petersen()" ""', "shards.sh: PARTS is a number from 1"),
            ('"petersen()" -1', "shards.sh: PARTS is a number from 1"),
            ('"petersen()" 0x2', "shards.sh: PARTS is a number from 1"),
            ('"petersen()" 1000000000', "shards.sh: PARTS is a number from 1"),
            ('"petersen()" 2 "two\nlines"', "shards.sh: a line cannot name a file"),
            ('"petersen()"', "usage: shards.sh"),
        ]:
            command = f"examples/parts/shards.sh {words}"
            status, out, err = shell.run(command)
            is_right = status in (1, 2) and not out and err.startswith(line) and err.count("\n") == 1
            tally.check(is_right, "$", command, "gave", (status, out, err))

    return checks


def retried(program):
    def checks(runs, tally):
        """With --retry a part that failed has no name, one that is there is not made again, and in the end all are there."""
        shell = Shell(runs, program, "retried")
        variables = {"EXPR": "board(20,20,0,0,1,0,0)", "FILES": "it's a part"}
        command = 'examples/parts/shards.sh --retry "$EXPR" 5 "$FILES"'
        _, whole, _ = shell.run('sgb list "$EXPR"', EXPR=variables["EXPR"])
        shell.write("no third", '#!/bin/sh\ncase $* in "list "*"--skip 160") echo "no third" >&2; exit 1 ;; esac\nexec sgb "$@"\n', 0o755)
        for sgb, there in ("./no third", [1, 2, 4, 5]), ("sgb", [1, 2, 3, 4, 5]), ("./none of them", None):
            status, out, err = shell.run(command, **variables, SGB=sgb)
            if there is None:
                tally.check(status != 0 and not out and err, command, "without the program gave", (status, out, err))
                continue
            lines = out.splitlines()
            known = [place for place in range(1, 6) if shell.text(f"{variables['FILES']}.{place}") is not None]
            told = [place for place, line in enumerate(lines, 1) if line == ":"]
            tally.same((command, "of parts that are there"), (status, err, len(lines), told), (0, "", 5, known))
            ends = [shell.run(line)[0] for line in lines]
            tally.same((command, "by", sgb), [place for place, end in enumerate(ends, 1) if not end], there)
            texts = [shell.text(f"{variables['FILES']}.{place}") for place in range(1, 6)]
            tally.same((command, "parts by", sgb), [place for place, text in enumerate(texts, 1) if text is not None], there)
        tally.check(None not in texts and "".join(texts) == whole, command, "gave", texts, "and not", whole)
        for words in ('--retry "petersen()" 2', '--retry "petersen()"', '"petersen()" 2 part more'):
            status, out, err = shell.run(f"examples/parts/shards.sh {words}")
            tally.check(status == 2 and not out and err.startswith("usage: shards.sh"), words, "gave", (status, out, err))

    return checks


def most_taken(program, expression):
    """How many bytes of memory a listing has taken until so much of it was read."""
    end, begin = os.pipe()
    fcntl.fcntl(begin, fcntl.F_SETPIPE_SZ, 4096)
    process = subprocess.Popen([program, "list", expression], stdout=begin, stderr=subprocess.DEVNULL)
    os.close(begin)
    taken = read = 0
    with open(end, "rb", 0) as listing:
        while read < ENOUGH:
            # the program waits for what is in the pipe to be read
            select.select([listing], [], [])
            with open(f"/proc/{process.pid}/status", encoding="utf-8") as status:
                found = re.search(r"^VmHWM:\s*(\d+) kB", status.read(), re.MULTILINE)
            taken = max(taken, int(found[1]) * 1024 if found else 0)
            text = listing.read(4096)
            if not text:
                break
            read += len(text)
    process.wait()
    return taken


def memory(program):
    def checks(runs, tally):
        """What memory.py tells is no less than a listing takes, and no more than four times that and 50 MB."""
        shell = Shell(runs, program, "memory")
        for expression in MEASURED:
            command = f'examples/parts/memory.py "{expression}"'
            status, out, err = shell.run(command)
            told, taken = int(out or 0) * 1_000_000, most_taken(program, expression)
            is_right = status == 0 and not err and 0 < taken <= told <= 4 * taken + 50_000_000
            tally.check(is_right, command, "gave", (status, out, err), "and", str(taken), "bytes were taken")
        for words, line in [("", "usage: memory.py"), ('"board(3,"', "sgb: bad expression at byte 8"), ("stdin", "Something went wrong")]:
            status, out, err = shell.run(f"examples/parts/memory.py {words}")
            tally.check(status != 0 and not out and err.startswith(line), "memory.py", words, "gave", (status, out, err))

    return checks


def clusters(program):
    def checks(runs, tally):
        """The jobs for Slurm, by the variables that it sets, and for GNU parallel, on this machine as a host."""
        shell = Shell(runs, program, "clusters")
        expression = "board(30,30,0,0,1,0,0)"
        whole = shell.run(f'sgb list "{expression}"')[1]
        shell.write("sbatch", '#!/bin/sh\nprintf "%s\\n" "$@" > handed\n', 0o755)
        for given, number, words in [("board(3000000,0,0,0,-1,1,0)", "3", "the part"), (expression, "12", "part")]:
            told = shell.run(f'examples/parts/memory.py "{given}"')[1].strip()
            job = f'examples/parts/slurm.sh "{given}" {number} "{words}"'
            tally.same(job, shell.run(job), (0, "", ""))
            wanted = [f"--mem={told}M", f"--array=1-{number}", "examples/parts/slurm.sh", given, words]
            tally.same((job, "hands sbatch"), (shell.text("handed") or "").splitlines(), wanted)
        os.remove(shell.file("handed"))
        for words in ('"board(2,-251,0,0,1,0,0)" 3 part', '"board(3," 3 part', "stdin 3 part", f'"{expression}" 0 part', f'"{expression}" part'):
            status, out, err = shell.run(f"examples/parts/slurm.sh {words}")
            is_right = status != 0 and not out and err and shell.text("handed") is None
            tally.check(is_right, "slurm.sh", words, "gave", (status, out, err))
        job = 'examples/parts/slurm.sh "$EXPR" "the part"'
        array = {f"SLURM_ARRAY_TASK_{name}": value for name, value in [("MIN", "1"), ("MAX", "3"), ("COUNT", "3")]}
        array["EXPR"] = expression
        for task in ("1", "2", "3"):
            tally.same(f"task {task} of {job}", shell.run(job, **array, SLURM_ARRAY_TASK_ID=task), (0, "", ""))
        texts = [shell.text(f"the part.{task}") for task in ("1", "2", "3")]
        tally.check(None not in texts and "".join(texts) == whole, job, "gave", texts)
        for changed in [
            {"SLURM_ARRAY_TASK_ID": "4"},
            {"SLURM_ARRAY_TASK_ID": "1", "SLURM_ARRAY_TASK_MIN": "0"},
            {"SLURM_ARRAY_TASK_ID": "3", "SLURM_ARRAY_TASK_COUNT": "2"},
            {"SLURM_ARRAY_TASK_ID": "1", "EXPR": "board(2,-251,0,0,1,0,0)"},
            {},
        ]:
            status, out, err = shell.run(job, **{**array, **changed})
            tally.check(status != 0 and not out and err, job, repr(changed), "gave", (status, out, err))
        if not shutil.which("parallel"):
            print("  skipped, without GNU parallel: examples/parts/hosts.sh")
            return
        job = f'examples/parts/hosts.sh "{expression}" 4 :'
        tally.same(job, shell.run(job), (0, whole, ""))
        third = 'case $* in "list "*"--skip 450") echo "no 3" >&2; exit 1 ;; esac'
        shell.write("no 3", f'#!/bin/sh\n{third}\nexec sgb "$@"\n', 0o755)
        status, out, err = shell.run(job, SGB="./no 3")
        is_right = status != 0 and not out and "no 3" in err
        tally.check(is_right, job, "with a program that fails gave", (status, out, err))
        status, out, err = shell.run('examples/parts/hosts.sh "board(3,3" 4 :')
        tally.check(status != 0 and not out and err, "examples/parts/hosts.sh of no expression gave", (status, out, err))

    return checks


def all_checks(program):
    yield "scripts of a part", parts(program)
    yield "scripts of parts", shards(program)
    yield "scripts of parts once more", retried(program)
    yield "scripts of clusters", clusters(program)
    yield "scripts of memory", memory(program)
