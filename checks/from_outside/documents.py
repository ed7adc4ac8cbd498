"""What the documents say: their commands, the manual page.

The commands of a page are given where it says, at the top of a repository: in a copy of this one as git has it, with the
programs and libraries that a build leaves there. Where root makes the checks, the user `nobody` gives the commands, to whom
no other folder belongs; a script in the place of the program has to be one that `nobody` can run.
"""

import os
import pwd
import re
import shutil
import subprocess

from .runs import PROGRAM, SECONDS, TOP, DidNotEnd

# what a build leaves at the top, and where that is
BUILT = {name: name for name in ("libgb.a", "libsgb.a", "libsgb.so", "libsgb.so.1")}
BUILT.update(sgb=PROGRAM, sgb_levels="crates/sgb_levels/out/sgb_levels")
# the tools of a command without which it is left out
TOOL = re.compile(r"(?:^|[|&;]) *(bash|c[+][+]|cargo|dot)(?= |$)")


def commands(path):
    """The commands of a document's indented blocks, each with the lines below it."""
    found, block = [], []
    with open(path, encoding="utf-8") as file:
        lines = file.read().split("\n")
    for line in lines + ["end"]:
        if line.startswith("    $ "):
            block = []
            found.append((line[6:], block))
        elif line.startswith("    "):
            block.append(line[4:])
        elif not line:
            block.append("")
        else:
            block = []
    return [(command, "\n".join(block).rstrip("\n").split("\n") if any(block) else []) for command, block in found]


def repository():
    """The files of this repository: what git has, or where it has none of this folder, what no build left; of the crates, in
    which no page has a command, their pages alone."""
    listed = b""
    if shutil.which("git"):
        listed = subprocess.run(["git", "ls-files", "-z"], cwd=TOP, capture_output=True, check=False).stdout
    found = [name for name in listed.decode().split("\0") if name and os.path.lexists(os.path.join(TOP, name))]
    if not found:
        for folder, folders, names in os.walk(TOP):
            folders[:] = [name for name in folders if name not in ("out", "dist", "target", "__pycache__", ".git")]
            found += [os.path.relpath(os.path.join(folder, name), TOP) for name in names]
    return [name for name in found if not name.startswith("crates/") or name.endswith(".md")]


def somebody():
    """Who gives the commands, in words of subprocess: `nobody`, where this is root, and else whoever this is."""
    if os.geteuid() != 0:
        return {}
    found = {"user": "nobody", "group": pwd.getpwnam("nobody").pw_gid, "extra_groups": []}
    try:
        subprocess.run(["true"], check=True, **found)
    except OSError:
        print("  skipped, since root may not be `nobody` here: commands of pages by somebody without rights")
        return {}
    return found


class Shell:
    """The top of a repository, in which commands are run: its files, with the programs and the library for C."""

    def __init__(self, runs, name):
        self.folder, self.owner = os.path.join(runs.folder, name), somebody()
        for there in repository():
            self.lay(os.path.join(TOP, there), there)
        for there, path in BUILT.items():
            if os.path.exists(os.path.join(TOP, path)):
                self.lay(os.path.realpath(os.path.join(TOP, path)), there)
        self.environment = dict(os.environ, PATH=self.folder + os.pathsep + os.environ.get("PATH", os.defpath))
        if self.owner:
            os.chmod(runs.folder, 0o711)
            subprocess.run(["chown", "-R", self.owner["user"], self.folder], check=True)

    def lay(self, path, there):
        there = os.path.join(self.folder, there)
        os.makedirs(os.path.dirname(there), exist_ok=True)
        shutil.copy(path, there, follow_symlinks=False)

    def run(self, command, owner=None):
        shell = "bash" if "<(" in command else "sh"
        owner = self.owner if owner is None else owner
        home = {"HOME": self.folder} if owner else {}
        try:
            got = subprocess.run(
                [shell, "-c", command], cwd=self.folder, env={**self.environment, **home}, stdin=subprocess.DEVNULL,
                capture_output=True, timeout=SECONDS, **owner,
            )
        except subprocess.TimeoutExpired:
            raise DidNotEnd(f"$ {command} did not end") from None
        return got.returncode, got.stdout, got.stderr

    def owner_of(self, command):
        """Who gives the command: `nobody`, or who has tools of its own for it; or None, and a line says so."""
        tools = sorted(set(TOOL.findall(command)) | ({"bash"} if "<(" in command else set()))
        theirs, own = ([self.run(f"command -v {tool}", owner) for tool in tools] for owner in (self.owner, {}))
        missing = [tool for tool, found in zip(tools, own) if found[0] != 0]
        if missing:
            print(f"  skipped, without {missing[0]}: {command}")
            return None
        if theirs == own:
            return self.owner
        print(f"  not by {self.owner['user']}, who has not this {' and '.join(tools)}: {command}")
        return {}

    def write(self, name, lines):
        """A file that is written by hand, as a page shows it."""
        path = os.path.join(self.folder, name)
        with open(path, "w", encoding="utf-8") as file:
            file.write("".join(line + "\n" for line in lines))
        os.chmod(path, 0o644)


def document(path, wanted, left_out=()):
    def checks(runs, tally):
        """Each command gives what stands below it, as far as that goes; but for those in which one of these words stands."""
        shell = Shell(runs, path.replace("/", "."))
        found = commands(os.path.join(TOP, path))
        tally.check(len(found) >= wanted, path, "has only so many commands:", len(found))
        for command, lines in found:
            name = re.fullmatch("cat ([A-Za-z]+[.](gb|c|cpp|py|rs|toml))", command)
            if name and not os.path.exists(os.path.join(shell.folder, name[1])):
                shell.write(name[1], lines)
            if any(word in command for word in left_out):
                print(f"  skipped: {command}")
                continue
            owner = shell.owner_of(command)
            if owner is None:
                continue
            is_cut = lines[-1:] == [".."]
            text = "".join(line + "\n" for line in (lines[:-1] if is_cut else lines)).encode()
            status, out, err = shell.run(command, owner)
            is_right = out.startswith(text) and len(out) > len(text) if is_cut else out == text
            tally.check(status == 0 and not err and is_right, "$", command, "gave", (status, out, err), "and not", text)

    return checks


def manual(runs, tally):
    """The manual page's examples end with status 0 and no line; it has no warnings."""
    shell = Shell(runs, "manual")
    page = os.path.join(TOP, "man", "sgb.1")
    with open(page, encoding="utf-8") as file:
        found = re.findall(r"^\.Dl (sgb .*)$", file.read(), re.M)
    tally.check(len(found) >= 6, "the manual page has only so many examples:", len(found))
    for command in found:
        command = command.replace(r"\(dq", '"').replace(r"\-", "-")
        owner = shell.owner_of(command)
        if owner is None:
            continue
        status, out, err = shell.run(command, owner)
        tally.check(status == 0 and not err, "$", command, "gave", (status, out, err))
    if shutil.which("mandoc"):
        linter = ["mandoc", "-T", "lint", "-W", "warning", page]
    elif shutil.which("man"):
        linter = ["man", "--warnings", "-l", page]
    else:
        print("  skipped, without mandoc and man: the manual page's warnings")
        return
    got = subprocess.run(linter, stdin=subprocess.DEVNULL, capture_output=True, timeout=SECONDS)
    warnings = got.stderr + (got.stdout if linter[0] == "mandoc" else b"")
    tally.check(got.returncode == 0 and not warnings, " ".join(linter), "gave", (got.returncode, warnings))


def all_checks():
    yield "document README.md", document("README.md", 1)
    yield "document docs/TOUR.md", document("docs/TOUR.md", 20)
    yield "manual", manual
