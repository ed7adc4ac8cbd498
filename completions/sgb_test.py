#!/usr/bin/env python3
"""What sgb.bash does in a terminal: completions/sgb_test.py [SGB.BASH].

It starts bash in a terminal of its own, types the beginning of a line and tabs, and reads what stands in the line then,
and what bash has shown as possible. Nothing is run: no program sgb is wanted.
"""

import fcntl
import os
import pty
import re
import select
import shutil
import signal
import struct
import sys
import tempfile
import termios
import time

HERE = os.path.dirname(os.path.abspath(__file__))
SCRIPT = os.path.abspath(sys.argv[1]) if len(sys.argv) > 1 else os.path.join(HERE, "sgb.bash")
SECONDS = int(os.environ.get("OUTSIDE_SECONDS", "60"))  # that bash may take for one line
PROMPT = "ready> "
BOARD = "board(n1,n2,n3,n4,piece,wrap,directed)"
GUNION = "gunion(EXPR,EXPR,multi,directed)"
INDUCED = "induced(EXPR,[..],self_loops,multi,directed)"
SUBSETS = "subsets(n,n0,n1,n2,n3,n4,size_bits,directed)"
FLIP = "flip(start,skip,count,m)"

with open(SCRIPT, encoding="utf-8") as file:
    FORMS = re.findall(r"^    '(.*)'$", file.read(), re.M)


def forms(before):
    """Each form behind this text."""
    return [before + form for form in FORMS]


# What is typed, what stands in the line then, and what is shown. Each tab is one key.
TYPED = [
    # commands and options
    ("sgb \t\t", "sgb ", ["names", "list", "save", "queen", "flip"]),
    ("sgb li\t", "sgb list ", []),
    ("sgb x\t\t", "sgb x", []),
    ('sgb list "petersen()" \t\t', 'sgb list "petersen()" ', []),
    ('sgb list "petersen()" -\t\t\t', 'sgb list "petersen()" --', ["--after", "--skip"]),
    ('sgb list "petersen()" --s\t', 'sgb list "petersen()" --skip ', []),
    ('sgb list "petersen()" --skip \t\t', 'sgb list "petersen()" --skip ', []),
    ('sgb list "petersen()" --after \t\t', 'sgb list "petersen()" --after ', []),
    ('sgb list "petersen()" --after=\t\t', 'sgb list "petersen()" --after=', []),
    ('sgb list "petersen()" --after=0:p\t\t', 'sgb list "petersen()" --after=0:p', []),
    ('sgb list "petersen()" --after=1 --s\t\t', 'sgb list "petersen()" --after=1 --s', []),
    ('sgb list --after=0 "pet\t', 'sgb list --after=0 "petersen()" ', []),
    ('sgb list --after 0:1 "pet\t', 'sgb list --after 0:1 "petersen()" ', []),
    ('sgb save "petersen()" -\t\t', 'sgb save "petersen()" -', []),
    ("sgb queen \t\t", "sgb queen ", []),
    # names of forms: a whole expression is closed, a form with arguments is not
    ("sgb list pet\t", 'sgb list "petersen()" ', []),
    ('sgb list "pet\t', 'sgb list "petersen()" ', []),
    ("sgb list 'pet\t", "sgb list 'petersen()' ", []),
    ('sgb list "petersen()\t', 'sgb list "petersen()" ', []),
    ('X=1 sgb names "std\t', 'X=1 sgb names "stdin" ', []),
    ("sgb list boa\t", 'sgb list "board(', []),
    ('sgb list "boa\t', 'sgb list "board(', []),
    ('sgb list "comple\t\t', 'sgb list "comple', ["complement(EXPR,copy,self_loops,directed)", "complete(n)"]),
    ('sgb list "\t\t', 'sgb list "', forms("")),
    ("sgb flip f\t", 'sgb flip "flip(', []),
    ('sgb flip "boa\t\t', 'sgb flip "boa', []),
    # numbers: what each is, and nothing else; nothing where none may stand
    ("sgb list boa\t\t\t", 'sgb list "board(', ["<n1>", BOARD]),
    ('sgb list "board(\t\t', 'sgb list "board(', ["<n1>", BOARD]),
    ('sgb list "board(3,-1\t\t', 'sgb list "board(3,-1', ["<n2>", BOARD]),
    ('sgb list "board(3,3,0,0,1,0,\t\t', 'sgb list "board(3,3,0,0,1,0,', ["<directed>", BOARD]),
    ('sgb list "board(3,3,0,0,1,0,0,\t\t', 'sgb list "board(3,3,0,0,1,0,0,', []),
    ('sgb list "board(pet\t\t', 'sgb list "board(pet', []),
    ('sgb list "board((\t\t', 'sgb list "board((', []),
    ('sgb list "petersen(\t\t', 'sgb list "petersen(', []),
    ('sgb list "nothing(\t\t', 'sgb list "nothing(', []),
    ('sgb list "subsets(2,1,-4,0,0,0,0x\t\t', 'sgb list "subsets(2,1,-4,0,0,0,0x', ["<size_bits>", SUBSETS]),
    ('sgb list "petersen()),\t\t', 'sgb list "petersen()),', []),
    ("sgb flip fl\t\t\t", 'sgb flip "flip(', ["<start>", FLIP]),
    # graphs in the places of arguments
    ("sgb list 'gunion(pet\t", "sgb list 'gunion(petersen()", []),
    ('sgb list "gunion(\t\t', 'sgb list "gunion(', forms("gunion(")),
    ('sgb list "gunion(petersen(),\t\t', 'sgb list "gunion(petersen(),', forms("gunion(petersen(),")),
    ('sgb list "gunion(petersen(),cir\t', 'sgb list "gunion(petersen(),circuit(', []),
    ('sgb list "gunion(petersen(),circuit(\t\t', 'sgb list "gunion(petersen(),circuit(', ["<n>", "circuit(n)"]),
    ('sgb list "gunion(petersen(),stdin,\t\t', 'sgb list "gunion(petersen(),stdin,', ["<multi>", GUNION]),
    ('sgb list "gunion(petersen()\t\t', 'sgb list "gunion(petersen()', []),
    ('sgb list "induced(complete(2),\t', 'sgb list "induced(complete(2),[', []),
    ('sgb list "induced(stdin,[1,\t\t', 'sgb list "induced(stdin,[1,', forms("induced(stdin,[1,")),
    ('sgb list "[\t\t', 'sgb list "[', []),
    ('sgb list "lines([p\t\t', 'sgb list "lines([p', []),
    ('sgb list "induced(stdin,[1,pet\t', 'sgb list "induced(stdin,[1,petersen()', []),
    ('sgb list "induced(stdin,[1,1\t\t', 'sgb list "induced(stdin,[1,1', []),
    ('sgb list "induced(stdin,[1,1],\t\t', 'sgb list "induced(stdin,[1,1],', ["<self_loops>", INDUCED]),
    # without a quote: parentheses behind backslashes, and plain ones, where bash takes what follows for another command
    ("sgb list gunion\\(pet\t", "sgb list gunion\\(petersen\\(\\)", []),
    ("sgb list board\\(\t\t", "sgb list board\\(", ["<n1>", BOARD]),
    ("sgb list board(\t\t", "sgb list board(", []),
    ("sgb list gunion(petersen(),\t\t", "sgb list gunion(petersen(),", []),
]

# the key with which bash tells its line and empties it; what is possible is shown at once, one a line
KEYS = r"""
bind 'set bell-style none'
bind 'set completion-query-items 0'
bind 'set page-completions off'
bind 'set enable-bracketed-paste off'
bind 'set completion-display-width 0'
_told() { printf '\nline <%s>\n' "$READLINE_LINE"; READLINE_LINE=; READLINE_POINT=0; }
bind -x '"\C-g": _told'
"""


class Terminal:
    """A shell in a terminal of its own."""

    def __init__(self, folder, *words):
        self.process, self.end = pty.fork()
        if self.process == 0:
            environment = {"PATH": os.environ.get("PATH", os.defpath), "TERM": "dumb", "LC_ALL": "C", "HOME": folder}
            environment.update(INPUTRC="/dev/null", PS1=PROMPT, HISTFILE="/dev/null")
            os.chdir(folder)
            os.execvpe(words[0], words, environment)
        fcntl.ioctl(self.end, termios.TIOCSWINSZ, struct.pack("HHHH", 200, 1000, 0, 0))
        self.heard = ""

    def write(self, text):
        os.write(self.end, text.encode())

    def read(self, pattern):
        """What comes up to the first place where the pattern is found, and the match."""
        last = time.monotonic() + SECONDS
        while not (found := re.search(pattern, self.heard, re.S)):
            ready, _, _ = select.select([self.end], [], [], max(0, last - time.monotonic()))
            if not ready:
                raise TimeoutError(f"in {SECONDS} s the shell has said {self.heard[-1000:]!r}")
            self.heard += os.read(self.end, 1 << 16).decode()
        before, self.heard = self.heard[:found.start()], self.heard[found.end():]
        return before, found

    def close(self):
        os.close(self.end)
        os.kill(self.process, signal.SIGKILL)
        os.waitpid(self.process, 0)

    def typed(self, text):
        """What stands in the line when the text is typed, and what was shown."""
        self.write(text + "\a")
        shown, line = self.read(f"line <([^\r\n]*)>\r?\n.*?{PROMPT}")
        rows = [row for row in re.split("[\r\n]+", shown)[1:] if not row.startswith(PROMPT.rstrip())]
        return line[1], " ".join(rows).split()


def main():
    if not shutil.which("bash"):
        print("  skipped, without bash: completions/sgb_test.py")
        print("0 passed, 0 failed")
        return
    passed, failed = 0, 0
    with tempfile.TemporaryDirectory() as folder:
        with open(os.path.join(folder, "keys"), "w", encoding="utf-8") as file:
            file.write(KEYS)
        terminal = Terminal(folder, "bash", "--norc", "--noprofile", "-i")
        try:
            terminal.read(PROMPT)
            terminal.write(f"source ./keys; source '{SCRIPT}'; echo so far''\r")
            terminal.read(f"\nso far\r?\n.*?{PROMPT}")
            for text, line, shown in TYPED:
                seen = terminal.typed(text)
                if (seen[0], sorted(seen[1])) == (line, sorted(shown)):
                    passed += 1
                else:
                    failed += 1
                    print(f"{text!r} leaves {seen[0]!r} with {seen[1]} shown, and not {line!r} with {shown}")
        finally:
            terminal.close()
    print(f"{passed} passed, {failed} failed")
    sys.exit(1 if failed else 0)


if __name__ == "__main__":
    main()
