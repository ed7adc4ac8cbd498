#!/usr/bin/env python3
"""What _sgb does in a terminal of zsh, and what sgb.fish and sgb.ps1 offer in fish and PowerShell: completions/others_test.py [FOLDER]

FOLDER has the files; it is that of this script where none is named. A line tells which shell is not there. Of sgb.ps1 the words
are compared with those of sgb.bash without a shell.
"""

import os
import re
import shutil
import subprocess
import sys
import tempfile

FOLDER = os.path.abspath(sys.argv.pop(1) if len(sys.argv) > 1 else os.path.dirname(__file__))
sys.dont_write_bytecode = True

from sgb_test import BOARD, FLIP, FORMS, GUNION, INDUCED, PROMPT, SUBSETS, Terminal, forms  # noqa: E402  (it reads sys.argv)

# the key with which zsh tells its line and empties it
KEYS = r"""
fpath=(FOLDER $fpath)
autoload -Uz compinit
compinit -D -u
unsetopt beep prompt_sp prompt_cr always_last_prompt
LISTMAX=1000
_told() { zle -I; print -r -- "line <$BUFFER>"; BUFFER= }
zle -N _told
bindkey '^G' _told
"""

# what is typed in zsh, what stands in the line then, and what is shown
IN_ZSH = [
    ("sgb \t", "sgb ", ["names", "list", "save", "queen", "flip"]),
    ("sgb li\t", "sgb list ", []),
    ("sgb x\t", "sgb x", []),
    ('sgb list "petersen()" \t', 'sgb list "petersen()" ', []),
    ('sgb list "petersen()" -\t\t', 'sgb list "petersen()" --', ["--after", "--skip"]),
    ('sgb list "petersen()" --s\t', 'sgb list "petersen()" --skip ', []),
    ('sgb list "petersen()" --skip \t', 'sgb list "petersen()" --skip ', []),
    ('sgb list "petersen()" --after=0:p\t', 'sgb list "petersen()" --after=0:p', []),
    ('sgb list --after 0:1 "pet\t', 'sgb list --after 0:1 "petersen()" ', []),
    ('sgb save "petersen()" -\t', 'sgb save "petersen()" -', []),
    ("sgb queen \t", "sgb queen ", []),
    ("sgb list pet\t", "sgb list petersen\\(\\) ", []),
    ("sgb list 'pet\t", "sgb list 'petersen()' ", []),
    ('sgb names "std\t', 'sgb names "stdin" ', []),
    ('sgb list "boa\t', 'sgb list "board(', []),
    ("sgb list boa\t", "sgb list board\\(", []),
    ('sgb list "comple\t', 'sgb list "comple', ["complement(EXPR,copy,self_loops,directed)", "complete(n)"]),
    ('sgb list "\t', 'sgb list "', FORMS),
    ("sgb flip f\t", "sgb flip flip\\(", []),
    ('sgb flip "flip(1,\t', 'sgb flip "flip(1,', ["skip:", FLIP]),
    ('sgb list "board(\t', 'sgb list "board(', ["n1:", BOARD]),
    ('sgb list "board(3,-1\t', 'sgb list "board(3,-1', ["n2:", BOARD]),
    ("sgb list board\\(3,\t", "sgb list board\\(3,", ["n2:", BOARD]),
    ('sgb list "board(3,3,0,0,1,0,0,\t', 'sgb list "board(3,3,0,0,1,0,0,', []),
    ('sgb list "nothing(\t', 'sgb list "nothing(', []),
    ('sgb list "subsets(2,1,-4,0,0,0,\t', 'sgb list "subsets(2,1,-4,0,0,0,', ["size_bits:", SUBSETS]),
    ("sgb list 'gunion(pet\t", "sgb list 'gunion(petersen()", []),
    ('sgb list "gunion(petersen(),\t', 'sgb list "gunion(petersen(),', FORMS),
    ('sgb list "gunion(petersen(),cir\t', 'sgb list "gunion(petersen(),circuit(', []),
    ('sgb list "gunion(petersen(),circuit(\t', 'sgb list "gunion(petersen(),circuit(', ["n:", "circuit(n)"]),
    ('sgb list "gunion(circuit(3),lines(stdin,0),\t', 'sgb list "gunion(circuit(3),lines(stdin,0),', ["multi:", GUNION]),
    ("sgb list gunion\\(pet\t", "sgb list gunion\\(petersen\\(\\)", []),
    ('sgb list "induced(complete(2),\t', 'sgb list "induced(complete(2),[', []),
    ('sgb list "induced(complete(2),[1,pet\t', 'sgb list "induced(complete(2),[1,petersen()', []),
    ('sgb list "induced(complete(2),[1,1],\t', 'sgb list "induced(complete(2),[1,1],', ["self_loops:", INDUCED]),
]

# what is under way in fish, and what is offered
IN_FISH = [
    ("sgb ", ["names", "list", "save", "queen", "flip"]),
    ("sgb li", ["list"]),
    ("sgb x", []),
    ('sgb list "petersen()" ', []),
    ('sgb list "petersen()" -', ["--after", "--skip"]),
    ('sgb list "petersen()" --s', ["--skip"]),
    ('sgb list "petersen()" --skip ', []),
    ('sgb list "petersen()" --skip 1 -', []),
    ('sgb list "petersen()" --after=0:p', []),
    ('sgb list --after 0:1 "pet', ["petersen()"]),
    ('sgb save "petersen()" -', []),
    ("sgb queen ", []),
    ("sgb list pet", ["petersen()"]),
    ("sgb list 'pet", ["petersen()"]),
    ('sgb names "std', ["stdin"]),
    ('sgb list "boa', ["board(", BOARD]),
    ("sgb list boa", ["board(", BOARD]),
    ('sgb list "comple', ["complement(", "complement(EXPR,copy,self_loops,directed)", "complete(", "complete(n)"]),
    ("sgb flip f", ["flip(", FLIP]),
    ('sgb list "board(', []),
    ('sgb list "board(3,3,0,0,1,0,0,', []),
    ('sgb list "nothing(', []),
    ("sgb list 'gunion(pet", ["gunion(petersen()", "gunion(petersen(),"]),
    ('sgb list "gunion(petersen(),cir', ["gunion(petersen(),circuit(", "gunion(petersen(),circuit(n)"]),
    ('sgb list "gunion(petersen(),stdin,', []),
    ("sgb list gunion\\(pet", ["gunion(petersen()", "gunion(petersen(),"]),
    ('sgb list "induced(complete(2),', ["induced(complete(2),[", "induced(complete(2),[..]"]),
    ('sgb list "induced(complete(2),[1,pet', ["induced(complete(2),[1,petersen()", "induced(complete(2),[1,petersen(),"]),
    ('sgb list "induced(complete(2),[1,1],', []),
]


def in_zsh():
    """What zsh makes of each line."""
    with tempfile.TemporaryDirectory() as folder:
        with open(os.path.join(folder, "keys"), "w", encoding="utf-8") as file:
            file.write(KEYS.replace("FOLDER", f"'{FOLDER}'"))
        terminal = Terminal(folder, "zsh", "-f", "-i")
        try:
            terminal.read(PROMPT)
            terminal.write("source ./keys; echo so far''\r")
            terminal.read(f"\nso far\r?\n.*?{PROMPT}")
            for text, line, shown in IN_ZSH:
                got, words = terminal.typed(text)
                yield text, (got, sorted(words)), (line, sorted(shown))
        finally:
            terminal.close()


def in_fish():
    """What fish offers for each line."""
    script = f"source '{FOLDER}/sgb.fish'; complete -C $argv[1]"
    names = [form.partition("(")[0] + "(" for form in FORMS if form != "stdin" and not form.endswith("()")]
    for text, offered in [*IN_FISH, ('sgb list "', FORMS + names), ('sgb list "lines(', [
            *forms("lines("), *("lines(" + name for name in names), "lines(stdin,", "lines(petersen(),"])]:
        got = subprocess.run(["fish", "--no-config", "-c", script, text], stdin=subprocess.DEVNULL, capture_output=True, check=False)
        yield text, (sorted(got.stdout.decode().split()), got.stderr), (sorted(offered), b"")


def in_powershell():
    """What PowerShell offers for each line for which fish offers something; it takes no backslash for its own."""
    for text, offered in [(text, offered) for text, offered in IN_FISH if offered and "\\" not in text]:
        line = text.replace("'", "''")
        script = f". '{FOLDER}/sgb.ps1'; (TabExpansion2 '{line}' {len(text)}).CompletionMatches.ListItemText"
        got = subprocess.run(["pwsh", "-NoProfile", "-Command", script], stdin=subprocess.DEVNULL, capture_output=True, check=False)
        # a form without arguments is offered once, with no comma
        yield text, (sorted(got.stdout.decode().split()), got.stderr), (sorted(one for one in offered if one[-2:] != "),"), b"")


def words_of(name):
    """The words that a completion offers: commands, options and forms."""
    with open(os.path.join(FOLDER, name), encoding="utf-8") as file:
        text = file.read()
    of_bash = re.findall(r'_sgb_offer "\$word" (.*?)(?: ;;)?$', text, re.M)
    of_others = re.findall(r"\$found = ('[-a-z', ]*')", text)
    forms_there = re.findall(r"(?<=[ ]')(?:stdin|[a-z_]+\([^'()]*\))(?=')", text)
    return sorted(" ".join(of_bash + of_others).replace("'", " ").replace(",", " ").split()) + sorted(forms_there)


def main():
    passed, failed = 0, 0
    seen, wanted = words_of("sgb.ps1"), words_of("sgb.bash")
    if seen == wanted:
        passed += 1
    else:
        failed += 1
        print(f"sgb.ps1 has not the words of sgb.bash: {' '.join(sorted(set(seen) ^ set(wanted)))}")
    for shell, tried in ("zsh", in_zsh), ("fish", in_fish), ("pwsh", in_powershell):
        if not shutil.which(shell):
            print(f"  skipped, without {shell}: completion for {shell}")
            continue
        for text, seen, wanted in tried():
            if seen == wanted:
                passed += 1
            else:
                failed += 1
                print(f"{shell}: {text!r} gives {seen}, and not {wanted}")
    print(f"{passed} passed, {failed} failed")
    sys.exit(1 if failed else 0)


if __name__ == "__main__":
    main()
