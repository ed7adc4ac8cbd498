"""The language of definitions, as far as a page needs it: its tokens, and which names are bound in a text."""

import collections
import re

# The kinds: space, comment, text, number, word, sign; a word is a name or an operator, and a sign a bracket, a dot or the like.
TOKEN = re.compile(
    r"(?P<space>\s+)|(?P<comment>--[^\n]*|//[^\n]*)|(?P<text>\"(?:\\.|[^\"\\])*\")|(?P<sign>[(){}\[\],;.:λ])"
    r"|(?P<number>\d[\d_]*(?![^\s(){}\[\],;.:]))|(?P<word>[^\s(){}\[\],;.:\"λ]+)")
KEYWORDS = {"abbrev", "unfoldable", "mutual", "pub", "data", "record", "syntax", "law", "where", "let", "in", "elim", "if",
            "then", "else", "requires", "ensures", "Type", "→", "×", "⊎", "=", "|", "↦", "_", "⊥", "ghost"}
OPEN, CLOSE = "([{", ")]}"
# the constructors that begin with a small letter or a sign; those of the code and of definitions begin with a great one
SMALL_CONSTRUCTORS = {"zero", "suc", "pos", "negsuc", "true", "false", "∷", "[]"}

Token = collections.namedtuple("Token", "kind text")


def tokens(text):
    """All tokens of a text; joined they are the text. `[]` is one word."""
    found, place = [], 0
    while place < len(text):
        if text.startswith("[]", place):
            found.append(Token("word", "[]"))
            place += 2
            continue
        match = TOKEN.match(text, place)
        if not match:
            raise ValueError(f"no token: {text[place:place + 40]!r}")
        found.append(Token(match.lastgroup, match.group()))
        place = match.end()
    return found


def is_constructor(word):
    return word in SMALL_CONSTRUCTORS or word[:1].isupper()


def words_of_pattern(solid, known):
    """The names that a pattern binds: its words but known constructors and what has a module before it."""
    return {token.text for k, token in enumerate(solid)
            if token.kind == "word" and token.text not in KEYWORDS and not (is_constructor(token.text) and token.text in known)
            and not (k + 1 < len(solid) and solid[k + 1].text == "." or k and solid[k - 1].text == ".")}


def equations(text, names):
    """The left sides of the equations of some names, without these: each as tokens."""
    for line in text.split("\n"):
        solid = [token for token in tokens(line) if token.kind not in ("space", "comment")]
        depth, end = 0, None
        for place, token in enumerate(solid):
            depth += (token.kind == "sign") * ((token.text in OPEN) - (token.text in CLOSE))
            if depth == 0 and token.text in ("=", ":"):
                end = place if token.text == "=" else None
                break
        indented = len(line) - len(line.lstrip())
        if end and indented <= 2 and (solid[0].text in names or any("◌" in name for name in names)):
            parts = {part for name in names for part in name.split("◌")}
            yield [token for token in solid[:end] if token.text not in parts]


def bound(text, names, known):
    """The names that are bound in a definition of these names: by λ, by brackets with a type, by let, by the left sides of
    its equations, and by the cases of elim."""
    solid = [token for token in tokens(text) if token.kind not in ("space", "comment")]
    found = set()
    for left in equations(text, names):
        found |= words_of_pattern(left, known)
    for place, token in enumerate(solid):
        if token.text == "λ":
            end = next((k for k in range(place, len(solid)) if solid[k].text == "."), place)
            found |= words_of_pattern(solid[place + 1:end], known)
        elif token.text in "({" and token.kind == "sign":
            end = place + 1
            while end < len(solid) and solid[end].kind == "word":
                end += 1
            if end < len(solid) and solid[end].text == ":":
                found |= {one.text for one in solid[place + 1:end]}
        elif token.text == "let":
            end = next((k for k in range(place, len(solid)) if solid[k].text in ("=", ":")), place)
            found |= words_of_pattern(solid[place + 1:end], known)
        elif token.text in ("[", "|"):
            end = next((k for k in range(place + 1, len(solid)) if solid[k].text in ("↦", "]", "|")), place)
            if solid[end].text == "↦":
                found |= words_of_pattern(solid[place + 1:end], known)
    return found - {"_", *names}


def fields(text):
    """The fields that a record declares: the names of its lines `pub NAME : ..`."""
    return re.findall(r"^\s+(?:pub |ghost )*([^\s(){}:]+) : ", text, re.M) if re.match(r"(?:\w+ )*record\b", text) else []


def parts(text):
    """A proposition that an example states, as rows: what `×` joins outside of brackets, an equation as `expression = value`."""
    solid = tokens(text.strip())
    if "→" in {token.text for token in solid}:
        return [text.strip()]
    rows, sides, depth = [], [""], 0
    for token in [*solid, Token("word", "×")]:
        depth += (token.kind == "sign") * ((token.text in OPEN) - (token.text in CLOSE))
        if depth == 0 and token.text == "×":
            whole = (" = " if len(sides) == 2 else " ≡ ").join(side.strip() for side in sides)
            is_group = len(sides) == 1 and whole.startswith("(") and whole.endswith(")") and whole.count("(") == whole.count(")")
            rows += parts(whole[1:-1]) if is_group else [whole]
            sides = [""]
        elif depth == 0 and token.text == "≡":
            sides.append("")
        else:
            sides[-1] += token.text
    return rows
