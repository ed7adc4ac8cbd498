"""Texts of the book as HTML: definitions and contracts with their links, and what a page of docs/ says."""

import collections
import html
import re
import urllib.parse

import lexer
from sources import Std

SIGN_SKIPPED = {"xs", "ys", "ab", "is", "_", "..", "="}

# names and aliases are those of Sources.scope; bound are the names of the text itself, or None of a contract, where what
# nothing brings is a name of the code; nearby are the definitions whose fields are meant first
Scope = collections.namedtuple("Scope", "names aliases bound nearby")


def esc(text):
    return html.escape(text, quote=False)


def codes(text):
    return [code.replace(r"\|", "|") for code in re.findall(r"`([^`]*)`", text)]


def anchor(*parts):
    return urllib.parse.quote(".".join(parts), safe="._-'")


class Notation:
    """The rows of the table of how definitions are written, and which rows tell of a sign."""

    def __init__(self, rows):
        self.rows, self.of = rows, collections.defaultdict(list)
        for n, (written, _) in enumerate(rows):
            for kind, word in (token for code in codes(written) for token in lexer.tokens(code)):
                is_sign = word == "λ" or kind == "word" and (len(word) > 1 or not word.isalpha())
                if is_sign and word not in SIGN_SKIPPED and n not in self.of[word]:
                    self.of[word].append(n)

    def mark(self, word):
        """The class of a sign, by which its row is shown."""
        return f' class=n{"-".join(map(str, self.of[word]))}' if word in self.of else ""

    def style(self):
        """What shows the rows of each sign where it is hovered over or focused."""
        for rows in sorted({tuple(rows) for rows in self.of.values()}):
            text = "\n".join(f"{self.rows[n][0]}:  {self.rows[n][1]}" for n in rows).replace("`", "").replace(r"\|", "|")
            text = text.replace("\\", "\\\\").replace('"', '\\"').replace("\n", "\\A ")
            mark = ".n" + "-".join(map(str, rows))
            yield f'{mark}:hover::after, {mark}:focus::after {{ content: "{text}"; }}'


class Renderer:
    """Makes links of names."""

    def __init__(self, sources, notation, page_of):
        self.sources, self.notation, self.page_of = sources, notation, page_of
        self.std, self.far_fields = set(), set()

    def href(self, target, name=None):
        if isinstance(target, int):
            d = self.sources.defs.all[target]
            return f"{self.page_of[target]}#{anchor(d.crate, d.module, name if name in d.names else d.names[0])}"
        if isinstance(target, Std):
            self.std.add(target)
            return f"std.html#{anchor(*target)}"
        return f"types.html#{anchor(*target)}"

    def linked(self, word, href):
        return f'<a href="{href}"{self.notation.mark(word)}>{esc(word)}</a>' if href else esc(word)

    def link(self, target):
        """A definition or a type by its name."""
        return self.linked(target[1] if isinstance(target, tuple) else self.sources.defs.all[target].names[0], self.href(target))

    def definition(self, k):
        d, code = self.sources.defs.all[k], self.sources.code(k)
        names, aliases = self.sources.scope_of(d.crate, d.module)
        bound = lexer.bound(code, d.names, set(names)) | set(lexer.fields(code))
        own = {name: anchor(d.crate, d.module, name) for name in d.names}
        return self.code(code, Scope(names, aliases, bound, self.sources.cited(k) | {k}), own)

    def contract(self, text, uses):
        clauses = re.search(r"\b(?:requires|ensures)\b", text)
        start = clauses.start() if clauses else 0 if text.lstrip().startswith("ghost") else len(text)
        head = "".join(self.head_word(token) for token in lexer.tokens(text[:start]))
        return head + self.code(text[start:], Scope(*self.sources.scope(uses), None, set()), {})

    def head_word(self, token):
        types = [key for key in self.sources.types if key[1] == token.text] if token.kind == "word" else []
        return self.linked(token.text, self.href(types[0]) if len(types) == 1 else None)

    def code(self, text, scope, own):
        """A text with its links; the first of each of its own names has its place."""
        found, own, out, at = lexer.tokens(text), dict(own), [], 0
        solid = [token.text for token in found if token.kind not in ("space", "comment")]
        for n, (kind, word) in enumerate(found):
            if kind in ("comment", "text"):
                out.append(f"<i>{esc(word)}</i>")
            elif kind != "word" and word != "λ":
                out.append(esc(word))
            elif word in own:
                out.append(f'<b id="{own.pop(word)}">{esc(word)}</b>')
            else:
                is_field = kind == "word" and n > 0 and found[n - 1].text == "."  # after a binder's dot there is a space
                out.append(self.linked(word, self.place(word, is_field, solid[max(0, at - 3):at], solid[at + 1:at + 2], scope)))
            at += kind not in ("space", "comment")
        return "".join(out)

    def place(self, word, is_field, before, after, scope):
        """Where a name leads to, or None."""
        if is_field and len(before) > 1:
            return self.member(word, before[-2], scope)
        if after == ["="] and before[-1:] in (["{"], [";"]) and word not in lexer.KEYWORDS:
            of_record = before[-1] == ";" or before[-2:-1] in (["record"], [")"]) or before[-3:-2] == ["record"]
            return self.field(word, scope) if of_record else None  # else an argument by its name
        if scope.bound and word in scope.bound:
            return None
        if word in scope.aliases:
            return self.alias(scope.aliases[word])
        if scope.names.get(word) is not None:
            return self.href(scope.names[word], word)
        return f"notation.html#row{self.notation.of[word][0]}" if word in self.notation.of else None

    def member(self, word, head, scope):
        """Where the name after the dot of `head.word` leads to."""
        if head in scope.aliases:
            those = [self.sources.target((*scope.aliases[head][:2], name)) for name in (word, "")]
            return next((self.href(one, word) for one in those if one is not None), None)
        owner = scope.names.get(head)
        if isinstance(owner, int):
            inner = self.sources.target((*self.sources.defs.all[owner][:2], word))
            return self.href(inner, word) if isinstance(inner, int) else self.field(word, scope)
        return self.field(word, scope) if owner is None or isinstance(owner, Std) else self.href(owner)

    def field(self, word, scope):
        """Where a field leads to: its record, the only one, or the only one that is near; else the page of fields."""
        those = list(dict.fromkeys(self.sources.fields.get(word, [])))
        near = [one for one in those if one in scope.nearby]
        if len(those) == 1 or len(near) == 1:
            return self.href((near or those)[0])
        if not those and scope.bound is None:
            return None
        self.far_fields.add(word)
        return f"fields.html#{anchor(word)}"

    def alias(self, there):
        """What an alias of a module leads to: the type whose variants it has, or the module's first definition."""
        target = self.sources.target((*there[:2], ""))
        return self.href(min(k for k in self.page_of if self.sources.defs.all[k][:2] == there[:2]) if target is None else target)


def said(text, look=lambda name: None):
    """A sentence of a page or of a comment, whose code may be linked by `look`."""
    def shown(match):
        code, strong = match.groups()
        if strong:
            return f"<strong>{strong}</strong>"
        href = look(html.unescape(code).replace(r"\|", "|"))
        code = code.replace(r"\|", "|")
        return f'<code><a href="{href}">{code}</a></code>' if href else f"<code>{code}</code>"
    return re.sub(r"`([^`]*)`|\*\*([^*]+)\*\*", shown, esc(text))


def paragraphs(texts, look):
    """The paragraphs and items of a page."""
    items = (f"<ul><li>{said(one[2:], look)}</li></ul>" if one.startswith("- ") else f"<p>{said(one, look)}</p>" for one in texts)
    return "".join(items).replace("</ul><ul>", "")


def sections_of(text):
    """The sections of a page by their headings; of each its blocks: a paragraph as a text, a table as rows of cells."""
    found = {}
    for block in re.split(r"\n\s*\n", text):
        lines = [line for line in block.split("\n") if line.strip()]
        while lines and lines[0].startswith("#"):
            blocks = found.setdefault(lines.pop(0).lstrip("# "), [])
        if lines and lines[0].startswith("|"):
            rows = [[cell.strip() for cell in re.split(r"(?<!\\)\|", line.strip())[1:-1]] for line in lines]
            blocks.append([rows[0], *rows[2:]])
        elif lines:
            blocks += [item.replace("\n", " ") for item in re.split(r"\n(?=- )", "\n".join(lines))]
    return found
