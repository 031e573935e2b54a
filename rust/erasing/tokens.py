"""The tokens of a source. Each keeps the spaces and comments before it, so what is not changed keeps its layout."""
import re

LEX = re.compile(
    r"""(?P<string>b?"(?:\\.|[^"\\])*") | (?P<char>b?'(?:\\(?:x..|u\{[^}]*\}|.)|[^\\'\n])') | (?P<life>'[A-Za-z_]\w*)
      | (?P<word>[A-Za-z_]\w*) | (?P<number>[0-9]\w*) | (?P<mark>::|->|=>|\.\.=|\.\.|[!-/:-@\[\]^{-~])""",
    re.X | re.S | re.A,
)
SPACE = re.compile(r"(?:[ \n]|//[^\n]*)*")
GHOST = re.compile(r'"(?:\\.|[^"\\])*"|--|//|\{-|.', re.S)  # in ghost text only strings and brackets are read
CLAUSE = re.compile(r"(?:requires|ensures\*?)\s*(?:\w+\s*)?\{", re.A)
SWALLOWED = re.compile(r"\n\s*(?:pub|fn|impl|struct|enum|trait|mod|use|ghost|requires|ensures|let|return)\b")
OPENING, CLOSING = "([{", ")]}"


class Refused(Exception):
    """What the script does not know, and its line."""

    def __init__(self, line, what):
        super().__init__(what)
        self.line, self.what = line, what


class Token:
    __slots__ = ("kind", "text", "line", "before", "links")

    def __init__(self, kind, text, line, before):
        self.kind, self.text, self.line, self.before = kind, text, line, before
        self.links = None  # of a clause whose words are linked: each with its link


def ghost_end(text, at, ends, line):
    """The place after the first of the marks `ends` outside brackets, or of the bracket that closes what is around."""
    depth = 0
    for m in GHOST.finditer(text, at):
        if m[0] in ("--", "//", "{-", '"', "'"):
            raise Refused(line + text.count("\n", at, m.start()), f"ghost text with {m[0]}")
        if m[0] in ("{", "("):
            depth += 1
        elif m[0] in ("}", ")"):
            if depth == 0:
                return at + len(text[at:m.start()].rstrip())
            depth -= 1
        if depth == 0 and m[0] in ends:
            return m.end()
    raise Refused(line, "ghost text without an end")


def lex(text, line=1):
    """The tokens of a source, and one more for its end. A ghost item or a clause is one token."""
    tokens, at = [], 0
    if "\r" in text:
        raise Refused(line + text[:text.index("\r")].count("\n"), "a carriage return")
    while True:
        space = SPACE.match(text, at)
        line += space[0].count("\n")
        at = space.end()
        if at == len(text):
            return [*tokens, Token("end", "", line, space[0])]
        m = LEX.match(text, at)
        if not m or text.startswith("/*", at):
            raise Refused(line, f"an unknown token: {text[at:at + 20]!r}")
        kind, end = m.lastgroup, m.end()
        if m[0] == "ghost":
            kind, end = "ghost", ghost_end(text, at, ";,", line)
        elif CLAUSE.match(text, at):
            kind, end = "clause", ghost_end(text, at, "}", line)
        if kind in ("ghost", "clause") and SWALLOWED.search(text, at, end):
            raise Refused(line, "ghost text that seems to have no end")
        tokens.append(Token(kind, text[at:end], line, space[0]))
        line += text.count("\n", at, end)
        at = end


def joined(tokens):
    return "".join(t.before + t.text for t in tokens)


def closing(tokens, i):
    """The place of the bracket that closes the one at `i`."""
    depth = 0
    for j in range(i, len(tokens)):
        if tokens[j].kind == "mark":
            depth += (tokens[j].text in OPENING) - (tokens[j].text in CLOSING)
        if depth == 0:
            return j
    raise Refused(tokens[i].line, f"no bracket closes {tokens[i].text}")


def opening(tokens, i):
    """The place of the bracket that opens what the one at `i` closes; -1 if there is none."""
    depth = 0
    for j in range(i, -1, -1):
        if tokens[j].kind == "mark":
            depth += (tokens[j].text in CLOSING) - (tokens[j].text in OPENING)
        if depth == 0:
            return j
    return -1


def places(tokens, pattern):
    """Each pair of places (from, after) where the tokens of `pattern` stand, from the last to the first."""
    first, *others = [t.text for t in lex(pattern)[:-1]]
    for i in range(len(tokens) - 1, -1, -1):
        if i >= len(tokens) or tokens[i].text != first:  # what follows a place may have been deleted meanwhile
            continue
        end = i + 1 + len(others)
        if [t.text for t in tokens[i + 1:end]] == others:
            yield i, end


def head_end(tokens, i):
    """The place of the `{` or `;` that ends the head of the item at `i`."""
    while tokens[i].text not in ("{", ";"):
        i = closing(tokens, i) + 1 if tokens[i].text in ("(", "[") else i + 1
        if i >= len(tokens):
            raise Refused(tokens[-1].line, "an item without an end")
    return i


def item_start(tokens, i):
    """Where the item whose keyword is at `i` begins, with its visibility and attributes."""
    while i > 0:
        before = tokens[i - 1]
        if before.text in ("pub", "const"):
            i -= 1
        elif before.kind == "string" and tokens[i - 2].text == "extern":
            i -= 2
        elif before.text == ")" and tokens[opening(tokens, i - 1) - 1].text == "pub":
            i = opening(tokens, i - 1) - 1
        elif before.text == "]" and tokens[opening(tokens, i - 1) - 1].text == "#":
            i = opening(tokens, i - 1) - 1
        else:
            break
    return i


def indent(token):
    """The spaces before a token that begins a line."""
    return token.before.rpartition("\n")[2]


def tidy(tokens, i):
    """Leaves no empty line at the begin and end of braces, none at the end, and no two anywhere, before the token at `i`."""
    token = tokens[i]
    token.before = re.sub(r"\n(?: *\n){2,}", "\n\n", token.before)
    if i and tokens[i - 1].text == "{":
        token.before = re.sub(r"^(?: *\n)+", "\n", token.before)
        if token.text == "}" and "//" not in token.before:
            token.before = ""
    elif token.text == "}":
        token.before = re.sub(r"\n(?: *\n)+( *)$", r"\n\1", token.before)
    elif token.kind == "end":
        token.before = re.sub(r"\n\n$", "\n", token.before)


def cut(tokens, start, end):
    """Deletes tokens with the documentation and comments directly above them."""
    lines = tokens[start].before.split("\n")[:-1]
    while lines and re.match(r" *//(?!!)", lines[-1]):
        lines.pop()
    after = tokens[end].before
    tokens[end].before = "\n".join(lines) + after if lines or start else after.lstrip("\n")
    del tokens[start:end]
    tidy(tokens, start)


def drop(tokens, start, end):
    """Deletes tokens; what follows them takes their place."""
    tokens[end].before = tokens[start].before
    del tokens[start:end]


def respell(tokens, start, end, text):
    """Puts the tokens of `text` in the place of others."""
    new = lex(text, tokens[start].line)[:-1]
    for token in new:
        token.line = tokens[start].line
    if new:
        new[0].before = tokens[start].before
    tokens[start:end] = new
