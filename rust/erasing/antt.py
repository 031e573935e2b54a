"""The notation of contracts and of `specs/`: tokens, imports, and the words that a text does not bind itself."""
import re
from collections import namedtuple

TOKEN = re.compile(r'"(?:\\.|[^"\\])*"|--[^\n]*|\[\]|[(){}\[\];,.]|[^\s(){}\[\];,."]+')
IMPORT = re.compile(r"(pub )?use Rattle\.([\w.]+?)(?:\.\{(.*)\})?(?: as (\w+))?$")
MEMBER = re.compile(r"^ +(?:pub )?([^\s(){}]+) : ", re.M)
NUMBER = re.compile(r"[0-9]")
MARKS = set("( ) { } [ ] ; , . : = | ↦".split())
OPENING, CLOSING = set("({["), set(")}]")

# A token, where it begins, and whether it directly follows the one before it.
Token = namedtuple("Token", "text at is_joined")
# The path of a module, the names that are imported from it, each with the one that it gets here, or None for the module
# itself; the name that this gets; and whether others may import it from here.
Import = namedtuple("Import", "path names alias is_public")


def imports(text):
    """What the text of a `use` imports, or None if it is none of what others define."""
    m = IMPORT.match(" ".join(text.split()))
    if not m:
        return None
    named = [name.split(" as ") for name in m[3].split(", ")] if m[3] else None
    names = [(name[0], name[-1]) for name in named] if named else None
    return Import(m[2], names, m[4] or m[2].rpartition(".")[2], bool(m[1]))


def lex(text):
    """The tokens of a text, without its comments and strings."""
    tokens, end = [], None
    for m in TOKEN.finditer(text):
        if not m[0].startswith(("--", '"')):
            tokens.append(Token(m[0], m.start(), end == m.start()))
        end = m.end()
    return tokens


def is_word(token):
    return token.text not in MARKS and token.text != "_" and not NUMBER.match(token.text)


def is_field(tokens, i):
    """Whether the token at `i` follows a dot that follows something, without spaces."""
    return 1 < i < len(tokens) and tokens[i - 1].text == "." and tokens[i].is_joined and tokens[i - 1].is_joined


def head_end(tokens):
    """The place of the `=` of an equation, or 0 if the tokens are none."""
    depth = 0
    for i, token in enumerate(tokens):
        depth += (token.text in OPENING) - (token.text in CLOSING)
        if token.text in (":", "where") and not depth:
            return 0
        if token.text == "=" and not depth:
            return i
    return 0


def in_patterns(tokens):
    """The places of words in patterns: those of the head of an equation, and those between `[` or `|` and `↦`."""
    found, start = set(range(1, head_end(tokens))), None
    for i, token in enumerate(tokens):
        if token.text in ("[", "|"):
            start = i + 1
        if token.text == "↦":
            found |= set(range(start, i))
    return found


def run_before(tokens, i):
    """The places of the words directly before the token at `i`."""
    j = i
    while j and is_word(tokens[j - 1]):
        j -= 1
    return range(j, i)


def bound(tokens):
    """The places of the words that a text binds by `λ`, `let`, or before a colon in brackets, and of its names of
    fields, before `=`."""
    found = set()
    for i, token in enumerate(tokens):
        before = run_before(tokens, i)
        binding = [k for k in before if tokens[k].text in ("λ", "let")]
        if binding and token.text in (":", ".", "="):
            found |= set(range(binding[-1] + 1, i))
        elif before and token.text == ":" and tokens[before[0] - 1].text in ("(", "{"):
            found |= set(before)
        elif token.text == "=" and tokens[i - 2].text in ("{", ";"):
            found.add(i - 1)
    return found


def members(text):
    """The fields of a record, or the constructors of a kind of data, by its declaration."""
    return MEMBER.findall(text.partition(" where\n")[2])


def free(text, is_constructor, own=()):
    """The words of a text that it does not bind, each with the name after its dot or None, and its place. `own` are
    the names that are bound around it, and `is_constructor` says of a word, with the name after its dot, whether it is
    one in a pattern."""
    tokens = lex(text)
    words = [i for i, token in enumerate(tokens) if is_word(token) and not is_field(tokens, i)]
    after = {i: tokens[i + 2].text if is_field(tokens, i + 2) else None for i in words}
    patterns = {i for i in in_patterns(tokens) if i in after and not is_constructor(tokens[i].text, after[i])}
    binding = bound(tokens) | patterns
    names = {tokens[i].text for i in binding} | {*members(text), *own}
    for i in words:
        if i not in binding and tokens[i].text not in names:
            yield tokens[i].text, after[i], tokens[i].at
