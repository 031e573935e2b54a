"""What the words of contracts lead to: the pages of their definitions."""
import re

from . import antt
from .definitions import Meaning, Scope, called, check
from .rules import enclosing, is_public
from .tokens import closing, head_end, item_start, lex, places

# What a contract may name without an import: what the function returns, and what it is called on.
GIVEN = {"result", "self"}
VALUE = re.compile(r"ghost Value = \{ (.*) \};", re.S)
MEMBER = re.compile(r"ghost (\w+): ")


def around(tokens, i):
    """The places of the braces around the token at `i`, and -1 for the file."""
    found = [enclosing(tokens, i)]
    while found[-1] >= 0:
        found.append(enclosing(tokens, found[-1]))
    return found


def scopes(tokens, book):
    """For each public function with clauses its place, its clauses, and what words mean there."""
    ghosts = [(enclosing(tokens, i), token) for i, token in enumerate(tokens) if token.kind == "ghost"]
    for i, token in enumerate(tokens):
        if token.text != "fn" or token.kind != "word":
            continue
        clauses = [it for it in tokens[i:head_end(tokens, i)] if it.kind == "clause"]
        if clauses and is_public(tokens, item_start(tokens, i), i):
            braces = around(tokens, i)
            scope = scope_of([it for brace, it in reversed(ghosts) if brace in braces], book)
            scope.words = {**constants(tokens), **scope.words}
            yield i, clauses, scope


def scope_of(ghosts, book):
    """What words mean among ghost items: what they import, and what they declare as members of a trait."""
    imported = (antt.imports(it.text.removeprefix("ghost ").rstrip(";")) for it in ghosts)
    scope = Scope(book, [it for it in imported if it])
    for it in ghosts:
        if m := MEMBER.match(it.text):
            scope.words[m[1]] = Meaning("member", said(it), None)
    return scope


def constants(tokens):
    """The constants of a file that are not public, each with its value."""
    found = {}
    for i, token in enumerate(tokens[:-5]):
        if token.text == "const" and tokens[i - 1].text != "pub" and tokens[i + 4].text == "=":
            found[tokens[i + 1].text] = Meaning("member", tokens[i + 5].text, None)
    return found


def models(tokens, book):
    """The types that mean another value in contracts, each with that value, which is linked."""
    for i, _ in places(tokens, "impl"):
        end = head_end(tokens, i)
        head = [it.text for it in tokens[i:end]]
        if "Model" in head and tokens[end].text == "{":
            inner = tokens[end + 1:closing(tokens, end)]
            scope = scope_of([it for it in inner if it.kind == "ghost"], book)
            value = next(m[1] for it in inner if (m := VALUE.match(it.text)))
            yield head[head.index("for") + 1], linked(value, scope)


def linked(value, scope):
    """The text of a type, with links to its words."""
    meanings = {word: scope.meaning(word, after)[0] for word, after, _ in antt.free(value, scope.is_constructor)}
    defined = {word: meaning.definition for word, meaning in meanings.items() if meaning and meaning.definition}
    words = [scope.book.link(it, defined[it]) if it in defined else f"`{it}`" for it in value.split()]
    return " ".join(words).replace("` `", " ")


def said(token):
    """What the comment above a ghost item says, as a part of a sentence."""
    text = " ".join(re.findall(r"^ *// (.*)", token.before.rpartition("\n\n")[2], re.M))
    return f"{text[:1].lower()}{text[1:]}".rstrip(".")


def types(texts, book):
    """What types of the sources mean in contracts: pairs of those that mean the same, and of that."""
    found = {}
    for text in texts:
        for name, value in models(lex(text), book):
            found.setdefault(value, []).append(f"`{name}`")
    return [(", ".join(sorted(names)), value) for value, names in found.items()]


def parameters(tokens):
    """The names before a colon in the head of a function."""
    return {it.text for it, after in zip(tokens, tokens[1:]) if after.text == ":"}


def link(tokens, book, names):
    """Notes at each clause of a public function what its words lead to. `names` are those of the code: a clause may
    name its types and constants."""
    types = {name for name in names if name[:1].isupper()}
    for i, clauses, scope in scopes(tokens, book):
        own = GIVEN | parameters(tokens[i:head_end(tokens, i)])
        for clause in clauses:
            clause.links = {written: text for it in links(clause, scope, own, types) for written, text in it.items()}


def links(clause, scope, own, types):
    """The words of a clause that are neither its `own` nor types of the code by their names there, as they are written,
    each with a link to its definition, or with what is said of it."""
    before, brace, body = clause.text.partition("{")
    for word, after, at in antt.free(body, scope.is_constructor, own):
        meaning, written = scope.meaning(word, after)
        if meaning is None and word in types:
            continue
        check(meaning, written, clause.line + (before + brace + body[:at]).count("\n"))
        if meaning.definition:
            yield {written: scope.book.link(written, meaning.definition)}
        elif meaning.kind == "member":
            yield {written: f"`{written}` ({meaning.name})"}
        elif meaning.kind == "code":
            yield called(written, meaning)
