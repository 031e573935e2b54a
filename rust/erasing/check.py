"""What is left over when the rules are done has to be known, token by token."""
import re

from . import known
from .tokens import CLOSING, Refused, closing, opening

DECLARING = set("fn struct enum trait type const static mod macro_rules".split())


def declared(tokens):
    """The names that a source declares: items, generic types, variants of enumerations, and closures with a name."""
    names = set()
    for i, token in enumerate(tokens[:-1]):
        if token.kind != "word":
            continue
        if token.text in DECLARING:
            names.add(tokens[i + 1 + (tokens[i + 1].text == "!")].text)
        if token.text == "let" and [t.text for t in tokens[i + 2:i + 4]] == ["=", "|"]:
            names.add(tokens[i + 1].text)
        if token.text in ("fn", "struct", "enum", "impl", "trait", "type"):
            names |= generics(tokens, i + 1 + (token.text != "impl"))
        if token.text == "enum":
            names |= variants(tokens, i)
    return names


def generics(tokens, i):
    """The types and constants between the angle brackets at `i`, if they open there."""
    names, depth = set(), 0
    while i < len(tokens) and (depth or tokens[i].text == "<"):
        depth += (tokens[i].text == "<") - (tokens[i].text == ">")
        if depth == 1 and tokens[i].kind == "word" and tokens[i - 1].text in ("<", ",", "const"):
            names.add(tokens[i].text)
        i += 1
    return names


def variants(tokens, i):
    """The variants of the enumeration whose keyword is at `i`."""
    names = set()
    while tokens[i].text != "{":
        i += 1
    j, end = i + 1, closing(tokens, i)
    while j < end:
        if tokens[j].text == "#":
            j = closing(tokens, j + 1) + 1
            continue
        names.add(tokens[j].text)
        while j < end and tokens[j].text != ",":
            j = closing(tokens, j) + 1 if tokens[j].text in ("(", "{", "[") else j + 1
        j += 1
    return names


class Names:
    """What may be used in the library, the calls for C, an example or a test: the names of the sources, and what is
    known."""

    def __init__(self, own, where):
        tests, calls = (where == it for it in ("test", "calls"))
        programs = where in ("program", "example program", "test program")
        macros = where in ("test", "test program")
        self.words = {"rt", "macro_rules"} if tests else {"macro_rules"} if macros else {"extern"} if calls else set()
        self.texts = (known.PROGRAM_TEXTS,) if programs else ()
        self.attributes = known.ATTRIBUTES + (known.CALL_ATTRIBUTES if calls else [])
        self.marks = known.MARKS | ({"$"} if macros else set())
        besides = {"test": ["TEST"], "calls": ["CALL"], "program": ["PROGRAM"], "example program": ["PROGRAM", "EXAMPLE"], "test program": ["PROGRAM", "EXAMPLE"]}.get(where, [])
        names, paths, methods = ({one for it in besides for one in getattr(known, f"{it}_{what}")} for what in ("NAMES", "PATHS", "METHODS"))
        self.own = own | known.NAMES | names
        self.paths = known.PATHS | paths
        self.heads = {path.split("::")[0] for path in self.paths} | known.TYPES
        self.methods = known.METHODS | own | methods
        self.macros = {**known.MACROS, **(known.EXAMPLE_MACROS if tests or where == "example" else {})}
        self.macros |= known.CALL_MACROS if calls else known.PROGRAM_MACROS if programs else {}
        self.macros |= dict.fromkeys(own, "") if macros else {}
        self.macros |= known.TEST_MACROS if tests else known.EXAMPLE_PROGRAM_MACROS if where == "example program" else {}

    def check_path(self, segments, line):
        path = "::".join(segments)
        if segments[0] in self.heads:
            if path not in self.paths:
                raise Refused(line, f"an unknown path {path}")
        elif not segments[0] in self.own | known.HEADS:
            raise Refused(line, f"an unknown path {path}")
        elif unknown := [s for s in segments[1:] if s not in self.own | known.GIVEN | {"self", "super"}]:
            raise Refused(line, f"an unknown path {path}: {unknown[0]} is declared nowhere")


def path_at(tokens, i):
    """The paths that begin at the word `i`, each with its segments, and the place after them."""
    segments = [tokens[i].text]
    i += 1
    while tokens[i].text == "::":
        if tokens[i + 1].text == "<":
            i = after_angles(tokens, i + 1)
        elif tokens[i + 1].text == "{":
            return [segments + rest for rest in tree_at(tokens, i + 1)], closing(tokens, i + 1) + 1
        elif tokens[i + 1].kind == "word":
            segments.append(tokens[i + 1].text)
            i += 2
        else:
            raise Refused(tokens[i].line, f"a path with {tokens[i + 1].text}")
    return [segments], i


def tree_at(tokens, i):
    """What the braces of a `use` name, each as its segments."""
    end = closing(tokens, i)
    i += 1
    while i < end:
        if tokens[i].kind != "word":
            raise Refused(tokens[i].line, f"an import of {tokens[i].text}")
        found, after = path_at(tokens, i)
        yield from ([] if one == ["self"] else one for one in found)
        i = after + 1 + 2 * (tokens[after].text == "as")


def after_angles(tokens, i):
    depth = 0
    while True:
        depth += (tokens[i].text == "<") - (tokens[i].text == ">")
        i += 1
        if not depth:
            return i


def check_word(tokens, i, names):
    """Refuses a word that is neither known nor declared, at its place."""
    token, before, after = tokens[i], tokens[i - 1].text if i else "", tokens[i + 1].text
    word = token.text
    if word in known.REFUSED - names.words and not (word in known.WEAK and before in ("fn", ".")):
        raise Refused(token.line, f"the word {word}")
    if word == "fn" and tokens[i + 1].kind != "word":
        raise Refused(token.line, "the type of a function")
    if word == "let" and before in ("if", "while", "&"):
        check_let(tokens, i)
    if after == "::" and before not in ("::", ".", "$") and word not in known.KEYWORDS - known.HEADS:
        for segments in path_at(tokens, i)[0]:
            names.check_path(segments, token.line)
    elif word in known.KEYWORDS or before in ("::", "fn", "$") or before == "." and after not in ("(", "::"):
        pass
    elif after == "!" and tokens[i + 2].text in ("(", "[", "{"):
        start = names.macros.get(word)
        call = "".join(t.text for t in tokens[i + 2:i + 6])
        if start is None or not call.startswith(start):
            raise Refused(token.line, f"the macro {word}! as {word}!{call}")
    elif before == ".":
        if word not in names.methods:
            raise Refused(token.line, f"an unknown method {word}")
    elif (word[0].isupper() or after == "(") and word not in names.own:
        raise Refused(token.line, f"an unknown name {word}")


def check_let(tokens, i):
    """Refuses an `if let` or `while let` with a further condition, which needs Rust 1.88."""
    j = i - (tokens[i - 1].text == "&")
    while tokens[j].text not in ("{", ";"):
        follows_value = tokens[j - 1].kind != "mark" or tokens[j - 1].text in (")", "]", "&")
        if tokens[j].text == "&" and follows_value and "&" in (tokens[j - 1].text, tokens[j + 1].text):
            raise Refused(tokens[i].line, "a let with a further condition")
        j = closing(tokens, j) + 1 if tokens[j].text in ("(", "[") else j + 1


def check_range(tokens, i):
    """Refuses a range without an end, but as an index: in Rattle it ends below the top of its type."""
    before, after = tokens[i - 1], tokens[i + 1]
    from_value = before.kind in ("word", "number", "char") or before.text in (")", "]")
    if from_value and (after.text in CLOSING or after.text in (",", ";", "{", "=>", ".")):
        j = i - 1
        while j >= 0 and tokens[j].text not in ("(", "[", "{"):
            j = opening(tokens, j) - 1 if tokens[j].text in (")", "]", "}") else j - 1
        if tokens[j].text != "[" and tokens[j - 1].text != "get":
            raise Refused(tokens[i].line, "a range without an end")
    if before.text == "," and after.text not in CLOSING:
        j = i + 1
        while tokens[j].text not in CLOSING:
            if tokens[j].text == "[":
                raise Refused(tokens[i].line, "the other fields of a value at an index")
            j += 1


def check_number(tokens, i):
    """Refuses what is no whole number, of a type that is known. The field of a tuple is one, too."""
    has_point = tokens[i + 1].text == "." and tokens[i + 2].kind != "word" and tokens[i - 1].text != "."
    if not re.fullmatch(known.NUMBER, tokens[i].text) or has_point:
        raise Refused(tokens[i].line, f"the number {tokens[i].text}")


def follows_path(tokens, i):
    """Whether the `::` at `i` follows a name, or the types that a path passes."""
    j, depth = i - 1, 0
    while j > 0 and (depth or tokens[j].text == ">"):
        depth += (tokens[j].text == ">") - (tokens[j].text == "<")
        j -= 1
        if not depth:
            return tokens[j].text == "::"
    return tokens[i - 1].kind == "word" and tokens[i - 1].text not in known.KEYWORDS - known.HEADS


def check_attribute(tokens, i, names):
    """Refuses an attribute that is not known, and returns the place after it."""
    end = closing(tokens, i + 1) if tokens[i + 1].text == "[" else i + 1
    text = "".join(t.text for t in tokens[i:end + 1])
    if not text.startswith("#[derive(") and text not in names.attributes and not text.startswith(names.texts):
        raise Refused(tokens[i].line, f"the attribute {text}")
    return end + 1


def check_mark(tokens, i, names):
    token = tokens[i]
    if token.text not in names.marks:
        raise Refused(token.line, f"the mark {token.text}")
    if token.text in ("..", "..="):
        check_range(tokens, i)
    after = tokens[i + 1].text
    if token.text == "*" and after in ("const", "mut") or token.text == "&" and after == "raw" and tokens[i + 2].text in ("const", "mut"):
        raise Refused(token.line, "a pointer")
    if token.text == "::" and not follows_path(tokens, i):
        raise Refused(token.line, "a path that does not begin with a name")


def check(tokens, names):
    """Refuses what is not known."""
    i = 0
    while i < len(tokens) - 1:
        token = tokens[i]
        if token.kind in ("ghost", "clause"):
            raise Refused(token.line, f"a {token.kind} that no rule deletes: {token.text[:60]}")
        if token.text == "pub" and tokens[i + 1].text == "(" and tokens[i + 2].text != "crate":
            raise Refused(token.line, "a visibility other than pub and pub(crate)")
        if token.kind in ("string", "char") and tokens[i - 1].kind == "word" and not token.before:
            raise Refused(token.line, f"a literal that begins with {tokens[i - 1].text}")
        if token.text == "#":
            i = check_attribute(tokens, i, names)
            continue
        if token.kind == "mark":
            check_mark(tokens, i, names)
        elif token.kind == "number":
            check_number(tokens, i)
        elif token.kind == "word":
            check_word(tokens, i, names)
        i += 1
