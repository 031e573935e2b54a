"""What could hide a name or a method that Rust has, so that known words meant something else, is refused."""
from . import known
from .check import declared, generics
from .tokens import Refused, closing, head_end, lex, places

# What declares something whose name could be read as that of a type, a trait, a variant or a module.
ITEMS = set("struct enum trait type mod const static".split())


class Sources:
    """What sources declare: names, structs and enumerations, other names of types, which of them implement traits, and traits with
    the names of what is in them. `crates` are the names of the crates."""

    def __init__(self, texts=(), crates=()):
        self.names, self.crates = set(crates), set(crates)
        self.types, self.aliases, self.implementing, self.traits = set(), set(), {}, {}
        for text in texts:
            try:
                self.add(lex(text))
            except Refused:
                pass  # then it is refused where it is made

    def __or__(self, other):
        both = Sources()
        both.names, both.crates = self.names | other.names, self.crates | other.crates
        both.types, both.aliases = self.types | other.types, self.aliases | other.aliases
        both.implementing, both.traits = united(self.implementing, other.implementing), united(self.traits, other.traits)
        return both

    def add(self, tokens):
        self.names |= declared(tokens)
        self.types |= named(tokens, "struct", "enum")
        self.aliases |= named(tokens, "type") - known.ASSOCIATED
        for _, trait, kind, brace in blocks(tokens):
            if kind is None and tokens[brace].text == "{":
                self.traits.setdefault(trait, set()).update(name for name, _ in members(tokens, brace))
            if kind is not None and trait is not None:
                self.implementing.setdefault(trait, set()).add(subject(kind))


def named(tokens, *words):
    """The names that follow any of these words."""
    return {tokens[i + 1].text for i, token in enumerate(tokens[:-1]) if token.kind == "word" and token.text in words}


def united(ours, theirs):
    """Two tables of names as one."""
    return {it: ours.get(it, set()) | theirs.get(it, set()) for it in {*ours, *theirs}}


def imports(tokens):
    """What each `use` imports, as its path, the name that it is given, or None, and its line."""
    for i, token in enumerate(tokens):
        if token.text == "use" and token.kind == "word":
            yield from import_tree(tokens, i + 1, [])[0]


def import_tree(tokens, i, above):
    """What the part of a `use` at `i` imports, below the path `above`, and the place after that part."""
    path = [*above]
    while tokens[i + 1].text == "::":
        path.append(tokens[i].text)
        i += 2
    if tokens[i].text == "{":
        return import_trees(tokens, i, path)
    if tokens[i].text != "self" or not path:
        path.append(tokens[i].text)
    is_renamed = tokens[i + 1].text == "as"
    return [(path, tokens[i + 2].text if is_renamed else None, tokens[i].line)], i + 1 + 2 * is_renamed


def import_trees(tokens, i, above):
    """The same of the parts between the braces at `i`."""
    found, end = [], closing(tokens, i)
    i += 1
    while i < end:
        more, i = import_tree(tokens, i, above)
        found += more
        i += tokens[i].text == ","
    return found, end + 1


def check_aliases(tokens):
    """Refuses another name for a type such as `u8`: of a path that begins with it, only the other segments are known."""
    for i, token in enumerate(tokens[:-3]):
        if token.text == "type" and token.kind == "word" and tokens[i + 2].text == "=" and tokens[i + 3].text in known.TYPES:
            if tokens[i + 1].text not in known.ASSOCIATED:
                raise Refused(token.line, f"another name for {tokens[i + 3].text}")


def check_imports(tokens, sources, names):
    """Refuses an import that gives a name of Rust, or of a crate, to something else, or another name to what Rust has."""
    for path, renamed, line in imports(tokens):
        name = renamed or path[-1]
        if len(path) == 1 and (renamed or name not in sources.names - sources.crates):
            raise Refused(line, f"an import of {path[0]}, of which no path follows")
        if name in known.PRELUDE | known.CRATES | sources.crates and "::".join(path) not in names.paths:
            raise Refused(line, f"an import as {name}, a name that is taken")
        if renamed and path[0] in names.heads:
            raise Refused(line, f"another name for {'::'.join(path)}")


def check_declared(tokens, sources):
    """Refuses an item or a parameter for types that is named as a crate, or as what Rust's prelude has."""
    for name, line in items(tokens):
        if name in known.PRELUDE | known.CRATES | known.MODULES | sources.crates:
            raise Refused(line, f"a declaration of {name}, a name that is taken")


def items(tokens):
    """The names of items and of parameters for types, each with its line. An associated type hides none."""
    for i, token in enumerate(tokens[:-1]):
        if token.kind != "word":
            continue
        name = tokens[i + 1].text
        is_item = token.text in ITEMS and (token.text != "type" or name not in known.ASSOCIATED)
        if is_item or token.text == "fn" and name not in known.MODULES:
            yield name, token.line
        if token.text in ("fn", "struct", "enum", "impl", "trait", "type"):
            yield from ((it, token.line) for it in generics(tokens, i + 1 + (token.text != "impl")))


def blocks(tokens):
    """Each `impl` and `trait` that is an item: its place, the trait or None, the type, and the place of its brace."""
    for i, token in enumerate(tokens):
        if token.kind != "word" or token.text not in ("impl", "trait"):
            continue
        if token.text == "impl" and i and tokens[i - 1].text not in ("}", ";", "{", "]") and tokens[i - 1].kind != "ghost":
            continue  # the type of a parameter
        brace = head_end(tokens, i)
        if token.text == "trait":
            yield i, tokens[i + 1].text, None, brace
            continue
        start = after_generics(tokens, i + 1)
        at = next((k for k in range(start, brace) if tokens[k].text == "for" and tokens[k + 1].text != "<"), None)
        yield i, None if at is None else last_name(tokens, start, at), tokens[start if at is None else at + 1:brace], brace


def after_generics(tokens, i):
    """The place after the angle brackets that open at `i`, if they do."""
    depth = 0
    while depth or tokens[i].text == "<":
        depth += (tokens[i].text == "<") - (tokens[i].text == ">")
        i += 1
    return i


def last_name(tokens, i, end):
    """The last segment of the path at `i`, which ends before `end`."""
    while i + 2 < end and tokens[i + 1].text == "::":
        i += 2
    return tokens[i].text


def subject(kind):
    """The name of a type, as its tokens; of a reference that of the type behind it."""
    i = next((i for i, token in enumerate(kind) if token.kind == "word" and token.text != "mut"), 0)
    return last_name(kind, i, len(kind))


def members(tokens, brace):
    """The functions and constants in the braces at `brace`, each with its line."""
    i, end = brace + 1, closing(tokens, brace)
    while i < end:
        if tokens[i].text in ("{", "(", "["):
            i = closing(tokens, i)
        elif tokens[i].text in ("fn", "const") and tokens[i + 1].text != "fn":
            yield tokens[i + 1].text, tokens[i].line
            i = after_generics(tokens, i + 2) - 1
        i += 1


def is_own(kind, parameters, sources, names):
    """Whether a type, as its tokens, is a struct or an enumeration of the sources."""
    if kind[0].kind != "word" or kind[0].text in names.heads or len(kind) > 1 and kind[1].text not in ("::", "<"):
        return False
    return subject(kind) in sources.types - parameters


def check_methods(tokens, sources, names):
    """Refuses methods that Rust may find in the place of others, or that it may not find since it has others."""
    aliases = sources.aliases - named(tokens, "struct", "enum")
    for i, trait, kind, brace in blocks(tokens):
        if tokens[brace].text != "{":
            continue
        found = list(members(tokens, brace))
        if kind and subject(kind) in aliases:
            raise Refused(tokens[i].line, "an impl for another name of a type")
        if kind is None or trait is None:
            refuse(found, rust_methods(kind, sources), "a method {}, which a trait of Rust has")
        elif trait in known.IMPLS:
            refuse(found, {name for name, _ in found} - known.IMPLS[trait], f"{{}} in an impl of {trait}")
            check_hints(tokens, brace)
        elif trait not in sources.traits:
            raise Refused(tokens[i].line, f"an impl of {trait}")
        elif not is_own(kind, generics(tokens, i + 1), sources, names):
            check_foreign(tokens[i].line, trait, found, sources)


def check_hints(tokens, brace):
    """Refuses a `size_hint` whose value is no pair that begins with 0: Rust takes memory for the first number."""
    for i, end in places(tokens[:closing(tokens, brace)], "fn size_hint(&self) -> (usize, Option<usize>) {"):
        last = closing(tokens, end - 1)
        at = value_at(tokens, end, last)
        is_pair = [t.text for t in tokens[at:at + 3]] == ["(", "0", ","] and closing(tokens, at) + 1 == last
        if i > brace and (not is_pair or any(t.text == "return" for t in tokens[end:last])):
            raise Refused(tokens[i].line, "a size_hint that may promise items")


def value_at(tokens, begin, end):
    """Where the value of a block begins: after its last statement."""
    at = k = begin
    while k < end:
        if tokens[k].text == ";":
            at = k + 1
        k = closing(tokens, k) + 1 if tokens[k].text in ("(", "[", "{") else k + 1
    return at


def rust_methods(kind, sources):
    """The methods that traits of Rust give to a type of the sources, or to some type if it is None."""
    found = set(known.PRELUDE_METHODS)
    for trait, methods in known.TRAIT_METHODS.items():
        if kind is None or subject(kind) in sources.implementing.get(trait, ()):
            found |= methods
    return found


def refuse(found, names, text):
    for name, line in found:
        if name in names:
            raise Refused(line, text.format(name))


def check_foreign(line, trait, found, sources):
    """Refuses a trait for a type of Rust or for a parameter, if such a type could have a method of the same name."""
    for name in sorted(sources.traits[trait] | {name for name, _ in found}):
        if name not in known.FOREIGN or sum(name in others for others in sources.traits.values()) > 1:
            raise Refused(line, f"{name} of {trait} for a type that is not of the sources")


def check_facade(tokens):
    """The facade becomes the root of the crate, whose private items all modules see. So it only hands on names."""
    i = 0
    while tokens[i].kind != "end":
        if [t.text for t in tokens[i:i + 2]] != ["pub", "use"]:
            raise Refused(tokens[i].line, "an item of the facade other than pub use")
        i = next(k for k in range(i, len(tokens)) if tokens[k].text == ";") + 1


def check_left_out(tokens):
    """Refuses methods in a module that is left out, or there only with a feature: without them others could be called."""
    for i, trait, _, _ in blocks(tokens):
        if tokens[i].text == "impl" and trait is None:
            raise Refused(tokens[i].line, "methods of a type in a module that is left out")


def check(tokens, sources, names):
    """Refuses what could hide what Rust has."""
    check_declared(tokens, sources)
    check_aliases(tokens)
    check_imports(tokens, sources, names)
    check_methods(tokens, sources, names)
