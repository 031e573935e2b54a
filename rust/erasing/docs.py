"""The documentation: examples become programs of Rust, and paths in links those of the one crate."""
import re

from .check import check, declared
from .hiding import import_tree
from .rules import clones
from .tokens import Refused, closing, joined, lex

OTHERS = {"arrayvec": {"ArrayVec"}}  # what examples use of other crates
COLUMNS = 100
LINE = re.compile(r"( *)(//[/!])(?: (.*)|)$")
DOCUMENTS = re.compile(r" *(?:///(?!/)|//!)")


def runtimes(tokens):
    """An assertion takes the runtime, so that it may fail; a text takes an allocator, and is then a `Result`."""
    for i in range(len(tokens) - 4, -1, -1):
        here = [t.text for t in tokens[i:i + 8]]
        if here[:4] == ["!", "(", "rt", ";"]:
            tokens[i + 4].before = tokens[i + 4].before.lstrip(" ")
            del tokens[i + 2:i + 4]
        elif here == ["!", "(", "in", "rt", ".", "alloc", "(", ")"] and tokens[i + 8].text == ";":
            last = closing(tokens, i + 1)
            if tokens[last + 1].text != "?":
                raise Refused(tokens[i].line, "a text whose Result is not passed on by ?")
            del tokens[last + 1]
            tokens[i + 9].before = tokens[i + 9].before.lstrip(" ")
            del tokens[i + 2:i + 9]


class Scope:
    """What an example may import: paths of modules, each with the names that it shows, and traits, with their
    methods. `has_std` says whether the feature `std` is there."""

    def __init__(self, paths, traits, has_std=False):
        self.paths, self.traits, self.has_std = {**paths, **OTHERS}, traits, has_std

    def lines(self, tokens):
        """The lines that import what an example uses, each name from the first of the paths that shows it."""
        used, found = used_names(tokens, self.traits), {}
        for path, names in self.paths.items():
            here = used & names - set().union(*found.values())
            if here:
                found[path] = here
        return [line for path, names in found.items() for line in import_lines(path, sorted(names))]


def used_names(tokens, traits):
    """The names that an example uses and does not declare, and the traits that have a method that it calls."""
    used = set()
    for before, token, after in zip(tokens, tokens[1:], tokens[2:]):
        if token.kind == "word" and before.text not in (".", "::", "fn"):
            if token.text[0].isupper() or after.text in ("(", "::"):
                used.add(token.text)
        if token.kind == "string":
            used |= set(re.findall(r"\{(\w+)", token.text))
        if before.text == "." and after.text == "(":
            used |= {trait for trait, methods in traits.items() if token.text in methods}
    return used - declared(tokens)


def import_lines(path, names):
    """A `use` of names of a path, as rustfmt lays it out."""
    line = f"use {path}::{names[0]};" if len(names) == 1 else f"use {path}::{{{', '.join(names)}}};"
    if len(line) <= COLUMNS:
        return [line]
    lines = ["   "]
    for name in names:
        if len(lines[-1]) + len(name) + 2 > COLUMNS:
            lines.append("   ")
        lines[-1] += f" {name},"
    return [f"use {path}::{{", *lines, "};"]


def shown(tokens):
    """The names that a module shows: its public items, and what it hands on."""
    names, i = set(), 0
    while tokens[i].kind != "end":
        if tokens[i].text == "pub" and tokens[i + 1].text == "use":
            names |= {renamed or path[-1] for path, renamed, _ in import_tree(tokens, i + 2, [])[0]}
        elif tokens[i].text == "pub" and tokens[i + 1].text != "(":
            k = i + 1 + (tokens[i + 1].text == "const" and tokens[i + 2].text == "fn")
            names.add(tokens[k + 1].text)
        i = closing(tokens, i) + 1 if tokens[i].kind == "mark" and tokens[i].text in ("(", "[", "{") else i + 1
    return names


def example(code, line, scope, names):
    """The lines of an example. It imports what it uses, and `?` passes on any error: only this is hidden. One of the
    crate `etherpeel` that writes to an `OutputBuffer` is run only with the feature `std`: then the writers of `std` take
    text."""
    tokens = lex("\n".join(code), line)
    runtimes(tokens)
    clones(tokens)
    check(tokens, names)
    body = joined(tokens).split("\n")
    head = scope.lines([*lex(";"), *tokens]) if scope else []
    head += [""] * bool(head)
    if any(t.text == "OutputBuffer" for t in tokens) and not (scope and scope.has_std):
        return [*head, '# #[cfg(feature = "std")]', "# {", *body, "# }"]
    if any(t.text in ("?", "return") for t in tokens):
        return [*head, "# fn main() -> Result<(), Box<dyn std::error::Error>> {", *body, "# Ok(())", "# }"]
    return [*head, *body]


def link_paths(text, module):
    """In a link `crate::` is the module of the crate, and the path of a crate begins in the one crate."""
    text = re.sub(r"((?:\]\(|\[`))crate::", rf"\1crate::{module}::" if module else r"\1crate::", text)
    return re.sub(r"(\]\()(?=ether_\w+::)", r"\1crate::", text)


def check_line(text, fence, line):
    """Refuses documentation in which rustdoc may find an example that is not found here."""
    m = LINE.match(text)
    rest = m[3] or "" if m else ""
    if DOCUMENTS.match(text) and not m:
        raise Refused(line, "documentation that begins without a space")
    if fence is None and (re.match(" {0,3}\t| {4}", rest) or re.search("~~~|```", rest.removeprefix("```"))):
        raise Refused(line, "an example without a fence of its own line")
    if fence is not None and rest.startswith("```") and rest != "```":
        raise Refused(line, f"the fence {rest}")


def documentation(before, line, module, scope, names):
    """The comments before a token, with their examples and links."""
    out, code, fence = [], [], None
    for at, text in enumerate(before.split("\n")):
        check_line(text, fence, line + at)
        m = LINE.match(text)
        rest = m[3] or "" if m else ""
        if m and rest.startswith("```"):
            if fence == "```":
                lines = example(code, line + at - len(code), scope, names)
                out += [f"{m[1]}{m[2]} {it}".rstrip() for it in lines]
            fence, code = (rest, []) if fence is None else (None, [])
            if fence not in (None, "```", "```text"):
                raise Refused(line + at, f"the fence {rest}")
            out.append(text)
        elif m and fence == "```":
            code.append(rest)
        else:
            out.append(link_paths(text, module) if m and fence is None else text)
    if fence:
        raise Refused(line, "an example without an end")
    return "\n".join(out)
