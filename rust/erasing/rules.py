"""The rules. Each deletes, or respells one exact form, in the tokens of one file; RULES has their order."""
from textwrap import wrap

from .known import DERIVES
from .tokens import Refused, closing, cut, drop, head_end, indent, item_start, lex, opening, places, respell, tidy


COLUMNS = 110  # of lines of links
NOTATION = "[Notation](crate::definitions::notation)"


def ghost_items(tokens):
    """A ghost item is read by the prover alone: an import, a field, or a definition in an `impl`. It is deleted."""
    for i in range(len(tokens) - 1, -1, -1):
        if tokens[i].kind == "ghost":
            cut(tokens, i, i + 1)


def models(tokens):
    """An `impl Model for T` says what a `T` means in contracts. It is deleted; all its members were ghost."""
    for i, _ in places(tokens, "impl"):
        end = head_end(tokens, i)
        if any(t.text == "Model" for t in tokens[i:end]):
            if tokens[end].text != "{" or tokens[end + 1].text != "}":
                raise Refused(tokens[i].line, "an impl of Model with more than ghost members")
            cut(tokens, item_start(tokens, i), end + 2)
    for i, end in places(tokens, "use std::marker::Model;"):
        cut(tokens, i, end)


def laws(tokens):
    """The module `laws` has functions that do nothing, whose contracts are theorems. It is left out."""
    for i, end in places(tokens, "mod laws;"):
        cut(tokens, item_start(tokens, i), end)


# Modules of libraries that need `std`.
STD = {"writers"}


def features(tokens):
    """A module that needs `std` is there with the feature of that name."""
    for name in STD:
        for i, _ in places(tokens, f"mod {name};"):
            new = lex('#[cfg(feature = "std")]')[:-1]
            new[0].before, tokens[i].before = tokens[i].before, "\n"
            tokens[i:i] = new


def is_public(tokens, start, i):
    """Whether the function at `i`, which begins at `start`, is `pub`, or one of a trait that is."""
    if visible := [k for k in range(start, i) if tokens[k].text == "pub"]:
        return tokens[visible[0] + 1].text != "("
    brace = enclosing(tokens, start)
    head = [t.text for t in tokens[max(0, brace - 8):brace]]
    return "trait" in head and head[head.index("trait") - 1] == "pub"


def enclosing(tokens, i):
    """The place of the brace around the token at `i`; -1 if there is none."""
    j = i - 1
    while j >= 0 and tokens[j].text != "{":
        j = opening(tokens, j) - 1 if tokens[j].text in ("}", ")", "]") else j - 1
    return j


def contract(clauses, lead, follows):
    """The clauses of a function as lines of its documentation, in a block that is folded, after other lines or none."""
    lines = []
    for clause in clauses:
        first, *more = clause.text.split("\n")
        margin = len(indent(clause))
        lines += [first, *(line.lstrip() if line[:margin].strip() else line[margin:] for line in more)]
    needs = any(clause.text.startswith("requires") for clause in clauses)
    said = "The call may panic, or return something else, if a `requires` of its contract is not met."
    folded = ["<details><summary>Contract</summary>", "", "```text", *lines, "```", "", *words(clauses), "</details>"]
    block = [*["# Panics", "", said, ""] * needs, *folded]
    return "".join(f"/// {line}".rstrip() + f"\n{lead}" for line in [""] * follows + block)


def words(clauses):
    """The lines that lead from clauses to the definitions of their words, if these are linked."""
    links = [clause.links for clause in clauses if clause.links is not None]
    found = {word: link for it in links for word, link in it.items()}
    text = f"Words: {', '.join(found.values())}. {NOTATION}" if found else NOTATION
    return [*wrap(text, COLUMNS, break_long_words=False, break_on_hyphens=False), ""] if links else []


def contracts(tokens):
    """The clauses of a function are deleted. Those of a public one are kept in its documentation."""
    for i in range(len(tokens) - 1, -1, -1):
        if tokens[i].text != "fn" or tokens[i].kind != "word":
            continue
        end = head_end(tokens, i)
        clauses = [t for t in tokens[i:end] if t.kind == "clause"]
        if not clauses:
            continue
        start = item_start(tokens, i)
        tokens[end].before = " " if tokens[end].text == "{" else ""
        if is_public(tokens, start, i):
            follows = "///" in tokens[start].before.rpartition("\n\n")[2]
            tokens[start].before += contract(clauses, indent(tokens[start]), follows)
        tokens[i:end] = [t for t in tokens[i:end] if t.kind != "clause"]
        tidy(tokens, head_end(tokens, i) + 1)


def tactics(tokens):
    """`#[tactic(..)]` tells the prover how to search. It is deleted."""
    for i, end in places(tokens, "#[tactic("):
        drop(tokens, i, closing(tokens, i + 1) + 1)
    for i, end in places(tokens, "#![tactic("):
        cut(tokens, i, closing(tokens, i + 2) + 1)


def layout_skips(tokens):
    """`rattlefmt` lays out the sources as `rustfmt` does."""
    for i, end in places(tokens, "#[rattlefmt::skip]"):
        respell(tokens, i, end, "#[rustfmt::skip]")


def dropping(tokens):
    """Values may be dropped by a derive or a bound `Drop`. In Rust all may: derive and bound are deleted."""
    for i, end in places(tokens, "#[derive("):
        last = closing(tokens, end - 1)
        derives = [t.text for t in tokens[end:last] if t.text != ","]
        for name in derives:
            if name not in DERIVES | {"Drop"}:
                raise Refused(tokens[i].line, f"a derive of {name}")
        left = ", ".join(name for name in derives if name != "Drop")
        if left:
            respell(tokens, i, last + 2, f"#[derive({left})]")
        else:
            drop(tokens, i, last + 2)
    for pattern in ("+ Drop", ": Drop {"):
        for i, end in places(tokens, pattern):
            del tokens[i:i + 2]


def formatters(tokens):
    """A formatter of Rattle is generic in its writer."""
    wide = "fn fmt<W: fmt::Write>(&self, f: &mut fmt::Formatter<W>) -> fmt::Result"
    for i, end in places(tokens, wide):
        respell(tokens, i, end, "fn fmt(&self, f: &mut fmt::Formatter<'_>) -> fmt::Result")


def clones(tokens):
    """`clone` returns a `Result`, since it may allocate, and here always `Ok`. In Rust it returns the value."""
    for i, end in places(tokens, "fn clone(&self) -> Result<Self, AllocError>"):
        last = closing(tokens, end)
        if [t.text for t in tokens[end + 1:end + 3]] != ["Ok", "("] or closing(tokens, end + 2) != last - 1:
            raise Refused(tokens[i].line, "a clone whose body is not Ok(..)")
        del tokens[last - 1]
        drop(tokens, end + 1, end + 3)
        respell(tokens, i, end, "fn clone(&self) -> Self")
    for i, end in places(tokens, ".clone()"):
        if tokens[end].text != "?":
            raise Refused(tokens[i].line, "a clone() without ?")
        del tokens[end]
    for i, end in places(tokens, "use std::alloc::AllocError;"):
        cut(tokens, i, end)


# The errors that wrap another one. Their `impl Error` is by hand, in `error_sources.rs`.
WRAPPING = {
    *("HeaderSliceError", "PeelError", "PeelFault", "BuildError"),
    *("RecordFault", "SectionError", "CaptureError", "CaptureFault"),
}


def sources(tokens):
    """`Error` of Rattle has no method `source`. The empty `impl Error` of an error that wraps another one is deleted,
    with the import if nothing else needs it: a file by hand has that `impl`."""
    for name in WRAPPING:
        for i, _ in places(tokens, f"Error for {name}"):
            start = next(k for k in range(i, -1, -1) if tokens[k].text == "impl")
            end = head_end(tokens, start)
            if tokens[end].text != "{" or tokens[end + 1].text != "}":
                raise Refused(tokens[i].line, "an impl of Error with members")
            cut(tokens, start, end + 2)
            if sum(t.text == "Error" for t in tokens) == 1:
                for k, after in places(tokens, "use std::error::Error;"):
                    cut(tokens, k, after)


# Functions that `#[inline(always)]` makes faster in Rattle and slower by cargo.
HINTED = {"edit_unit", "copy_unit", "copies_packet"}


def inline_hints(tokens):
    """`#[inline]` is written before each function with a body but `fmt`, and in place of `#[inline(always)]` before those
    of the table. Rattle compiles all crates as one module, and so inlines across crates; cargo does so only where this
    says it may. It changes no result."""
    for i in range(len(tokens) - 1, -1, -1):
        if tokens[i].text != "fn" or tokens[i + 1].text == "fmt" or tokens[head_end(tokens, i)].text != "{":
            continue
        start = item_start(tokens, i)
        if "inline" not in [t.text for t in tokens[start:i]]:
            lead = indent(tokens[start])
            new = lex("#[inline]")[:-1]
            new[0].before, tokens[start].before = tokens[start].before, "\n" + lead
            tokens[start:start] = new
        elif tokens[i + 1].text in HINTED:
            for at, after in places(tokens[:i], "#[inline(always)]"):
                if at >= start:
                    respell(tokens, at, after, "#[inline]")


def paths(tokens, crate, spelled):
    """Each crate is a module of one crate, the facade is its root, and `std` is `core`. `spelled` says what the first
    word of a path becomes."""
    for i in range(len(tokens) - 2, -1, -1):
        if tokens[i].kind != "word" or tokens[i + 1].text != "::" or i and tokens[i - 1].text == "::":
            continue
        if tokens[i].text == "core":
            raise Refused(tokens[i].line, "core, which sources call std")
        there = spelled(crate, tokens[i].text)
        if there:
            respell(tokens, i, i + 1, there)


def visibilities(tokens, module):
    """`pub(crate)` is up to the crate, which is a module now, if it is not a root: another crate must not see more of it, since a
    method that it sees may hide another one."""
    for i, _ in places(tokens, "pub(crate)"):
        if module:
            respell(tokens, i + 2, i + 3, f"in {module}")


RULES = [
    *(ghost_items, models, laws, contracts, tactics, layout_skips, dropping, formatters, clones, sources, inline_hints),
]
