"""The rules for the tests of the libraries, which are passed a runtime."""
from .docs import runtimes
from .rules import clones, contracts, dropping, formatters, ghost_items, layout_skips, laws, models, tactics
from .tokens import Refused, cut, drop, item_start, places, respell


def left_out(tokens):
    """The module `text` tests a crate that the result does not have."""
    for i, end in places(tokens, "mod text;"):
        cut(tokens, item_start(tokens, i), end)


def test_modules(tokens):
    """All of these files are tests."""
    for i, end in places(tokens, "#[cfg(test)]"):
        drop(tokens, i, end)


def test_functions(tokens):
    """A test is passed the runtime. In Rust it is passed nothing, and makes what replaces it."""
    for pattern in ("(rt: HostRuntime)", "(rt: HostRuntime,)"):
        for i, end in places(tokens, pattern):
            start = item_start(tokens, i - 2)
            if tokens[start].text != "#" or tokens[start + 2].text != "test":
                raise Refused(tokens[i].line, "a function that is passed the runtime and is no test")
            body = next(k for k in range(end, len(tokens)) if tokens[k].text == "{")
            respell(tokens, body + 1, body + 1, "let rt = crate::kit::HostRuntime;")
            tokens[body + 1].before = "\n    "
            respell(tokens, i, end, "()")


def macro_runtimes(tokens):
    """A macro hands the runtime that it is passed to an assertion, which takes none in Rust."""
    for i, _ in places(tokens, "!($rt;"):
        drop(tokens, i + 2, i + 5)


def kit_names(tokens):
    """What the tests take of the runtime is in `tests/kit` of the result."""
    for old in ("std::test", "std::process", "std::alloc"):
        for i, end in places(tokens, f"use {old}::"):
            respell(tokens, i, end, "use crate::kit::")


RULES = [
    *(ghost_items, models, laws, contracts, left_out, test_modules, test_functions, kit_names, runtimes, macro_runtimes),
    *(tactics, layout_skips, dropping, formatters, clones),
]
