"""The rules for the libraries of the programs, which use readers and writers of std, and for what calls them."""
import re

from .rules import RULES as LIBRARY_RULES, inline_hints
from .tokens import Refused, closing, places, respell


def allocators(tokens):
    """The allocator is a parameter. In Rust it is the one of std, and what replaces it has nothing in it."""
    for i, end in places(tokens, "use std::alloc::Global;"):
        respell(tokens, i, end, "use crate::memory::Global;")


def collected(tokens):
    """Collecting arguments is passed an allocator, and may be refused memory. In Rust it ends the program then."""
    for i, end in places(tokens, "args.collect::<Vec<String>>(alloc)"):
        respell(tokens, i, end, "Ok::<Vec<String>, crate::memory::NoMemory>(args.collect())")


def unquestioned(tokens, last):
    """Deletes the `?` after the bracket at `last`."""
    if tokens[last + 1].text != "?":
        raise Refused(tokens[last].line, "memory that is taken without ?")
    del tokens[last + 1]


def is_collection(tokens, i):
    """Whether the variable at `i` was bound to a new text or list of Rust, and since then only its methods were called."""
    j = i - 1
    while j > 2 and tokens[j].text not in ("fn", tokens[i].text):
        j -= 1
    if tokens[j].text == tokens[i].text and tokens[j + 1].text == ".":
        return is_collection(tokens, j)
    return [t.text for t in tokens[j - 2:j]] == ["let", "mut"] and tokens[j + 1].text == "=" and tokens[j + 2].text in ("vec", "String", "Vec")


def memory(tokens):
    """What takes memory is passed the allocator, and may be refused it. In Rust it takes that of std, and ends the program then."""
    for i, end in places(tokens, "use std::alloc::{AllocError, Global};"):
        respell(tokens, i, end, "use ether_tools::ether_capture::memory::{Global, NoMemory as AllocError};")
    for name in ("String", "Vec"):
        for i, end in places(tokens, f"{name}::new(alloc)"):
            respell(tokens, i, end, f"{name}::new()")
    for i, end in places(tokens, "hex::encode(alloc, frame)"):
        unquestioned(tokens, end - 1)
        respell(tokens, i, end, "hex::encode(frame)")
    for call in ("buffer.extend_from_slice(", "bytes.extend_from_slice(", "rows.push(", "text.push_str("):
        for i, end in places(tokens, call):
            unquestioned(tokens, closing(tokens, end - 1))
            if not is_collection(tokens, i):
                raise Refused(tokens[i].line, f"{tokens[i].text}, which may be no list and no text of Rust")
    for i, end in places(tokens, "vec![in alloc;"):
        unquestioned(tokens, closing(tokens, i + 2))
        tokens[end].before = ""
        respell(tokens, i, end, "vec![")
    for i, end in places(tokens, "format!(in alloc;"):
        last = closing(tokens, i + 2)
        respell(tokens, last, last + 1, "))")
        tokens[end].before = ""
        respell(tokens, i, end, "Ok(format!(")


# Calls that take memory, as methods of lists; in Rust others have these names, which return that memory was refused.
TAKING = {"push": "try_push", "extend_from_slice": "try_extend_from_slice"}


def lists(tokens):
    """What takes memory is passed the allocator, and may be refused it. In Rust it is by hand what may be refused it, too."""
    made = "crate::memory::"
    for i, end in places(tokens, "Vec::new(alloc)"):
        respell(tokens, i, end, f"{made}list(alloc)")
    for i, end in places(tokens, "Vec::with_capacity(alloc,"):
        respell(tokens, i, end, f"{made}list_for(alloc,")
    for i, end in places(tokens, "String::from_str(alloc,"):
        respell(tokens, i, end, f"{made}text_of(alloc,")
    for i, end in places(tokens, "Value::from_slice(alloc, text)"):
        respell(tokens, i, end, "crate::json::from_slice(alloc, text)")
    for i, end in places(tokens, "use serde_json::"):
        respell(tokens, i, end, "use crate::json::")
    for name in ("rand_core::SeedableRng", "rand_core::utils::NextWord", "rand_xoshiro::SplitMix64"):
        for i, end in places(tokens, f"use {name};"):
            respell(tokens, i, end, f"use crate::random::{name.split('::')[-1]};")
    is_taking = False
    for i, token in enumerate(tokens[:-2]):
        if token.text == "." and tokens[i + 1].text in TAKING and tokens[i + 2].text == "(":
            tokens[i + 1].text = TAKING[tokens[i + 1].text]
            is_taking = True
    for names in ("{AllocError, Global}", "AllocError", "Global"):
        for i, end in places(tokens, f"use std::alloc::{names};"):
            told = [*re.findall(r"\w+", names), *["Taking"] * is_taking]
            respell(tokens, i, end, f"use {made}{{{', '.join(told)}}};" if len(told) > 1 else f"use {made}{told[0]};")


# A program is compiled as one module with what is made here.
RULES = [*(rule for rule in LIBRARY_RULES if rule != inline_hints), allocators, collected]
EXAMPLE_RULES = [*RULES, memory]
MAKE_RULES = [lists, *(rule for rule in RULES if rule != allocators)]
