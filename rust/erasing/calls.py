"""The rules for the calls for C, in `crates/ether_c`."""
from .rules import RULES as LIBRARY_RULES, inline_hints
from .tokens import closing, head_end, indent, lex, places, respell


def layouts(tokens):
    """That a struct has the size of `etherpeel.h` is proved. In Rust it is asserted when the crate is compiled."""
    for i, end in places(tokens, "const _: () = prove!("):
        respell(tokens, end - 3, end - 2, "assert")


def is_array(tokens, i):
    """Whether the type between the square brackets at `i` has a length."""
    j, end = i + 1, closing(tokens, i)
    while j < end and tokens[j].text != ";":
        j = closing(tokens, j) + 1 if tokens[j].text in ("(", "[") else j + 1
    return j < end


def slices_of(tokens, i):
    """The slices among the parameters between the brackets at `i`, the last first: for each the place of its name, that
    after its type, and its pointer. A reference to an array is a pointer already."""
    for at in range(closing(tokens, i) - 1, i, -1):
        if [t.text for t in tokens[at + 1:at + 3]] != [":", "&"]:
            continue
        to = at + 3 + (tokens[at + 3].kind == "life")
        is_mutable = tokens[to].text == "mut"
        to += is_mutable
        if tokens[to].text == "[" and not is_array(tokens, to):
            end = closing(tokens, to)
            element = "".join(t.before + t.text for t in tokens[to + 1:end])
            yield at, end + 1, f"*{'mut' if is_mutable else 'const'} {element}"


def slices(tokens):
    """C passes a slice as a pointer and a length, of which `by_hand.rs` makes a slice. It is the only rule that writes
    `unsafe`: that a pointer and a length belong together can't be known here."""
    for i in range(len(tokens) - 1, -1, -1):
        if [t.text for t in tokens[i:i + 3]] != ["extern", '"C"', "fn"]:
            continue
        start = next(k for k in range(i, len(tokens)) if tokens[k].text == "(")
        found = list(slices_of(tokens, start))
        body = head_end(tokens, start)
        made = [(tokens[at].text, "mutable" if pointer.startswith("*mut") else "shared") for at, _, pointer in found]
        lets = [f"let {name} = unsafe {{ crate::by_hand::{kind}({name}, {name}_len) }};" for name, kind in reversed(made)]
        if lets:
            lead = "\n" + indent(tokens[body + 1])
            respell(tokens, body + 1, body + 1, lead.join(lets))
            tokens[body + 1].before = lead
        for at, end, pointer in found:
            name, before = tokens[at].text, tokens[at].before
            respell(tokens, at + 2, end, f"{pointer}, {name}_len: usize")
            length = next(k for k in range(at + 2, len(tokens)) if tokens[k].text == f"{name}_len")
            tokens[at + 2].before, tokens[length].before = " ", before if "\n" in before else " "
        if lets:
            respell(tokens, i, i, "unsafe")
            tokens[i].before, tokens[i + 1].before = tokens[i + 1].before, " "


# All that is called is compiled as one module.
RULES = [*(rule for rule in LIBRARY_RULES if rule != inline_hints), layouts]
LAST = [slices]
