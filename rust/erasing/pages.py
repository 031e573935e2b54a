"""The pages of definitions in the documentation: one for each crate, with the words that contracts use, and those that
these use."""
import re

from . import notation
from .antt import lex
from .definitions import called, spelled
from .tokens import Refused

HEAD = """The words of contracts.

The documentation of a function has its contract: what the caller has to make sure of (`requires`), and what then holds
of the result (`ensures`). Contracts are proved of the sources from which this crate is made. The words of a contract
lead to their definitions on these pages. Where a standard defines something, the text names the clause.

[`notation`] explains how contracts and definitions are written. On a page, definitions are in the order in which they
are to be read. They use those of their own page and of pages that come before it, in this order:
"""
LINKED = re.compile(r"\(crate::definitions::(\w+)#([^)]+)\)")
BLOCK = re.compile(r"<summary>Contract</summary>.*?```text\n(.*?)```", re.S)
SPECIAL = re.compile(r"[\\\[\]<>*_|~#]")
# Words in the names of files that are not written so.
SPELLED = {
    **{"arp": "ARP", "eth": "Ethernet", "ethernet2": "Ethernet II", "ext": "extension", "id": "identifier"},
    **{"ids": "identifiers", "ipv4": "IPv4", "json": "JSON", "len": "length", "linux": "Linux", "macsec": "MACsec"},
    **{"siphash": "SipHash", "sll": "SLL", "sll2": "SLL2", "vlan": "VLAN", "vlans": "VLANs"},
}


def title(path):
    """The heading of a module: its name in words, after that of the module above it."""
    words = ([name] if name.lower() in SPELLED else re.findall(r"[A-Z][a-z0-9]*", name) for name in path.split(".")[2:])
    text = ": ".join(" ".join(SPELLED.get(word.lower(), word.lower()) for word in it) for it in words)
    return text[:1].upper() + text[1:]


def escaped(lines):
    """The lines of a comment without marks that mean something in Markdown, but for those of code."""
    parts = re.split(r"(`[^`]*`)", "\n".join(lines))
    text = "".join(part if part.startswith("`") else SPECIAL.sub(r"\\\g<0>", part) for part in parts)
    return re.sub(r"^([-+]|\d+(?=[.)] ))", r"\\\1", text, flags=re.M)


def prose(lines):
    """The lines of a comment as a sentence."""
    text = escaped(lines)
    if re.match(r"[a-z]{2,}\b(?![_\\:])|a ", text):
        text = text[:1].upper() + text[1:]
    return [*f"{text}{'' if text.endswith(('.', ':', '?')) else '.'}".split("\n"), ""] if lines else []


def quoted(definition):
    """The lines from which those of a definition go on, each with the name of its definition."""
    if definition is None:
        return []
    text = escaped(definition.comment).replace("\n", " ")
    return [*quoted(definition.goes_on), f"> `{definition.name}`: {text}", ">"]


def asked(files, book):
    """The definitions to which the files lead."""
    places = {place for text in files for place in LINKED.findall(text)}
    return [it for it in book.definitions() if book.place(it) in places]


def closure(definitions, book):
    """These definitions and those that they use, each with what it uses, and what is refused of them."""
    found, left, refusals = {}, [*definitions], []
    while left:
        it = left.pop()
        if it not in found:
            found[it], refused = used(it, book)
            refusals += refused
            left += [meaning.definition for meaning in found[it].values() if meaning.definition]
    return found, refusals


def used(definition, book):
    """What a definition uses, or nothing, and what is refused of it."""
    try:
        return book.used(definition), []
    except Refused as refused:
        crate, specs, *module = definition.module.path.split(".")
        return {}, [f"crates/{crate}/{specs}/{'/'.join(module) or 'Lib'}.antt:{refused.line}: {refused.what}"]


def links(definition, used, book):
    """The line that leads from a definition to those that it uses, and has the names in Rust of what the code
    declares."""
    here, others = definition.module.path.split(".")[0], {}
    for written, meaning in used.items():
        if meaning.definition not in (None, definition):
            page, anchor = book.place(meaning.definition)
            others[written] = f"[`{written}`](#{anchor})" if page == here else book.link(written, meaning.definition)
        elif meaning.kind == "code":
            others |= called(written, meaning)
    return ["Uses: " + ", ".join(others.values()), ""] if others else []


def entry(definition, used, book):
    """The lines of a definition: its heading, what it says, its text, and what it uses."""
    _, anchor = book.place(definition)
    yield from [f'<a id="{anchor}"></a>', "", f"## `{definition.name}`", ""]
    yield from [*quoted(definition.goes_on)[:-1], *[""] * bool(definition.goes_on), *prose(definition.comment)]
    yield from ["```text", *definition.text().split("\n"), "```", "", *links(definition, used, book)]


def section(module, shown, book):
    """The lines of a module: its heading, what it says, and its definitions that are shown."""
    group, here = None, [it for it in module.definitions.values() if it in shown]
    if here:
        yield from [f"# {title(module.path)}", "", *prose(module.about)]
    for it in here:
        if it.group not in (group, None):
            yield from [f"**{' '.join(prose([it.group])).rstrip('. ')}**", ""]
        group = it.group
        yield from entry(it, shown[it], book)


def page(crate, about, shown, book):
    """The page of a crate."""
    yield from [f"{about[:1].upper()}{about[1:]}.", ""]
    for module in book.page(crate):
        yield from section(module, shown, book)


def unused(shown, files):
    """The words of the page on notation that no definition uses, and no contract in the files."""
    used = {meaning.name for it in shown.values() for meaning in it.values() if meaning.kind == "kit"}
    tokens = {token.text for text in files for block in BLOCK.findall(text) for token in lex(block)}
    return {it for it in notation.WORDS - used if not tokens.issuperset(spelled(it)[1:] or [it])}


def made(files, book, abouts, types):
    """The pages that files lead to, each with its lines by its name, and what is refused. The name of the first one is
    empty. `abouts` says of each crate what it has, and `types` what types mean in contracts."""
    about_notation = [*notation.lines(types)]
    shown, refusals = closure(asked([*files, *about_notation], book), book)
    refusals += [f"rust/erasing/notation.py has the word {it}, which nothing uses" for it in unused(shown, files)]
    crates = {it.module.path.split(".")[0] for it in shown}
    pages = {crate: [*page(crate, about, shown, book)] for crate, about in abouts.items() if crate in crates}
    named = [f"- [`{name}`]: {abouts[name]}" for name in pages]
    return {"": [*HEAD.split("\n"), *named], "notation": about_notation, **pages}, sorted(refusals)


def source(lines, below):
    """The source of a page, with the modules below it."""
    modules = [f"pub mod {it};" for it in below]
    return "\n".join([*(f"//! {line}".rstrip() for line in lines), *[""] * bool(below), *modules, ""])
