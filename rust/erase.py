#!/usr/bin/env python3
"""Erases the proofs from the proved sources, and writes what is left as a crate of plain Rust.

    python3 rust/erase.py [FOLDER]

reads `crates/*/src` and `tests/library_tests`, and writes `etherpeel`, the libraries with their tests, `etherpeel_c`, the
calls for C, and `ether_tools`, the programs, below FOLDER or in the script's own folder. Each rule deletes, or respells
one exact form (`erasing/rules.py`, `calls.py`). The words of contracts lead to pages of their definitions, which are made
of `crates/*/specs` (`erasing/linking.py`, `pages.py`). What is not known (`erasing/known.py`), or could hide what Rust has
(`erasing/hiding.py`), is refused with its file and line, and then nothing is written.
"""
import argparse
import functools
import os
import re
import sys

sys.dont_write_bytecode = True
from erasing import adding, calls, check, declaring, definitions, docs, hiding, linking, pages, programs, rules, testing  # noqa: E402
from erasing.tokens import Refused, joined, lex  # noqa: E402

HERE = os.path.dirname(os.path.abspath(__file__))
CRATES = os.path.join(os.path.dirname(HERE), "crates")
NAME = "etherpeel"
CALLS, CALLS_NAME = "ether_c", "etherpeel_c"
PROGRAMS, PROGRAMS_NAME = ["ether_text", "ether_files", "ether_stream", "ether_capture", "ether_make"], "ether_tools"  # what the programs are made of
# By hand: what replaces sources that take the runtime or an allocator, and what the sources lack.
ERROR_SOURCES, FUSED, SERIALIZED, COMPAT = "error_sources", "fused_iterators", "serialized", "compat"
BY_HAND = [f"{NAME}/src/{path}.rs" for path in (
    ERROR_SOURCES, f"{ERROR_SOURCES}/pcap", FUSED, SERIALIZED, COMPAT, *(f"{COMPAT}/{it}" for it in (
        "err", "err/from_slice_error", "err/macsec", "err/packet", "err/packet/build_write_error", "err/packet/slice_error", "err/read_error",
        "lax_link_ext_slice", "lax_macsec_slice", "lax_packet_headers", "lax_sliced_packet", "lax_walk", "net", "packet_builder",
        "packet_headers", "payload_slice", "sliced_packet", "streams", "transport", "unchecked", "vlan_tags")),
)] + [f"{PROGRAMS_NAME}/src/{path}.rs" for path in (
    "ether_text/noted", "ether_files/closed", "ether_files/copy_files", "ether_files/own_output",
    *(f"ether_capture/{it}" for it in ("capture_files", "count_table", "heap_memory", "heap_text", "interface_buffer", "memory", "options", "progress_line", "row_slots", "run_input")),
    *(f"ether_make/{it}" for it in ("json", "memory", "named_files", "options", "random", "repeated")),
)]
# The programs that are made, each with its folder; their `main`s are by hand. One is of tests.
DRAWN = "drawn_calls"
EXAMPLE_PROGRAMS = {
    **{program: f"{PROGRAMS_NAME}/examples/{program}" for program in ("example_switch", "example_vlan_rewriter")},
    DRAWN: f"drawn/src/bin/{DRAWN}",
}
BY_HAND += [f"{folder}/main.rs" for folder in EXAMPLE_PROGRAMS.values()]
FACADE = "etherparse"  # the root of the result
# A module without documentation: the facade has its names, but for numbers that tests and programs use.
HIDDEN = ["ether_base"]
PRIVATE = ["ether_tags", "ether_sll", "ether_arp"]  # private modules: the facade has their public names
# Public modules, and what the root says of each.
OUTER = {
    "ether_peel": "the walk through a frame, from header to header",
    "ether_fields": "the fields of headers as a table, and the names of numbers",
    "ether_sll2": "Linux cooked capture v2",
    "ether_packet": "the headers of a frame in one value; packets that are built, and changed in place",
    "ether_filter": "filters of packets, in words of pcap-filter(7)",
    "ether_pcap": "capture files of the classic pcap format and of pcapng",
    "ether_content": "captured packets, each read by its link type",
    "ether_switch": "the forwarding of a bridge with VLANs",
    "ether_output": "text on its way to a writer",
    "ether_format": "captured packets as JSON, columns, lines for the eye",
}
LIBRARIES = [*HIDDEN, *PRIVATE, FACADE, *OUTER]
# The pages of definitions, which are there for documentation alone, and what they say of themselves.
DEFINITIONS = "definitions"
DEFINED = {
    "ether_base": "bytes and the numbers that they spell, the formats of headers, and why a header is refused",
    "ether_tags": "views of Ethernet II frames, VLAN tags and MACsec SecTags",
    "ether_sll": "views of Linux cooked capture v1",
    "ether_arp": "views of ARP packets",
    **OUTER,
}
# The feature without which a public module is not there, and a module of the tests.
FEATURES = {
    "ether_fields": "filter", "ether_filter": "filter", "ether_pcap": "pcap", "ether_content": "content", "ether_switch": "switch",
    **dict.fromkeys(["ether_output", "ether_format"], "format"),
}
TEST_FEATURES = {"filter": "content", "format": "format std", "pcap": "pcap", "switch": "switch"}
# The crates of tests, which are below `tests/`, each with the examples that it tests.
TESTS = {"library_tests": ["example_frames"]}
TEST_SOURCES = os.path.join(os.path.dirname(HERE), "tests")
EXAMPLES = [example for examples in TESTS.values() for example in examples]
CRATE_NAMES = {*LIBRARIES, *EXAMPLES, *PROGRAMS, NAME, PROGRAMS_NAME}
# Modules that are left out: laws, and the tests of a crate that is not in the result.
LEFT_OUT, LEFT_OUT_OF_TESTS = {"laws"}, {"text"}
LEFT_OUT_OF_PROGRAMS = {"laws", "noted", "main", "options", "capture_files", "closed", "copy_files", "count_table", "heap_memory", "heap_text", "interface_buffer", "named_files", "own_output", "progress_line", "repeated", "row_slots", "run_input"}

# What modules have besides with the feature `compat`: names of files by hand.
ADDED = {
    f"{NAME}/src/lib.rs": "*",
    f"{NAME}/src/ether_base/err.rs": "err::{FromSliceError, ReadError, packet}",
    f"{NAME}/src/ether_base/err/macsec.rs": "err::macsec::HeaderReadError",
}

ROOT = """#![doc = include_str!("../README.md")]
#![no_std]
#![forbid(unsafe_code)]

"""
# What is made keeps the layout of the sources, so that it can be compared with them; rustfmt lays out the rest.
KEPT = "#[rustfmt::skip]\n"
HEADERS, MODULES = "//! # Headers and views", "//! # Modules"
CALLS_ROOT = """
#![no_std]

#[path = "../by_hand.rs"]
mod by_hand;
"""
TEST_ROOT = """
// Assertions no longer take the runtime, what is left out no longer uses what others have, and the forms are those of
// the sources.
#![allow(clippy::all, dead_code, unused_imports, unused_variables)]

#[path = "../kit/mod.rs"]
mod kit;
"""


def source_folder(crate):
    """The folder of the sources of a crate. Those of tests end in .rt.txt, since they are no proved crate."""
    return os.path.join(TEST_SOURCES if crate in [*TESTS, DRAWN] else CRATES, crate, "src")


def sources(crate, whole=False):
    """Each source of a crate, but for those that are left out: its path below `src`, which ends in .rt, and its text."""
    top = source_folder(crate)
    is_program = crate in PROGRAMS or crate in EXAMPLE_PROGRAMS
    left_out = LEFT_OUT_OF_TESTS if crate in TESTS else LEFT_OUT_OF_PROGRAMS if is_program else LEFT_OUT
    for folder, _, names in sorted(os.walk(top)):
        for name in sorted(names):
            path = os.path.relpath(os.path.join(folder, name), top).removesuffix(".txt")
            if whole or not left_out & set(path[:-3].split("/")):
                with open(os.path.join(folder, name), encoding="utf-8", newline="") as file:
                    yield path, file.read()


@functools.cache
def book():
    """The definitions of the libraries."""
    texts = {}
    for crate in LIBRARIES:
        top = os.path.join(CRATES, crate, "specs")
        for path in (os.path.join(folder, name) for folder, _, names in sorted(os.walk(top)) for name in sorted(names)):
            module = os.path.relpath(path, CRATES).removesuffix(".antt").replace(os.sep, ".")
            with open(path, encoding="utf-8") as file:
                texts[module.removesuffix(".Lib")] = file.read()
    public = public_names()
    return definitions.Book(texts, [declaring.types(crate, sources(crate), public) for crate in LIBRARIES])


def library_path(crate, word):
    """What replaces the first word of a path in the library, or None."""
    if word == "crate":
        return None if crate == FACADE else f"crate::{crate}"
    if word in LIBRARIES:
        return "crate" if word == FACADE else f"crate::{word}"
    return "core" if word == "std" else None


def std_path(crate, word):
    """The same in what needs `std`."""
    return None if word == "std" else library_path(crate, word)


def calls_path(crate, word):
    """The same in the calls for C."""
    return {"std": "core", FACADE: NAME}.get(word) or (f"{NAME}::{word}" if word in LIBRARIES else None)


def programs_path(crate, word):
    """The same in the libraries of the programs."""
    if word == "crate":
        return f"crate::{crate}"
    if word in PROGRAMS:
        return f"crate::{word}"
    return {FACADE: NAME}.get(word) or (f"{NAME}::{word}" if word in LIBRARIES else None)


def test_path(crate, word):
    """The same in a test, where an example is a module."""
    if word == "crate":
        return None if crate in TESTS else f"crate::{crate}"
    if word in LIBRARIES:
        return NAME if word == FACADE else f"{NAME}::{word}"
    return f"crate::{word}" if word in EXAMPLES else None


def example_path(crate, word):
    """The same in a program among the examples, where a library of the examples is a module."""
    if word == "crate":
        return None if crate in EXAMPLE_PROGRAMS else f"crate::{crate}"
    if word in LIBRARIES:
        return NAME if word == FACADE else f"{NAME}::{word}"
    return f"crate::{word}" if word in EXAMPLES else None


def public_modules(texts, path):
    """The public modules on the way to a file of a crate."""
    parts = path[:-3].split("/") if path != "lib.rt" else []
    for i, part in enumerate(parts):
        above = "/".join(parts[:i]) + ".rt" if i else "lib.rt"
        if f"pub mod {part};" not in texts.get(above, ""):
            return
        yield "::".join(parts[:i + 1])


@functools.cache
def shown(crate, module=""):
    """The names that a crate, or a public module of it, shows."""
    return docs.shown(lex(dict(sources(crate, True)).get(f"{module or 'lib'}.rt", "")))


def public_names():
    """The names that the result shows, in its root or in public modules."""
    names = set(OUTER).union(shown(FACADE), *map(shown, OUTER))
    for crate in LIBRARIES:
        texts = dict(sources(crate))
        modules = {module.replace("::", "/") for path in texts for module in public_modules(texts, path)}
        names = names.union(*(shown(crate, module) for module in modules))
    return names


def scope_of(crate, path, texts, known):
    """What the examples of a file may import: from the root, the modules up to that of the crate, and the public ones
    in it, those around the file first."""
    at = LIBRARIES.index(crate) if crate in LIBRARIES else len(LIBRARIES)
    paths = {NAME: shown(FACADE), **{f"{NAME}::{name}": shown(name) for name in OUTER if LIBRARIES.index(name) <= at}}
    if crate in PROGRAMS:
        paths[f"{PROGRAMS_NAME}::{crate}"] = shown(crate)
    home = f"{PROGRAMS_NAME if crate in PROGRAMS else NAME}::{crate}"
    around = [*public_modules(texts, path)]
    others = {module for path in texts for module in public_modules(texts, path)} - {*around}
    for module in [*around, *sorted(others, key=lambda it: (it.count(":"), it))]:
        names = shown(crate, module.replace("::", "/"))
        if crate in HIDDEN and module.split("::")[0] in shown(FACADE):
            paths[f"{NAME}::{module}"] = names
        paths[f"{home}::{module}"] = names
    return docs.Scope(paths, known.traits, crate in PROGRAMS)


def erase(text, crate, known, scope=None, home=None, stem=""):
    """The text of a source without its proofs, or None if it is left out; `known` is what all sources declare, `home` the program that it
    is a module of, `stem` its own name in a library."""
    tokens = lex(text)
    if LEFT_OUT & set(stem.split("/")):
        return hiding.check_left_out(tokens)
    in_example = check.Names(known.names, "example")
    for token in tokens:
        begin = token.line - token.before.count("\n")
        module = "" if crate == FACADE else crate
        token.before = docs.documentation(token.before, begin, module, scope, in_example)
    kind, own_rules, last_rules, spelled = kind_of(home or crate, stem)
    if crate in LIBRARIES:
        linking.link(tokens, book(), known.names)
    for rule in own_rules:
        rule(tokens)
    rules.paths(tokens, crate, spelled)
    names = check.Names(known.names, kind)
    check.check(tokens, names)
    hiding.check(tokens, known, names)
    if crate == FACADE:
        hiding.check_facade(tokens)
    if stem in rules.STD:
        hiding.check_left_out(tokens)
    for rule in last_rules:
        rule(tokens)
    rules.features(tokens)
    rules.visibilities(tokens, spelled(crate, "crate"))
    return joined(tokens)


def kind_of(crate, stem):
    """What a crate is made as: its kind, the rules before the check and after it, and how its paths are spelled."""
    if stem in rules.STD:
        return "program", rules.RULES, [], std_path
    if crate in LIBRARIES:
        return "library", rules.RULES, adding.RULES, library_path
    if crate == CALLS:
        return "calls", calls.RULES, calls.LAST, calls_path
    if crate in PROGRAMS:
        return "program", programs.MAKE_RULES if crate == "ether_make" else programs.RULES, [], programs_path
    if crate in EXAMPLE_PROGRAMS:
        return "test program" if crate == DRAWN else "example program", programs.EXAMPLE_RULES, [], example_path
    return "test", testing.RULES, [], test_path


def place(crate, path, home=None):
    """The path of a source in the result."""
    stem = path[:-3] if path != "lib.rt" else ""
    if home:
        return f"{EXAMPLE_PROGRAMS[home]}/{stem}.rs"
    if crate == CALLS:
        return f"{CALLS_NAME}/src/{stem or 'lib'}.rs"
    if crate in PROGRAMS:
        return f"{PROGRAMS_NAME}/src/{crate}/{stem}.rs" if stem else f"{PROGRAMS_NAME}/src/{crate}.rs"
    if crate == FACADE:
        return f"{NAME}/src/lib.rs"
    if crate in TESTS:
        return f"{NAME}/tests/{crate}/{stem or 'main'}.rs"
    above = "src" if crate in LIBRARIES else "tests/" + next(test for test in TESTS if crate in TESTS[test])
    return f"{NAME}/{above}/{crate}/{stem}.rs" if stem else f"{NAME}/{above}/{crate}.rs"


def rooted(crate, text):
    """A root of the result: that of a crate, with attributes, and with the crates that become its modules."""
    lines = text.split("\n")
    end = next(i for i, line in enumerate(lines) if not line.startswith("//!"))
    if crate == FACADE:
        modules = ['#[cfg(feature = "std")]\nextern crate std;\n']
        modules += [f"#[doc(hidden)]\n{KEPT}pub mod {name};" for name in HIDDEN] + [f"{KEPT}mod {name};" for name in PRIVATE]
        modules += [f"mod {ERROR_SOURCES};", f"mod {FUSED};", f"{only_with('serde')}mod {SERIALIZED};"]
        modules += [f"{only_with(FEATURES.get(name))}{KEPT}pub mod {name};" for name in OUTER]
        modules += [f"{only_with(COMPAT)}pub mod {COMPAT};", f"#[cfg(doc)]\n{KEPT}pub mod {DEFINITIONS};"]
        return ROOT + "\n".join([*documentation(lines[:end]), "", *modules, *kept(lines[end:])])
    if crate == CALLS:
        return "\n".join([*lines[:end], CALLS_ROOT, *kept(lines[end + 1:])])
    modules = "".join(f"{KEPT}mod {name};\n" for name in TESTS[crate])
    named = lines[end + 1:]
    names = [only_with(TEST_FEATURES.get(line[4:-1])) + it for line, it in zip(named, kept(named))]
    return "\n".join([*lines[:end], TEST_ROOT + modules, *names])


def kept(lines):
    """Lines of a root whose layout, and that of the modules that they name, is that of the sources."""
    return [(KEPT if re.match(r"(?:pub )?(?:mod|use) ", line) else "") + line for line in lines]


def documentation(lines):
    """The documentation of the root, from the facade's. The first paragraph is left out: the page of the package, which
    comes before it, says it. Modules that are not always there are named with their features: no link leads nowhere."""
    yield from [HEADERS, *lines[lines.index("//!"):], "//!", MODULES, "//!"]
    yield "//! - [`err`], [`ether_type`], [`write_front`]: errors, numbers of ether types, bytes put at a slice's front"
    named = {name: FEATURES.get(name) for name in OUTER} | {COMPAT: COMPAT}
    named[DEFINITIONS] = None
    told = {**OUTER, COMPAT: "names for programs that use etherparse", DEFINITIONS: "the words of the contracts"}
    for name, feature in named.items():
        text = f"- [`{name}`]: {told[name]}"
        yield f'#![cfg_attr(feature = "{feature}", doc = "{text}")]' if feature else f"//! {text}"


def only_with(features):
    """The line before what is there only with some features, if it needs any."""
    named = [f'feature = "{it}"' for it in (features or "").split()]
    return f"#[cfg(all({', '.join(named)}))]\n" if named[1:] else f"#[cfg({named[0]})]\n" if named else ""


def added(path):
    """The lines that a file of the result has besides."""
    return f'\n#[cfg(feature = "{COMPAT}")]\npub use crate::{COMPAT}::{ADDED[path]};\n' if path in ADDED else ""


def made(crates, known, home=None):
    """The files that are made of crates, each with its path in the result; what is refused has None for its path. `known` is what the
    sources of these crates and of those below declare."""
    for crate in crates:
        files = dict(sources(crate))
        for path, text in sources(crate, True):
            stem = path[:-3] if crate in LIBRARIES or LEFT_OUT & set(path[:-3].split("/")) else ""
            if path not in files and not stem:
                continue  # another replaces it
            try:
                erased = erase(text, crate, known, scope_of(crate, path, files, known), home, stem)
                is_root = path == "lib.rt" and crate in [FACADE, CALLS, *TESTS]
                if path in files:
                    there = place(crate, path, home)
                    yield there, (rooted(crate, erased) if is_root else erased) + added(there)
            except Refused as refused:
                yield None, f"{os.path.relpath(source_folder(crate), os.path.dirname(HERE))}/{path}:{refused.line}: {refused.what}"


def defined(files):
    """The pages of the definitions to which files of the result lead, and what is refused of them."""
    texts = (text for crate in LIBRARIES for _, text in sources(crate))
    types = linking.types(texts, book())
    made_of, refused = pages.made([text for path, text in files if path], book(), DEFINED, types)
    below = [name for name in made_of if name]
    for name, lines in made_of.items():
        path = f"{NAME}/src/{DEFINITIONS}/{name}.rs" if name else f"{NAME}/src/{DEFINITIONS}.rs"
        yield path, pages.source(lines, [] if name else below)
    yield from ((None, text) for text in refused)


def declared_in(crates, whole=False):
    """What the sources of crates declare, also those that are left out if `whole`."""
    return hiding.Sources((text for crate in crates for _, text in sources(crate, whole)), CRATE_NAMES)


def result():
    """The files of the result, or SystemExit with all that was refused."""
    below = declared_in(LIBRARIES)
    if unknown := {*adding.DERIVED, *adding.MUST_USE, *adding.SERIALIZED} - below.types:
        sys.exit(f"rust/erasing/adding.py names {', '.join(sorted(unknown))}, which no source declares")
    found = list(made(LIBRARIES, below))
    found += defined(found)
    found += made([CALLS], below | declared_in([CALLS]))
    found += made(PROGRAMS, below | declared_in(PROGRAMS, True))
    for test, examples in TESTS.items():
        found += made([test, *examples], below | declared_in([test, *examples]))
    for program in EXAMPLE_PROGRAMS:
        found += made([program], below | declared_in([program], True), program)
    if refused := [text for path, text in found if path is None]:
        sys.exit("\n".join([*refused, "rust/erasing/known.py has what is known"]))
    with open(os.path.join(os.path.dirname(HERE), "NOTICE"), encoding="utf-8") as file:
        notice = file.read()
    return {**dict(found), **{f"{name}/NOTICE": notice for name in (NAME, CALLS_NAME, PROGRAMS_NAME)}}


def stale(folder, files):
    """The Rust files in the folders of the result that are not made, but for those by hand."""
    made_too = [f"{PROGRAMS_NAME}/src/{crate}" for crate in PROGRAMS]
    made_too += EXAMPLE_PROGRAMS.values()
    for top in (f"{NAME}/src", f"{CALLS_NAME}/src", *made_too, *(f"{NAME}/tests/{test}" for test in TESTS)):
        for at, _, names in os.walk(os.path.join(folder, top)):
            for name in names:
                if (path := os.path.relpath(os.path.join(at, name), folder)) not in [*files, *BY_HAND]:
                    yield path


def main():
    words = argparse.ArgumentParser(description=__doc__, formatter_class=argparse.RawDescriptionHelpFormatter)
    words.add_argument("folder", metavar="FOLDER", nargs="?", default=HERE)
    folder = words.parse_args().folder
    files = result()
    for path in list(stale(folder, files)):
        os.remove(os.path.join(folder, path))
    for path, text in files.items():
        os.makedirs(os.path.dirname(os.path.join(folder, path)) or ".", exist_ok=True)
        with open(os.path.join(folder, path), "w", encoding="utf-8") as file:
            file.write(text)
    print(f"{len(files)} files, {sum(text.count(chr(10)) for text in files.values())} lines")


if __name__ == "__main__":
    main()
