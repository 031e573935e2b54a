#!/usr/bin/env python3
"""Finds the definitions that the contracts of the calls below rest on, by artefact, and compares them with docs/READING.md. It also compares
docs/PROVED.md with the sources (docs/proved.py), and the figures of README.md and docs/TRUST.md with what they count.

    python3 docs/reading.py [--set | ARTEFACT]

A word is a definition of a file in a crate's specs/ folder; an artefact adds those that none before it reaches. Prints the figures of each artefact,
and what is wrong with the pages, if anything; then the status is 1. With --set it first writes the figures and the lines to the pages. With the title of a
section of the page it prints its definitions as one text to read: file by file, each after those that it builds on."""
import argparse
import os
import re
import sys

sys.dont_write_bytecode = True
import proved  # noqa: E402
import sources  # noqa: E402  it also leads to the modules of tests/
import planted_faults  # noqa: E402
from sources import NAME, ROOT  # noqa: E402

PAGE, README, TRUST = f"{ROOT}/docs/READING.md", f"{ROOT}/README.md", f"{ROOT}/docs/TRUST.md"
# The artefacts in the order of the page, each with its public functions: those of crates, of files, or of one name. Texts that `Display` writes are
# no part of them.
ARTEFACTS = {
    "`Peel` alone": ["ether_peel/src/peel.rt", "ether_peel/src/peel_fault.rt"],
    "The main theorem": ["ether_peel/src/laws.rt laws::main_theorem"],
    "The calls of the walk": ["ether_peel/src"],
    "The tool": ["ether_text/src"],
    "Filters": [*(f"ether_filter/src/filter.rt Filter::{it}" for it in ("parse", "matches", "decide")), "ether_filter/src/laws.rt"],
    "Filters in memory of the caller": ["ether_filter/src"],
    "Packets": ["ether_packet/src"],
    "Capture files": ["ether_pcap/src/capture/capture_packets.rt"],
    "Captures written": ["ether_pcap/src"],
    "Captured packets": ["ether_content/src"],
    "Packets on one line": ["ether_format/src", "ether_fields/src"],
    "Captures": ["ether_stream/src", "ether_capture/src"],
    "Bridges": ["ether_switch/src"],
    "C": ["ether_c/src"],
    "Frames from text": ["ether_make/src/laws.rt"],
    "The program that makes frames": ["ether_make/src"],
}
# How README.md says what it takes to believe the first artefact, and docs/TRUST.md how many faults are planted into what is written by hand.
TOLD, PLANTED = "one reads {} definitions, {} lines", "| {} rows, {} of them with a reason |"


def is_of(item, calls):
    """Whether an item is one of these calls."""
    return not item.name.endswith(": Display") and any(f"{item.path} {item.name}".startswith(it) for it in calls)


def used_by(found, word):
    """The definitions that a definition cites."""
    source, name = word
    module = found[source]
    return sources.cited_in(found, "\n".join(module.words[name]), module.names, module.aliases, source, module.local.get(name, ()))


def closure(found, items, calls):
    """All definitions that the contracts of these calls rest on."""
    reached, waiting = set(), {it for item in items if is_of(item, calls) for cited in item.cited.values() for it in cited}
    while waiting:
        it = waiting.pop()
        reached.add(it)
        waiting |= used_by(found, it) - reached
    return reached


def count_lines(found, words):
    return sum(len(found[source].words[name]) for source, name in words)


def artefacts(found):
    """Yields each artefact's title, the number of definitions that it adds, that of their lines, that of all its lines, and what it adds."""
    before, items = set(), [item for _, item in sources.all_items(found)]
    for title, calls in ARTEFACTS.items():
        reached = closure(found, items, calls)
        added = reached - before
        before |= reached
        yield title, len(added), count_lines(found, added), count_lines(found, reached), added


def in_order(found, words):
    """The modules of these definitions, each after those that it builds on, by crate and name otherwise."""
    known, ordered = {source for source, _ in words}, []
    lowest = sources.crates()

    def visit(source, on_the_way):
        if source in ordered or source in on_the_way:
            return
        uses = {it for word in words if word[0] == source for it, _ in used_by(found, word) if it in known}
        for it in sorted(uses, key=place):
            visit(it, (*on_the_way, source))
        ordered.append(source)

    def place(source):
        crate = os.path.relpath(found[source].path, f"{ROOT}/crates").split("/")[0]
        return lowest.index(crate), found[source].path

    for source in sorted(known, key=place):
        visit(source, ())
    return ordered


def begins(paragraph, names):
    """Whether a paragraph of a file has a definition with one of these names."""
    heads = re.findall(rf"^(?:(?:pub|abbrev|unfoldable|opaque)\s+)*(?:(?:data|record)\s+)?({NAME})", paragraph, re.M)
    return bool(names.intersection(heads))


def print_text(found, words):
    """Prints the definitions of an artefact, each with the comments before it."""
    for source in in_order(found, words):
        path = found[source].path
        with open(path, encoding="utf-8") as file:
            first, *others = file.read().rstrip().split("\n\n")
        shown = [it for it in others if begins(it, {name for it, name in words if it == source})]
        about = first.split("\n")[0].removeprefix("--").strip()
        name = os.path.relpath(path, f"{ROOT}/crates").removesuffix(".antt")
        print("\n\n".join([f"-- ======== {name}: {about}", *shown]), end="\n\n")


def with_figures(found):
    """The text of each page, by its path, with the figures that it has to have."""
    pages = {}
    for path in (PAGE, README, TRUST):
        with open(path, encoding="utf-8") as file:
            pages[path] = file.read()
    for title, count, lines, whole, _ in artefacts(found):
        pages[PAGE] = re.sub(rf"^(## {re.escape(title)}\n\n)Adds .*$", rf"\g<1>Adds {count} definitions, {lines} lines; {whole} in all.",
                             pages[PAGE], flags=re.M)
        if title == next(iter(ARTEFACTS)):
            pages[README] = with_numbers(pages[README], TOLD, count, lines)
    pages[TRUST] = with_numbers(pages[TRUST], PLANTED, len(planted_faults.FAULTS), sum(bool(it.why) for it in planted_faults.FAULTS))
    return pages


def with_numbers(page, form, *numbers):
    """The text of a page with these numbers in the one sentence of a form."""
    text, count = re.subn(re.escape(form).replace(r"\{\}", r"\d+"), form.format(*numbers), page)
    if count != 1:
        sys.exit(f"a page says {count} times '{form}'")
    return text


def check(found):
    """Prints what is wrong with the pages, and returns whether there is anything."""
    failed = False
    for path, text in with_figures(found).items():
        with open(path, encoding="utf-8") as file:
            if file.read() != text:
                print(f"{os.path.relpath(path, ROOT)}: its figures are not those of the sources: run docs/reading.py --set")
                failed = True
    with open(PAGE, encoding="utf-8") as file:
        titles = re.findall(r"^## (.*)\n\nAdds ", file.read(), re.M)
    if titles != list(ARTEFACTS):
        print(f"docs/READING.md: its sections with figures have to be {', '.join(ARTEFACTS)}")
        failed = True
    return failed


def main():
    titles = {it.replace("`", ""): it for it in ARTEFACTS}
    words = argparse.ArgumentParser(description=__doc__, formatter_class=argparse.RawDescriptionHelpFormatter)
    words.add_argument("artefact", metavar="ARTEFACT", nargs="?", choices=titles, help=", ".join(titles))
    words.add_argument("--set", action="store_true", help="write the figures and the lines to the pages")
    given, found = words.parse_args(), sources.modules()
    if given.set and given.artefact is not None:
        words.error("--set takes no artefact")
    if given.set:
        for path, text in with_figures(found).items():
            with open(path, "w", encoding="utf-8") as file:
                file.write(text)
        proved.set_lines()
    if given.artefact is None:
        for title, count, lines, whole, _ in artefacts(found):
            print(f"{title}: adds {count} definitions, {lines} lines; {whole} in all")
        return int(any([check(found), proved.is_wrong()]))
    try:
        print_text(found, next(added for name, *_, added in artefacts(found) if name == titles[given.artefact]))
        sys.stdout.flush()
    except BrokenPipeError:
        os.dup2(os.open(os.devnull, os.O_WRONLY), sys.stdout.fileno())
    return 0


if __name__ == "__main__":
    sys.exit(main())
