#!/usr/bin/env python3
"""Writes the lines of docs/PROVED.md that are made of the sources: one for each public function, with its clauses.

    python3 docs/proved.py [--set]

A line has the function's name, the first sentence of its documentation, and each clause by its name: the clause itself if it is short, or else
the names of the definitions that it cites; and the first sentence of the comment on the definition at its head. What many functions cite is in a
table of words. The function is public if
the root of its crate hands it on; of a program, those of its modules `program`, `input_files` and `laws` are taken. Prints nothing if the page has these lines,
and README.md and the page cite contracts as they are in the sources; else what is wrong, and ends with status 1. With --set it first writes the
lines to the page.
"""
import argparse
import collections
import os
import re
import sys

sys.dont_write_bytecode = True
import sources  # noqa: E402
from sources import ROOT, clauses  # noqa: E402

PAGE, README = f"{ROOT}/docs/PROVED.md", f"{ROOT}/README.md"
BEGIN, END = "<!-- made by docs/proved.py -->", "<!-- end -->"
MANY = 8  # functions that cite a definition, from which on its words are in the table
SHORT = 200  # columns of a clause that is shown itself


def heads(text):
    """The words of a clause that may be the definition at its head: the first one, and those after a binder or an arrow."""
    return re.findall(r"(?:^|[.→⊎×(] ?)\(*([A-Z]\w*)", text)


def clause(item, kind, name, text, told, common):
    """A clause of a line: its name and itself, if it is short, or else the names that it cites; and the words of the definition at its head."""
    cited = item.cited[kind, name]
    if len(text) <= SHORT or not cited:
        shown = f"`{text}`"
    else:
        shown = ", ".join(f"`{it[1]}`" for it in [it for it in cited if it not in common] or cited)
    at_head = [it for it in cited if it in told and it not in common and it[1] in heads(text)]
    shown = "; ".join([shown, *(f"`{it[1]}`: {told[it]}" for it in at_head)])
    return f"`{name}` ({shown})" if name else shown


def made():
    """The lines that are made."""
    found = sources.modules()
    told = sources.words(found)
    items = list(sources.all_items(found))
    many = collections.Counter(it for _, item in items for it in {one for cited in item.cited.values() for one in cited})
    common = {it for it, count in many.items() if count >= MANY}
    out = ["Word | Meaning", "---|---"]
    for source, name in sorted(common & told.keys(), key=lambda it: it[1].lower()):
        out.append(f"[`{name}`]({os.path.relpath(found[source].path, os.path.dirname(PAGE))}) | {told[source, name]}")
    before = None
    for crate, item in items:
        if crate != before:
            out += ["", f"### `{crate}`", ""]
            before = crate
        does = item.does.rstrip(".") + "." * bool(item.does)
        parts = [does]
        for title, kind in (("Asks", "requires"), ("Proved", "ensures")):
            has = "; ".join(clause(item, *it, told, common) for it in item.told if it[0] == kind)
            parts.append(has and f"**{title}**: {has}.")
        out.append(f"- [`{item.name}`](../crates/{item.path}): {' '.join(filter(None, parts))}")
    return "\n".join(out)


def with_made(page):
    """The page with the lines that are made."""
    before, begin, rest = page.partition(BEGIN)
    return f"{before}{begin}\n\n{made()}\n\n{END}{rest.partition(END)[2]}"


def quotes():
    """What is wrong with the contracts that the documents cite."""
    texts = {"\n".join(lines) for _, _, lines in clauses.sources()}
    for path in (README, PAGE):
        with open(path, encoding="utf-8") as file:
            for block in re.findall(r"^```rattle\n(.*?)\n```$", file.read(), re.M | re.S):
                if not any(block in text for text in texts):
                    yield f"{os.path.relpath(path, ROOT)}: no source has the contract\n{block}"


def wrong():
    """What is wrong, line by line."""
    with open(PAGE, encoding="utf-8") as file:
        page = file.read()
    if page != with_made(page):
        yield "docs/PROVED.md: the lines of public functions are not those of the sources: run docs/proved.py --set"
    yield from quotes()


def set_lines():
    """Writes the lines to the page."""
    with open(PAGE, encoding="utf-8") as file:
        page = with_made(file.read())
    with open(PAGE, "w", encoding="utf-8") as file:
        file.write(page)


def is_wrong():
    """Prints what is wrong, and returns whether there is anything."""
    failed = list(wrong())
    print(*failed, sep="\n", end="\n" * bool(failed))
    return bool(failed)


def main():
    given = argparse.ArgumentParser(description=__doc__, formatter_class=argparse.RawDescriptionHelpFormatter)
    given.add_argument("--set", action="store_true", help="write the lines to the page")
    if given.parse_args().set:
        set_lines()
    return int(is_wrong())


if __name__ == "__main__":
    sys.exit(main())
