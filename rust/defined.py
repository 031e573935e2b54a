"""The definitions of the words of contracts, as rustdoc shows them: each link to one leads to it, each contract is
followed by links, and a function that is not public has no contract in the crate.

    python3 rust/defined.py

says how many there are, after `cargo doc`.
"""
import argparse
import collections
import functools
import os
import re
import sys

sys.dont_write_bytecode = True
from building import CRATE  # noqa: E402

DOC = os.path.join(CRATE, "target", "doc", "etherpeel")
PAGES = os.path.join(DOC, "definitions")
LINK = re.compile(r'href="([^"#:]*)#([^"]+)"')
PAGE = re.compile(r'href="([^"#:]+\.html)["#]')
SUMMARY = "<summary>Contract</summary>"
PUBLIC = re.compile(r" *pub (?:const )?fn |pub trait ")


@functools.cache
def text_of(path):
    with open(path, encoding="utf-8") as file:
        return file.read()


def there(path, to):
    """The path of a page to which another one has a link."""
    return os.path.normpath(os.path.join(os.path.dirname(path), to))


def pages():
    """The pages of the crate to which its root leads. What rustdoc wrote before may still lie there."""
    found, left = set(), [os.path.join(DOC, "index.html")]
    while left:
        path = left.pop()
        if path not in found and path.startswith(DOC + os.sep) and os.path.exists(path):
            found.add(path)
            left += [there(path, to) for to in PAGE.findall(text_of(path))]
    return sorted(found)


def sources():
    """The sources of the crate."""
    paths = (os.path.join(folder, name) for folder, _, names in os.walk(os.path.join(CRATE, "src")) for name in names)
    return sorted(path for path in paths if path.endswith(".rs"))


@functools.cache
def ids(path):
    """The anchors of a page, each with how often it is there."""
    return collections.Counter(re.findall(r' id="([^"]+)"', text_of(path)) if os.path.exists(path) else [])


def links(path):
    """The links of a page to definitions: the page and the anchor of each."""
    for to, anchor in LINK.findall(text_of(path)):
        page = there(path, to) if to else path
        if page.startswith(PAGES + os.sep):
            yield page, anchor


def contracts(path):
    """What follows each contract of a page, up to its end."""
    return [it.split("</details>", 1)[0] for it in text_of(path).split(SUMMARY)[1:]]


def wrong_page(path):
    """What is wrong with a page of the documentation, or None."""
    lost = sorted({anchor for page, anchor in links(path) if not ids(page)[anchor]})
    if lost:
        return f"links lead nowhere: {', '.join(lost)}"
    if not all("definitions/" in it for it in contracts(path)):
        return "a contract without links to definitions"
    twice = [anchor for anchor, count in ids(path).items() if count > 1 and path.startswith(PAGES)]
    return f"anchors that are there twice: {', '.join(twice)}" if twice else None


def owner(lines, i):
    """The line of the item whose documentation has the line at `i`, or of the trait that it is in."""
    at = next(k for k in range(i, len(lines)) if not re.match(r" *(?:///|#\[)", lines[k]))
    margin = len(lines[at]) - len(lines[at].lstrip())
    around = (it for it in reversed(lines[:at]) if it.strip() and len(it) - len(it.lstrip()) < margin)
    is_public = PUBLIC.match(lines[at])
    return lines[at] if is_public or not margin else next(around, "")


def wrong_source(path):
    """What is wrong with a source of the crate, or None."""
    lines = text_of(path).split("\n")
    owners = [(i + 1, owner(lines, i)) for i, line in enumerate(lines) if SUMMARY in line]
    hidden = [str(line) for line, it in owners if not PUBLIC.match(it)]
    if not all("crate::definitions::" in it for it in contracts(path)):
        return "a contract without links to definitions"
    return f"contracts of functions that are not public, in lines {', '.join(hidden)}" if hidden else None


def failures():
    """For each page of the documentation and for each source None, or what is wrong."""
    found = pages()
    for path, wrong in [*((it, wrong_page(it)) for it in found), *((it, wrong_source(it)) for it in sources())]:
        yield f"{os.path.relpath(path, CRATE)}: {wrong}" if wrong else None
    if os.path.join(PAGES, "index.html") not in found:
        yield "the root does not lead to the definitions"


def main():
    argparse.ArgumentParser(description=__doc__, formatter_class=argparse.RawDescriptionHelpFormatter).parse_args()
    wrong = [it for it in failures() if it]
    found = pages()
    ours = [path for path in found if path.startswith(PAGES + os.sep)]
    words = sum(anchor.startswith("def.") for path in ours for anchor in ids(path))
    led, promised = sum(len([*links(path)]) for path in found), sum(len(contracts(path)) for path in found)
    print(*wrong, f"{words} definitions on {len(ours)} pages; {led} links to them, {promised} contracts", sep="\n")
    return 1 if wrong else 0


if __name__ == "__main__":
    sys.exit(main())
