"""What the crate shows, as rustdoc lists it: each public type has a row in `tests/traits.rs`, each feature one in the
page of the package, the root leads to each module, and `tests/serde.rs` names each type that serde reads."""
import os
import re

from building import CRATE, features
from erasing import adding

LISTED = re.compile(r'href="([\w/]*?)(?:struct|enum|union|type)\.(\w+)\.html"')


def text_of(*path):
    with open(os.path.join(CRATE, *path), encoding="utf-8") as file:
        return file.read()


def failures():
    """For each public type, feature and module None, or what is wrong."""
    rows = set(re.findall(r"(?:\w+::)*\w+", text_of("tests", "traits.rs")))
    listed = LISTED.findall(text_of("target", "doc", "etherpeel", "all.html"))
    for path in sorted({f"{folder.replace('/', '::')}{name}" for folder, name in listed}):
        yield None if path in rows else f"tests/traits.rs has no row of {path}"
    tested = set(re.findall(r"\w+", text_of("tests", "serde.rs")))
    for name in adding.SERIALIZED:
        yield None if name in tested else f"tests/serde.rs does not have {name}"
    page = text_of("README.md")
    for name in features():
        yield None if f"\n| `{name}`" in page else f"README.md has no row of the feature {name}"
    root = text_of("target", "doc", "etherpeel", "index.html")
    for name in set(re.findall(r'class="mod" href="(\w+)/index.html"', root)):
        yield None if root.count(f'href="{name}/index.html"') > 1 else f"the root does not lead to {name}"
    said = len(re.findall("link[- ]layer(?: headers)? of network packets", root.split("<main>", 1)[1]))
    yield None if said == 1 else f"the root says {said} times what the crate is"
