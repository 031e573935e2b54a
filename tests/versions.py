"""Compares what each part says of its version with the file VERSION. The last line is 'N passed, M failed'.

    python3 tests/versions.py --set 3.1.0

writes another version to all these places, and to VERSION; `python3 rust/erase.py` then writes what cargo builds.
"""
import argparse
import os
import re
import sys

TOP = os.path.dirname(os.path.dirname(os.path.abspath(__file__)))
MANIFEST = r'^version = "(.*)"'
LOCKED = r'^name = "ether\w+"\nversion = "(.*)"'
# Where a version is stated, perhaps several times. A group is the whole version, or else there is a group for each of its numbers.
PLACES = {
    "rust/etherpeel/Cargo.toml": MANIFEST,
    "rust/etherpeel_c/Cargo.toml": MANIFEST,
    "rust/ether_tools/Cargo.toml": MANIFEST,
    "rust/etherpeel_c/Cargo.lock": LOCKED,
    "rust/ether_tools/Cargo.lock": LOCKED,
    "c/python/pyproject.toml": MANIFEST,
    "c/python/backend.py": r'VERSION, TAG = "etherpeel", "(.*?)"',
    "c/python/etherpeel/__init__.py": r'^__version__ = "(.*)"',
    "c/etherpeel.3": r'"etherpeel (\d+)\.(\d+)"',
    "man/ether_tool.1": r'"etherpeel (\d+)\.(\d+)"',
    "man/ether_capture.1": r'"etherpeel (\d+)\.(\d+)"',
    "man/ether_make.1": r'"etherpeel (\d+)\.(\d+)"',
    "man/ether-filter.7": r'"etherpeel (\d+)\.(\d+)"',
    "c/etherpeel.pc.in": r"^Version: (.*)",
    "c/etherpeel-config-version.cmake": r"PACKAGE_VERSION (\d.*)\)",
    "c/install.sh": r"libetherpeel\.so\.(\d+\.\d+\.\d+)",
    "c/etherpeel.h": r"VERSION_MAJOR (\d+)\n#define ETHERPEEL_VERSION_MINOR (\d+)\n",
    "c/link.sh": r"soname,libetherpeel\.so\.(\d+) ",
    "crates/ether_c/src/library.rt": r"version_number (\d+) (\d+) (\d+) ",
    "crates/ether_capture/src/options.rt": r'\.version\("(.*)"\)',
    "crates/ether_make/src/about.rt": r'VERSION: &str = "ether_make (.*)"',
    "crates/ether_text/src/tool/about.rt": r'VERSION: &str = "ether_tool (.*)"',
    "crates/ether_stream/src/about.rt": r'VERSION: &str = "ether_capture (.*)"',
    "rust/ether_tools/src/ether_capture/options.rs": r'\.version\("(.*)"\)',
    "page/page.html": r'content="etherpeel (.*)">',
    "CITATION.cff": r"^version: (.*)",
    "release/debian.sh": r"libetherpeel\.so\.(\d+\.\d+\.\d+)",
    "tests/ether_capture.py": r'"ether_capture (\d.*?)\\n"',
    "CHANGELOG.md": r"\A(?:(?!## ).*\n)*## (\d.*?)(?:$| )",
}


def failures(version):
    """For each place None, or what is wrong there."""
    numbers = version.split(".")
    for path, pattern in PLACES.items():
        with open(os.path.join(TOP, path), encoding="utf-8") as file:
            found = [list(it.groups()) for it in re.finditer(pattern, file.read(), re.M)]
        other = [told for told in found if told not in ([version], numbers[:len(told)])]
        yield None if found and not other else f"{path} says {'.'.join(other[0]) if other else 'nothing'}, and VERSION {version}"


def with_version(text, pattern, old, new):
    """The text of a place with another version: the whole one, or each of its numbers."""
    for found in reversed(list(re.finditer(pattern, text, re.M))):
        numbers = [new] if list(found.groups()) == [old] else new.split(".")
        for group in range(len(found.groups()), 0, -1):
            start, end = found.span(group)
            text = text[:start] + numbers[group - 1] + text[end:]
    return text


def set_version(old, new):
    for path, pattern in {"VERSION": r"^(.+)$", **PLACES}.items():
        with open(os.path.join(TOP, path), encoding="utf-8") as file:
            text = file.read()
        with open(os.path.join(TOP, path), "w", encoding="utf-8") as file:
            file.write(with_version(text, pattern, old, new))


def main():
    words = argparse.ArgumentParser(description=__doc__, formatter_class=argparse.RawDescriptionHelpFormatter)
    words.add_argument("--set", metavar="VERSION", help="the version to write")
    given = words.parse_args()
    with open(os.path.join(TOP, "VERSION"), encoding="utf-8") as file:
        version = file.read().strip()
    if given.set:
        if not re.fullmatch(r"\d+\.\d+\.\d+", given.set):
            words.error(f"{given.set} is not a version of three numbers")
        set_version(version, given.set)
        version = given.set
    found = list(failures(version))
    for wrong in filter(None, found):
        print(wrong)
    failed = sum(it is not None for it in found)
    print(f"{len(found) - failed} passed, {failed} failed")
    return 1 if failed else 0


if __name__ == "__main__":
    sys.exit(main())
