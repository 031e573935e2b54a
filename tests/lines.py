"""Finds lines of the crates that are too long to be read, and files that have too many of them.

    python3 tests/lines.py

A line has at most 120 columns, unless it is an import, an attribute, a ghost field or a text, which can't be broken. Of a clause in a .rt
file `rt fmt` joins what fits in 123. A file has at most 600 lines. Prints each that has more, and the last line is 'N passed, M failed'.
"""
import argparse
import glob
import os
import re
import sys

TOP = os.path.dirname(os.path.dirname(os.path.abspath(__file__)))
COLUMNS, LINES = {".antt": 120, ".rt": 123}, 600
# where a text begins that goes on in the next line
OPEN = re.compile(r'(?:= |^ +)"(?:[^"\\]|\\.)*$')
WHOLE = re.compile(r"""\s*(pub use |ghost use |use |ghost \w+: |#\[|(/// +)?(\w+(?: =|:) )?(codes |b|\\)?")""")


def wrong_lines(path):
    """What is too long in a file."""
    with open(path, encoding="utf-8") as file:
        lines = file.read().splitlines()
    is_text = False
    for number, line in enumerate(lines, 1):
        if len(line) > COLUMNS[os.path.splitext(path)[1]] and not is_text and not WHOLE.match(line):
            yield f"{os.path.relpath(path, TOP)}:{number}: {len(line)} columns"
        is_text = not line.endswith('";') if is_text else bool(OPEN.search(line))
    if len(lines) > LINES:
        yield f"{os.path.relpath(path, TOP)}: {len(lines)} lines"


def main():
    argparse.ArgumentParser(description=__doc__, formatter_class=argparse.RawDescriptionHelpFormatter).parse_args()
    paths = [path for folder in ("src", "specs", "proofs") for form in ("rt", "antt") for path in glob.glob(f"{TOP}/crates/*/{folder}/**/*.{form}", recursive=True)]
    wrong = [list(wrong_lines(path)) for path in sorted(paths)]
    print("\n".join(line for lines in wrong for line in lines))
    failed = sum(map(bool, wrong))
    print(f"{len(wrong) - failed} passed, {failed} failed")
    return int(failed > 0)


if __name__ == "__main__":
    sys.exit(main())
