"""Tests the manual pages: groff, if it is there, has no warning; those of ether_tool and ether_make have each word of their usage, and ether-filter(7) each
primitive of docs/FORMAT.md. tests/options.py tests that of ether_capture. The last line is 'N passed, M failed'."""
import argparse
import glob
import os
import re
import shutil
import subprocess
import sys
import tempfile

TOP = os.path.dirname(os.path.dirname(os.path.abspath(__file__)))
counts = {True: 0, False: 0}


def check(what, holds, said=""):
    counts[bool(holds)] += 1
    if not holds:
        print(f"{what}: {said}")


def text(path):
    with open(os.path.join(TOP, path), encoding="utf-8") as file:
        return file.read()


def page(path):
    """The words of a page, without its macros and fonts."""
    plain = re.sub(r"\\f.", "", text(path)).replace("\\-", "-").replace('"', "")
    return " ".join(re.sub(r"^\.[A-Z]+ ?", "", plain, flags=re.M).split())


def check_form():
    """Runs groff over the pages, those that c/manual.py writes among them."""
    if not shutil.which("groff"):
        print("left out: the form of the manual pages, since groff was not found")
        return
    with tempfile.TemporaryDirectory() as folder:
        subprocess.run([sys.executable, "-B", f"{TOP}/c/manual.py", folder], check=True)
        declared = set(re.findall(r"^(?:static inline )?\w+ (etherpeel_\w+)\(", text("c/etherpeel.h"), re.M))
        check("a page for each call", declared <= {name[:-2] for name in os.listdir(folder)}, declared)
        made = [it for it in sorted(glob.glob(f"{folder}/*.3")) if not text(it).startswith(".so ")]
        for path in [*sorted(glob.glob(f"{TOP}/man/*.[1-8]")), f"{TOP}/c/etherpeel.3", *made]:
            ran = subprocess.run(["groff", "-man", "-ww", "-Tutf8", "-z", path], capture_output=True, text=True)
            check(path, ran.returncode == 0 and not ran.stderr, ran.stderr)


def main():
    argparse.ArgumentParser(description=__doc__, formatter_class=argparse.RawDescriptionHelpFormatter).parse_args()
    check_form()
    for word in ("eth", "fcs", "sll", "type XXXX", "feed", "limit N"):
        check("ether_tool(1)", word in page("man/ether_tool.1"), f"{word} is missing")
    for word in re.findall(r"--\w+", text("crates/ether_make/src/about.rt")):
        check("ether_make(1)", word in page("man/ether_make.1"), f"{word} is missing")
    table = text("docs/FORMAT.md").partition("Primitive | True of a packet\n---|---\n")[2].partition("\n\n")[0]
    for primitive in re.findall(r"`([^`]*)`", " ".join(row.partition(" | ")[0] for row in table.split("\n"))):
        check("ether-filter(7)", primitive in page("man/ether-filter.7"), f"{primitive} is missing")
    print(f"{counts[True]} passed, {counts[False]} failed")
    return 1 if counts[False] else 0


if __name__ == "__main__":
    sys.exit(main())
