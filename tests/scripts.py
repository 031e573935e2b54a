"""Tests how the scripts of the repository take their words: --help prints what the script says of itself, with status 0; a wrong word ends it
with status 2 and a message, before it does anything. Then what a test prints of two values that differ.

    python3 tests/scripts.py

The scripts are all files that end in .sh, and those in Python that can be run. The last line is 'N passed, M failed'.
"""
import argparse
import concurrent.futures
import os
import re
import subprocess
import sys
import tempfile

from programs import count, differences

TOP = os.path.dirname(os.path.dirname(os.path.abspath(__file__)))
# What a file in Python has that is run, and is not only imported. The examples of the package are run where it is installed.
IS_RUN = re.compile(r'^if __name__ == "__main__":$|^words = argparse|\bwords\("|^from c_document import', re.M)
EXAMPLES = "c/examples/"
# found, wanted, and what is said of them
DIFFERENCES = [
    (1, 2, "1, not 2"),
    (("a line\n", 0), ("a line\n", 1), "[1] 0, not 1"),
    ("one\ntwo\nthree\n", "one\nzwei\nthree\n", "[1] 'two\\n', not 'zwei\\n'"),
    ("one\n", "one\ntwo\n", "[1] nothing, not 'two\\n'"),
    ([{"vid": 5, "pcp": 1}] * 20_000 + [{"vid": 6, "pcp": 1}], [{"vid": 5, "pcp": 1}] * 20_001, "[20000]['vid'] 6, not 5"),
    ([1] * 9, [2] * 9, "; ".join(f"[{at}] 1, not 2" for at in range(5)) + "; and more"),
    ("a" * 500, "b", f"'{'a' * 399}.. (502 characters), not 'b'"),
]


def scripts():
    """The paths of the scripts, below the top."""
    listed = subprocess.run(["git", "ls-files", "*.sh", "*.py"], cwd=TOP, stdout=subprocess.PIPE, text=True, check=True).stdout.split()
    for path in listed:
        with open(os.path.join(TOP, path), encoding="utf-8") as file:
            text = file.read()
        if path.endswith(".sh") or IS_RUN.search(text) and not path.startswith(EXAMPLES):
            yield path


def outcome(path, *words):
    """How a script ends with these words: its status, whether it prints something, whether it says something, and whether that is a traceback."""
    program = "sh" if path.endswith(".sh") else sys.executable
    with tempfile.TemporaryDirectory() as folder:
        try:
            ran = subprocess.run([program, os.path.join(TOP, path), *words], cwd=folder, stdin=subprocess.DEVNULL, capture_output=True, text=True,
                                 timeout=60, env={**os.environ, "PYTHONDONTWRITEBYTECODE": "1"}, check=False)
        except subprocess.TimeoutExpired:
            return "no end after a minute"
        left = os.listdir(folder)
    return ran.returncode, bool(ran.stdout), bool(ran.stderr), "Traceback" in ran.stderr, left


def main():
    argparse.ArgumentParser(description=__doc__, formatter_class=argparse.RawDescriptionHelpFormatter).parse_args()
    tried = [(f"{found!r:.40} beside {wanted!r:.40}", differences(found, wanted), said) for found, wanted, said in DIFFERENCES]
    with concurrent.futures.ThreadPoolExecutor(len(os.sched_getaffinity(0))) as pool:
        for path in scripts():
            tried.append((f"{path} --help", pool.submit(outcome, path, "--help").result, (0, True, False, False, [])))
            tried.append((f"{path} --no-such-option", pool.submit(outcome, path, "--no-such-option").result, (2, False, True, False, [])))
        return count(tried)


if __name__ == "__main__":
    sys.exit(main())
