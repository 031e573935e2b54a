"""Plants faults into what is written by hand, and says which of them the tests do not see.

    python3 tests/planted.py [--check | WORD]

With --check it plants none, and says which rows name a text that is not there, or not once. WORD picks the faults whose file or name has it. The faults are in `planted_faults.py`. Those in C and Rust are all in one build, which has
the one whose number the variable PLANTED is; of those in Python and of the page there is a copy each. Of each fault the tests of its file
are run, the cheapest first, up to the first that fails. A fault that none sees is printed; it counts as failed unless its row says why no
test can see it.

Needs cargo and gcc; the switch needs what `network.py` needs, the page a browser and page/out/index.html, which `sh page/build.sh` makes. What
is missing is left out, and a line says so. It takes some ten minutes, and only --check is a part of the gate. The last line is 'N passed, M failed'.
"""

import argparse
import concurrent.futures
import itertools
import os
import re
import shutil
import subprocess
import sys
import tempfile

from planted_faults import FAULTS

TOP = os.path.dirname(os.path.dirname(os.path.abspath(__file__)))
SECONDS = 300  # for one test
WITH_PANDAS = "/usr/bin/python3" if os.path.exists("/usr/bin/python3") else sys.executable  # that of Debian, which has its pandas
WORKERS = 3
C_SWITCH = '#define _GNU_SOURCE\n#include <stdlib.h>\nstatic int planted(int number) { return getenv("PLANTED") && atoi(getenv("PLANTED")) == number; }\n'
RUST_SWITCH = """
/// Whether the fault of a number is planted.
pub fn planted(number: u32) -> bool {
    std::env::var("PLANTED").is_ok_and(|it| it == number.to_string())
}
"""
# the same without std
BARE_SWITCH = """
fn planted(number: u32) -> bool {
    unsafe extern "C" {
        fn getenv(name: *const core::ffi::c_char) -> *const core::ffi::c_char;
        fn atoi(text: *const core::ffi::c_char) -> core::ffi::c_int;
    }
    unsafe {
        let told = getenv(c"PLANTED".as_ptr());
        !told.is_null() && atoi(told) == number as core::ffi::c_int
    }
}
"""


# ---- planting

def misplaced(text, fault):
    """What is wrong if a fault's old text does not occur once in a text, or once within the fault's context that does; else None."""
    around = fault.within or fault.old
    if text.count(around) == around.count(fault.old) == 1:
        return None
    return f"{fault.file}: {fault.name}: {around!r} occurs {text.count(around)} times"


def replaced(text, fault, new):
    """A text with something else in the place of a fault's old text."""
    around = fault.within or fault.old
    if wrong := misplaced(text, fault):
        sys.exit(wrong)
    return text.replace(around, around.replace(fault.old, new))


def check():
    """Says which rows name a text that is not there, and returns the status."""
    found = [misplaced(read(f"{TOP}/{fault.file}"), fault) for fault in FAULTS]
    failed = [it for it in found if it]
    print(*failed, f"{len(found) - len(failed)} passed, {len(failed)} failed", sep="\n")
    return 1 if failed else 0


def switched(faults):
    """What stands for one old text that some numbered faults have: the new text of the one that is planted, else the old text."""
    number, fault = faults[0]
    is_c, is_statement = fault.file.endswith((".c", ".h")), fault.old.endswith(";")
    place = "" if is_c or "by_hand" in fault.file else "ether_tools::" if "/bin/" in fault.file else "crate::"
    text = fault.old
    for number, fault in faults:
        if is_c and not is_statement:
            text = f"(planted({number}) ? ({fault.new}) : ({text}))"
        else:
            text = f"if {'(' * is_c}{place}planted({number}){')' * is_c} {{ {fault.new} }} else {{ {text} }}"
    return f"{{ {text} }}" if is_statement else f"({text})"


def plant(tree, numbered):
    """Puts all faults of C and Rust into a tree of the repository's files."""
    for path, listed in by(numbered, lambda fault: fault.file):
        if path.endswith((".c", ".h", ".rs")):
            text = read(f"{tree}/{path}")
            for _, same in by(listed, lambda fault: (fault.within or "", fault.old)):
                text = replaced(text, same[0][1], switched(same))
            text = C_SWITCH + text if path.endswith(".c") else text + BARE_SWITCH * ("by_hand" in path)
            write(f"{tree}/{path}", text)
    write(f"{tree}/rust/ether_tools/src/lib.rs", read(f"{tree}/rust/ether_tools/src/lib.rs") + RUST_SWITCH)


def by(numbered, key):
    """Numbered faults in groups of one key."""
    of = lambda it: key(it[1])  # noqa: E731
    return [(it, list(group)) for it, group in itertools.groupby(sorted(numbered, key=of), of)]


def read(path):
    with open(path, encoding="utf-8") as file:
        return file.read()


def write(path, text):
    with open(path, "w", encoding="utf-8") as file:
        file.write(text)


# ---- the build, and the tests

class Trial:
    """A tree of the repository's files in which all faults are planted, and what is built of it."""

    def __init__(self, folder, numbered):
        self.folder, self.tree = folder, f"{folder}/tree"
        listed = subprocess.run(["git", "ls-files", "-z", ":!crates"], cwd=TOP, stdout=subprocess.PIPE, text=True, check=True).stdout
        for path in filter(None, listed.split("\0")):
            os.makedirs(os.path.dirname(f"{self.tree}/{path}"), exist_ok=True)
            shutil.copy(f"{TOP}/{path}", f"{self.tree}/{path}")
        plant(self.tree, numbered)
        self.library = f"{self.build('etherpeel_c')}/libetherpeel_c.a"
        self.programs = self.build("ether_tools", "--bins", "--examples")
        self.run("sh", f"{self.tree}/c/link.sh", "gcc", self.library, f"{folder}/libetherpeel.so.3")
        self.run("gcc", "-O1", f"{self.tree}/c/tests/tests.c", self.library, "-o", f"{folder}/tests")

    def run(self, *words):
        done = subprocess.run(words, stdout=subprocess.PIPE, stderr=subprocess.STDOUT, text=True, check=False)
        if done.returncode:
            sys.exit(f"{' '.join(words)}:\n{done.stdout[-4000:]}")
        return done.stdout

    def build(self, package, *words):
        return self.run("sh", f"{self.tree}/rust/build.sh", package, *words).strip().splitlines()[-1]

    def python(self, number, fault):
        """A copy of the package with a fault."""
        folder = f"{self.folder}/python{number}"
        shutil.copytree(f"{self.tree}/c/python/etherpeel", f"{folder}/etherpeel", dirs_exist_ok=True)
        shutil.copy(f"{self.folder}/libetherpeel.so.3", f"{folder}/etherpeel")
        if fault:
            path = f"{folder}/etherpeel/{os.path.basename(fault.file)}"
            write(path, replaced(read(path), fault, fault.new))
        return folder

    def page(self, number, fault):
        """A copy of the page with a fault."""
        folder = f"{self.folder}/page{number}"
        shutil.copytree(f"{TOP}/page", folder, dirs_exist_ok=True)
        if fault:
            path = f"{folder}/out/index.html"
            write(path, replaced(read(path), fault, fault.new))
        return folder

    def tests(self, number, fault, path):
        """The commands that test a file, the cheapest first."""
        tests, c_tests = f"{self.tree}/tests", f"{self.tree}/c/tests"
        examples = [f"{self.programs}/examples/{name}" for name in ("example_switch", "example_vlan_rewriter")]
        if path.endswith(("switch.c", "interface.h")):
            return [[sys.executable, f"{tests}/switch.py", self.library], [sys.executable, f"{tests}/network.py", self.library, examples[0]]]
        if "by_hand" in path:
            return [[f"{self.folder}/tests"]]
        if path.endswith(".py"):
            folder = self.python(number, fault)
            words = [["tests.py", folder, word] for word in ("lent", "nested", "")]
            tables = [WITH_PANDAS, f"{c_tests}/tables.py", folder]
            return [*([sys.executable, f"{c_tests}/{name}", *others] for name, *others in [*words, ["pools.py", folder]]), tables]
        if path.endswith(".js"):
            return [[sys.executable, f"{self.page(number, fault)}/test.py"]]
        if "examples" in path:
            return [[sys.executable, f"{tests}/examples.py", *examples]]
        if "jobs" in path:
            return [[sys.executable, f"{self.tree}/rust/threads.py", f"{self.programs}/ether_capture"]]
        words = [[f"{tests}/ether_capture.py", "--gzip"], [f"{self.tree}/rust/packed.py"], [f"{self.tree}/rust/endings.py"], [f"{self.tree}/rust/threads.py"]]
        words = [[sys.executable, *it, f"{self.programs}/ether_capture"] for it in words]
        return [*words, [sys.executable, f"{tests}/ether_tool.py", f"{self.programs}/ether_tool"]]

    def seen(self, number, fault, path):
        """The name of the first test that sees a fault, or None."""
        for words in self.tests(number, fault, path):
            environment = {**os.environ, "PLANTED": str(number), "PYTHONDONTWRITEBYTECODE": "1"}
            try:
                done = subprocess.run(words, env=environment, stdin=subprocess.DEVNULL, stdout=subprocess.PIPE, stderr=subprocess.STDOUT,
                                      text=True, errors="replace", timeout=SECONDS, check=False)
            except subprocess.TimeoutExpired:
                return "a test that does not end"
            counts = re.findall(r"^(\d+) passed, (\d+) failed$", done.stdout, re.M)
            if done.returncode or not counts or counts[-1][1] != "0":
                return shown(done.stdout, done.returncode)
        return None


def shown(text, status):
    """What a test that fails says first, or of an exception last."""
    lines = text.strip().splitlines() or [f"the status {status}"]
    return lines[-1 if lines[0].startswith("Traceback") else 0][:200]


def left_out(path):
    """Why a file's faults can't be tried here, or None."""
    if path.endswith(".js") and not os.path.isfile(f"{TOP}/page/out/index.html"):
        return "page/out/index.html is not there"
    if path.endswith(("switch.c", "interface.h")) and (os.getuid() != 0 or not shutil.which("ip") or not shutil.which("ping")):
        return "network namespaces take root, ip and ping"
    return None


def tried(trial, numbered):
    """How many faults were seen, or can't be, and how many were not."""
    passed = failed = 0
    for path in {str(trial.tests(0, None, fault.file)): fault.file for _, fault in numbered}.values():
        if wrong := trial.seen(0, None, path):
            sys.exit(f"{path}: without a fault: {wrong}")
    with concurrent.futures.ThreadPoolExecutor(WORKERS) as pool:
        for (_, fault), seen in zip(numbered, pool.map(lambda it: trial.seen(*it, it[1].file), numbered)):
            is_well = bool(seen or fault.why)
            passed, failed = passed + is_well, failed + (not is_well)
            said = f"seen: {seen}" if seen else f"not seen, since {fault.why}" if fault.why else "NOT SEEN"
            print(f"{fault.file}: {fault.name}: {said}", flush=True)
    return passed, failed


def main():
    words = argparse.ArgumentParser(description=__doc__, formatter_class=argparse.RawDescriptionHelpFormatter)
    words.add_argument("word", metavar="WORD", nargs="?", default="")
    words.add_argument("--check", action="store_true")
    given = words.parse_args()
    if given.check:
        return check()
    word = given.word
    numbered = [it for it in enumerate(FAULTS, 1) if word in it[1].file or word in it[1].name]
    for path in sorted({fault.file for _, fault in numbered}):
        if why := left_out(path):
            print(f"left out: the faults of {path}, since {why}")
    kept = [it for it in numbered if not left_out(it[1].file)]
    with tempfile.TemporaryDirectory() as folder:
        os.chmod(folder, 0o755)  # some tests run a program as another user
        passed, failed = tried(Trial(folder, list(enumerate(FAULTS, 1))), kept)
    print(f"{passed} passed, {failed} failed")
    return 1 if failed else 0


if __name__ == "__main__":
    sys.exit(main())
