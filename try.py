"""Runs tests and programs before any proof: a quick look at what a change does. Only `.ci/run` proves.

    python3 try.py               the tests of each crate, and the stored run of each program
    python3 try.py CRATE         those of one crate
    python3 try.py CRATE WORD    the tests of one crate whose names have WORD

The crates `library_tests` and `drawn_calls` are folders of tests. They need no proof, so they are not in crates.txt, and
their files end in .rt.txt. Here they are copied to a crate next to the others; with --format they are written back as
`rt fmt` lays them out. A failed test is followed by what it printed. The last line is 'N passed, M failed'.
"""
import argparse
import concurrent.futures
import os
import re
import shutil
import subprocess
import sys
import tempfile

TOP = os.path.dirname(os.path.abspath(__file__))
CRATES = f"{TOP}/crates"
TESTS, CALLS = "library_tests", "drawn_calls"
SECONDS = 3600  # for the calls
LIBRARIES = "ether_base ether_tags ether_sll ether_arp etherparse ether_peel ether_sll2 ether_packet ether_filter ether_pcap ether_content ether_switch arrayvec"
# The crates that need no proof, each with the libraries that it uses.
UNPROVED = {TESTS: f"{LIBRARIES} ether_fields ether_output ether_format ether_text example_frames", CALLS: f"{LIBRARIES} ether_fields ether_output ether_format anyhow"}


def has_tests(crate):
    """Whether a source file of the crate has a test."""
    for folder, _, names in os.walk(f"{CRATES}/{crate}/src"):
        for name in names:
            with open(f"{folder}/{name}", encoding="utf-8") as file:
                if re.search(r"^\s*#\[test\]", file.read(), re.M):
                    return True
    return False


def stored(crate, name):
    """The bytes of a file beside the sources, or none."""
    try:
        with open(f"{CRATES}/{crate}/{name}", "rb") as file:
            return file.read()
    except FileNotFoundError:
        return b""


def failures(printed):
    """The lines of each failed test: its name, and what it printed, which is indented."""
    lines = printed.splitlines()
    for i, line in enumerate(lines):
        if re.match(r"test \S+ \.\.\. FAILED$", line):
            end = next((k for k in range(i + 1, len(lines)) if not lines[k].startswith(" ")), len(lines))
            yield from lines[i:end]


def files_of(folder):
    """The paths of the files below a folder."""
    return sorted(os.path.relpath(f"{at}/{name}", folder) for at, _, names in os.walk(folder) for name in names)


def sources(crate):
    return f"{TOP}/tests/{crate}/src"


def copy_tests(room, crate):
    """Makes a repository in the folder `room` that also has a crate of tests, and returns its folder."""
    shutil.copytree(CRATES, f"{room}/crates", ignore=shutil.ignore_patterns("out"))
    with open(f"{TOP}/crates.txt", encoding="utf-8") as known, open(f"{room}/crates.txt", "w", encoding="utf-8") as file:
        file.write(f"{known.read()}{crate}: {UNPROVED[crate]}\n")
    for path in files_of(sources(crate)):
        copy = f"{room}/crates/{crate}/src/{path.removesuffix('.txt')}"
        os.makedirs(os.path.dirname(copy), exist_ok=True)
        shutil.copyfile(f"{sources(crate)}/{path}", copy)
    return f"{room}/crates/{crate}"


def lay_out(folder, crate, write):
    """Runs `rt fmt` on the copied tests. Returns the files that it changes; `write` says that these are written back."""
    subprocess.run(["rt", "fmt"], cwd=folder, stdout=subprocess.DEVNULL, check=True)
    changed = []
    for path in files_of(sources(crate)):
        with open(f"{folder}/src/{path.removesuffix('.txt')}", "rb") as copy, open(f"{sources(crate)}/{path}", "rb") as source:
            if copy.read() != source.read():
                changed.append(path)
        if write:
            shutil.copyfile(f"{folder}/src/{path.removesuffix('.txt')}", f"{sources(crate)}/{path}")
    return changed


def try_library_tests(word=""):
    """The same as `try_tests`, of the tests that need no proof."""
    with tempfile.TemporaryDirectory() as room:
        folder = copy_tests(room, TESTS)
        ill = [] if word else [f"{TESTS}: {path} is not in the layout of rt fmt" for path in lay_out(folder, TESTS, False)]
        text, passed, failed = run_tests(TESTS, folder, word)
        return "\n".join([*ill, text]), passed, failed + len(ill)


def try_calls(*words):
    """The lines that `drawn_calls` prints for these words, and what is wrong with its layout or its run."""
    with tempfile.TemporaryDirectory() as room:
        folder = copy_tests(room, CALLS)
        ill = [f"{CALLS}: {path} is not in the layout of rt fmt" for path in lay_out(folder, CALLS, False)]
        ran = subprocess.run(["rt", "try", "--steps", "1", "--seconds", str(SECONDS), "--", *words], cwd=folder, stdin=subprocess.DEVNULL, capture_output=True, text=True)
        if "checked: ended status=0" not in ran.stdout + ran.stderr:
            ill.append(f"{CALLS} {' '.join(words)}:\n{(ran.stdout + ran.stderr)[-2000:]}")
        return re.findall(r"^\d+ \d+$", ran.stdout, re.M), ill


def try_some_calls():
    """What is to be said of `drawn_calls` for one input of each kind, and how many runs passed and failed."""
    _, ill = try_calls("0", "16", "16")
    return "\n".join(ill or [f"{CALLS}: 16 inputs"]), int(not ill), len(ill)


def try_tests(crate, word=""):
    """What is to be said of the tests of a crate whose names have the word, and how many passed and failed."""
    return run_tests(crate, f"{CRATES}/{crate}", word)


def run_tests(crate, folder, word):
    words = ["rt", "try", "--test", "--seconds", "600", *(["--", word] if word else [])]
    ran = subprocess.run(words, cwd=folder, stdin=subprocess.DEVNULL, capture_output=True, text=True)
    told = re.search(r"^test result: .* (\d+) passed; (\d+) failed", ran.stdout, re.M)
    if not told:
        return f"{crate}: its tests did not run:\n{(ran.stdout + ran.stderr)[-2000:]}", 0, 1
    return "\n".join([f"{crate}: {told[1]} passed, {told[2]} failed", *failures(ran.stdout)]), int(told[1]), int(told[2])


def try_program(crate):
    """What is to be said of a program on its stored input, and how many runs passed and failed."""
    words = ["rt", "try", "--", *stored(crate, "args").decode().splitlines()]
    ran = subprocess.run(words, cwd=f"{CRATES}/{crate}", input=stored(crate, "stdin"), capture_output=True)
    well = ran.stdout == stored(crate, "stdout") and ran.returncode == int(stored(crate, "status") or 0)
    return f"{crate}: the program printed {'what' if well else 'something else than'} its file stdout has", int(well), int(not well)


def jobs_of(crate, word=""):
    """The calls that try a crate: its tests, and unless a word picks some of them, its program."""
    if crate == TESTS:
        yield try_library_tests, word
        return
    if crate == CALLS:
        yield try_some_calls,
        return
    if has_tests(crate):
        yield try_tests, crate, word
    if not word and os.path.isfile(f"{CRATES}/{crate}/src/main.rt"):
        yield try_program, crate


def known():
    return [*UNPROVED, *sorted(os.listdir(CRATES))]


def asked(given):
    """The calls that the words of the command line ask for, or SystemExit."""
    if given.crate is None:
        return sorted((job for crate in known() for job in jobs_of(crate)), key=lambda job: job[0] is try_program)
    return list(jobs_of(given.crate, given.word)) or sys.exit(f"try.py: {given.crate} has no such tests and no program")


def main():
    words = argparse.ArgumentParser(description=__doc__, formatter_class=argparse.RawDescriptionHelpFormatter)
    words.add_argument("crate", metavar="CRATE", nargs="?", choices=known())
    words.add_argument("word", metavar="WORD", nargs="?", default="")
    words.add_argument("--format", action="store_true", help="lay out the crates of tests, and run nothing")
    given = words.parse_args()
    if given.format:
        for crate in UNPROVED:
            with tempfile.TemporaryDirectory() as room:
                print(*lay_out(copy_tests(room, crate), crate, True), sep="\n")
        return 0
    passed, failed, jobs = 0, 0, asked(given)
    with concurrent.futures.ThreadPoolExecutor(len(os.sched_getaffinity(0))) as pool:
        for run in concurrent.futures.as_completed([pool.submit(*job) for job in jobs]):
            text, well, ill = run.result()
            print(text, flush=True)
            passed, failed = passed + well, failed + ill
    print(f"{passed} passed, {failed} failed")
    return 1 if failed or not passed else 0


if __name__ == "__main__":
    sys.exit(main())
