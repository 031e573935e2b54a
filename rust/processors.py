"""Runs tests on other processors: aarch64, s390x, where the first byte of a number counts most, and i686, where `usize` has 32
bits and a sum that overflows ends the program.

    python3 rust/processors.py [--fetch] [PROCESSOR..]

Debian's rustc-web, the oldest compiler that the crates are for, builds all. qemu runs it; x86-64 itself runs the programs of
i686. Each processor runs the tests of the crate, but not those of its documentation, and drawn_calls, whose lines have to be
those of this processor. The first two also run the tests in C of the library, and those of the programs. The standard libraries
that Debian has for them are kept in the user's cache folder. With --fetch, and on a machine of its own (CI=true), apt downloads
them, 115 MB. That needs no root, and changes nothing of the system. What is left out is said, and why. The last line is
'N passed, M failed'.
"""
import argparse
import concurrent.futures
import glob
import itertools
import os
import re
import shutil
import subprocess
import sys
import tempfile

sys.dont_write_bytecode = True
import building  # noqa: E402
import drawn  # noqa: E402

DEBIAN = {"aarch64": "arm64", "s390x": "s390x", "i686": "i386"}  # the names of the processors
EMULATED = ["aarch64", "s390x"]
TOP = os.path.dirname(building.HERE)
RUSTC, STANDARD = "/usr/bin/rustc", "libstd-rust-web-dev"
SLOW = ["stations"]  # tests of the crate that are built with optimisation
INPUTS, PER_LINE = 20_000, 500  # of drawn_calls
# Debian's compiler_builtins of these processors names what unwinds a panic, and the library for C, which aborts, has none.
LINKED = "-Wl,--defsym=rust_eh_personality=0"
EACH = 16  # which part of the tests of ether_capture is run
SECONDS = 1_200  # for one call
APT = """#clear APT::Architectures;
APT::Architectures {{ {names}}};
APT::Sandbox::User "";
Acquire::Languages "none";
Acquire::Retries "0";
Acquire::http::Timeout "20";
Dir::State "{room}/state";
Dir::State::status "/dev/null";
Dir::Cache "{room}/cache";
"""


def triple(name):
    return f"{name}-unknown-linux-gnu"


def emulator(name):
    """The words that run a program of a processor."""
    return [f"qemu-{name}", "-L", f"/usr/{name}-linux-gnu"] if name in EMULATED else []


def version():
    """The version of Debian's standard library here, which those of other processors need to have; None if it is not there."""
    if building.oldest_rustc() != RUSTC or shutil.which("dpkg-query") is None:
        return None
    words = ["dpkg-query", "-W", "-f", "${Version}", STANDARD]
    return subprocess.run(words, stdout=subprocess.PIPE, stderr=subprocess.DEVNULL, text=True).stdout or None


def kept(told):
    """The folder with the standard libraries of this version."""
    cache = os.environ.get("XDG_CACHE_HOME") or os.path.expanduser("~/.cache")
    return os.path.join(cache, "etherpeel", f"{STANDARD}_{told}")


def has_library(folder, name):
    return os.path.isdir(f"{folder}/usr/lib/rustlib/{triple(name)}")


def fetch(names, told):
    """Downloads standard libraries of a version, with folders of apt that are not those of the system. Says why if it can't."""
    folder = kept(told)
    wanted = [name for name in names if not has_library(folder, name)]
    if not wanted:
        return
    with tempfile.TemporaryDirectory() as room:
        for path in ("state/lists/partial", "cache/archives/partial"):
            os.makedirs(f"{room}/{path}")
        with open(f"{room}/apt.conf", "w", encoding="utf-8") as file:
            file.write(APT.format(room=room, names="".join(f'"{DEBIAN[name]}"; ' for name in wanted)))
        given = {**os.environ, "APT_CONFIG": f"{room}/apt.conf"}
        subprocess.run(["apt-get", "-qq", "update"], env=given, stdin=subprocess.DEVNULL, capture_output=True)
        for name in wanted:
            words = ["apt-get", "-qq", "download", f"{STANDARD}:{DEBIAN[name]}={told}"]
            ran = subprocess.run(words, cwd=room, env=given, stdin=subprocess.DEVNULL, capture_output=True, text=True)
            for path in glob.glob(f"{room}/*.deb"):
                os.makedirs(folder, exist_ok=True)
                subprocess.run(["dpkg-deb", "-x", path, f"{room}/new"], check=True)
                os.remove(path)
            if has_library(f"{room}/new", name):
                shutil.copytree(f"{room}/new", folder, dirs_exist_ok=True)
            else:
                print(f"{name}: {STANDARD} was not downloaded: {(ran.stderr.strip().splitlines() or [''])[-1]}")


def missing(name, told):
    """Why a processor can't be tried here, or None."""
    if told is None:
        return "no rustc {}.{} of Debian was found".format(*building.OLDEST)
    compiler = f"{name}-linux-gnu-gcc"
    for program in (compiler, *emulator(name)[:1]):
        if shutil.which(program) is None:
            return f"{program} was not found"
    if not has_library(kept(told), name):
        return "Debian's standard library for it is not here (--fetch)"
    with tempfile.TemporaryDirectory() as room:
        words = [compiler, "-static", "-x", "c", "-o", f"{room}/probe", "-"]
        probe = subprocess.run(words, input="int main(void) { return 0; }", text=True, capture_output=True)
        try:
            runs = probe.returncode == 0 and subprocess.run([*emulator(name), f"{room}/probe"]).returncode == 0
        except OSError:
            runs = False
    return None if runs else "its programs do not run here"


def environment(names, flags):
    """What cargo needs to build for processors, with these flags for the compiler."""
    found = {"RUSTC": RUSTC, "CARGO_ENCODED_RUSTFLAGS": "\x1f".join(flags), "CARGO_INCREMENTAL": "0",
             "CARGO_PROFILE_DEV_DEBUG": "0", "CARGO_PROFILE_DEV_STRIP": "debuginfo"}
    for name in names:
        start = f"CARGO_TARGET_{triple(name).upper().replace('-', '_')}"
        found[f"{start}_LINKER"] = f"{name}-linux-gnu-gcc"
        if emulator(name):
            found[f"{start}_RUNNER"] = " ".join(emulator(name))
    return found


def called(words, folder, names, **more):
    """What cargo says for processors, and its status."""
    name, *others = words
    targets = [word for it in names for word in ("--target", triple(it))]
    flags = ["--sysroot", f"{kept(version())}/usr", *([] if "--release" in words else ["-C", "target-feature=+crt-static"])]
    given = {**environment(names, flags), **more}
    return building.cargo(name, "--target-dir", "target/processors", *targets, *others, folder=folder, seconds=SECONDS, **given)


def made(folder, name, *path):
    """What was built for a processor, in a folder apart from what is built for this one."""
    return os.path.join(folder, "target", "processors", triple(name), *path)


def tests_of_the_crate():
    """The calls of cargo for the tests of the crate, and the environment of each."""
    folder = f"{building.CRATE}/tests"
    found = [it for it in os.listdir(folder) if it.endswith(".rs") or os.path.exists(f"{folder}/{it}/main.rs")]
    names = sorted({it.removesuffix(".rs") for it in found} - set(SLOW))
    for tests, level in ((names, "0"), (SLOW, "1")):
        words = ["test", "--no-fail-fast", "--all-features", *(word for it in tests for word in ("--test", it))]
        yield words, {"CARGO_PROFILE_DEV_OPT_LEVEL": level}


def built(names):
    """Builds all for processors, and drawn_calls for this one. What cargo says if it can't, or None."""
    drawn.built()
    emulated = [name for name in names if name in EMULATED]
    calls = [([*words, "--no-run"], building.CRATE, names, more) for words, more in tests_of_the_crate()]
    calls.append((["build", "--bin", "drawn_calls"], drawn.FOLDER, names, {}))
    if emulated:
        calls.append((["build", "--release"], building.CALLS, emulated, {}))
        calls.append((["build", "--bins"], building.PROGRAMS, emulated, {}))
    for words, folder, which, more in calls:
        text, status = called(words, folder, which, **more)
        if status:
            return text[-4000:]
    return None


def outcome(words, **environment):
    """How many tests of a script passed and failed, and what it prints besides."""
    try:
        ran = subprocess.run(words, cwd=TOP, env={**os.environ, **environment}, stdin=subprocess.DEVNULL,
                             stdout=subprocess.PIPE, stderr=subprocess.STDOUT, text=True, errors="replace", timeout=SECONDS)
    except subprocess.TimeoutExpired:
        return 0, 1, "no end"
    *others, last = ran.stdout.splitlines() or [""]
    told = re.fullmatch(r"(\d+) passed, (\d+) failed", last)
    passed, failed = (int(told[1]), int(told[2])) if told else (0, 1)
    return passed, failed + (bool(ran.returncode) and not failed), "\n".join(others if told else [*others, last])


def script(path, *words):
    """Writes a script of one command, and returns its path."""
    with open(path, "w", encoding="utf-8") as file:
        file.write(f"#!/bin/sh\nexec {' '.join(words)}\n")
    os.chmod(path, 0o755)
    return path


def crate(name):
    """The tests of the crate."""
    passed = failed = 0
    said = ""
    for words, more in tests_of_the_crate():
        text, status = called(words, building.CRATE, [name], **more)
        counts = re.findall(r"^test result: \w+\. (\d+) passed; (\d+) failed", text, re.M)
        ill = sum(int(it[1]) for it in counts)
        passed, failed = passed + sum(int(it[0]) for it in counts), failed + ill + (bool(status) and not ill)
        said += text[-4000:] if status else ""
    return passed, failed, said


def digests(words):
    """The lines of drawn_calls."""
    ran = subprocess.run([*words, "0", str(INPUTS), str(PER_LINE)], stdin=subprocess.DEVNULL, stdout=subprocess.PIPE,
                         stderr=subprocess.STDOUT, text=True, timeout=SECONDS)
    return ran.stdout.splitlines() + ([f"status {ran.returncode}"] if ran.returncode else [])


def drawn_calls(name):
    """The lines of drawn_calls, compared with those of this processor."""
    wanted = digests([os.path.join(drawn.FOLDER, "target", "release", "drawn_calls")])
    found = digests([*emulator(name), made(drawn.FOLDER, name, "debug", "drawn_calls")])
    wrong = [f"{one}, and here {other}" for one, other in itertools.zip_longest(found, wanted) if one != other]
    return len(wanted) - len(wrong), len(wrong), "\n".join(wrong[:5])


def library(name):
    """The tests in C."""
    with tempfile.TemporaryDirectory() as room:
        compiler = script(f"{room}/gcc-{name}", f"{name}-linux-gnu-gcc", '"$@"', LINKED)
        words = ["sh", "c/test.sh", "built", made(building.CALLS, name, "release", "libetherpeel_c.a")]
        return outcome(words, CC=compiler, RUNNER=" ".join(emulator(name)))


def program(test, words=()):
    """What runs a test of a program."""
    def run(name):
        with tempfile.TemporaryDirectory() as room:
            os.chmod(room, 0o755)  # a test runs the program as somebody else
            path = made(building.PROGRAMS, name, "debug", test)
            ran = script(f"{room}/{test}", *emulator(name), "-0", test, f'"{path}"', '"$@"')
            return outcome([sys.executable, f"tests/{test}.py", *words, ran])
    return run


def parts(name):
    """The tests that a processor runs: what is said of each, and what runs it."""
    yield "the tests of the crate", crate
    yield f"{INPUTS:,} inputs of drawn_calls", drawn_calls
    if name in EMULATED:
        yield "the library for C", library
        yield "ether_tool", program("ether_tool")
        yield "ether_capture", program("ether_capture", ["--gzip", "--emulated", str(EACH)])


def tried(name):
    """How many tests of a processor passed and failed."""
    passed = failed = 0
    for what, run in parts(name):
        well, ill, said = run(name)
        lines = [f"{name}: {it}" for it in said.splitlines()] + [f"{name}: {what}: {well} passed, {ill} failed"]
        print("\n".join(lines), flush=True)
        passed, failed = passed + well, failed + ill
    return passed, failed


def main():
    words = argparse.ArgumentParser(description=__doc__, formatter_class=argparse.RawDescriptionHelpFormatter)
    words.add_argument("--fetch", action="store_true", help="download the standard libraries that are not here yet")
    words.add_argument("processors", metavar="PROCESSOR", nargs="*", help=f"{', '.join(DEBIAN)}; all, if none is named")
    given = words.parse_args()
    if wrong := [name for name in given.processors if name not in DEBIAN]:
        words.error(f"no processor {wrong[0]}")
    names = given.processors or list(DEBIAN)
    told = version()
    if told and (given.fetch or os.environ.get("CI") == "true") and shutil.which("apt-get"):
        fetch(names, told)
    whys = {name: building.missing(building.PROGRAMS) or missing(name, told) for name in names}
    for name, why in whys.items():
        if why:
            print(f"left out: {name}, since {why}", flush=True)
    names = [name for name in names if not whys[name]]
    if names and (text := built(names)):
        print(text, "0 passed, 1 failed", sep="\n")
        return 1
    with concurrent.futures.ThreadPoolExecutor(min(len(DEBIAN), len(os.sched_getaffinity(0)))) as pool:
        counts = [(0, 0), *pool.map(tried, names)]
    passed, failed = (sum(it) for it in zip(*counts))
    print(f"{passed} passed, {failed} failed")
    return 1 if failed else 0


if __name__ == "__main__":
    sys.exit(main())
