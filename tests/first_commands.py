"""Tests the first two commands of README.md in a clone, with an empty home, as a new user gives them: without the kit, without cargo, and
without either, where what helps is named.

    python3 tests/first_commands.py

Each says within two seconds what it does. The first one prints what the stored run of the program prints, and the second one that tests
passed and none failed. What is left out is said, and why. The last line is 'N passed, M failed'.
"""
import argparse
import os
import re
import shutil
import subprocess
import sys
import tempfile
import time

sys.dont_write_bytecode = True
from released import TOP, check, counts, path_without, read  # noqa: E402

SECONDS = 2  # until the first line
NO_CRATES = {"CARGO_NET_OFFLINE": "true", "DEBIAN_REGISTRY": "/nonexistent"}


def commands():
    """The first two commands of the page."""
    first, second, *_ = re.findall(r"^    (sh .*)$", read(f"{TOP}/README.md").decode(), re.M)
    return first, second


def ran(command, folder, given):
    """The status of a command, what it printed, what it said on standard error, and after how many seconds there was a first line."""
    begin, first = time.monotonic(), None
    with tempfile.TemporaryFile() as out, tempfile.TemporaryFile() as said:
        with subprocess.Popen(["sh", "-c", command], cwd=folder, env=given, stdin=subprocess.DEVNULL, stdout=out, stderr=said) as child:
            while child.poll() is None:
                if first is None and os.fstat(out.fileno()).st_size + os.fstat(said.fileno()).st_size:
                    first = time.monotonic() - begin
                time.sleep(0.05)
        passed = time.monotonic() - begin
        out.seek(0)
        said.seek(0)
        return child.returncode, out.read().decode(errors="replace"), said.read().decode(errors="replace"), passed if first is None else first


def check_commands(name, top, home, path, **others):
    """Gives both commands in a folder, with this home and PATH."""
    rustup = os.environ.get("RUSTUP_HOME") or os.path.expanduser("~/.rustup")
    os.makedirs(home)
    given = {"HOME": home, "PATH": path, "LANG": "C.UTF-8", **({"RUSTUP_HOME": rustup} if os.path.isdir(rustup) else {}), **others}
    runs, tests = commands()
    status, out, said, first = ran(runs, top, given)
    wanted = int(read(f"{TOP}/crates/ether_tool/status")), read(f"{TOP}/crates/ether_tool/stdout").decode()
    check(f"{name}: {runs}", (status, out) == wanted, (status, out[-400:], said[-2000:]))
    check(f"{name}: {runs}: the first line", first < SECONDS and said.startswith("run.sh: "), (first, said[:200]))
    begin = time.monotonic()
    status, out, said, first = ran(tests, top, given)
    well = re.search(r"^([1-9]\d*) passed, 0 failed\n\Z", out, re.M)
    check(f"{name}: {tests}", status == 0 and well, out[-4000:] + said[-1000:])
    check(f"{name}: {tests}: the first line", first < SECONDS and out.startswith("test.sh: "), (first, out[:200]))
    print(f"{name}: {tests}: {time.monotonic() - begin:.0f} s")


def check_lacking(top, home, path):
    """Where neither the kit nor cargo's crates are there, both commands name what helps, and end with status 1."""
    os.makedirs(home)
    for command in commands():
        status, out, said, _ = ran(command, top, {"HOME": home, "PATH": path, "LANG": "C.UTF-8", **NO_CRATES})
        check(f"{command}, with nothing to build it", status == 1 and "install" in out + said, (status, out, said))


def main():
    argparse.ArgumentParser(description=__doc__, formatter_class=argparse.RawDescriptionHelpFormatter).parse_args()
    with tempfile.TemporaryDirectory() as work:
        os.chmod(work, 0o755)  # a test runs a program as another user
        top = f"{work}/clone"
        subprocess.run(["git", "clone", "-q", TOP, top], check=True)
        without_cargo = path_without(f"{work}/without_cargo", "cargo", "rustc")
        if shutil.which("rt"):
            check_commands("by the kit", top, f"{work}/kit", without_cargo)
        else:
            print("left out: the commands by the kit, which was not found")
        check_lacking(top, f"{work}/nothing", path_without(f"{work}/without_both", "cargo", "rustc", "rt"))
        lacking = subprocess.run(["sh", f"{TOP}/rust/cargo.sh", "missing"], cwd=f"{TOP}/rust/ether_tools", stdout=subprocess.PIPE, text=True)
        if lacking.returncode == 0:
            check_commands("by cargo", top, f"{work}/cargo", path_without(f"{work}/without_rt", "rt"))
        else:
            print(f"left out: the commands by cargo: {lacking.stdout.strip()}")
    print(f"{counts[True]} passed, {counts[False]} failed")
    return 1 if counts[False] else 0


if __name__ == "__main__":
    sys.exit(main())
