"""Runs cargo over the crates, by cargo.sh.

    python3 rust/building.py

says why they can't be built here, if they can't.
"""
import argparse
import os
import re
import signal
import subprocess
import sys

HERE = os.path.dirname(os.path.abspath(__file__))
CRATE, CALLS, PROGRAMS = (os.path.join(HERE, name) for name in ("etherpeel", "etherpeel_c", "ether_tools"))
OLDEST = (1, 85)


def cargo(*words, folder=CRATE, seconds=None, **environment):
    """What cargo printed, and its status. A call of more than so many seconds, if they are given, is ended, with status 1."""
    said = ["sh", f"{HERE}/cargo.sh", *words]
    given = {**os.environ, "CARGO_TERM_COLOR": "never", **environment}
    with subprocess.Popen(said, cwd=folder, env=given, stdin=subprocess.DEVNULL, stdout=subprocess.PIPE, stderr=subprocess.PIPE, text=True,
                          errors="replace", start_new_session=True) as ran:
        try:
            return "".join(ran.communicate(timeout=seconds)), ran.wait()
        except subprocess.TimeoutExpired:
            os.killpg(ran.pid, signal.SIGKILL)  # cargo, and the test that it runs
            return "".join(ran.communicate()), 1


def missing(folder=CRATE):
    """Why a crate can't be built here, or None."""
    text, status = cargo("missing", folder=folder)
    return text.strip().splitlines()[0] if status else None


def features():
    """The names of the crate's features, but for that of its default ones."""
    with open(os.path.join(CRATE, "Cargo.toml"), encoding="utf-8") as file:
        table = file.read().split("[features]\n", 1)[1].split("\n[", 1)[0]
    return [name for name in re.findall(r"^(\w+) = ", table, re.M) if name != "default"]


def oldest_rustc():
    """A compiler of the oldest version that the crates are for, as Debian's rustc-web is; None if there is none."""
    for folder in [*os.get_exec_path(), "/usr/bin"]:
        path = os.path.join(folder, "rustc")
        if os.access(path, os.X_OK):
            text = subprocess.run([path, "--version"], stdout=subprocess.PIPE, stderr=subprocess.DEVNULL, text=True).stdout
            if text.startswith("rustc {}.{}.".format(*OLDEST)):
                return path
    return None


def has(command):
    """Whether cargo has a command that may be left out."""
    return subprocess.run(["cargo", command, "--version"], capture_output=True).returncode == 0


if __name__ == "__main__":
    argparse.ArgumentParser(description=__doc__, formatter_class=argparse.RawDescriptionHelpFormatter).parse_args()
    sys.exit(missing())
