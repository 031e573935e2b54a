"""Builds the programs and the library for C for another processor, by the cross compilers of rust/processors.py.

    python3 release/processor.py PROCESSOR FOLDER

PROCESSOR is aarch64 or s390x. FOLDER gets the programs, libetherpeel_c.a and `cc`, the C compiler with which the library is linked. Prints how the
compiler of Rust and its folder are set in the environment, for contents.py. Ends with status 3, and says why, if it can't be built here.
"""
import argparse
import os
import shutil
import subprocess
import sys

sys.dont_write_bytecode = True
TOP = os.path.dirname(os.path.dirname(os.path.abspath(__file__)))
sys.path.insert(0, f"{TOP}/rust")
import building  # noqa: E402
import processors  # noqa: E402

TARGET = "target/packages"


def built(package, name, words):
    """Builds a package by cargo, and returns the folder of what was built."""
    root = f"{processors.kept(processors.version())}/usr"
    flags = ["--sysroot", root, *os.environ.get("RUSTFLAGS", "").split()]
    folder = os.path.join(building.HERE, package)
    text, status = building.cargo("build", "--release", "--locked", *words, "--target-dir", TARGET, "--target", processors.triple(name),
                                  folder=folder, **processors.environment([name], flags))
    if status:
        sys.exit(text)
    return os.path.join(folder, TARGET, processors.triple(name), "release")


def main():
    words = argparse.ArgumentParser(description=__doc__, formatter_class=argparse.RawDescriptionHelpFormatter)
    words.add_argument("processor", metavar="PROCESSOR", choices=processors.EMULATED)
    words.add_argument("folder", metavar="FOLDER")
    given = words.parse_args()
    name, version = given.processor, processors.version()
    if why := building.missing(building.PROGRAMS) or processors.missing(name, version):
        print(f"left out: the packages for {name}, since {why}", file=sys.stderr)
        return 3
    os.makedirs(given.folder, exist_ok=True)
    for program in ("ether_tool", "ether_capture", "ether_make"):
        shutil.copy(f"{built('ether_tools', name, ['--bins'])}/{program}", given.folder)
    # Debian's compiler_builtins names what unwinds a panic, which the library, which aborts, does not have.
    objcopy = [f"{name}-linux-gnu-objcopy", "--remove-section=.llvmbc", "--remove-section=.llvmcmd", "--weaken-symbol=rust_eh_personality"]
    subprocess.run([*objcopy, f"{built('etherpeel_c', name, [])}/libetherpeel_c.a", f"{given.folder}/libetherpeel_c.a"], check=True)
    processors.script(f"{given.folder}/cc", f"{name}-linux-gnu-gcc", '"$@"')
    print(f"RUSTC={processors.RUSTC} SYSROOT='{processors.kept(version)}/usr'")
    return 0


if __name__ == "__main__":
    sys.exit(main())
