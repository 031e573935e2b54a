"""Prints on which packages of Debian programs and libraries depend, as dpkg-shlibdeps computes it.

    python3 release/depends.py [--symbols] FILE..

For another processor than that of this system, where dpkg-shlibdeps is missing, or with --symbols, a version is the newest that a symbol of
the files has.
"""
import argparse
import os
import platform
import re
import shutil
import subprocess
import sys
import tempfile

# A library by the package that has it, and how its versions of symbols begin.
PACKAGES = {"libc6": (re.compile(r"lib(?:c|m|dl|pthread|rt)\.so\.\d|ld-linux.*\.so\.\d"), "GLIBC"),
            "libgcc-s1": (re.compile(r"libgcc_s\.so\.1"), "GCC")}
MACHINES = {"x86_64": "X86-64", "aarch64": "AArch64"}


def said(*words, **more):
    return subprocess.run(words, stdout=subprocess.PIPE, text=True, check=True, **more).stdout


def by_symbols(paths):
    """The packages, by the libraries that the files name and the newest versions of their symbols."""
    needed = {it for path in paths for it in re.findall(r"\(NEEDED\).*\[(.*)\]", said("readelf", "-d", path))}
    versions = "".join(said("readelf", "-V", path) for path in paths)
    for package, (library, begin) in PACKAGES.items():
        newest = max(((int(one), int(other)) for one, other in re.findall(rf"Name: {begin}_(\d+)\.(\d+)", versions)), default=None)
        if any(library.fullmatch(it) for it in needed):
            yield f"{package} (>= {newest[0]}.{newest[1]})" if newest else package
    if unknown := [it for it in needed if not any(library.fullmatch(it) for library, _ in PACKAGES.values())]:
        sys.exit(f"no package is known for {', '.join(sorted(unknown))}")


def by_dpkg(paths):
    with tempfile.TemporaryDirectory() as folder:
        os.mkdir(f"{folder}/debian")
        with open(f"{folder}/debian/control", "w", encoding="ascii") as file:
            file.write("Source: jalkumfe\n\nPackage: jalkumfe\nArchitecture: any\n")
        words = ["dpkg-shlibdeps", "-O", *(f"-e{os.path.abspath(it)}" for it in paths)]
        return said(*words, cwd=folder, stderr=subprocess.DEVNULL).strip().removeprefix("shlibs:Depends=").split(", ")


def main():
    words = argparse.ArgumentParser(description=__doc__, formatter_class=argparse.RawDescriptionHelpFormatter)
    words.add_argument("--symbols", action="store_true", help="without dpkg-shlibdeps")
    words.add_argument("files", metavar="FILE", nargs="+")
    given = words.parse_args()
    here = MACHINES.get(platform.machine(), "no other")
    is_here = all(here in said("readelf", "-h", it) for it in given.files)
    is_asked = is_here and not given.symbols and shutil.which("dpkg-shlibdeps")
    print(", ".join(by_dpkg(given.files) if is_asked else by_symbols(given.files)))


if __name__ == "__main__":
    main()
