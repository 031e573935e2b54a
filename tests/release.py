"""Tests what release.sh writes. In a clone elsewhere, with another user's folder, umask and time zone, it writes the same bytes; lintian, if
it is there, finds no error; the packages of Debian are installed into a folder of their own and removed, and what they have runs; the archive
with the crates builds without a network, also for aarch64; the lists of contents have the fields of SPDX; the wheel and the source archive are
installed into a new environment. released.py has what is tested of scripts that install, and of the page.

    python3 tests/release.py

What is left out is said, and why. The last line is 'N passed, M failed'.
"""
import argparse
import concurrent.futures
import glob
import hashlib
import os
import re
import shutil
import subprocess
import sys
import tarfile
import tempfile

sys.dont_write_bytecode = True
import first_commands  # noqa: E402
import released  # noqa: E402
from released import FRAME, QUICK, TAG, TOP, check, counts, run  # noqa: E402

PROGRAM = """#include <etherpeel.h>
int main(void) { return !etherpeel_fits(); }
"""
CMAKE = """cmake_minimum_required(VERSION 3.13)
project(fits C)
find_package(etherpeel 3.0 REQUIRED)
foreach(kind etherpeel etherpeel_static)
    add_executable(fits_${kind} ../fits.c)
    target_link_libraries(fits_${kind} etherpeel::${kind})
endforeach()
"""


def released_in(top, folder, umask="022", **environment):
    """Runs the script in a clone, and returns the sum of each file that it wrote."""
    page = f"{TOP}/page/out/index.html"
    words = "sh", "-c", f'umask {umask} && exec sh release.sh "$1"', "sh", folder
    status, said = run(*words, folder=top, PAGE=page if os.path.exists(page) else "", PROCESSORS="x86_64", **environment)
    check("release.sh", status == 0, said)
    for line in said.splitlines():
        if line.startswith("left out"):
            print(line)
    return {name: hashlib.sha256(released.read(f"{folder}/{name}")).hexdigest() for name in sorted(os.listdir(folder))}


def check_equal(work):
    """Releases of this folder and of a clone of it, by another user as far as a script can see."""
    clone, home = f"{work}/another_folder/clone", f"{work}/home"
    os.makedirs(home)
    status, said = run("git", "clone", "-q", TOP, clone)
    check("git clone", status == 0, said)
    rustup = os.environ.get("RUSTUP_HOME") or os.path.expanduser("~/.rustup")
    other = {"HOME": home, "TZ": "Pacific/Kiritimati", "LC_ALL": "C.UTF-8", **({"RUSTUP_HOME": rustup} if os.path.isdir(rustup) else {})}
    with concurrent.futures.ThreadPoolExecutor(2) as pool:
        runs = [pool.submit(released_in, TOP, f"{work}/one"), pool.submit(released_in, clone, f"{work}/two", "077", **other)]
        one, two = (it.result() for it in runs)
    differ = [name for name in sorted({*one, *two}) if one.get(name) != two.get(name)]
    changed = " (some files here are not committed)" if run("git", "status", "--porcelain")[1] else ""
    check("two folders", one and not differ, f"{', '.join(differ)}{changed}")


def check_depends(package, paths):
    """What a package depends on, as dpkg-shlibdeps and the versions of symbols say it."""
    said = run("dpkg-deb", "-f", package, "Depends")[1].strip()
    by_symbols = run(sys.executable, "release/depends.py", "--symbols", *paths)[1].strip()
    check(f"{os.path.basename(package)}, dependencies", re.match(r"libc6 \(>= \d", said) and said == by_symbols, (said, by_symbols))


def check_c(root, lib):
    """Programs in C, with the shared library and the static one, also by CMake and by clang with its own bitcode."""
    with open(f"{root}/fits.c", "w", encoding="ascii") as file:
        file.write(PROGRAM)
    built = run("gcc", "-o", f"{root}/fits", f"{root}/fits.c", f"-I{root}/usr/include", f"-L{lib}", "-letherpeel")
    check("a program in C", built[0] == 0 and run(f"{root}/fits", LD_LIBRARY_PATH=lib)[0] == 0, built[1])
    check("no bitcode", ".llvmbc" not in run("readelf", "-SW", f"{lib}/libetherpeel.a")[1], "a section .llvmbc")
    if shutil.which("clang"):
        built = run("clang", "-flto", "-o", f"{root}/flto", f"{root}/fits.c", f"-I{root}/usr/include", f"{lib}/libetherpeel.a")
        check("clang -flto", built[0] == 0 and run(f"{root}/flto")[0] == 0, built[1])
    else:
        print("left out: clang -flto, which was not found")
    if not shutil.which("cmake"):
        print("left out: a program by CMake, which was not found")
        return
    os.mkdir(f"{root}/by_cmake")
    with open(f"{root}/by_cmake/CMakeLists.txt", "w", encoding="ascii") as file:
        file.write(CMAKE)
    said = [run("cmake", "-S", f"{root}/by_cmake", "-B", f"{root}/by_cmake/out", f"-DCMAKE_PREFIX_PATH={root}/usr"),
            run("cmake", "--build", f"{root}/by_cmake/out")]
    ran = [run(f"{root}/by_cmake/out/fits_{kind}")[0] for kind in ("etherpeel", "etherpeel_static")]
    check("a program by CMake", ran == [0, 0], said[0][1] + said[1][1])


def check_packages(dist, root):
    """Installs the packages into a folder, runs what is in it, and removes them."""
    packages = sorted(glob.glob(f"{dist}/*_amd64.deb"))
    os.makedirs(f"{root}/var/lib/dpkg")
    open(f"{root}/var/lib/dpkg/status", "w", encoding="ascii").close()
    dpkg = ["dpkg", f"--root={root}", "--force-not-root", "--force-depends", "--log=/dev/null"]
    status, said = run(*dpkg, "-i", *packages)
    check("dpkg -i", status == 0, said)
    _, said = run(f"{root}/usr/bin/ether_tool", given=f"{FRAME}\n")
    check("ether_tool", TAG in said, said)
    check("ether_capture", run(f"{root}/usr/bin/ether_capture", "--version") == (0, f"ether_capture {released.VERSION}\n"))
    lib = f"{root}/usr/lib/x86_64-linux-gnu"
    for name, paths in (("ether-tools", glob.glob(f"{root}/usr/bin/ether_*")), ("libetherpeel3", [f"{lib}/libetherpeel.so.3"])):
        check_depends(next(it for it in packages if os.path.basename(it).startswith(name)), paths)
    for package in ("ether-tools", "libetherpeel3", "libetherpeel-dev"):
        released.check_licences(f"{root}/usr/share/doc/{package}", package)
    check_c(root, lib)
    status, said = run(*dpkg, "-r", *(os.path.basename(it).partition("_")[0] for it in reversed(packages)))
    check("dpkg -r", status == 0 and not glob.glob(f"{root}/usr/*/*ether*"), said)


def check_aarch64(top, work, **environment):
    """Builds the packages for aarch64, and runs what they have in an emulator. A line says why, if that can't be done here."""
    dist, root = f"{work}/aarch64", f"{work}/aarch64/root"
    os.makedirs(root)
    status, said = run("sh", "release/debian.sh", "aarch64", dist, folder=top, **QUICK, **environment)
    if status == 3:
        print(said.strip())
        return
    packages = glob.glob(f"{dist}/*_arm64.deb")
    check("packages for aarch64", status == 0 and len(packages) == 3, said)
    for package in packages:
        run("dpkg-deb", "-x", package, root)
        check(os.path.basename(package), run("dpkg-deb", "-f", package, "Architecture")[1] == "arm64\n")
    lib, emulator = f"{root}/usr/lib/aarch64-linux-gnu", ["qemu-aarch64", "-L", "/usr/aarch64-linux-gnu"]
    check("ether_tool on aarch64", TAG in run(*emulator, f"{root}/usr/bin/ether_tool", given=f"{FRAME}\n")[1])
    said = run(*emulator, f"{root}/usr/bin/ether_capture", "--version")
    check("ether_capture on aarch64", said == (0, f"ether_capture {released.VERSION}\n"), said)
    check_depends(f"{dist}/ether-tools_{released.VERSION}_arm64.deb", glob.glob(f"{root}/usr/bin/*"))
    released.check_licences(f"{root}/usr/share/doc/ether-tools", "ether-tools on aarch64")
    with open(f"{root}/fits.c", "w", encoding="ascii") as file:
        file.write(PROGRAM)
    for kind, words in (("shared", [f"-L{lib}", "-letherpeel"]), ("static", [f"{lib}/libetherpeel.a"])):
        built = run("aarch64-linux-gnu-gcc", "-o", f"{root}/fits", f"{root}/fits.c", f"-I{root}/usr/include", *words)
        ran = run(*emulator, "-E", f"LD_LIBRARY_PATH={lib}", f"{root}/fits")
        check(f"a program in C on aarch64, {kind}", built[0] == 0 and ran[0] == 0, built[1] + ran[1])


def check_vendored(dist, work):
    """Builds the sources with the crates in them, where cargo knows neither Debian's crates nor a network: the library for C, the programs for
    aarch64 if that can be done here, and what the first two commands of README.md build."""
    with tarfile.open(glob.glob(f"{dist}/*-vendored.tar.gz")[0]) as archive:
        archive.extractall(f"{work}/vendored")
    top = f"{work}/vendored/jalkumfe-{released.VERSION}"
    offline = {"CARGO_HOME": f"{work}/vendored/home", "CARGO_NET_OFFLINE": "true"}
    check("its registry", run("sh", "rust/registry.sh", folder=top) == (0, ""))
    when = run("git", "log", "-1", "--format=%ct")[1].strip()
    check_aarch64(top, work, SOURCE_DATE_EPOCH=when, **offline)
    words = "cargo", "build", "--offline", "--locked", "--quiet"
    status, said = run(*words, folder=f"{top}/rust/etherpeel_c", CARGO_PROFILE_DEV_DEBUG="0", **offline)
    check("etherpeel_c of the archive with the crates", status == 0, said)
    path = released.path_without(f"{work}/vendored/path", "rt")
    first_commands.check_commands("the archive with the crates", top, f"{work}/vendored/user", path, **offline)


def main():
    argparse.ArgumentParser(description=__doc__, formatter_class=argparse.RawDescriptionHelpFormatter).parse_args()
    lacking = [it for it in ("cargo", "gcc", "dpkg-deb", "strip", "git") if not shutil.which(it)]
    if lacking or run(sys.executable, "rust/building.py")[0]:
        print(f"left out: the release, since {', '.join(lacking) or 'what cargo needs'} was not found", "0 passed, 0 failed", sep="\n")
        return 0
    with tempfile.TemporaryDirectory() as work:
        os.chmod(work, 0o755)  # a test runs a program as another user
        check_equal(work)
        if shutil.which("lintian"):
            status, said = run("lintian", "--fail-on", "error", *glob.glob(f"{work}/one/*.deb"))
            check("lintian", status == 0, said)
        else:
            print("left out: lintian, which was not found")
        check_packages(f"{work}/one", f"{work}/root")
        check_vendored(f"{work}/one", work)
        released.check_lists(f"{work}/one")
        released.check_pythons(f"{work}/one", work)
        released.check_scripts(work)
    print(f"{counts[True]} passed, {counts[False]} failed")
    return 1 if counts[False] else 0


if __name__ == "__main__":
    sys.exit(main())
