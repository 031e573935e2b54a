"""Builds libether_c.a over the libraries that are proved and left in crates/*/out/rlib, as by `rt ci`, so that only `ether_c` itself is
proved again; `rt lib` in crates/ether_c proves all that is below it by itself. With the word wasm64 builds the module ether_c.wasm instead.
What either proves is left in out/incremental, where the other finds it."""
import argparse
import os
import subprocess
import sys

WASM64 = ["--target", "wasm64-unknown-unknown"]
TOP = os.path.dirname(os.path.dirname(os.path.abspath(__file__)))


def crates():
    """The libraries that each crate of crates.txt names."""
    found = {}
    with open(f"{TOP}/crates.txt", encoding="utf-8") as file:
        for line in file:
            name, _, below = line.partition("#")[0].partition(":")
            if name.strip():
                found[name.split()[0]] = below.split()
    return found


def words(kit, name, archive, target, below=None):
    """The words of the compiler for a static library, over the libraries that crates.txt names for it, or over those of `below`."""
    listed = crates()
    if below is not None:
        listed[name] = below
    rlib = lambda it: f"{TOP}/crates/{it}/out/rlib/{it}.rlib" if it in listed else f"{kit}/rlibs/{it}.rlib"
    said = ["--crate-name", name, "src/lib.rt", "-L", f"dependency={kit}/rlibs"]
    for it in ["std", *listed[name]]:
        said += ["--extern", f"{it}={rlib(it)}"]
    below = list(listed[name])
    for it in below:
        below += [lower for lower in listed.get(it, []) if lower not in below]
    for it in below:
        if it in listed:
            said += ["-L", f"dependency={os.path.dirname(rlib(it))}"]
    said += ["--antt-project", f"{kit}/rattle/logic/antt-project.json", "--logic-built", f"{kit}/logic_built"]
    said += ["--incremental", "out/incremental", "--links", f"{name}=", "--crate-type", "staticlib", *target]
    return [*said, "--toolchain", f"{kit}/toolchain", "--backend", "llvm", "-o", archive]


def main():
    given = argparse.ArgumentParser(description=__doc__, formatter_class=argparse.RawDescriptionHelpFormatter)
    given.add_argument("target", metavar="wasm64", nargs="?", choices=["wasm64"])
    is_wasm = given.parse_args().target is not None
    doc = subprocess.run(["rt", "doc"], stdout=subprocess.PIPE, text=True, check=True).stdout.strip()
    kit = os.path.dirname(doc)
    folder = f"{TOP}/crates/ether_c"
    os.makedirs(f"{folder}/out/incremental", exist_ok=True)
    target = WASM64 if is_wasm else []
    archive = "out/libether_c.wasm.a" if target else "out/libether_c.a"
    status = subprocess.run([f"{kit}/bin/rattle", "build", *words(kit, "ether_c", archive, target)], cwd=folder).returncode
    if status or not target:
        return status
    link = [f"{kit}/bin/rattle-link", *target, "--toolchain", f"{kit}/toolchain", "-o", "out/ether_c.wasm", archive]
    return subprocess.run(link, cwd=folder).returncode


if __name__ == "__main__":
    sys.exit(main())
