"""The two builds that are counted: the proved one, over what `rt ci` left in crates/*/out, and the one by cargo."""
import os
import re
import shutil
import subprocess
import sys

TOP = os.path.dirname(os.path.dirname(os.path.dirname(os.path.abspath(__file__))))
sys.path[:0] = [f"{TOP}/rust", f"{TOP}/c"]
import building  # noqa: E402
import erase  # noqa: E402
import library  # noqa: E402
from erasing import rules, testing  # noqa: E402
from erasing.tokens import joined, lex  # noqa: E402

MANIFEST = """[package]
name = "{name}"
version = "0.1.0"
edition = "2024"

[lib]
crate-type = ["staticlib"]

[dependencies]
arrayvec = {{ version = "0.7", default-features = false }}
etherpeel = {{ path = "{crate}" }}

[profile.release]
panic = "abort"

[workspace]
"""
# A slice that C passes is a pointer and a length. For counting alone.
SLICE = re.compile(r"(\w+): &(mut )?\[(\w+)\]")


def run(*command, **options):
    """Runs a command, or ends with what it printed."""
    told = subprocess.run(command, stdin=subprocess.DEVNULL, stdout=subprocess.PIPE, stderr=subprocess.STDOUT, text=True, **options)
    if told.returncode:
        sys.exit(f"{' '.join(command)}:\n{told.stdout[-3000:]}")
    return told.stdout


def compiled(room, name, sources, *words):
    """A C program of these sources and libraries."""
    run("gcc", "-O3", "-march=x86-64-v2", "-Wall", "-Wextra", "-o", f"{room}/{name}", *sources, *words)
    return f"{room}/{name}"


class Proved:
    """What the compiler of the kit makes."""
    name = "proved"
    tool, capture, make = (f"{TOP}/crates/{it}/out/{it}" for it in ("ether_tool", "ether_capture", "ether_make"))
    calls = f"{TOP}/crates/ether_c/out/libether_c.a"

    def missing(self):
        """Why there is no such build, or None."""
        if shutil.which("rt") is None:
            return "rt was not found"
        needed = [self.tool, self.capture, self.make, self.calls]
        return next((f"{os.path.relpath(it, TOP)} is not built: run `rt ci` and `sh c/test.sh proved`" for it in needed if not os.path.isfile(it)), None)

    def library(self, room, name, crates, sources):
        """The static library of a crate with these sources, over the libraries of these crates."""
        folder = f"{room}/crates/{name}"
        write(folder, {f"src/{path}.rt": text for path, text in sources.items()})
        os.makedirs(f"{folder}/out/incremental", exist_ok=True)
        kit = os.path.dirname(run("rt", "doc").strip())
        run(f"{kit}/bin/rattle", "build", *library.words(kit, name, "out/made.a", [], crates), cwd=folder)
        return f"{folder}/out/made.a"


class Cargo:
    """What cargo makes of the sources without their proofs."""
    name = "cargo"
    tool, capture, make = (f"{building.PROGRAMS}/target/release/{it}" for it in ("ether_tool", "ether_capture", "ether_make"))
    calls = f"{building.CALLS}/target/release/libetherpeel_c.a"

    def missing(self):
        """Why there is no such build, or None. It builds what is not built yet."""
        if why := building.missing():
            return why
        for folder, words in ((building.PROGRAMS, ["--bins"]), (building.CALLS, [])):
            text, status = building.cargo("build", "--release", *words, folder=folder)
            if status:
                sys.exit(text)
        return None

    def library(self, room, name, crates, sources):
        """The static library of a crate with these sources."""
        folder, target = f"{room}/crates/{name}", f"{os.path.dirname(room)}/target"  # where the crate is compiled once for all
        write(folder, {"Cargo.toml": MANIFEST.format(name=name, crate=building.CRATE)})
        write(folder, {f"src/{path}.rs": erased(text) for path, text in sources.items()})
        text, status = building.cargo("build", "--release", folder=folder, RUSTFLAGS="-C target-cpu=x86-64-v2 -A warnings",
                                      CARGO_TARGET_DIR=target)
        if status:
            sys.exit(text)
        return f"{target}/release/lib{name}.a"


def write(folder, files):
    for path, text in files.items():
        os.makedirs(os.path.dirname(f"{folder}/{path}"), exist_ok=True)
        with open(f"{folder}/{path}", "w", encoding="utf-8") as file:
            file.write(text)


def source(path):
    """The text of a file of the repository."""
    with open(f"{TOP}/{path}", encoding="utf-8") as file:
        return file.read()


def erased(text):
    """A source in Rust, with functions that C can call."""
    tokens = lex(text)
    for rule in (*testing.RULES[:4], rules.tactics, rules.dropping, rules.clones):
        rule(tokens)
    rules.paths(tokens, erase.FACADE, lambda crate, word: None if word == "crate" else erase.test_path(crate, word))
    return re.sub(r'(pub extern "C" fn \w+)\(([^)]*)\)([^{]*)\{', taking_pointers, joined(tokens))


def taking_pointers(m):
    """A function that takes each slice as a pointer and a length."""
    slices = SLICE.findall(m[2])
    taken = SLICE.sub(lambda s: f"{s[1]}: *{'mut' if s[2] else 'const'} {s[3]}, {s[1]}_len: usize", m[2])
    made = "".join(
        f"\n    let {name} = unsafe {{ std::slice::from_raw_parts{'_mut' if mut else ''}({name}, {name}_len) }};"
        for name, mut, _ in slices)
    return f"{m[1].replace('extern', 'unsafe extern')}({taken}){m[3]}{{{made}"


BUILDS = [Proved(), Cargo()]
