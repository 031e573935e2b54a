"""Compiles and runs the examples of the documentation as a reader copies them: their shown lines, in a `main`."""
import os
import re
import tempfile

import building

BLOCK = re.compile(r"^```(\w*)\n(.*?)^```$", re.S | re.M)
COMMENT = re.compile(r"^ *//[/!](?: |$)", re.M)
MANIFEST = """[package]
name = "copied"
version = "0.1.0"
edition = "2024"

[dependencies]
arrayvec = "0.7"
{packages}

[workspace]
"""
MODULE = """
/// {place}
mod example_{number} {{
    pub fn main() -> Result<(), Box<dyn std::error::Error>> {{
{lines}
        Ok(())
    }}
}}
"""


def pages(folder):
    """The texts of a package's documentation, each with its path: its page, and the comments of its sources."""
    readme = os.path.join(folder, "README.md")
    if os.path.exists(readme):
        with open(readme, encoding="utf-8") as file:
            yield "README.md", file.read()
    for at, _, names in sorted(os.walk(os.path.join(folder, "src"))):
        for name in sorted(names):
            path = os.path.join(at, name)
            with open(path, encoding="utf-8") as file:
                lines = [COMMENT.sub("", line) if COMMENT.match(line) else "" for line in file.read().split("\n")]
            yield os.path.relpath(path, folder), "\n".join(lines)


def shown(folder):
    """Each example with its place, without the lines that rustdoc hides."""
    for path, text in pages(folder):
        for block in BLOCK.finditer(text):
            lines = [line for line in block[2].split("\n") if not re.match(r"\s*#(?: |$)", line)]
            if block[1] in ("", "rust"):
                yield f"{path}:{text.count(chr(10), 0, block.start()) + 1}", lines


def program(examples):
    """A program that runs the examples."""
    modules = [
        MODULE.format(place=place, number=number, lines="\n".join(f"        {line}".rstrip() for line in lines))
        for number, (place, lines) in enumerate(examples)
    ]
    calls = "".join(f"    example_{number}::main().unwrap();\n" for number in range(len(examples)))
    return f"#![deny(unused_imports)]\n{''.join(modules)}\nfn main() {{\n{calls}}}\n"


def failure(folder):
    """None, or what is wrong with the examples of a package."""
    examples = list(shown(folder))
    with tempfile.TemporaryDirectory() as made:
        os.mkdir(os.path.join(made, "src"))
        packages = [f'etherpeel = {{ path = "{building.CRATE}", features = ["std", "compat"] }}']
        packages += [f'{os.path.basename(folder)} = {{ path = "{folder}" }}'] * (folder != building.CRATE)
        with open(os.path.join(made, "Cargo.toml"), "w", encoding="utf-8") as file:
            file.write(MANIFEST.format(packages="\n".join(packages)))
        with open(os.path.join(made, "src", "main.rs"), "w", encoding="utf-8") as file:
            file.write(program(examples))
        text, status = building.cargo("run", "--target-dir", os.path.join(folder, "target", "copied"), folder=made)
    said = "failed" if status else "passed"
    print(f"{os.path.basename(folder)}: {len(examples)} examples, as they are copied: {said}", flush=True)
    return text[-4000:] if status else None


def failures():
    """The same for each package that has examples."""
    yield failure(building.CRATE)
    if not building.missing(building.PROGRAMS):
        yield failure(building.PROGRAMS)
