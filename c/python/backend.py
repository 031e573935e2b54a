"""Builds the wheel of the package: its files and the shared library, linked by c/link.sh from the archive that
c/archive.sh names, and what release/contents.py says of a library that cargo built: the crates in it, and their licences.
The source archive has what builds it by cargo; an editable wheel leads to this folder.

pip calls it, as pyproject.toml says. CC names another C compiler than cc.
"""
import base64
import gzip
import hashlib
import io
import os
import re
import shutil
import struct
import subprocess
import sys
import tarfile
import zipfile

HERE = os.path.dirname(os.path.abspath(__file__))
C = os.path.dirname(HERE)
NAME, VERSION, TAG = "etherpeel", "3.0.0", "py3-none"
INFO = f"{NAME}-{VERSION}.dist-info"
METADATA = f"""Metadata-Version: 2.4
Name: {NAME}
Version: {VERSION}
Summary: The walk through the link-layer headers of a frame
Author: the Jalkumfe developers
License-Expression: MIT OR Apache-2.0
Requires-Python: >=3.8
Description-Content-Type: text/markdown
"""
# Tables of a manifest that name files which the source archive does not have: cargo would refuse it.
TARGETS = re.compile(rb"^\[\[(?:test|example)\]\]\n(?:.+\n)+\n", re.M)
WHEEL = """Wheel-Version: 1.0
Generator: backend.py
Root-Is-Purelib: false
"""
# The policies of auditwheel, by the newest version of the C library that a symbol may have, and the older name of some.
POLICIES = {"x86_64": [5, 12, 17, 24, 26, 27, 28, 31, 34, 35, 36, 37, 38, 39], "aarch64": [17, 24, 26, 27, 28, 31, 34, 35, 36, 37, 38, 39]}
OLDER = {5: "manylinux1", 12: "manylinux2010", 17: "manylinux2014"}
MACHINES = {62: "x86_64", 183: "aarch64", 22: "s390x"}


def read(path):
    with open(path, "rb") as file:
        return file.read()


def metadata():
    """The metadata of the package, with its classifiers and its readme."""
    told = read(f"{HERE}/pyproject.toml").decode()
    lists = {key: re.findall(r'"(.*?)"', re.search(rf"^{key} = \[(.*?)\]", told, re.M | re.S)[1]) for key in ("classifiers", "keywords")}
    lines = [f"Classifier: {it}\n" for it in lists["classifiers"]] + [f"Keywords: {','.join(lists['keywords'])}\n"]
    return (METADATA + "".join(lines)).encode() + b"\n" + read(f"{HERE}/README.md")


def tags(library):
    """The tags of a wheel with this library: manylinux, by the newest version of a symbol of the C library that it needs."""
    machine = MACHINES[struct.unpack_from("<H", library, 18)[0]]
    newest = max((int(it) for it in re.findall(rb"\0GLIBC_2\.(\d+)(?=[.\0])", library)), default=0)
    minor = next((it for it in POLICIES.get(machine, []) if it >= newest), None)
    if minor is None:
        return [f"linux_{machine}"]
    return [f"manylinux_2_{minor}_{machine}", *([f"{OLDER[minor]}_{machine}"] if minor in OLDER else [])]


def called(*words):
    """What a script prints. If it fails it has said why, so that this ends without a traceback."""
    ran = subprocess.run(words, stdout=subprocess.PIPE, text=True)
    if ran.returncode:
        sys.exit(ran.returncode)
    return ran.stdout.strip()


def shared_library(folder):
    """Links the shared library, and returns its bytes, and whether cargo built the static one."""
    archive, path = called("sh", f"{C}/archive.sh"), os.path.join(folder, "libetherpeel.so.3")
    compiler = os.environ.get("CC", "cc")
    if shutil.which(compiler) is None:
        sys.exit(f"{compiler} was not found: a C compiler links the library, as on Debian that of the package gcc")
    called("sh", f"{C}/link.sh", compiler, archive, path)
    content = read(path)
    os.remove(path)
    return content, os.path.basename(archive) == "libetherpeel_c.a"


def of_others():
    """The list of what is linked in and the files of its licences, if cargo can say that. It may be missing where the library was built
    elsewhere."""
    sys.path.insert(0, f"{os.path.dirname(C)}/release")
    import contents
    try:
        crates = contents.linked("etherpeel_c")
    except (SystemExit, OSError) as why:
        print(f"the wheel does not list the crates that are linked in, since {why}", file=sys.stderr)
        return {}
    return {f"{INFO}/sboms/{NAME}.spdx.json": contents.linked_document(NAME, VERSION, crates).encode(),
            **{f"{INFO}/licenses/{name}": content for name, content in contents.licences(crates)}}


def wheel_of(wheel_directory, files, platforms):
    """Writes a wheel of these files, with the same bytes each time."""
    lines = "".join(f"Tag: {TAG}-{it}\n" for it in platforms)
    files = {**files, f"{INFO}/METADATA": metadata(), f"{INFO}/WHEEL": (WHEEL + lines).encode()}
    sums = {name: base64.urlsafe_b64encode(hashlib.sha256(it).digest()).rstrip(b"=").decode() for name, it in files.items()}
    record = [f"{name},sha256={sums[name]},{len(files[name])}\n" for name in files]
    files[f"{INFO}/RECORD"] = "".join([*record, f"{INFO}/RECORD,,\n"]).encode()
    wheel = f"{NAME}-{VERSION}-{TAG}-{'.'.join(platforms)}.whl"
    with zipfile.ZipFile(os.path.join(wheel_directory, wheel), "w", zipfile.ZIP_DEFLATED) as made:
        for name, content in files.items():
            made.writestr(zipfile.ZipInfo(name, (1980, 1, 1, 0, 0, 0)), content, zipfile.ZIP_DEFLATED)
    return wheel


def prepare_metadata_for_build_wheel(metadata_directory, config_settings=None):
    """Writes the metadata, for which nothing is built."""
    os.makedirs(os.path.join(metadata_directory, INFO), exist_ok=True)
    for name, content in (("METADATA", metadata()), ("WHEEL", (WHEEL + f"Tag: {TAG}-linux_{os.uname().machine}\n").encode())):
        with open(os.path.join(metadata_directory, INFO, name), "wb") as file:
            file.write(content)
    return INFO


prepare_metadata_for_build_editable = prepare_metadata_for_build_wheel


def build_wheel(wheel_directory, config_settings=None, metadata_directory=None):
    library, is_by_cargo = shared_library(wheel_directory)
    files = {f"{NAME}/libetherpeel.so.3": library}
    for name in sorted(os.listdir(f"{HERE}/{NAME}")):
        if name.endswith(".py") or name == "py.typed":
            files[f"{NAME}/{name}"] = read(f"{HERE}/{NAME}/{name}")
    return wheel_of(wheel_directory, {**files, **(of_others() if is_by_cargo else {})}, tags(library))


def build_editable(wheel_directory, config_settings=None, metadata_directory=None):
    library, _ = shared_library(wheel_directory)
    with open(f"{HERE}/{NAME}/libetherpeel.so.3", "wb") as file:
        file.write(library)
    return wheel_of(wheel_directory, {f"{NAME}.pth": f"{HERE}\n".encode()}, [f"linux_{os.uname().machine}"])


def source_files():
    """The files of the source archive, from the top of the repository."""
    top = os.path.dirname(C)
    names = [f"c/{name}" for name in ("archive.sh", "link.sh", "etherpeel.map", "python/backend.py", "python/pyproject.toml", "python/README.md")]
    for folder in ("c/python/etherpeel", "rust/etherpeel/src", "rust/etherpeel_c/src"):
        for at, _, found in os.walk(f"{top}/{folder}"):
            names += [os.path.relpath(f"{at}/{name}", top) for name in found if name.endswith((".py", ".rs", "py.typed"))]
    for package in ("etherpeel", "etherpeel_c"):
        names += [f"rust/{package}/Cargo.toml", f"rust/{package}/NOTICE"]
    names += ["rust/etherpeel_c/Cargo.lock", "rust/cargo.sh", "rust/registry.sh", "release/contents.py", "VERSION"]
    return [*sorted(names), "rust/build.sh", "rust/etherpeel/README.md", "rust/etherpeel_c/by_hand.rs"]


def build_sdist(sdist_directory, config_settings=None):
    base, top = f"{NAME}-{VERSION}", os.path.dirname(C)
    files = {"PKG-INFO": metadata()}
    for name in source_files():
        files[name] = TARGETS.sub(b"", read(f"{top}/{name}")) if name.endswith("Cargo.toml") else read(f"{top}/{name}")
    told = files["c/python/pyproject.toml"].replace(b'backend-path = ["."]', b'backend-path = ["c/python"]')
    files["pyproject.toml"] = told.replace(b'readme = "', b'readme = "c/python/')
    packed = io.BytesIO()
    with tarfile.open(fileobj=packed, mode="w", format=tarfile.PAX_FORMAT) as made:
        for name, content in files.items():
            told = tarfile.TarInfo(f"{base}/{name}")
            told.size = len(content)
            made.addfile(told, io.BytesIO(content))
    with open(os.path.join(sdist_directory, f"{base}.tar.gz"), "wb") as file:
        file.write(gzip.compress(packed.getvalue(), mtime=0))
    return f"{base}.tar.gz"
