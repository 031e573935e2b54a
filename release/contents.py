"""What a file of the release has of others: the crates that are linked in, and the standard library of Rust.

    python3 release/contents.py package PACKAGE TARGET FOLDER NAME

writes for a file of that name, in which the package ether_tools or etherpeel_c for a target of Rust is, what belongs into it: into FOLDER
the list NAME.spdx.json (SPDX 2.3) and the folder `licences`, with the files of each licence as the crate's own folder has them. Prints the
paragraphs on these crates for a copyright file of Debian.

    python3 release/contents.py release FOLDER

writes a list of what is in each file of the release in FOLDER. RUSTC and SYSROOT name the compiler and its folder, if they are others.
"""
import argparse
import hashlib
import json
import os
import re
import subprocess
import sys
import time
import uuid
from dataclasses import dataclass

TOP = os.path.dirname(os.path.dirname(os.path.abspath(__file__)))
LICENCE = re.compile(r"(?:un)?licen[cs]e|copying|copyright|notice", re.I)
TARGET = "x86_64-unknown-linux-gnu"
OWN = "MIT OR Apache-2.0"
EPOCH = 315_532_800  # 1980, as the files of a wheel have it
# The package of which a file of the release is built, by how its name begins and ends.
BUILT = [("ether-tools_", ".deb", "ether_tools"), ("libetherpeel", ".deb", "etherpeel_c"), ("etherpeel-", ".whl", "etherpeel_c")]


@dataclass
class Crate:
    name: str
    version: str
    licence: str
    authors: list
    files: list  # the paths of its licence
    folder: str
    checksum: str = ""
    is_crate: bool = True

    @property
    def label(self):
        return f"{self.name}-{self.version}"


def metadata(package, *words):
    """What cargo says of a package and all that it depends on."""
    said = ["sh", f"{TOP}/rust/cargo.sh", "metadata", "--format-version", "1", "--locked", *words]
    ran = subprocess.run(said, cwd=f"{TOP}/rust/{package}", stdout=subprocess.PIPE, stderr=subprocess.PIPE, text=True)
    if ran.returncode:
        sys.exit(f"cargo does not say what {package} is made of: {ran.stderr.strip()}")
    return json.loads(ran.stdout)


def checksums(package):
    """The checksums of the lock file, by name and version."""
    with open(f"{TOP}/rust/{package}/Cargo.lock", encoding="utf-8") as file:
        found = re.findall(r'^name = "(.*)"\nversion = "(.*)"\nsource = .*\nchecksum = "([0-9a-f]{64})"', file.read(), re.M)
    return {(name, version): checksum for name, version, checksum in found}


def crates_of(package, packages):
    """The crates of others among packages, as cargo describes these."""
    known = checksums(package)
    for it in sorted(packages, key=lambda it: (it["name"], it["version"])):
        if it["source"] is not None:
            folder = os.path.dirname(it["manifest_path"])
            files = sorted(f"{folder}/{name}" for name in os.listdir(folder) if LICENCE.match(name) and os.path.isfile(f"{folder}/{name}"))
            licence = re.sub(r" ?/ ?", " OR ", it["license"] or "NOASSERTION")
            yield Crate(it["name"], it["version"], licence, it["authors"], files, folder, known.get((it["name"], it["version"]), ""))


def linked(package, target=TARGET):
    """The crates that are linked into a package for a target: no macros, and nothing that is needed to build or to test."""
    told = metadata(package, "--filter-platform", target)
    packages = {it["id"]: it for it in told["packages"]}
    needs = {node["id"]: [it["pkg"] for it in node["deps"] if any(kind["kind"] is None for kind in it["dep_kinds"])]
             for node in told["resolve"]["nodes"]}
    found = [told["resolve"]["root"]]
    for it in found:
        found += [other for other in needs[it] if other not in found and not is_macro(packages[other])]
    return [*crates_of(package, [packages[it] for it in found]), standard()]


def is_macro(package):
    return any("proc-macro" in target["kind"] for target in package["targets"])


def vendored(package):
    """All crates of the lock file."""
    return list(crates_of(package, metadata(package)["packages"]))


def standard():
    """The standard library of Rust, with what the compiler's folder says of its licences."""
    rustc = os.environ.get("RUSTC", "rustc")
    version = subprocess.run([rustc, "--version"], stdout=subprocess.PIPE, text=True, check=True).stdout.split()[1]
    root = os.environ.get("SYSROOT") or subprocess.run([rustc, "--print", "sysroot"], stdout=subprocess.PIPE, text=True, check=True).stdout.strip()
    places = [f"{root}/share/doc/rust/COPYRIGHT-library.html", f"{root}/share/doc/libstd-rust-web-dev/copyright",
              f"{root}/share/doc/libstd-rust-dev/copyright"]
    return Crate("rust-std", version, OWN, ["The Rust Project Developers"], [it for it in places if os.path.isfile(it)][:1], root, is_crate=False)


def licences(crates):
    """The files of the licences of crates: their names below a folder, and their bytes."""
    for crate in crates:
        for path in crate.files:
            with open(path, "rb") as file:
                yield f"{crate.label}/{os.path.basename(path)}", file.read()


def element(name, version, licence, **more):
    """A package of an SPDX document."""
    ident = "SPDXRef-" + re.sub(r"[^A-Za-z0-9.-]", "-", f"{name}-{version}" if version else name)
    told = {"SPDXID": ident, "name": name, "versionInfo": version, "downloadLocation": "NOASSERTION", "filesAnalyzed": False,
            "licenseConcluded": licence, "licenseDeclared": licence, "copyrightText": "NOASSERTION", **more}
    return {key: value for key, value in told.items() if key != "versionInfo" or value}


def crate_element(crate):
    if not crate.is_crate:
        return element(crate.name, crate.version, crate.licence, supplier="Organization: The Rust Project")
    more = {"downloadLocation": f"https://static.crates.io/crates/{crate.name}/{crate.label}.crate", "externalRefs": [
        {"referenceCategory": "PACKAGE-MANAGER", "referenceType": "purl", "referenceLocator": f"pkg:cargo/{crate.name}@{crate.version}"}]}
    if crate.checksum:
        more["checksums"] = [{"algorithm": "SHA256", "checksumValue": crate.checksum}]
    return element(crate.name, crate.version, crate.licence, **more)


def relation(one, kind, other):
    return {"spdxElementId": one, "relationshipType": kind, "relatedSpdxElement": other}


def document(name, described, parts):
    """An SPDX document: what it describes, and of each of these by its identifier the elements that are in it, with the kind of relation."""
    packages = {it["SPDXID"]: it for it in described}
    relations = [relation("SPDXRef-DOCUMENT", "DESCRIBES", it["SPDXID"]) for it in described]
    for ident, kind, others in parts:
        for it in others:
            packages[it["SPDXID"]] = it
            relations.append(relation(ident, kind, it["SPDXID"]))
    content = {"packages": list(packages.values()), "relationships": relations}
    mark = uuid.uuid5(uuid.NAMESPACE_URL, json.dumps([name, content]))
    when = int(os.environ.get("SOURCE_DATE_EPOCH", EPOCH))
    made = {"created": time.strftime("%Y-%m-%dT%H:%M:%SZ", time.gmtime(when)), "creators": ["Tool: release/contents.py"]}
    return {"spdxVersion": "SPDX-2.3", "dataLicense": "CC0-1.0", "SPDXID": "SPDXRef-DOCUMENT", "name": name,
            "documentNamespace": f"https://spdx.org/spdxdocs/{name}-{mark}", "creationInfo": made, **content}


def text(told):
    return json.dumps(told, indent=2, ensure_ascii=False) + "\n"


def version():
    with open(f"{TOP}/VERSION", encoding="utf-8") as file:
        return file.read().strip()


def linked_document(name, told_version, crates):
    """The document of a file in which crates are linked."""
    whole = element(name, told_version, OWN)
    return text(document(f"{name}-{told_version}", [whole], [(whole["SPDXID"], "STATIC_LINK", list(map(crate_element, crates)))]))


def package(name, target, folder, called):
    crates = linked(name, target)
    for path, content in licences(crates):
        os.makedirs(os.path.dirname(f"{folder}/licences/{path}"), exist_ok=True)
        with open(f"{folder}/licences/{path}", "wb") as file:
            file.write(content)
    with open(f"{folder}/{called}.spdx.json", "w", encoding="utf-8") as file:
        file.write(linked_document(called, version(), crates))
    for crate in crates:
        licence = crate.licence.replace(" OR ", " or ").replace(" AND ", " and ")
        print(f"\nFiles: {'vendor/' * crate.is_crate}{crate.label}/*\nCopyright: {', '.join(crate.authors) or 'its authors'}\nLicense: {licence}")
        print(f"Comment: {crate.name} {crate.version} is linked in; licences/{crate.label} has its licence.")


def parts_of(name):
    """The kind of relation of a file of the release to what is in it, and these elements."""
    for begin, end, built in BUILT:
        if name.startswith(begin) and name.endswith(end):
            return "STATIC_LINK", [crate_element(it) for it in linked(built)]
    if name.endswith("-vendored.tar.gz"):
        return "CONTAINS", [crate_element(it) for it in vendored("ether_tools")]
    if name.endswith(".html"):
        return "STATIC_LINK", [element("arrayvec-of-the-Rattle-kit", "", "NOASSERTION")]
    return "CONTAINS", []


def release(folder):
    described, parts = [], []
    for name in sorted(os.listdir(folder)):
        with open(f"{folder}/{name}", "rb") as file:
            sums = [{"algorithm": "SHA256", "checksumValue": hashlib.sha256(file.read()).hexdigest()}]
        described.append(element(name, version(), OWN, packageFileName=name, checksums=sums))
        parts.append((described[-1]["SPDXID"], *parts_of(name)))
    with open(f"{folder}/jalkumfe-{version()}.spdx.json", "w", encoding="utf-8") as file:
        file.write(text(document(f"jalkumfe-{version()}", described, parts)))


def main():
    words = argparse.ArgumentParser(description=__doc__, formatter_class=argparse.RawDescriptionHelpFormatter)
    kinds = words.add_subparsers(dest="kind", required=True)
    one = kinds.add_parser("package")
    for name in ("PACKAGE", "TARGET", "FOLDER", "NAME"):
        one.add_argument(name)
    kinds.add_parser("release").add_argument("FOLDER")
    given = words.parse_args()
    if given.kind == "package":
        package(given.PACKAGE, given.TARGET, given.FOLDER, given.NAME)
    else:
        release(given.FOLDER)


if __name__ == "__main__":
    main()
