"""What release.py tests of licences, lists of contents, the Python package, scripts that install, completions and the page."""
import glob
import json
import os
import re
import shutil
import subprocess
import sys
import zipfile

TOP = os.path.dirname(os.path.dirname(os.path.abspath(__file__)))
FRAME, TAG = "ffffffffffff3aeeb62ff6d78100b12308004500", "vlan 14 pcp 5 dei 1 vid 291 0x0800"
# What is built a third time, for aarch64 and of the source archive of the Python package, is not optimised, which takes less time.
QUICK = {"CARGO_PROFILE_RELEASE_LTO": "off", "CARGO_PROFILE_RELEASE_OPT_LEVEL": "0", "CARGO_PROFILE_RELEASE_CODEGEN_UNITS": "16"}
counts = {True: 0, False: 0}
# What SPDX 2.3 asks of a document, of a package and of a relationship, and what their values look like.
IDENT, LICENCE = r"SPDXRef-[A-Za-z0-9.-]+", r"NOASSERTION|[()A-Za-z0-9.+ -]+"
DOCUMENT = {"spdxVersion": "SPDX-2\\.3", "dataLicense": "CC0-1\\.0", "SPDXID": "SPDXRef-DOCUMENT", "name": ".+",
            "documentNamespace": "https://[^ #]+"}
PACKAGE = {"SPDXID": IDENT, "name": ".+", "downloadLocation": "NOASSERTION|https://[^ ]+", "licenseConcluded": LICENCE,
           "licenseDeclared": LICENCE, "copyrightText": ".+"}
RELATION = {"spdxElementId": IDENT, "relationshipType": "DESCRIBES|CONTAINS|STATIC_LINK", "relatedSpdxElement": IDENT}


def check(what, holds, said=""):
    counts[bool(holds)] += 1
    if not holds:
        print(f"{what}: {said}")


def run(*command, given=None, folder=TOP, **environment):
    """The status of a command, and what it prints and says."""
    ran = subprocess.run(command, input=given, stdin=None if given else subprocess.DEVNULL, stdout=subprocess.PIPE, stderr=subprocess.STDOUT,
                         text=True, errors="replace", cwd=folder, env={**os.environ, **environment})
    return ran.returncode, ran.stdout


def read(path):
    with open(path, "rb") as file:
        return file.read()


VERSION = read(f"{TOP}/VERSION").decode().strip()


def wrong_fields(told, wanted):
    return [key for key, form in wanted.items() if not re.fullmatch(form, str(told.get(key, "")))]


def check_list(what, text):
    """A list of contents, by the fields of SPDX 2.3. Returns the packages in it."""
    told = json.loads(text)
    packages, relations = told["packages"], told["relationships"]
    wrong = wrong_fields(told, DOCUMENT) + [key for it in packages for key in wrong_fields(it, PACKAGE)]
    wrong += [key for it in relations for key in wrong_fields(it, RELATION)]
    made = told["creationInfo"]
    wrong += [] if re.fullmatch(r"\d{4}-\d\d-\d\dT\d\d:\d\d:\d\dZ", made["created"]) and made["creators"][0].startswith("Tool: ") else ["creationInfo"]
    wrong += [it["SPDXID"] for it in packages if it["filesAnalyzed"] is not False]
    known = [it["SPDXID"] for it in packages]
    wrong += [] if len(known) == len(set(known)) else ["an SPDXID twice"]
    ends = {it[key] for it in relations for key in ("spdxElementId", "relatedSpdxElement")}
    wrong += sorted(ends ^ {*known, "SPDXRef-DOCUMENT"})
    sums = [sum for it in packages for sum in it.get("checksums", [])]
    wrong += [str(it) for it in sums if it["algorithm"] != "SHA256" or not re.fullmatch("[0-9a-f]{64}", it["checksumValue"])]
    check(f"{what}, its list", not wrong, wrong)
    return packages


def crates_in(packages):
    """The crates among the packages of a list: the name and version of each."""
    return [(it["name"], it["versionInfo"]) for it in packages if "externalRefs" in it]


def check_licences(doc, package):
    """The list of a package of Debian, and for each crate in it a paragraph and the files of its licence."""
    crates = crates_in(check_list(package, read(glob.glob(f"{doc}/*.spdx.json")[0])))
    wanted = {"arrayvec", "clap", "flate2", "hex", "nix", "serde_json", "signal-hook", "thiserror"} if package.startswith("ether-tools") else {"arrayvec"}
    check(f"{package}, its crates", wanted <= {name for name, _ in crates}, crates)
    copyright_text = read(f"{doc}/copyright").decode()
    for name, version in crates:
        files = glob.glob(f"{doc}/licences/{name}-{version}/*")
        same = all(read(it) in [read(other) for other in glob.glob(f"/usr/share/cargo/registry/{name}-{version}/*") if os.path.isfile(other)]
                   for it in files) or not os.path.isdir("/usr/share/cargo/registry")
        check(f"{package}, {name}", files and same and f"Files: vendor/{name}-{version}/*\n" in copyright_text, files)


def check_lists(dist):
    """The list of the release names each other file, with its sum."""
    packages = check_list("the release", read(f"{dist}/jalkumfe-{VERSION}.spdx.json"))
    listed = {it["packageFileName"]: it["checksums"][0]["checksumValue"] for it in packages if "packageFileName" in it}
    sums = dict(reversed(line.split("  ")) for line in read(f"{dist}/SHA256SUMS").decode().splitlines())
    others = {name: sum for name, sum in sums.items() if not name.endswith(".spdx.json")}
    check("the list of the release", listed == others, sorted({*listed} ^ {*others}))
    crates = dict(crates_in(packages))
    check("its crates", {"arrayvec", "clap", "clap_complete", "flate2", "hex", "nix", "serde_json", "signal-hook", "syn", "thiserror"} <= {*crates}, crates)


def check_wheel(wheel):
    """The tag of a wheel is that of what its library needs, and it has its readme, classifiers, licences and list."""
    with zipfile.ZipFile(wheel) as file:
        files = {name.partition(".dist-info/")[2] or name: file.read(name) for name in file.namelist()}
        file.extract("etherpeel/libetherpeel.so.3", os.path.dirname(wheel))
    library = f"{os.path.dirname(wheel)}/etherpeel/libetherpeel.so.3"
    needed = max(int(it) for it in re.findall(r"GLIBC_2\.(\d+)", run("objdump", "-T", library)[1]))
    libraries = re.findall(r"NEEDED +(\S+)", run("objdump", "-p", library)[1])
    shutil.rmtree(os.path.dirname(library))
    tagged = re.search(r"manylinux_2_(\d+)_x86_64", wheel)
    check("the wheel's tag", tagged and needed <= int(tagged[1]) <= max(17, needed) and libraries == ["libc.so.6"], (needed, libraries, wheel))
    tags = re.findall(r"^Tag: (.*)", files["WHEEL"].decode(), re.M)
    check("the wheel's tags", tags == [f"py3-none-{it}" for it in wheel.removesuffix(".whl").split("-")[-1].split(".")], tags)
    head, _, readme = files["METADATA"].decode().partition("\n\n")
    check("the wheel's metadata", "\nClassifier: " in head and readme.startswith("# etherpeel\n"), head)
    crates = crates_in(check_list("the wheel", files["sboms/etherpeel.spdx.json"]))
    listed = [it.partition("/")[2] for it in files if it.startswith("licenses/")]
    check("the wheel's licences", crates and all(any(it.startswith(f"{name}-{version}/") for it in listed) for name, version in crates), listed)


def check_python(archive, folder):
    """Installs the Python package into an environment, without a network, walks a frame with it, and removes it."""
    said = run(f"{folder}/bin/pip", "install", "-q", archive, PIP_NO_INDEX="1", PIP_DISABLE_PIP_VERSION_CHECK="1", **QUICK)
    check(os.path.basename(archive), said[0] == 0, said[1])
    _, said = run(f"{folder}/bin/python", "c/examples/headers.py", FRAME)
    check(f"{os.path.basename(archive)}, a frame", "VLAN 291" in said, said)
    run(f"{folder}/bin/pip", "uninstall", "-q", "-y", "etherpeel")


def path_without(folder, *programs):
    """A folder for PATH with links to all programs but some."""
    os.makedirs(folder)
    for place in reversed(os.get_exec_path()):
        for name in os.listdir(place) if os.path.isdir(place) else []:
            if name not in programs:
                if os.path.lexists(f"{folder}/{name}"):
                    os.remove(f"{folder}/{name}")
                os.symlink(f"{place}/{name}", f"{folder}/{name}")
    return folder


def check_without_cargo(sdist, metadata, work):
    """The source archive without cargo: the metadata of the wheel, and one sentence in place of the library."""
    shutil.unpack_archive(sdist, f"{work}/sdist")
    folder = f"{work}/sdist/etherpeel-{VERSION}"
    calls = ["import sys; sys.dont_write_bytecode = True; sys.path.insert(0, 'c/python'); import backend; ",
             "print(backend.prepare_metadata_for_build_wheel(sys.argv[1]))", "backend.build_wheel(sys.argv[1])"]
    path = path_without(f"{work}/no_cargo", "cargo", "rt")
    status, said = run(sys.executable, "-c", calls[0] + calls[1], work, folder=folder, PATH=path)
    told = f"{work}/etherpeel-{VERSION}.dist-info/METADATA"
    check("metadata without a build", status == 0 and read(told) == metadata and read(told) == read(f"{folder}/PKG-INFO"), said)
    status, said = run(sys.executable, "-c", calls[0] + calls[2], work, folder=folder, PATH=path)
    check("a wheel without cargo", status == 1 and len(said.splitlines()) == 1 and "cargo 1.85 or later" in said, said)


def check_pythons(dist, work):
    if run(sys.executable, "-c", "import ensurepip, venv")[0]:
        print("left out: the Python package, since python3 has no venv")
        return
    wheel, sdist = glob.glob(f"{dist}/*.whl")[0], f"{dist}/etherpeel-{VERSION}.tar.gz"
    check_wheel(wheel)
    run(sys.executable, "-m", "venv", f"{work}/venv")
    for archive in (wheel, sdist):
        check_python(archive, f"{work}/venv")
    with zipfile.ZipFile(wheel) as file:
        check_without_cargo(sdist, file.read(f"etherpeel-{VERSION}.dist-info/METADATA"), work)


def script(path, text):
    os.makedirs(os.path.dirname(path), exist_ok=True)
    with open(path, "w", encoding="utf-8") as file:
        file.write(f"#!/bin/sh\n{text}\n")
    os.chmod(path, 0o755)


def check_library(work):
    """Which library is taken where the kit is on the PATH: that of cargo, unless the proved one is built or asked for."""
    top = f"{work}/libraries"
    script(f"{top}/bin/rt", "exit 1")
    script(f"{top}/rust/build.sh", f'echo "{top}/rust"')
    os.makedirs(f"{top}/c")
    os.makedirs(f"{top}/crates/ether_c/out")
    shutil.copy(f"{TOP}/c/archive.sh", f"{top}/c")
    cargos, proved = f"{top}/rust/libetherpeel_c.a", f"{top}/crates/ether_c/out/libether_c.a"
    words = "sh", "-c", "sh c/archive.sh 2> none"
    path = {"PATH": f"{top}/bin:{os.environ['PATH']}", "ETHERPEEL_LIBRARY": ""}
    script(cargos, "")
    check("cargo's library", run(*words, folder=top, **path) == (0, f"{cargos}\n"))
    asked = {**path, "ETHERPEEL_LIBRARY": proved}
    status, said = run("sh", "c/archive.sh", folder=top, **asked)
    check("a proved library that is not there", status == 1 and "'rt lib'" in said, said)
    script(proved, "")
    check("the proved library", run(*words, folder=top, **path)[1].endswith("/crates/ether_c/out/libether_c.a\n"))
    check("a library that is asked for", run(*words, folder=top, **{**path, "ETHERPEEL_LIBRARY": cargos}) == (0, f"{cargos}\n"))


def completed(program, *words):
    """What bash completes after these words."""
    array = " ".join(f"'{it}'" for it in (program, *words))
    said = run("bash", "-c", f"source completions/{program}.bash; COMP_WORDS=({array}); COMP_CWORD={len(words)}; _{program} {program}; "
               'printf "%s\\n" "${COMPREPLY[@]}"')[1]
    return said.split()


def check_completions():
    values, modes = ["lines", "brief", "json", "csv"], {"eth", "fcs", "sll", "type", "feed", "limit"}
    check("--format in bash", completed("ether_capture", "--format", "") == values, completed("ether_capture", "--format", ""))
    check("--undecided in bash", completed("ether_capture", "--undecided", "k") == ["keep"])
    check("ether_make in bash", completed("ether_make", "--f") == ["--fcs"], completed("ether_make", "--f"))
    check("ether_tool in bash", modes <= {*completed("ether_tool", "")}, completed("ether_tool", ""))
    if not shutil.which("fish"):
        print("left out: completions in fish, which was not found")
        return
    for text, wanted in (("ether_capture --format ", {*values}), ("ether_tool ", modes)):
        program = text.split()[0]
        said = run("fish", "--no-config", "-c", f"source completions/{program}.fish; complete -C '{text}'")[1]
        check(f"{text}in fish", {*said.split()} == wanted, said)


def check_scripts(work):
    check_library(work)
    check_completions()
    linkers = [f"wasm-ld-{version}" for version in range(10, 40)]
    status, said = run("sh", "page/build.sh", PATH=path_without(f"{work}/no_kit", "rt", *linkers))
    check("the page with nothing to build it", status == 3 and len(said.splitlines()) == 1 and "without the kit" in said, said)
