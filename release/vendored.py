"""Writes the archive of the sources with the crates in it, which builds without a network:

    python3 release/vendored.py SOURCES FOLDER

SOURCES is an archive, as `git archive` writes it, and FOLDER where the other one is written, with -vendored in its name. The crates
are those of the lock files, in the folder `vendor`, and .cargo/config.toml makes cargo take them from there.
"""
import argparse
import gzip
import hashlib
import io
import json
import os
import sys
import tarfile

sys.dont_write_bytecode = True
import contents  # noqa: E402

CONFIG = """[source.crates-io]
replace-with = "vendor"

[source.vendor]
directory = "vendor"
"""
LEFT_OUT = ("debian", ".cargo-checksum.json", ".git", "target")


def files_of(crate):
    """The files of a crate by their names, with that of the checksums, which cargo asks for."""
    found = {}
    for at, folders, names in os.walk(crate.folder, followlinks=True):
        if at == crate.folder:
            folders[:] = [it for it in folders if it not in LEFT_OUT]
            names = [it for it in names if it not in LEFT_OUT]
        for name in names:
            with open(f"{at}/{name}", "rb") as file:
                found[os.path.relpath(f"{at}/{name}", crate.folder)] = file.read()
    sums = {name: hashlib.sha256(content).hexdigest() for name, content in sorted(found.items())}
    found[".cargo-checksum.json"] = json.dumps({"files": sums, "package": crate.checksum}).encode()
    return found


def added():
    """What the sources do not have."""
    yield ".cargo/config.toml", CONFIG.encode()
    for crate in contents.vendored("ether_tools"):
        for name, content in sorted(files_of(crate).items()):
            yield f"vendor/{crate.label}/{name}", content


def main():
    words = argparse.ArgumentParser(description=__doc__, formatter_class=argparse.RawDescriptionHelpFormatter)
    words.add_argument("sources", metavar="SOURCES")
    words.add_argument("folder", metavar="FOLDER")
    given = words.parse_args()
    base = os.path.basename(given.sources).removesuffix(".tar.gz")
    when, packed = int(os.environ.get("SOURCE_DATE_EPOCH", "0")), io.BytesIO()
    with tarfile.open(given.sources) as sources, tarfile.open(fileobj=packed, mode="w", format=tarfile.PAX_FORMAT) as made:
        for member in sources.getmembers():
            member.pax_headers = {}
            made.addfile(member, sources.extractfile(member) if member.isreg() else None)
        for name, content in added():
            told = tarfile.TarInfo(f"{base}/{name}")
            told.size, told.mtime = len(content), when
            made.addfile(told, io.BytesIO(content))
    with open(os.path.join(given.folder, f"{base}-vendored.tar.gz"), "wb") as file:
        file.write(gzip.compress(packed.getvalue(), mtime=0))


if __name__ == "__main__":
    main()
