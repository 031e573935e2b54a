#!/bin/sh
# release.sh [FOLDER]: writes what is released of the last commit into a folder, dist without it: the sources, also with the crates that they
# need, the crate for cargo, the wheel and the source archive of the Python package, packages of Debian for x86-64 and aarch64 with the programs,
# the library and what is compiled with it, the page, a list of what is in each file, and checksums. The page is the file that PAGE names, none
# if that is empty, or else built by the kit, or without it by cargo and clang. Cargo builds all the rest. The bytes do not depend on the folder,
# the user, the umask and the time zone. PROCESSORS names the processors of the packages. Needs git, cargo, a C compiler, python3, strip and
# dpkg-deb; what can't be made is left out, and a line says so.
usage() {
    sed -n '/^#!/d; /^#/!q; s/^# *//p' "$0"
    exit "$1"
}
case $#:${1:-} in
0: | 1:[!-]*) ;;
*:--help) usage 0 ;;
*) usage 2 >&2 ;;
esac
set -eu
umask 022
cd "$(dirname "$0")"
top=$PWD
version=$(cat VERSION)
dist=${1:-dist}
rm -rf "$dist"
mkdir -p "$dist"
dist=$(cd "$dist" && pwd)
work=$(mktemp -d)
trap 'rm -rf "$work"' EXIT
SOURCE_DATE_EPOCH=${SOURCE_DATE_EPOCH:-$(git log -1 --format=%ct)}
RUSTFLAGS="--remap-path-prefix=$top=. --remap-path-prefix=${CARGO_HOME:-$HOME/.cargo}=.cargo ${RUSTFLAGS:-}"
RUSTC_WRAPPER=$top/release/rustc.sh
PYTHONDONTWRITEBYTECODE=1 LC_ALL=C TZ=UTC
export SOURCE_DATE_EPOCH RUSTFLAGS RUSTC_WRAPPER PYTHONDONTWRITEBYTECODE LC_ALL TZ
PROGRAMS=$(sh rust/build.sh ether_tools --locked)
ETHERPEEL_LIBRARY=$(sh rust/build.sh etherpeel_c --locked)/libetherpeel_c.a
export PROGRAMS ETHERPEEL_LIBRARY

git -c tar.umask=0022 archive --format=tar --prefix="jalkumfe-$version/" HEAD | gzip -9 -n > "$dist/jalkumfe-$version.tar.gz"
python3 release/vendored.py "$dist/jalkumfe-$version.tar.gz" "$dist"
python3 - "$dist" << 'END'
import sys
sys.path[:0] = ["rust", "c/python"]
import backend
import building
text, status = building.cargo("package", "--no-verify", "--allow-dirty", "--no-metadata")
if status:
    sys.exit(text)
backend.build_sdist(sys.argv[1])
backend.build_wheel(sys.argv[1])
END
cp "rust/etherpeel/target/package/etherpeel-$version.crate" "$dist"
if [ -n "${PAGE:-}" ]; then
    cp "$PAGE" "$dist/etherpeel-$version.html"
elif [ -z "${PAGE+named}" ]; then
    sh page/build.sh > "$work/page.log" 2>&1 || { cat "$work/page.log"; exit 1; }
    cp page/out/index.html "$dist/etherpeel-$version.html"
else
    echo "left out: the page"
fi

if command -v dpkg-deb > "$work/none" && command -v strip > "$work/none"; then
    for processor in ${PROCESSORS:-x86_64 aarch64}; do
        sh release/debian.sh "$processor" "$dist" || { status=$?; [ "$status" = 3 ] || exit "$status"; }
    done
else
    echo "left out: the packages of Debian, since dpkg-deb or strip was not found"
fi
python3 release/contents.py release "$dist"
(cd "$dist" && sha256sum -- * > "$work/SHA256SUMS" && mv "$work/SHA256SUMS" .)
ls "$dist"
