#!/bin/sh
# install.sh PREFIX: the header, the static and the shared library, the files for pkg-config and CMake and the manual pages, for all programs
# that look below PREFIX. archive.sh says which library it is. CC names another C compiler than cc, DESTDIR a folder to put it all into, LIBDIR
# another folder for the libraries than PREFIX/lib.
usage() {
    sed -n '/^#!/d; /^#/!q; s/^# *//p' "$0"
    exit "$1"
}
case $#:${1:-} in
1:[!-]*) ;;
*:--help) usage 0 ;;
*) usage 2 >&2 ;;
esac
set -eu
case $1 in
/*) prefix=${1%/} ;;
*) prefix=$PWD/${1%/} ;;
esac
here=$(cd "$(dirname "$0")" && pwd)
archive=$(sh "$here/archive.sh")
libdir=${LIBDIR:-$prefix/lib}
to=${DESTDIR:-}$prefix
lib=${DESTDIR:-}$libdir
install -D -m 644 "$here/etherpeel.h" "$to/include/etherpeel.h"
install -D -m 644 "$archive" "$lib/libetherpeel.a"
sh "$here/link.sh" "${CC:-cc}" "$archive" "$lib/libetherpeel.so.3.0.0"
ln -sf libetherpeel.so.3.0.0 "$lib/libetherpeel.so.3"
ln -sf libetherpeel.so.3 "$lib/libetherpeel.so"
mkdir -p "$lib/pkgconfig"
sed "s|@PREFIX@|$prefix|; s|@LIBDIR@|$libdir|" "$here/etherpeel.pc.in" > "$lib/pkgconfig/etherpeel.pc"
include=$(realpath -m --relative-to="$libdir/cmake/etherpeel" "$prefix/include" 2> /dev/null || echo "$prefix/include")
mkdir -p "$lib/cmake/etherpeel"
sed "s|@INCLUDE@|$include|" "$here/etherpeel-config.cmake.in" > "$lib/cmake/etherpeel/etherpeel-config.cmake"
install -m 644 "$here/etherpeel-config-version.cmake" "$lib/cmake/etherpeel"
install -D -m 644 "$here/etherpeel.3" "$to/share/man/man3/etherpeel.3"
if command -v python3 > /dev/null; then
    python3 -B "$here/manual.py" "$to/share/man/man3"
else
    echo "left out: the manual pages of the calls, since python3 was not found" >&2
fi
