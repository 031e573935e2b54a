#!/bin/sh
# build.sh PACKAGE [WORD..]: builds etherpeel_c or ether_tools by cargo (cargo.sh), which gets the words, and prints the folder of what was
# built. The static library has no bitcode of LLVM, which a linker of another version would refuse.
usage() {
    sed -n '/^#!/d; /^#/!q; s/^# *//p' "$0"
    exit "$1"
}
case $#:${1:-} in
[1-9]*:[!-]*) ;;
*:--help) usage 0 ;;
*) usage 2 >&2 ;;
esac
set -eu
cd "$(dirname "$0")"
cd "$1"
shift
made=$PWD/target/release
sh ../cargo.sh build --release --quiet --target-dir "$PWD/target" "$@" >&2
for library in "$made"/*.a; do
    if [ -f "$library" ] && command -v "${OBJCOPY:-objcopy}" > /dev/null; then
        "${OBJCOPY:-objcopy}" --remove-section=.llvmbc --remove-section=.llvmcmd "$library" "$library.new"
        mv "$library.new" "$library"
    fi
done
echo "$made"
