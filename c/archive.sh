#!/bin/sh
# Prints the path of the static library: of ETHERPEEL_LIBRARY, else of the one that `rt lib` made in crates/ether_c, else of the one that
# cargo makes without the proofs. Which one it is goes to standard error.
usage() {
    sed -n '/^#!/d; /^#/!q; s/^# *//p' "$0"
    exit "$1"
}
case $#:${1:-} in
0:) ;;
*:--help) usage 0 ;;
*) usage 2 >&2 ;;
esac
set -eu
here=$(cd "$(dirname "$0")" && pwd)
proved=$here/../crates/ether_c/out/libether_c.a
if [ -n "${ETHERPEEL_LIBRARY:-}" ]; then
    made=$ETHERPEEL_LIBRARY
elif [ -f "$proved" ]; then
    made=$proved
else
    made=$(sh "$here/../rust/build.sh" etherpeel_c)/libetherpeel_c.a
fi
if [ ! -f "$made" ]; then
    echo "the library $made is missing: 'rt lib' in crates/ether_c makes the proved one, 'sh rust/build.sh etherpeel_c' that of cargo" >&2
    exit 1
fi
echo "the library is $made" >&2
echo "$made"
