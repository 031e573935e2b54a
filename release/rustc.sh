#!/bin/sh
# rustc.sh RUSTC WORD..: what cargo calls in place of rustc for a release (RUSTC_WRAPPER). Cargo marks each crate by a hash, which depends on the
# folder of the sources and gets into names of symbols. Here the mark is made of the crate's name and version.
usage() {
    sed -n '/^#!/d; /^#/!q; s/^# *//p' "$0"
    exit "$1"
}
case $#:${1:-} in
[1-9]*:[!-]*) ;;
*:--help) usage 0 ;;
*) usage 2 >&2 ;;
esac
set -eu
rustc=$1
shift
left=$#
while [ "$left" -gt 0 ]; do
    word=$1
    shift
    case $word in
    metadata=*) word="metadata=${CARGO_PKG_NAME:-}-${CARGO_PKG_VERSION:-}-${CARGO_CRATE_NAME:-}" ;;
    esac
    set -- "$@" "$word"
    left=$((left - 1))
done
exec "$rustc" "$@"
