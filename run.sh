#!/bin/sh
# run.sh PROGRAM [WORD..]: runs ether_tool, ether_capture or ether_make with these words. Cargo builds the program, or else, where cargo or the
# crates that it needs are missing, the Rattle kit runs it unproved. What is done is said on standard error.
usage() {
    sed -n '/^#!/d; /^#/!q; s/^# *//p' "$0"
    exit "$1"
}
case ${1:-} in
ether_tool | ether_capture | ether_make) ;;
--help) usage 0 ;;
*) usage 2 >&2 ;;
esac
set -eu
top=$(cd "$(dirname "$0")" && pwd)
program=$1
shift
say() { echo "run.sh: $*" >&2; }

built=$top/rust/ether_tools/target/release/$program
if [ -x "$built" ] && [ -z "$(find "$top/rust/ether_tools/src" "$top/rust/etherpeel/src" -newer "$built" -name '*.rs')" ]; then exec "$built" "$@"; fi
say "builds $program by cargo, once, which takes one to three minutes"
if why=$(cd "$top/rust/ether_tools" && sh ../cargo.sh missing 2>&1); then
    folder=$(sh "$top/rust/build.sh" ether_tools)
    exec "$folder/$program" "$@"
fi
if ! command -v rt > /dev/null; then
    say "$why"
    exit 1
fi
say "$(echo "$why" | head -n 1)"
say "the Rattle kit runs $program instead, in about half a minute. It has not proved it: '(cd crates/$program && rt run -- WORDS)' does so first"

# the kit runs it in a folder of its own, so names of files need their folders
for word; do
    shift
    case $word in
    /*) ;;
    *) if [ -e "$word" ]; then word=$PWD/$word; fi ;;
    esac
    set -- "$@" "$word"
done
cd "$top/crates/$program"
exec rt try --seconds 3600 -- "$@"
