#!/bin/sh
# test.sh: tests the crate and the programs as cargo builds them. Where cargo or the crates that it needs are missing, the Rattle kit runs the
# tests of the libraries and the stored runs of the programs, unproved. It takes at most five minutes on two cores; `bash .ci/run`, the gate,
# also proves everything. The last line is 'N passed, M failed'.
usage() {
    sed -n '/^#!/d; /^#/!q; s/^# *//p' "$0"
    exit "$1"
}
case $#:${1:-} in
0:) ;;
*:--help) usage 0 ;;
*) usage 2 >&2 ;;
esac
set -eu
cd "$(dirname "$0")"
begin=$(date +%s)
passed=0
failed=0
said=$(mktemp)
trap 'rm -f "$said"' EXIT
say() { echo "test.sh: $*"; }

# What a part printed is passed on where it failed, and its counts are added up: lines `N passed, M failed`, or those of `cargo test`.
part() {
    name=$1
    shift
    say "$name .."
    status=0
    "$@" > "$said" 2>&1 || status=$?
    counts=$(sed -n 's/^test result: .* \([0-9]*\) passed; \([0-9]*\) failed.*/\1 \2/p; s/^\([0-9]*\) passed, \([0-9]*\) failed$/\1 \2/p' "$said" |
        awk '{ well += $1; ill += $2 } END { print well + 0, ill + 0 }')
    well=${counts% *}
    ill=${counts#* }
    if [ "$status" != 0 ] && [ "$ill" = 0 ]; then ill=1; fi
    if [ "$ill" != 0 ]; then tail -n 200 "$said"; fi
    say "$name: $well passed, $ill failed, after $(($(date +%s) - begin)) s"
    passed=$((passed + well))
    failed=$((failed + ill))
}

say "tests the crate and the programs, built by cargo, in two to five minutes"
if why=$(cd rust/ether_tools && sh ../cargo.sh missing 2>&1) && why=$(cd rust/etherpeel && sh ../cargo.sh missing 2>&1); then
    part "the crate" sh -c 'cd rust/etherpeel && sh ../cargo.sh test --all-features'
    part "building the programs" sh rust/build.sh ether_tools
    if command -v python3 > /dev/null; then
        built=rust/ether_tools/target/release
        part ether_tool python3 tests/ether_tool.py $built/ether_tool
        part ether_make python3 tests/ether_make.py $built/ether_make
        part ether_capture python3 tests/ether_capture.py --gzip $built/ether_capture
    else
        say "left out: the tests of the programs, since python3 was not found"
    fi
elif command -v rt > /dev/null && command -v python3 > /dev/null; then
    say "$(echo "$why" | head -n 1)"
    say "the Rattle kit runs tests and programs unproved instead, in about five minutes; 'bash .ci/run' proves them"
    python3 try.py
    exit
else
    say "$why"
    failed=1
fi
echo "$passed passed, $failed failed"
[ "$failed" = 0 ]
