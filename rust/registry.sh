#!/bin/sh
# registry.sh: prints a folder from which cargo takes crates in place of crates.io: of those that Debian's packages librust-..-dev have. Debian
# lacks the checksums of some; here each that a lock file names has the one of the lock file. Prints nothing where Debian's packages lack
# arrayvec 0.7, or where the crates are in the folder `vendor` of the sources. DEBIAN_REGISTRY names another folder than that of the packages.
usage() {
    sed -n '/^#!/d; /^#/!q; s/^# *//p' "$0"
    exit "$1"
}
case $#:${1:-} in
0:) ;;
*:--help) usage 0 ;;
*) usage 2 >&2 ;;
esac
set -eu
cd "$(dirname "$0")"
debian=${DEBIAN_REGISTRY:-/usr/share/cargo/registry}
made=$PWD/target/registry
if [ -d ../vendor ] || [ -z "$(find "$debian" -maxdepth 1 -name 'arrayvec-0.7*' 2> /dev/null)" ]; then exit; fi
locks=$(ls ether_tools/Cargo.lock etherpeel_c/Cargo.lock 2> /dev/null || true)
if [ -d "$made" ] && [ -z "$(find "$debian" $locks registry.sh -maxdepth 0 -newer "$made")" ]; then
    echo "$made"
    exit
fi

# the checksum that the lock files have for a crate, as clap-4.0.32
checksum_of() {
    # each word is one file
    awk -v crate="$1" '/^name = /{ name = $3 } /^version = /{ version = $3 }
        /^checksum = "[0-9a-f]+"$/ { told = name "-" version; gsub(/"/, "", told); if (told == crate) { gsub(/"/, "", $3); print $3; exit } }' $locks /dev/null
}

mkdir -p target
new=$(mktemp -d target/registry.XXXXXX)
chmod 755 "$new"
# a copy and no links: the prover refuses a link wherever it stands in the sources
cp -R "$debian"/. "$new"
for path in $(grep -L '"package":"[0-9a-f]*"' "$new"/*/.cargo-checksum.json); do
    folder=${path%/*}
    checksum=$(checksum_of "${folder##*/}")
    if [ -n "$checksum" ]; then printf '{"files":{},"package":"%s"}' "$checksum" > "$path"; fi
done
# lock files that cargo wrote over Debian's own folder have no checksums for these crates
for path in */Cargo.lock; do
    if grep -q '^checksum = "Could not get' "$path" 2> /dev/null; then rm -f "$path"; fi
done
rm -rf "$made"
mv "$new" "$made" 2> /dev/null || rm -rf "$new"
echo "$made"
