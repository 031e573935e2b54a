#!/bin/sh
# cargo.sh COMMAND [WORD..]: runs cargo over the package of the current folder. It takes crates of others from Debian's packages, without a
# network, if these have all that the package needs (registry.sh), else from crates.io or from the folder `vendor` of the sources.
# `cargo.sh missing` prints why the package can't be built here and what helps, and ends with status 1; it prints nothing if it can.
usage() {
    sed -n '/^#!/d; /^#/!q; s/^# *//p' "$0"
    exit "$1"
}
case ${1:-} in
--help) usage 0 ;;
'' | -*) usage 2 >&2 ;;
esac
set -eu
rust=$(cd "$(dirname "$0")" && pwd)
command=$1
shift
if ! command -v cargo > /dev/null; then
    echo "cargo 1.85 or later was not found: install Rust, on Debian by 'apt-get install cargo-web rustc-web'"
    exit 1
fi >&2

registry=
if [ "$command" != fmt ]; then registry=$(sh "$rust/registry.sh"); fi
if [ -n "$registry" ]; then
    set -- --offline --config 'source.crates-io.replace-with="debian"' --config "source.debian.directory=\"$registry\"" "$@"
    # Debian's packages may lack a crate that crates.io has
    if [ "$#" -ge 5 ] && ! cargo metadata "$1" "$2" "$3" "$4" "$5" --format-version 1 > /dev/null 2>&1; then shift 5; fi
fi
if [ "$command" != missing ]; then exec cargo "$command" "$@"; fi

version=$(cargo --version)
if ! echo "$version" | awk '{ split($2, part, "."); exit !(part[1] > 1 || part[2] >= 85) }'; then
    echo "$version is older than 1.85; Debian has a later one in the packages cargo-web and rustc-web"
    exit 1
fi
host=$(rustc -vV | sed -n 's/^host: //p')
if said=$(CARGO_NET_RETRY=0 CARGO_HTTP_TIMEOUT=5 cargo fetch --target "$host" "$@" 2>&1); then exit; fi
echo "cargo does not get the crates that it needs: $(echo "$said" | sed -n 's/^error: //p' | head -n 1)"
lacking=
for package in $(sed -n 's/^librust-/&/p' "$rust/../.ci/packages"); do
    case $(dpkg-query -W -f '${Status}' "$package" 2> /dev/null) in
    *' installed') ;;
    *) lacking="$lacking $package" ;;
    esac
done
if [ -n "$lacking" ] && command -v apt-get > /dev/null; then echo "without crates.io, Debian's packages have them: apt-get install$lacking"; fi
exit 1
