#!/bin/sh
# debian.sh PROCESSOR FOLDER: writes packages of Debian into a folder: ether-tools, with the programs, libetherpeel3 and libetherpeel-dev, with the
# library for C. PROCESSOR is x86_64, or aarch64, for which the cross compilers build (processor.py); status 3 says that they are not there. Each
# package names the crates that are linked in and has their licences. PROGRAMS and ETHERPEEL_LIBRARY name what was built for this processor.
usage() {
    sed -n '/^#!/d; /^#/!q; s/^# *//p' "$0"
    exit "$1"
}
case $#:${1:-} in
2:x86_64 | 2:aarch64) ;;
*:--help) usage 0 ;;
*) usage 2 >&2 ;;
esac
set -eu
umask 022
processor=$1
dist=$(cd "$2" && pwd)
cd "$(dirname "$0")/.."
version=$(cat VERSION)
work=$(mktemp -d)
trap 'rm -rf "$work"' EXIT
SOURCE_DATE_EPOCH=${SOURCE_DATE_EPOCH:-$(git log -1 --format=%ct)}
export SOURCE_DATE_EPOCH
if [ "$processor" = x86_64 ]; then
    architecture=amd64
    strip=strip
    PROGRAMS=${PROGRAMS:-$(sh rust/build.sh ether_tools --locked)}
    ETHERPEEL_LIBRARY=${ETHERPEEL_LIBRARY:-$(sh rust/build.sh etherpeel_c --locked)/libetherpeel_c.a}
else
    architecture=arm64
    strip=$processor-linux-gnu-strip
    found=$(python3 release/processor.py "$processor" "$work/built") || exit
    eval "export $found"
    PROGRAMS=$work/built
    ETHERPEEL_LIBRARY=$work/built/libetherpeel_c.a
    CC=$work/built/cc
    export CC
fi
export PROGRAMS ETHERPEEL_LIBRARY

# a package of Debian, of the files that are in a folder of its name: its name, section, dependencies and what it is, and of what it is built
package() {
    root=$work/$1
    doc=$root/usr/share/doc/$1
    mkdir -p "$root/DEBIAN" "$doc"
    python3 release/contents.py package "$6" "$processor-unknown-linux-gnu" "$doc" "$1" > "$work/crates"
    cat release/copyright "$work/crates" > "$doc/copyright"
    printf '%s (%s) unstable; urgency=low\n\n  * See CHANGELOG.md of the sources.\n\n -- the Jalkumfe developers <developers@jalkumfe.invalid>  %s\n' \
        "$1" "$version" "$(date -u -R -d "@$SOURCE_DATE_EPOCH")" | gzip -9 -n > "$doc/changelog.gz"
    find "$root/usr/share/man" -name '*.[137]' -exec gzip -9 -n {} + 2> "$work/none" || true
    {
        printf 'Package: %s\nVersion: %s\nArchitecture: %s\nSection: %s\nPriority: optional\n' "$1" "$version" "$architecture" "$2"
        printf 'Maintainer: the Jalkumfe developers <developers@jalkumfe.invalid>\nDepends: %s\n' "$3"
        printf 'Installed-Size: %s\nDescription: %s\n%s\n' "$(du -sk --apparent-size "$root/usr" | cut -f 1)" "$4" "$5"
    } > "$root/DEBIAN/control"
    (cd "$root" && find usr -type f -exec md5sum {} + | LC_ALL=C sort -k 2 > DEBIAN/md5sums)
    find "$root" -exec touch -h -d "@$SOURCE_DATE_EPOCH" {} +
    chmod -R u=rwX,go=rX "$root"
    dpkg-deb -Zxz --root-owner-group --build "$root" "$dist/${1}_${version}_$architecture.deb" > "$work/deb.log"
}

lib=/usr/lib/$processor-linux-gnu
DESTDIR=$work/ether-tools PREFIX=/usr sh install.sh programs
DESTDIR=$work/all PREFIX=/usr LIBDIR=$lib sh install.sh library 2> "$work/log" || { cat "$work/log"; exit 1; }
mkdir -p "$work/libetherpeel3$lib" "$work/libetherpeel3/DEBIAN" "$work/libetherpeel-dev"
"$strip" --strip-unneeded "$work"/ether-tools/usr/bin/* "$work/all$lib/libetherpeel.so.3.0.0"
"$strip" --strip-debug --enable-deterministic-archives "$work/all$lib/libetherpeel.a"
mv "$work/all$lib"/libetherpeel.so.3* "$work/libetherpeel3$lib"
chmod 644 "$work/libetherpeel3$lib/libetherpeel.so.3.0.0"
mv "$work/all/usr" "$work/libetherpeel-dev"
echo "libetherpeel 3 libetherpeel3" > "$work/libetherpeel3/DEBIAN/shlibs"
echo "activate-noawait ldconfig" > "$work/libetherpeel3/DEBIAN/triggers"
package ether-tools net "$(python3 release/depends.py "$work"/ether-tools/usr/bin/*)" "print and make the link-layer headers of frames and of captures" \
    " ether_tool reads frames as hexadecimal digits, ether_capture captures, pcap or
 pcapng. They print the link-layer headers, or copy a capture.
 ether_make makes frames of objects of JSON." ether_tools
package libetherpeel3 libs "$(python3 release/depends.py "$work/libetherpeel3$lib/libetherpeel.so.3.0.0")" "walk through the link-layer headers of a frame" \
    " Ethernet II, VLAN tags, MACsec SecTags, Linux cooked capture and ARP: the walk,
 fields, packets, captures and filters. No call allocates memory." etherpeel_c
package libetherpeel-dev libdevel "libetherpeel3 (= $version)" "header and static library of libetherpeel" \
    " What is needed to compile programs with libetherpeel: the header, the static
 library, files for pkg-config and CMake, and the manual page." etherpeel_c
