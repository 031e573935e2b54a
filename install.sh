#!/bin/sh
# install.sh [uninstall] [programs] [library]: puts the programs and the library for C, each with its manual pages, below a folder, or
# removes them; both if none is named. PREFIX names the folder, /usr/local without it, LIBDIR that of the library, PREFIX/lib without it, and
# DESTDIR one that comes before either. What `rt` has built is taken, else what cargo builds; PROGRAMS names another folder with the programs,
# ETHERPEEL_LIBRARY another static library.
usage() {
    sed -n '/^#!/d; /^#/!q; s/^# *//p' "$0"
    exit "$1"
}
set -eu
here=$(cd "$(dirname "$0")" && pwd)
prefix=${PREFIX:-/usr/local}
to=${DESTDIR:-}$prefix
action=install
parts=
for word in "$@"; do
    case $word in
    uninstall) action=uninstall ;;
    programs | library) parts="$parts $word" ;;
    --help) usage 0 ;;
    *) usage 2 >&2 ;;
    esac
done

# one file: its mode, its path here, its path below PREFIX
put() {
    if [ "$action" = install ]; then
        install -D -m "$1" "$2" "$to/$3"
    else
        rm -f "$to/$3"
    fi
}

programs() {
    built=${PROGRAMS:-}
    for name in ether_tool ether_capture ether_make; do
        program=${built:-$here/crates/$name/out}/$name
        if [ "$action" = install ] && [ ! -f "$program" ]; then
            built=$(sh "$here/rust/build.sh" ether_tools)
            program=$built/$name
        fi
        put 755 "$program" "bin/$name"
        put 644 "$here/man/$name.1" "share/man/man1/$name.1"
        put 644 "$here/completions/$name.bash" "share/bash-completion/completions/$name"
        put 644 "$here/completions/_$name" "share/zsh/site-functions/_$name"
        put 644 "$here/completions/$name.fish" "share/fish/vendor_completions.d/$name.fish"
    done
    put 644 "$here/man/ether-filter.7" share/man/man7/ether-filter.7
}

library() {
    if [ "$action" = install ]; then
        sh "$here/c/install.sh" "$prefix"
        return
    fi
    lib=${DESTDIR:-}${LIBDIR:-$prefix/lib}
    rm -f "$to/include/etherpeel.h" "$lib/libetherpeel.a" "$lib/libetherpeel.so" "$lib"/libetherpeel.so.3 "$lib"/libetherpeel.so.3.* \
        "$lib/pkgconfig/etherpeel.pc" "$lib/cmake/etherpeel/etherpeel-config.cmake" "$lib/cmake/etherpeel/etherpeel-config-version.cmake" \
        "$to/share/man/man3/etherpeel.3" "$to"/share/man/man3/etherpeel_*.3
    if [ -d "$lib/cmake/etherpeel" ]; then rmdir "$lib/cmake/etherpeel"; fi
}

for part in ${parts:-programs library}; do $part; done
