#!/bin/sh
# Links the shared library, which exports the calls of etherpeel.h and nothing else: link.sh CC libether_c.a libetherpeel.so.3
usage() {
    sed -n '/^#!/d; /^#/!q; s/^# *//p' "$0"
    exit "$1"
}
case $#:${1:-} in
3:[!-]*) ;;
*:--help) usage 0 ;;
*) usage 2 >&2 ;;
esac
set -eu
exec "$1" -shared -o "$3" -Wl,-soname,libetherpeel.so.3 -Wl,--version-script="$(dirname "$0")/etherpeel.map" -Wl,-z,relro -Wl,-z,now -Wl,--gc-sections -Wl,--strip-debug \
    -Wl,--whole-archive "$2" -Wl,--no-whole-archive
