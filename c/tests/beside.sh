# Compiles etherpeel.h with headers of similar names, in both orders, and runs that by the words of RUNNER: beside.sh CC CXX LIBRARY FOLDER
usage() {
    sed -n '/^#!/d; /^#/!q; s/^# *//p' "$0"
    exit "$1"
}
case $#:${1:-} in
4:[!-]*) ;;
*:--help) usage 0 ;;
*) usage 2 >&2 ;;
esac
cc=$1 cxx=$2 library=$3 work=$4
RUNNER=${RUNNER:-}
passed=0 failed=0
pcap=
if "$cc" -D_DEFAULT_SOURCE -x c -fsyntax-only -include pcap/pcap.h /dev/null 2> "$work/beside.log"; then
    pcap=-DPCAP
else
    echo "left out: etherpeel.h with the headers of libpcap, since they were not found"
fi
# a compiler with its words: each order, without libpcap's headers and with them
compile() {
    for order in -DFIRST -DLAST; do
        for with in -DALONE $pcap; do
            if "$@" -D_DEFAULT_SOURCE -Wall -Wextra -Wpedantic -Werror $order $with tests/beside.c -x none -o "$work/beside" "$library" \
                > "$work/beside.log" 2>&1 && $RUNNER "$work/beside"; then
                passed=$((passed + 1))
            else
                failed=$((failed + 1))
                echo "$* $order $with:"
                cat "$work/beside.log"
            fi
        done
    done
}
compile "$cc" -std=c99 -x c
if [ -n "$cxx" ]; then compile "$cxx" -std=c++11 -x c++; fi
echo "$passed passed, $failed failed"
