#!/bin/sh
# sh bench/captures/run.sh PROGRAM [MEGABYTES] [ROUNDS]: ether_capture (lines and copies), `cat`, tcpdump and a program over libpcap, in
# turns, over captures that are made here: processor time, time, and the ratio of the processor time to that of `tcpdump -w`. What is not installed
# (tcpdump, gcc with libpcap's header) is left out.
usage() {
    sed -n '/^#!/d; /^#/!q; s/^# *//p' "$0"
    exit "$1"
}
case $#:${1:-} in
[123]:[!-]*) ;;
*:--help) usage 0 ;;
*) usage 2 >&2 ;;
esac
set -eu
here=$(cd "$(dirname "$0")" && pwd)
program=$(realpath "${1:?the built program}")
work=$(mktemp -d)
trap 'rm -rf "$work"' EXIT
python3 "$here/make.py" "$work" "${2:-100}"
rounds=${3:-7}

set -- "$rounds" -- "cat=$(command -v cat)" "plain=$program --plain" "lines=$program" "json=$program --format json" "brief=$program --format brief" "fields=$program --fields vlan.vid,eth.src" "write=$program --write" \
    "select=$program --select 'vlan 5' --write" "headers=$program --write --cut-to-headers"
if gcc -O2 -o "$work/walk" "$here/walk.c" -lpcap 2> /dev/null; then
    set -- "$@" "libpcap=$work/walk"
else
    echo "left out: the program over libpcap, since gcc or libpcap's header is not installed"
fi
if command -v tcpdump > /dev/null 2>&1; then
    set -- "$@" "print=$(command -v tcpdump) -e -n -r -" "filter=$(command -v tcpdump) -r - -w /dev/null 'vlan 5'" \
        "copy=$(command -v tcpdump) -r - -w /dev/null"
else
    echo "left out: tcpdump, which is not installed"
fi
for file in mixed small; do
    echo "-- $file"
    python3 "$here/../tool/race.py" "$work/$file.pcap" "$@" 2> /dev/null
done

if command -v tcpdump > /dev/null 2>&1; then
    for terms in 1 4 8 16 64; do
        words="vlan $(seq -s ' or vlan ' 1 "$terms")"
        echo "-- small, vlan 1 to vlan $terms"
        python3 "$here/../tool/race.py" "$work/small.pcap" "$rounds" -- "select=$program --select '$words' --write" \
            "filter=$(command -v tcpdump) -r - -w /dev/null '$words'" 2> /dev/null
    done
fi

echo "-- a block of 15 MiB in pieces of 4 KiB"
set -- "write=$program --write" "plain=$program --plain"
if command -v tcpdump > /dev/null 2>&1; then
    set -- "$@" "copy=$(command -v tcpdump) -r - -w /dev/null"
fi
python3 "$here/pieces.py" "$@"
