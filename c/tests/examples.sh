# Compares what the examples in C and in Python print with what docs/C.md says; FOLDER/package has the package: examples.sh CC LIBRARY PYTHON FOLDER
# If PYTHON is empty, those in Python are left out. The words of RUNNER run those in C.
usage() {
    sed -n '/^#!/d; /^#/!q; s/^# *//p' "$0"
    exit "$1"
}
case $#:${1:-} in
4:[!-]*) ;;
*:--help) usage 0 ;;
*) usage 2 >&2 ;;
esac
cc=$1 library=$2 python=$3 work=$4
RUNNER=${RUNNER:-}
passed=0 failed=0
check() {
    if [ "$2" = "$3" ]; then
        passed=$((passed + 1))
    else
        failed=$((failed + 1))
        printf '%s printed:\n%s\n' "$1" "$2"
    fi
}
tagged=FFFFFFFFFFFF0200000000018100B123080045
tagged_lines='0: Ethernet II to ff:ff:ff:ff:ff:ff from 02:00:00:00:00:01 type 0x8100
14: VLAN 291, priority 5, type 0x0800
18: 1 bytes left'
cut_lines="0: Ethernet II to ff:ff:ff:ff:ff:ff from 02:00:00:00:00:01 type 0x8100
refused at offset 14: VLAN Header Error: Not enough data to decode 'VLAN header'. 4 byte(s) would be required, but only 2 byte(s) are available based on the slice length ('VLAN header' starts at overall parsed byte 14)."
cut=FFFFFFFFFFFF0200000000018100B123
"$cc" -std=c99 -O2 -I. -o "$work/headers" examples/headers.c "$library"
check headers.c "$($RUNNER "$work/headers" $tagged)" "$tagged_lines"
check headers.c "$($RUNNER "$work/headers" $cut)" "$cut_lines"
vlans_lines='VLAN 10: 1 packets
VLAN 291: 2 packets'
"$cc" -std=c99 -O2 -Wall -Wextra -Wpedantic -Werror -I. -o "$work/vlans" examples/vlans.c "$library"
check vlans.c "$($RUNNER "$work/vlans" examples/sample.pcap)" "$vlans_lines"
head -c 100 examples/sample.pcap > "$work/cut.pcap"
cut_text="$work/cut.pcap: At byte 59: A record of a pcap file needs 58 byte(s); only 41 are available.
status 1"
check vlans.c "$($RUNNER "$work/vlans" "$work/cut.pcap" 2>&1 > /dev/null; echo "status $?")" "$cut_text"
if [ -n "$python" ]; then
    export PYTHONPATH="$work/package"
    check headers.py "$("$python" examples/headers.py $tagged)" "$tagged_lines"
    check headers.py "$("$python" examples/headers.py $cut)" "$cut_lines"
    check vlans.py "$("$python" examples/vlans.py examples/sample.pcap)" "$vlans_lines"
    check vlans.py "$("$python" examples/vlans.py "$work/cut.pcap" 2>&1 > /dev/null; echo "status $?")" "$cut_text"
fi
"$cc" -std=c11 -O2 -Wall -Wextra -Werror -I. -o "$work/switch" examples/switch.c "$library"
check switch.c "$($RUNNER "$work/switch" none:pvid=0 2>&1; echo "status $?")" "switch: none: '0' is not the identifier of a VLAN, 1 to 4094
status 2"
echo "$passed passed, $failed failed"
