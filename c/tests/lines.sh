# Compares the lines that tests/lines.c prints by calls from C with lines of captured frames that are known, and with
# those of the tool, which has been built, on 10,000 drawn frames for each way in which a frame begins: lines.sh CC LIBRARY PYTHON FOLDER
usage() {
    sed -n '/^#!/d; /^#/!q; s/^# *//p' "$0"
    exit "$1"
}
case $#:${1:-} in
4:[!-]*) ;;
*:--help) usage 0 ;;
*) usage 2 >&2 ;;
esac
cc=$1 library=$2 python=$3 work=$4
tool=$PWD/../crates/ether_tool/out/ether_tool
passed=0 failed=0
count() {
    if [ "$1" -eq 0 ]; then
        passed=$((passed + 1))
    else
        failed=$((failed + 1))
        echo "$2"
    fi
}
"$cc" -std=c99 -O2 -Wall -Wextra -Wpedantic -Werror -o "$work/lines" tests/lines.c "$library" || exit 1

# a captured frame, the word for what it begins with, and its lines
known() {
    lines=$(echo "$1" | "$work/lines" "$2")
    [ "$lines" = "$3" ]
    count $? "$2 $1: $lines"
}
request=000108000604000102005e100001c0000201000000000000c0000202
segment=0010dbff100000152c9dcc00810001f7080045000028298d40007d0683a0ac1bca8e451694e2d40a0050dfab9cc6cd1ee5d1501001005a740000000000000000
known $segment eth 'ethernet2 0 0010dbff1000 00152c9dcc00 0x8100
vlan 14 pcp 0 dei 0 vid 503 0x0800
rest 18 64 type 0x0800'
known ${segment}945dd029 fcs 'ethernet2 0 0010dbff1000 00152c9dcc00 0x8100 fcs 945dd029
vlan 14 pcp 0 dei 0 vid 503 0x0800
rest 18 64 type 0x0800'
known ffffffffffff02005e10000188a8000a810000640806$request eth 'ethernet2 0 ffffffffffff 02005e100001 0x88A8
vlan 14 pcp 0 dei 0 vid 10 0x8100
vlan 18 pcp 0 dei 0 vid 100 0x0806
arp 22 hw 1 proto 0x0800 hlen 6 plen 4 op 1
rest 50 50 after_arp'
known 00010001000602005e10000100000806$request sll 'linux_sll 0 packet 1 hw 1 alen 6 addr 02005e1000010000 0x0806
arp 16 hw 1 proto 0x0800 hlen 6 plen 4 op 1
rest 44 44 after_arp'

: > "$work/all"

# the frames of a file, with these words for both programs; the tool's status 1 says that a frame is refused
compare() {
    frames=$1
    shift
    "$work/lines" "$@" < "$frames" > "$work/by_calls"
    called=$?
    "$tool" "$@" < "$frames" > "$work/by_tool"
    status=$?
    count $((called + (status > 1))) "lines $*: the status is $called, and that of the tool is $status"
    diff "$work/by_tool" "$work/by_calls" > "$work/difference"
    count $? "lines $*: $(head -n 4 "$work/difference")"
    cat "$work/by_calls" >> "$work/all"
}

for kind in eth fcs sll 8100 88E5 0806; do
    "$python" tests/frames.py $kind 10000 > "$work/frames"
    words="type $kind"
    case $kind in eth | fcs | sll) words=$kind ;; esac
    # each word is one argument
    compare "$work/frames" $words
    for limit in 0 1 2; do compare "$work/frames" $words limit $limit; done
    if [ $kind = eth ]; then
        compare "$work/frames" feed
        compare "$work/frames" feed limit 1
    fi
done

# each form of a line is among them
while read -r form; do
    grep -qE "^$form\$" "$work/all"
    count $? "no line of the form $form"
done <<'FORMS'
ethernet2 0 [0-9a-f]{12} [0-9a-f]{12} 0x[0-9A-F]{4}
ethernet2 .* fcs [0-9a-f]{8}
linux_sll .*
vlan .*
macsec .* unmodified 0x[0-9A-F]{4} .* window [0-9]+ open
macsec .* unmodified 0x[0-9A-F]{4} .* window [0-9]+ closed
macsec .* modified .*
macsec .* encrypted .*
macsec .* encrypted_unmodified .*
macsec .* sci [0-9a-f]{16} .*
macsec .* sci - .*
arp .*
feed .*
rest .* type .*
rest .* sealed
rest .* after_arp
rest .* sll ignored .*
rest .* sll netlink .*
rest .* sll gre .*
fault .* open length .* slice
fault .* closed length .* slice
fault .* open length .* macsec_short_length
fault .* closed length .* macsec_short_length
fault .* open length .* arp_addr_lengths
fault .* closed length .* arp_addr_lengths
fault .* content sll_packet_type [0-9]+
fault .* content sll_hardware_type [0-9]+
fault .* content macsec_version
fault .* content macsec_short_len
FORMS
echo "$passed passed, $failed failed"
