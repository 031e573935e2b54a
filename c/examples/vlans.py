"""Prints how many packets of a capture file are in each VLAN, by their outermost VLAN tag: vlans.py f.pcap"""
import collections
import sys

import etherpeel


def main(path):
    counts, reason = collections.Counter(), None
    try:
        for captured in etherpeel.capture(path):
            frame = etherpeel.captured_frame(captured)
            if frame:
                counts.update(etherpeel.packet(frame.bytes, frame.start, ether_type=frame.ether_type).vlan_ids[:1])
    except etherpeel.CaptureError as error:
        reason = error
    except OSError as error:
        reason = error.strerror
    for vid, count in sorted(counts.items()):
        print(f"VLAN {vid}: {count} packets")
    if reason:
        print(f"{path}: {reason}", file=sys.stderr)
    return 1 if reason else 0


if __name__ == "__main__":
    if len(sys.argv) != 2:
        print("usage: vlans.py f.pcap", file=sys.stderr)
        sys.exit(2)
    sys.exit(main(sys.argv[1]))
