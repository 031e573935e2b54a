"""Prints the VLANs of each capture, which the workers of dask.distributed read: vlans_dask.py HOST:8786 f.pcap ..

With `-` in place of the scheduler's address, two workers are started on this machine.
"""
import sys

import numpy
from dask.distributed import Client

import etherpeel

TAGS = 0x8100, 0x88A8, 0x9100, 0x88E5  # what announces a VLAN tag or a SecTag


def vlans(path):
    """The VLANs of a capture, up to where it can't be read on, and the reason if it can't."""
    try:
        packets = etherpeel.open(path)
    except OSError as error:
        return [], error.strerror
    rows = numpy.asarray(packets.table())
    found = set(rows["vlan_ids"][numpy.arange(3) < rows["vlan_count"][:, None]].tolist())
    for at in numpy.flatnonzero(numpy.isin(rows["ether_type"], TAGS)):  # a row has three tags at most
        fields = packets[at].frame.fields()
        found.update(field.value for field in fields if field.name == etherpeel.FieldName.VLAN_VID)
    return sorted(found), packets.fault and str(packets.fault)


def main(scheduler, *paths):
    status = 0
    with Client(scheduler) if scheduler != "-" else Client(n_workers=2, dashboard_address=None) as client:
        for path, (found, reason) in zip(paths, client.gather(client.map(vlans, paths))):
            print(path, *found)
            if reason:
                print(f"{path}: {reason}", file=sys.stderr)
                status = 1
    return status


if __name__ == "__main__":
    if len(sys.argv) < 3:
        print("usage: vlans_dask.py HOST:8786 f.pcap ..", file=sys.stderr)
        sys.exit(2)
    sys.exit(main(*sys.argv[1:]))
