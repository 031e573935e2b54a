"""Prints the headers of a frame, given as hexadecimal digits: headers.py FFFFFFFFFFFF0200000000018100B123080045"""
import sys

import etherpeel

frame = bytes.fromhex(sys.argv[1])
try:
    units, refused = etherpeel.walk(frame), None
except etherpeel.Refused as error:
    units, refused = error.units, error
for unit in units:
    header = unit.header
    if isinstance(header, etherpeel.Ethernet2):
        line = f"Ethernet II to {header.destination.hex(':')} from {header.source.hex(':')} type 0x{header.ether_type:04X}"
    elif isinstance(header, etherpeel.Vlan):
        line = f"VLAN {header.vid}, priority {header.pcp}, type 0x{header.ether_type:04X}"
    elif isinstance(header, etherpeel.Macsec):
        line = f"MACsec, packet number {header.packet_number}" + ", encrypted" * header.encrypted
    else:
        line = f"ARP, operation {header.operation}"
    print(f"{unit.offset}: {line}")
if refused:
    print(f"refused {refused}")
else:
    found = etherpeel.summary(frame)
    print(f"{found.rest_start}: {found.rest_end - found.rest_start} bytes left")
