"""Each number of headers, packets of captures and arguments at 0, 1 and its greatest value, by each way in which the
package reads and writes it. The bytes of headers are put together here, by the figures of their standards."""
import struct

import etherpeel
from checks import ADDRESSES, check, raised
from etherpeel import Arp, Ethernet2, LinuxSll, Macsec, Start, Vlan

BITS = {"vid": 12, "pcp": 3, "dei": 1, "association_number": 2, "packet_number": 32, "sci": 64, "address_len": 16}
FLAGS = "dei", "end_station", "single_copy_broadcast"
LINK = Ethernet2(ADDRESSES[:6], ADDRESSES[6:], 0x0800)
COOKED = LinuxSll(4, 1, 6, bytes(range(8)), 0x0800)
PACKET = Arp(1, 0x0800, 2, bytes(range(6)), bytes((10, 0, 0, 1)), bytes(range(6, 12)), bytes((10, 0, 0, 2)))
# of each header one that is changed in one field at a time, and the fields
HEADERS = [
    (LINK, "destination source ether_type"), (COOKED, "address_len address protocol"), (Vlan(291, 5, True, 0x0800), "vid pcp dei ether_type"),
    (Macsec(7, 2, 0, ether_type=0x0800), "packet_number association_number end_station single_copy_broadcast ether_type"),
    (Macsec(7, 2, 0, sci=5, ether_type=0x0800), "sci"), (Macsec(7, 2, 0, True, True), "packet_number association_number end_station"),
    (PACKET, "hardware_type protocol_type operation sender_hardware sender_protocol target_hardware target_protocol"),
]


def bounds(name, value):
    """0, 1 and the greatest value of a field that has a value like this."""
    if isinstance(value, bytes):
        return bytes(len(value)), bytes(len(value) - 1) + b"\1", b"\xff" * len(value)
    if name in FLAGS:
        return False, True
    return 0, 1, 2 ** BITS.get(name, 16) - 1


def changed():
    """The headers with one field at a bound."""
    for header, names in HEADERS:
        for name in names.split():
            for value in bounds(name, getattr(header, name)):
                yield header._replace(**{name: value})
    yield from (COOKED._replace(packet_type=it) for it in (0, 1, 7))
    yield from (COOKED._replace(hardware_type=824, protocol=it) for it in (0, 1, 65535))
    yield from (PACKET._replace(sender_hardware=it, target_hardware=it) for it in (b"", b"\xff", b"\xff" * 255))
    yield from (PACKET._replace(sender_protocol=it, target_protocol=it) for it in (b"", b"\xff", b"\xff" * 255))


def encoded(header):
    """The bytes of a header, as its standard has them."""
    if isinstance(header, Ethernet2):
        return struct.pack(">6s6sH", *header[:3])
    if isinstance(header, LinuxSll):
        return struct.pack(">HHH8sH", *header)
    if isinstance(header, Vlan):
        return struct.pack(">HH", header.pcp << 13 | header.dei << 12 | header.vid, header.ether_type)
    if isinstance(header, Arp):
        front = struct.pack(">HHBBH", *header[:2], len(header.sender_hardware), len(header.sender_protocol), header.operation)
        return front + b"".join(header[3:])
    bits = (header.end_station, header.sci is not None, header.single_copy_broadcast, header.encrypted, header.changed)
    control = sum(bit << 6 - at for at, bit in enumerate(bits)) | header.association_number
    return (struct.pack(">BBI", control, header.short_len, header.packet_number) + (b"" if header.sci is None else struct.pack(">Q", header.sci))
            + (b"" if header.ether_type is None else struct.pack(">H", header.ether_type)))


def start_of(header):
    """What a frame begins with that begins with this header."""
    if isinstance(header, Ethernet2):
        return {"start": Start.ETHERNET2}
    if isinstance(header, LinuxSll):
        return {"start": Start.LINUX_SLL}
    return {"start": Start.ETHER_TYPE, "ether_type": {Vlan: 0x8100, Macsec: 0x88E5, Arp: 0x0806}[type(header)]}


def headers_read():
    for header in changed():
        frame, words = encoded(header), start_of(header)
        for way, units in (("walk", etherpeel.walk(frame, **words)), ("limit", etherpeel.walk(frame, **words, limit=9)),
                           ("packet", etherpeel.packet(frame, **words).units)):
            check(f"{way} of {header}", units[0], (0, len(frame), len(frame), len(frame), False, header))
    with_sum = etherpeel.walk(encoded(LINK) + bytes(4), Start.ETHERNET2_FCS)[0]
    check("a check sequence", (with_sum.header, with_sum.payload_end), (LINK._replace(has_fcs=True), 14))


def other(header):
    """A header with other numbers than this one, which says the same about what follows it."""
    same = ["ether_type", "protocol", "short_len", "encrypted", "changed", "has_fcs"] + ["hardware_type"] * isinstance(header, LinuxSll)
    of = {name: value for name, value in header._asdict().items() if name not in same and value is not None}
    return header._replace(**{name: bytes(9 ^ it for it in value) if isinstance(value, bytes) else type(value)(value == 0)
                              for name, value in of.items()})


def headers_replaced():
    for header in changed():
        frame, words = bytearray(encoded(other(header))), start_of(header)
        if isinstance(header, Arp):
            etherpeel.replace_arp(frame, header, **words)
        elif isinstance(header, (Vlan, Macsec)):
            etherpeel.replace_link_ext(frame, 0, header, **words)
        else:
            etherpeel.replace_link(frame, header, **words)
        check(f"{header} replaced", frame.hex(), encoded(header).hex())


def headers_built():
    for header in changed():
        payload = bytes(64)  # so long that the short length is 0
        if isinstance(header, LinuxSll) and header.hardware_type != 1:
            continue
        if isinstance(header, Arp):
            found = etherpeel.build([LINK, header])
        elif isinstance(header, (Vlan, Macsec)):
            found = etherpeel.build([LINK, header], payload, header.ether_type or 0)[:-len(payload)]
        else:
            found = etherpeel.build([header], payload, header.ether_type if isinstance(header, Ethernet2) else header.protocol)[:-len(payload)]
        check(f"{header} built", found[-len(encoded(header)):].hex(), encoded(header).hex())
    for length in (0, 1, 61, 62, 1500):
        tag = etherpeel.build([LINK, Macsec(1)], bytes(length), 0x0800)
        check(f"the short length of {length} bytes", tag[15], length + 2 if length + 2 < 64 else 0)


def tags_changed():
    for header in changed():
        if isinstance(header, Vlan):
            frame = bytearray(4) + encoded(LINK._replace(ether_type=header.ether_type))
            etherpeel.push_vlan(frame, header)
            check(f"{header} put in", frame.hex(), (ADDRESSES + b"\x81\0" + encoded(header)).hex())
            check(f"{header} taken off", etherpeel.pop_vlan(frame), header)
            frame = bytearray(encoded(other(header)))
            etherpeel.set_vlan_tag(frame, 0, header, **start_of(header))
            check(f"{header} set", frame.hex(), encoded(header).hex())
            etherpeel.set_vlan_id(frame, 0, 4095 - header.vid, **start_of(header))
            check(f"{header}, its identifier", frame.hex(), encoded(header._replace(vid=4095 - header.vid)).hex())
    check("great numbers", raised(etherpeel.set_vlan_id, bytearray(encoded(LINK)), 2**64 - 1, 4095), etherpeel.TagError)


def fields():
    for value in (0, 1, 2**64 - 1):
        tag = etherpeel.fields(encoded(Macsec(value % 2**32, sci=value, ether_type=0x0800)), Start.ETHER_TYPE, ether_type=0x88E5)
        check(f"fields of {value}", [it.value for it in tag if it.name.column in ("macsec.pn", "macsec.sci")], [value % 2**32, value])


def cooked_v2():
    base = dict(protocol=0x0800, reserved=0, interface_index=3, hardware_type=1, packet_type=4, address_len=6, address=bytes(range(8)))
    rows = [(name, value) for name, bits in (("protocol", 16), ("interface_index", 32), ("hardware_type", 16), ("address_len", 8))
            for value in (0, 1, 2**bits - 1)]
    rows += [("packet_type", it) for it in (0, 1, 7)] + [("address", it) for it in bounds("", bytes(8))]
    for name, value in rows:
        header = etherpeel.linux_sll2(struct.pack(">HHIHBB8s", *{**base, name: value}.values()))
        wanted = {**{name: it for name, it in base.items() if name != "reserved"}, name: value}
        check(f"cooked v2, {name} {value}", {name: getattr(header, name) for name in wanted}, wanted)


def classic(seconds, nanoseconds, original_len, link, packet=b""):
    """A file of pcap with times in nanoseconds, with one packet."""
    front = struct.pack(">IHHIIII", 0xA1B23C4D, 2, 4, 0, 0, 2**18, link)
    return front + struct.pack(">IIII", seconds, nanoseconds, len(packet), original_len) + packet


TIMES = [(0, "1970-01-01T00:00:00.000000000Z"), (1, "1970-01-01T00:00:00.000000001Z"), (999_999_999, "1970-01-01T00:00:00.999999999Z"),
         (1_000_000_000, "1970-01-01T00:00:01.000000000Z"), (4_294_967_295_999_999_999, "2106-02-07T06:28:15.999999999Z")]


def packets_read():
    for time, _ in TIMES:
        check(f"the time {time}", next(etherpeel.capture(classic(*divmod(time, 10**9), 0, 1))).time_ns, time)
    for length in (0, 1, 2**32 - 1):
        check(f"the length {length}", next(etherpeel.capture(classic(0, 0, length, 1))).original_len, length)
    for link in (0, 1, 65535):
        check(f"the link type {link}", next(etherpeel.capture(classic(0, 0, 0, link))).link_type, link)
    for units in (0, 1, 15):  # of 16 bits, with the bit that says so (draft-ietf-opsawg-pcap, 4)
        check(f"{2 * units} bytes of a check sequence", next(etherpeel.capture(classic(0, 0, 0, units << 28 | 1 << 26 | 1))).fcs_len, 2 * units)
    block = struct.pack("<IIIIIII", 6, 32, 0, 2**32 - 1, 2**32 - 1, 0, 0) + struct.pack("<I", 32)
    option = struct.pack("<HHB3xHH", 9, 1, 0, 0, 0)  # ticks of a second
    interface = struct.pack("<IIHHI", 1, 32, 1, 0, 0) + option + struct.pack("<I", 32)
    section = struct.pack("<IIIHHqI", 0x0A0D0D0A, 28, 0x1A2B3C4D, 1, 0, -1, 28)
    check("the greatest time", next(etherpeel.capture(section + interface + block)).time_ns, (2**64 - 1) * 10**9)


def packets_written():
    packet = etherpeel.Captured(memoryview(encoded(LINK)), 0, 1, 14, None)
    for time, text in TIMES:
        told = packet._replace(time_ns=time)
        check(f"the time {time}, written", (told.columns("frame.time"), told.as_dict()["time"]), ([text], text))
        wanted = [told] * (time == TIMES[2][0])
        check(f"the time {time}, selected", list(etherpeel.select(f'frame.time == "{TIMES[2][1]}"', [told])), wanted)
    for name, column, greatest in (("original_len", "frame.original", 2**32 - 1), ("link_type", "frame.link", 2**16 - 1)):
        for value in (0, 1, greatest):
            check(f"{name} {value}", packet._replace(**{name: value}).columns(column), [str(value)])
    for value, length in ((None, 14), (0, 14), (1, 13), (4, 14), (14, 0), (255, 0)):
        check(f"a check sequence of {value} bytes", len(etherpeel.captured_frame(packet._replace(fcs_len=value)).bytes), length)
    for name, bits in (("original_len", 32), ("link_type", 16), ("fcs_len", 8)):
        for value in (-1, 2**bits):
            wrong = packet._replace(**{name: value})
            check(f"{name} {value}", [raised(call) for call in (wrong.json, lambda: etherpeel.captured_frame(wrong),
                                                                lambda: list(etherpeel.select("arp", [wrong])))], [ValueError] * 3)
    check("no such time", [raised(packet._replace(time_ns=it).json) for it in (-1, 2**64 * 10**9)], [ValueError] * 2)


def greatest():
    """What errors say of numbers."""
    for text, number in (("vlan 4096", 4095), ("ether proto 65536", 65535), ("vlan.pcp == 8", 7), ("vlan.dei == 2", 1),
                         ("less 4294967296", 2**32 - 1)):
        try:
            etherpeel.select(text, [])
            check(text, False, True)
        except etherpeel.FilterError as error:
            check(text, (error.offset, error.greatest), (text.rindex(" ") + 1, number))
    for tags in (0, 1, 300):
        try:
            etherpeel.replace_link_ext(bytearray(encoded(Vlan(1, ether_type=0x8100)) * tags), 300, Vlan(1), Start.ETHER_TYPE, ether_type=0x8100)
            check(f"{tags} tags", False, True)
        except etherpeel.ReplaceError as error:
            check(f"{tags} tags", error.tags, tags)
    for value in (8, 65535):
        frame = encoded(COOKED._replace(packet_type=value))
        check(f"packet type {value}", etherpeel.summary(frame, Start.LINUX_SLL).fault[-2:], (value, None))
    for value in (0, 65535):
        frame = encoded(COOKED._replace(hardware_type=value))
        check(f"hardware type {value}", etherpeel.summary(frame, Start.LINUX_SLL).fault[-2:], (None, value))
    for value in (0, 1, 65535):
        check(f"what {value} announces", etherpeel.summary(encoded(LINK._replace(ether_type=value))).rest_protocol, value)


def numbers():
    headers_read()
    headers_replaced()
    headers_built()
    tags_changed()
    fields()
    cooked_v2()
    packets_read()
    packets_written()
    greatest()
