"""Wrong words, and what the errors say of them: which field of which header, and what is expected. And addresses as
text."""
import io
import pickle

import etherpeel
from checks import ADDRESSES, ARP, TAGGED, check
from etherpeel import Arp, BuildError, Ethernet2, Error, LinuxSll, Macsec, ReplaceError, Start, Status, TagError, Vlan

LINK, PACKET = etherpeel.walk(TAGGED)[0].header, etherpeel.walk(ARP)[1].header
COOKED = LinuxSll(4, 1, 6, bytes(8), 0x0800)
CAPTURED = etherpeel.Captured(memoryview(TAGGED), None, 1, 19, None)


def built(*headers):
    return lambda: etherpeel.build([LINK, *headers], b"", 0x0800)


def replaced(header, start=Start.ETHERNET2, **words):
    call = etherpeel.replace_link_ext if isinstance(header, (Vlan, Macsec)) else etherpeel.replace_link
    return lambda: call(bytearray(TAGGED), *([0] if call is etherpeel.replace_link_ext else []), header, start, **words)


def arp(**values):
    return lambda: etherpeel.build([LINK, PACKET._replace(**values)])


# calls, and the type and the text of the error that each raises
WRONG = [
    (built(Vlan(4096)), BuildError, "vid of the header at index 1 is 0 to 4095, not 4096"),
    (built(Vlan(-1)), BuildError, "vid of the header at index 1 is 0 to 4095, not -1"),
    (built(Vlan(1), Vlan(2, pcp=8)), BuildError, "pcp of the header at index 2 is 0 to 7, not 8"),
    (built(Vlan(1, dei=2)), BuildError, "dei of the header at index 1 is 0 to 1, not 2"),
    (built(Vlan(1, ether_type=65536)), BuildError, "ether_type of the header at index 1 is 0 to 65535, not 65536"),
    (built(Macsec(2**32)), BuildError, "packet_number of the header at index 1 is 0 to 4294967295, not 4294967296"),
    (built(Macsec(1, 4)), BuildError, "association_number of the header at index 1 is 0 to 3, not 4"),
    (built(Macsec(1, short_len=64)), BuildError, "short_len of the header at index 1 is 0 to 63, not 64"),
    (built(Macsec(1, sci=2**64)), BuildError, "sci of the header at index 1 is 0 to 18446744073709551615, not 18446744073709551616"),
    (built(Macsec(1, encrypted=2)), BuildError, "encrypted of the header at index 1 is 0 to 1, not 2"),
    (built(Vlan("5")), TypeError, "vid of the header at index 1 is an int, not str"),
    (built(Vlan(None)), TypeError, "vid of the header at index 1 is an int, not NoneType"),
    (built(5), TypeError, "the header at index 1 is an Ethernet2, LinuxSll, Vlan, Macsec or Arp, not int"),
    (lambda: etherpeel.build([LINK._replace(source=b"12345")], b"", 1), BuildError, "source of the header at index 0 has 6 bytes, not 5"),
    (lambda: etherpeel.build([LINK._replace(source=5)], b"", 1), TypeError,
     "source of the header at index 0 is bytes, or text such as 02:00:00:00:00:01, not int"),
    (lambda: etherpeel.build([LINK._replace(source="x")], b"", 1), BuildError,
     "source of the header at index 0 is an address, such as 02:00:00:00:00:01, not 'x'"),
    (lambda: etherpeel.build([COOKED._replace(packet_type=8)], b"", 1), BuildError, "packet_type of the header at index 0 is 0 to 7, not 8"),
    (arp(operation=65536), BuildError, "operation of the header at index 1 is 0 to 65535, not 65536"),
    (arp(target_protocol=b""), BuildError, "the addresses of sender and target of the header at index 1 differ in length"),
    (arp(sender_hardware=bytes(256), target_hardware=bytes(256)), BuildError, "hardware_size of the header at index 1 is 0 to 255, not 256"),
    (arp(target_protocol="10.0.0.256"), BuildError, "target_protocol of the header at index 1 is an address, such as 10.0.0.1, not '10.0.0.256'"),
    (lambda: etherpeel.build([LINK]), ValueError, "payload and ether_type are given if no ARP packet is, and else neither is"),
    (lambda: etherpeel.build([LINK], b"", 65536), ValueError, "ether_type is 0 to 65535, not 65536"),
    (replaced(Vlan(4096)), ReplaceError, "vid of the header is 0 to 4095, not 4096"),
    (replaced(LINK._replace(destination=bytes(7))), ReplaceError, "destination of the header has 6 bytes, not 7"),
    (replaced(COOKED._replace(packet_type=8), Start.LINUX_SLL), ReplaceError, "packet_type of the header is 0 to 7, not 8"),
    (replaced("header"), TypeError, "the header is an Ethernet2, LinuxSll, Vlan, Macsec or Arp, not str"),
    (lambda: etherpeel.push_vlan(bytearray(23), Vlan(4096)), TagError, "vid is 0 to 4095, not 4096"),
    (lambda: etherpeel.push_vlan(bytearray(23), Vlan(1, -1)), TagError, "pcp is 0 to 7, not -1"),
    (lambda: etherpeel.push_vlan(bytearray(23), 5), TypeError, "tag is a Vlan, not int"),
    (lambda: etherpeel.push_vlan(bytearray(23), Vlan(1), 65536), ValueError, "tpid is 0 to 65535, not 65536"),
    (lambda: etherpeel.set_vlan_tag(bytearray(TAGGED), 0, Vlan(1, dei=2)), TagError, "dei is 0 to 1, not 2"),
    (lambda: etherpeel.set_vlan_id(bytearray(TAGGED), 0, 65536), TagError, "vid is 0 to 4095, not 65536"),
    (lambda: etherpeel.set_vlan_id(bytearray(TAGGED), 0, 1.5), TypeError, "vid is an int, not float"),
    (lambda: etherpeel.set_vlan_id(bytearray(TAGGED), -1, 5), ValueError, "index is 0 to 18446744073709551615, not -1"),
    (lambda: etherpeel.walk(TAGGED, 9), ValueError, "9 is not a valid Start"),
    (lambda: etherpeel.walk(TAGGED, Start.ETHER_TYPE), ValueError, "ether_type is given with Start.ETHER_TYPE, and with no other start"),
    (lambda: etherpeel.walk(TAGGED, ether_type=1), ValueError, "ether_type is given with Start.ETHER_TYPE, and with no other start"),
    (lambda: etherpeel.walk(TAGGED, Start.ETHER_TYPE, ether_type=65536), ValueError, "ether_type is 0 to 65535, not 65536"),
    (lambda: etherpeel.walk(TAGGED, limit=-1), ValueError, "limit is 0 to 18446744073709551615, not -1"),
    (lambda: etherpeel.walk(TAGGED, limit="1"), TypeError, "limit is an int, not str"),
    (lambda: etherpeel.walk("ff"), TypeError, "a bytes-like object is required, not 'str'"),
    (lambda: etherpeel.walk(memoryview(TAGGED)[::2]), BufferError, "memoryview: underlying buffer is not C-contiguous"),
    (lambda: etherpeel.select(b"vlan", []), TypeError, "a filter is a str, not bytes"),
    (lambda: etherpeel.Filter(None), TypeError, "a filter is a str, not NoneType"),
    (lambda: list(etherpeel.select("vlan", [TAGGED])), TypeError, "a packet is a Captured, not bytes"),
    (lambda: list(etherpeel.select("vlan", [CAPTURED._replace(original_len="5")])), TypeError, "original_len is an int, not str"),
    (lambda: CAPTURED._replace(link_type=65536).json(), ValueError, "link_type is 0 to 65535, not 65536"),
    (lambda: CAPTURED._replace(time_ns=-1).json(), ValueError, "time_ns is 0 to 18446744073709551615999999999, not -1"),
    (lambda: CAPTURED.columns(b"vlan.vid"), TypeError, "names is a str, not bytes"),
    (lambda: CAPTURED.columns("vlan"), Error, "'vlan' does not name 1 to 32 columns"),
    (lambda: CAPTURED.columns("json"), Error, "'json' does not name 1 to 32 columns"),
    (lambda: etherpeel.Captured(ADDRESSES + bytes.fromhex("81000005") * 999, None, 1, 4008, None).json(), Error,
     "the line has more than 65,536 bytes"),
    (lambda: CAPTURED.json(-1), ValueError, "number is 0 to 18446744073709551615, not -1"),
    (lambda: etherpeel.open(5), TypeError, "a capture is a path, an open file or bytes, not int"),
    (lambda: etherpeel.open(io.StringIO("text")), TypeError, "a capture is read from a file that is open for bytes, not for text"),
    (lambda: etherpeel.start_of_link_type(-1), ValueError, "link_type is 0 to 4294967295, not -1"),
    (lambda: Ethernet2("02:00:00:00:00", None), TypeError, "source is bytes, or text such as 02:00:00:00:00:01, not NoneType"),
    (lambda: Ethernet2("02:00:00:00:00:0g", b""), ValueError, "destination is an address, such as 02:00:00:00:00:01, not '02:00:00:00:00:0g'"),
]


def wrong_words():
    for call, kind, text in WRONG:
        try:
            call()
            check(text, "no error", text)
        except Exception as error:
            check(text, (type(error), str(error)), (kind, text))
            if isinstance(error, (BuildError, ReplaceError, TagError)):
                check(f"{text}: status, and pickled", (error.status, pickle.loads(pickle.dumps(error)) == error), (Status.BAD_FIELD, True))
    check("a base class of all", issubclass(Error, ValueError), True)


def addresses():
    texts = ("02:00:00:00:00:01", "02-00-00-00-00-01", "020000000001")
    for one in (ADDRESSES[6:], bytearray(ADDRESSES[6:]), memoryview(ADDRESSES)[6:], *texts):
        link = Ethernet2("FF:ff:FF:ff:FF:ff", one)
        check(f"{one!r}", (link, type(link.source), link.source), ((ADDRESSES[:6], ADDRESSES[6:], 0, False), bytes, ADDRESSES[6:]))
    for text in ("", "02:00:00:00:00:01:", ":02", "02:00-00:00:00:01", "2:0:0:0:0:1", "0x02", " 020000000001", "02 00", "020000000001\n", "1.2.3.4",
                 "02:\u0660\u0660"):
        try:
            check(f"{text!r} is no address of a station", etherpeel.build([Ethernet2(ADDRESSES[:6], text)], b"", 1), None)
        except ValueError as error:
            check(f"{text!r}", str(error).startswith("source"), True)
    link = Ethernet2("ff:ff:ff:ff:ff:ff", "02:00:00:00:00:01", 0x0806)
    request = Arp(1, 0x0800, 1, "02:00:00:00:00:01", "10.0.0.1", "00:00:00:00:00:00", "10.0.0.2")
    check("ARP", (request, etherpeel.build([link, request])), (PACKET, ARP))
    check("replaced", [it._replace(source="02:00:00:00:00:02").source for it in (link,)], ["02:00:00:00:00:02"])
    check("built", etherpeel.build([link._replace(source="02-00-00-00-00-02"), PACKET._replace(target_protocol="10.0.0.3")]).hex(),
          (ADDRESSES[:6] + bytes.fromhex("020000000002 0806") + ARP[14:-1] + b"\3").hex())
    check("cooked", LinuxSll(4, 1, 6, "02:00:00:00:00:01").address, ADDRESSES[6:] + bytes(2))
    check("long", Arp(32, 0x0800, 1, "00" * 20, "0a:00:00:01", bytes(20), bytes(4))[3:5], (bytes(20), bytes((10, 0, 0, 1))))
    check("pickled", [pickle.loads(pickle.dumps(it)) for it in (link, request)], [link, request])
    check("repr", repr(link), "Ethernet2(destination=b'\\xff\\xff\\xff\\xff\\xff\\xff', source=b'\\x02\\x00\\x00\\x00\\x00\\x01', "
                              "ether_type=2054, has_fcs=False)")
