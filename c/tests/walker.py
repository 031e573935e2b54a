"""A second walk, by offsets and arithmetic alone, with which the tests compare the library's."""

VLAN, MACSEC, ARP = (0x8100, 0x88A8, 0x9100), 0x88E5, 0x0806
SLICE, SHORT_LENGTH, ARP_ADDRESSES = 1, 2, 3
ETHERNET2, LINUX_SLL = "ethernet2", "linux_sll"


def number(frame, at, n):
    return int.from_bytes(frame[at:at + n], "big")


class Refused(Exception):
    """kind, required length, available length, layer, source, packet type, hardware type"""


def refuse_short(required, have, layer, source):
    if have < required:
        raise Refused(1, required, have, layer, source, 0, 0)


class Walker:
    """The units of a frame as tuples, what is left, and the fault as a tuple or None."""

    def __init__(self, frame, first=None, has_fcs=False, ether_type=None, limit=None):
        self.frame, self.at, self.end, self.closed, self.source = frame, 0, len(frame), has_fcs, SLICE
        self.has_fcs, self.units, self.fault = has_fcs, [], None
        self.rest = (0, 0) if first else (1, ether_type)
        self.next = first or self.announced(ether_type)
        extensions = 0
        while self.next and self.fault is None:
            if self.next in ("vlan", "macsec"):
                if extensions == limit:
                    break
                extensions += 1
            try:
                {ETHERNET2: self.ethernet2, LINUX_SLL: self.linux_sll, "vlan": self.vlan, "macsec": self.macsec,
                 "arp": self.arp}[self.next]()
            except Refused as refused:
                kind, required, have, *others = refused.args
                missing = required - have if kind == 1 and not self.closed else 0
                self.fault = (self.at, required, have, missing, kind, *others, int(self.closed))

    @staticmethod
    def announced(ether_type):
        return "vlan" if ether_type in VLAN else {MACSEC: "macsec", ARP: "arp"}.get(ether_type)

    def unit(self, kind, header_len, end, *fields):
        self.units.append((kind, self.at, header_len, end, int(self.closed), fields))
        self.at, self.end = self.at + header_len, end

    def goes_on(self, ether_type):
        self.rest, self.next = (1, ether_type), self.announced(ether_type)

    def stops(self, kind, protocol=0):
        self.rest, self.next = (kind, protocol), None

    def ethernet2(self):
        trailer = 4 if self.has_fcs else 0
        refuse_short(14 + trailer, self.end - self.at, 1, self.source)
        ether_type = number(self.frame, 12, 2)
        self.unit(1, 14, self.end - trailer, self.frame[0:6], self.frame[6:12], ether_type, int(self.has_fcs))
        self.goes_on(ether_type)

    def linux_sll(self):
        refuse_short(16, self.end - self.at, 2, self.source)
        packet_type, hardware, address_len = (number(self.frame, i, 2) for i in (0, 2, 4))
        if packet_type > 7:
            raise Refused(2, 0, 0, 0, 0, packet_type, 0)
        if hardware not in (1, 770, 778, 803, 824):
            raise Refused(3, 0, 0, 0, 0, 0, hardware)
        protocol = number(self.frame, 14, 2)
        self.unit(2, 16, self.end, packet_type, hardware, address_len, self.frame[6:14], protocol)
        if hardware == 1:
            self.goes_on(protocol)
        else:
            self.stops({824: 2, 778: 3}.get(hardware, 4), protocol)

    def vlan(self):
        refuse_short(4, self.end - self.at, 3, self.source)
        control, ether_type = number(self.frame, self.at, 2), number(self.frame, self.at + 2, 2)
        self.unit(3, 4, self.end, control % 4096, ether_type, control // 8192, control // 4096 % 2)
        self.goes_on(ether_type)

    def macsec(self):
        have = self.end - self.at
        refuse_short(6, have, 4, self.source)
        control, short_len = self.frame[self.at], self.frame[self.at + 1] % 64
        version, es, sc, scb, e, c = (control // 2 ** k % 2 for k in (7, 6, 5, 4, 3, 2))
        typed = 2 if e == 0 and c == 0 else 0
        if version:
            raise Refused(4, 0, 0, 0, 0, 0, 0)
        if typed and short_len == 1:
            raise Refused(5, 0, 0, 0, 0, 0, 0)
        header_len = 6 + 8 * sc + typed
        refuse_short(header_len, have, 4, self.source)
        end = self.end
        if short_len:
            refuse_short(header_len + short_len - typed, have, 5, SHORT_LENGTH)
            end, self.closed, self.source = self.at + header_len + short_len - typed, True, SHORT_LENGTH
        sci = number(self.frame, self.at + 6, 8) if sc else 0
        ether_type = number(self.frame, self.at + header_len - 2, 2) if typed else 0
        packet_number = number(self.frame, self.at + 2, 4)
        self.unit(4, header_len, end, sci, packet_number, ether_type, es, sc, scb, e, c, control % 4, short_len)
        if typed:
            self.goes_on(ether_type)
        else:
            self.stops(5)

    def arp(self):
        have = self.end - self.at
        refuse_short(8, have, 6, self.source)
        hardware, protocol, operation = (number(self.frame, self.at + i, 2) for i in (0, 2, 6))
        n, m = self.frame[self.at + 4], self.frame[self.at + 5]
        refuse_short(8 + 2 * n + 2 * m, have, 6, ARP_ADDRESSES)
        places = [self.at + 8, self.at + 8 + n, self.at + 8 + n + m, self.at + 8 + 2 * n + m]
        self.unit(5, 8 + 2 * n + 2 * m, self.end, *places, hardware, protocol, operation, n, m)
        self.stops(6)
