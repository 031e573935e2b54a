"""The forwarding of a bridge with VLANs (IEEE 802.1Q)."""
from __future__ import annotations

import ctypes as C
import os
import struct
from functools import lru_cache
from types import MappingProxyType
from typing import Any, Dict, FrozenSet, Iterable, Mapping, NamedTuple, Optional

from . import _header
from ._addresses import Address, station
from ._header import BridgeKind, Discarded, Forgotten, FrameTypes, Status
from ._library import Error, between, declare, instance, lent, lib, number, required
from ._types import Buffer

_SAME: Any = object()  # a setting that is not changed

# These calls are short, so they keep the interpreter's lock: threads can share a bridge.
_switch = C.PyDLL(lib._name)
declare(_switch, *(name for name in _header.CALLS if name.startswith("switch_")))


class Port(NamedTuple):
    """How a port of a bridge is set up. `Bridge.set_port` takes the same words.

        Port(pvid=5)                    an access port: frames of the VLAN 5 come in and leave without a tag
        Port(tagged=[5, 6])             a trunk: frames of these VLANs come in and leave with a tag
        Port(pvid=1, tagged=[5, 6])     both
    """

    pvid: Optional[int] = None
    """The VLAN of a frame that comes in without a VLAN identifier, 1 to 4094. The frames of this VLAN leave without a
    tag, unless it is in `tagged`. None if each frame has to name its VLAN."""
    tagged: FrozenSet[int] = frozenset()
    """The VLANs whose frames leave with a tag."""
    untagged: FrozenSet[int] = frozenset()
    """The VLANs, besides `pvid`, whose frames leave without a tag."""
    frame_types: FrameTypes = FrameTypes.ALL
    """Which frames it accepts. By default those of its VLANs: with a tag if there is no `pvid`, without a VLAN
    identifier if there is nothing else, and all otherwise."""
    refuses_second_tag: bool = True
    """Whether it discards a frame with a second tag of the bridge's kind."""
    ingress_filtering: bool = True
    """Whether it discards a frame of a VLAN that it is not a member of."""
    default_priority: int = 0
    """The priority of a frame that comes in without a tag, 0 to 7."""
    learning: bool = True
    """Whether the sources of its frames are learned. A port that is discarding neither learns nor forwards."""
    forwarding: bool = True
    """Whether frames come in and leave through it."""
    isolated: bool = False
    """Whether it exchanges no frames with other isolated ports."""
    mirror: bool = False
    """Whether it gets a copy of each frame, with a tag."""


class Received(NamedTuple):
    """A frame that a bridge received, and where it goes."""

    tagged: FrozenSet[int]
    """The ports through which it leaves with the tag of its VLAN."""
    untagged: FrozenSet[int]
    """The ports through which it leaves without a tag."""
    vid: int
    """The identifier of its VLAN, 1 to 4094; 0 if it is discarded."""
    priority: int
    """The priority of its tag, or else the default one of the port."""
    drop_eligible: bool
    """Whether it may be dropped first under congestion."""
    reserved: bool
    """Whether it is for the bridge itself, as the frames of a spanning tree are."""
    discarded: Optional[Discarded]
    """Why it is discarded; None if it is not."""


class Sighting(NamedTuple):
    """The last frame of a station: the port through which it came in, and when."""

    port: int
    time: int
    """In seconds, as `receive` was given it."""


class Bridge:
    """A bridge with VLANs (IEEE 802.1Q), which learns where stations are. It has no network interfaces: the caller
    passes each frame that came in, and sends what leaves.

        bridge = etherpeel.Bridge()
        bridge.set_port(0, pvid=5)
        bridge.set_port(1, pvid=5)
        bridge.set_port(2, tagged=[5, 6])
        received = bridge.receive(time.monotonic(), 0, frame)
        for port, content in bridge.leaving(received, frame).items():
            send(port, content)

    Frames are from the Ethernet II header on, without a frame check sequence. `kind` says which tags the bridge reads
    and writes; tags of the other kind are payload. A sighting of a station counts for `ageing_time` seconds. Each VLAN
    learns in a table of its own, for up to 4 times `buckets` stations. `forwarded` has the numbers 0 to 15 of the
    addresses 01-80-C2-00-00-0X whose frames are forwarded, against the standard. `key` is 16 random bytes: nobody
    who does not know them can choose addresses that crowd out others. By default the system chooses them.

    **Nothing stops a frame in a loop**: there is no spanning tree. A caller that has one gets its frames as `reserved`,
    and sets `learning` and `forwarding` of the ports.

    Threads can share a bridge, and it can be pickled with all that it has learned. A frame that comes in while another
    thread adds a VLAN may be learned in vain; then the next frame to its station leaves by all ports of the VLAN.
    """

    def __init__(self, *, kind: BridgeKind = BridgeKind.CUSTOMER, ageing_time: int = 300, buckets: int = 1024,
                 forwarded: Iterable[int] = (), key: Optional[bytes] = None) -> None:
        self._kind, self._ageing_time = BridgeKind(kind), number("ageing_time", ageing_time, 32)
        self._buckets = number("buckets", buckets, 20)
        self._forwarded = sum(1 << it for it in {number("forwarded", it, 4) for it in forwarded})
        self._key = os.urandom(16) if key is None else memoryview(key).tobytes()
        if len(self._key) != 16:
            raise ValueError(f"key has 16 bytes, not {len(self._key)}")
        self._ports: Dict[int, Port] = {}
        self._static: Dict[Any, Any] = {}
        self._parts: Dict[int, int] = {}  # the first bucket of each VLAN
        self._table = (_header.Bucket * 0)()
        self._set_up()

    # ---- settings

    @property
    def ports(self) -> Mapping[int, Port]:
        """The ports, by their numbers."""
        return MappingProxyType(self._ports)

    def set_port(self, port: int, *, pvid: Optional[int] = None, tagged: Iterable[int] = (),
                 untagged: Iterable[int] = (), frame_types: Optional[FrameTypes] = None,
                 refuses_second_tag: bool = True, ingress_filtering: bool = True, default_priority: int = 0,
                 learning: bool = True, forwarding: bool = True, isolated: bool = False, mirror: bool = False) -> None:
        """Sets up the port with a number from 0 to 255, with the settings of a `Port`. Stations of VLANs that the port
        leaves are forgotten. Raises `ValueError` if a setting is out of range; then nothing changes."""
        vlans = [frozenset(_vid(name, it) for it in them)
                 for name, them in (("tagged", tagged), ("untagged", untagged))]
        if pvid is not None:
            _vid("pvid", pvid)
        default = _default_types(pvid, *vlans)
        frame_types = default if frame_types is None else FrameTypes(frame_types)
        if pvid is None and frame_types != FrameTypes.VLAN_TAGGED:
            raise ValueError("a port without a pvid accepts FrameTypes.VLAN_TAGGED alone")
        if both := vlans[0] & vlans[1]:
            raise ValueError(f"the VLAN {min(both)} is both tagged and untagged")
        self._replace_port(port, Port(pvid, *vlans, frame_types, bool(refuses_second_tag), bool(ingress_filtering),
                                      number("default_priority", default_priority, 3), bool(learning), bool(forwarding),
                                      bool(isolated), bool(mirror)))

    def change_port(self, port: int, *, pvid: Optional[int] = _SAME, tagged: Iterable[int] = _SAME,
                    untagged: Iterable[int] = _SAME, frame_types: Optional[FrameTypes] = _SAME,
                    refuses_second_tag: bool = _SAME, ingress_filtering: bool = _SAME, default_priority: int = _SAME,
                    learning: bool = _SAME, forwarding: bool = _SAME, isolated: bool = _SAME,
                    mirror: bool = _SAME) -> None:
        """Changes some settings of a port, as in `bridge.change_port(1, learning=False, forwarding=False)`. Raises
        `KeyError` if there is no such port; otherwise as `set_port`."""
        given = locals()
        old = self._ports[port]
        words = old._asdict()
        if old.frame_types == _default_types(*old[:3]):
            words["frame_types"] = None
        self.set_port(port, **{**words, **{name: given[name] for name in words if given[name] is not _SAME}})

    def remove_port(self, port: int) -> None:
        """Removes a port and forgets its stations. Raises `KeyError` if there is no such port."""
        self._ports[port]
        self._replace_port(port, None)

    def set_static(self, vid: int, address: Address, ports: Iterable[int]) -> None:
        """Sets where frames to an address in a VLAN go, whatever the bridge has learned: through those of these ports
        that are members of the VLAN."""
        key = _vid("vid", vid), station("address", address)
        self._static = {**self._static, key: frozenset(number("port", it, 8) for it in ports)}
        self._set_up()

    def remove_static(self, vid: int, address: Address) -> None:
        """Undoes `set_static`. Raises `KeyError` if there is nothing to undo."""
        left = dict(self._static)
        del left[vid, station("address", address)]
        self._static = left
        self._set_up()

    # ---- frames

    def receive(self, now: float, port: int, frame: Buffer) -> Received:
        """Learns the port of a frame's source, and decides where the frame goes. `now` is in seconds, by a clock that
        does not go back, as `time.monotonic`. Raises `KeyError` if the bridge has no such port."""
        bridge, table, ports, _ = self._told
        found = _header.Received()
        with lent(frame) as (at, length):
            words = bridge, table, len(table), number("now", int(now), 32), port, ports[port], at, length, found
            required(_switch.etherpeel_switch_receive(*words))
        return Received(_numbers(found.tagged), _numbers(found.untagged), found.vid, found.priority,
                        found.drop_eligible == 1, found.reserved == 1,
                        Discarded(found.discarded) if found.discarded else None)

    def tagged(self, received: Received, frame: Buffer) -> bytes:
        """The frame as it leaves with the tag of its VLAN. Raises `Error` if it was discarded, or is not the one that
        was received."""
        return self._left(_switch.etherpeel_switch_tagged, instance("received", received, Received), frame)

    def untagged(self, received: Received, frame: Buffer) -> bytes:
        """The frame as it leaves without a tag. Raises as `tagged`."""
        return self._left(_switch.etherpeel_switch_untagged, instance("received", received, Received), frame)

    def leaving(self, received: Received, frame: Buffer) -> Dict[int, bytes]:
        """What leaves, by the numbers of the ports; nothing if the frame was discarded, or is reserved."""
        found: Dict[int, bytes] = {}
        instance("received", received, Received)
        for ports, call in ((received.tagged, self.tagged), (received.untagged, self.untagged)):
            if ports:
                found.update(dict.fromkeys(ports, call(received, frame)))
        return found

    # ---- stations

    def find(self, vid: int, address: Address) -> Optional[Sighting]:
        """The last sighting of a station in a VLAN, which may have aged; None if there is none."""
        bridge, table, _, _ = self._told
        words, sighting = (_vid("vid", vid), station("address", address)), _header.Sighting()
        status = _switch.etherpeel_switch_find(bridge, table, len(table), *words, sighting)
        if status == Status.STAYS:
            return None
        required(status)
        return Sighting(sighting.port, sighting.time)

    def forget(self, *, vid: Optional[int] = None, port: Optional[int] = None,
               address: Optional[Address] = None) -> None:
        """Forgets stations: all, or those that were seen last at a port, or the one with an address; in one VLAN or in
        all. Frames to them then go to all members of their VLAN. A spanning tree asks for this, and so does a port that
        goes down."""
        if port is not None and address is not None:
            raise ValueError("stations are forgotten by a port or by an address, not by both")
        what = Forgotten.STATION if address is not None else Forgotten.ALL if port is None else Forgotten.PORT
        table, count = self._table, len(self._table)
        if vid is not None:
            first = self._parts.get(_vid("vid", vid))
            if first is None:
                return
            begin = C.byref(table, first * C.sizeof(_header.Bucket))
            table, count = C.cast(begin, C.POINTER(_header.Bucket)), self._buckets
        required(_switch.etherpeel_switch_forget(table, count, what, number("port", port or 0, 8),
                                                 bytes(6) if address is None else station("address", address)))

    # ---- the structs of C

    def _replace_port(self, port, new):
        ports = dict(self._ports)
        old = ports.pop(number("port", port, 8), Port())
        if new is not None:
            ports[port] = new
        self._ports = ports
        self._set_up()
        for vid in _members(old) - _members(new or Port()):
            self.forget(vid=vid, port=port)

    def _set_up(self):
        """Makes the structs of the settings anew, and takes them in use at once: a call of another thread has the old
        ones or the new."""
        vids = frozenset().union(*map(_members, self._ports.values()))
        vlans, states = (_header.SwitchVlan * (max(vids, default=0) + 1))(), _header.PortStates()
        for at, port in self._ports.items():
            _add_port(vlans, states, at, port)
        self._give_parts(sorted(vids))
        for vid, first in self._parts.items():
            if vid < len(vlans):
                vlans[vid].first_bucket, vlans[vid].buckets = first, self._buckets
        static = (_header.StaticEntry * max(1, len(self._static)))()
        for entry, ((vid, address), ports) in zip(static, self._static.items()):
            entry.vid, entry.address = vid, (C.c_uint8 * 6)(*address)
            _put(entry.ports, ports)
        key = (C.c_uint64 * 2)(*struct.unpack("=QQ", self._key))
        told = _header.Bridge(key=key, ports=C.pointer(states), vlans=vlans, vlan_count=len(vlans),
                              static_entries=static, static_entry_count=len(self._static),
                              ageing_time=self._ageing_time, forwarded=self._forwarded, kind=self._kind)
        ports = {at: _port(port) for at, port in self._ports.items()}
        self._told = told, self._table, ports, (states, vlans, static)

    def _give_parts(self, vids):
        """Gives each VLAN that has none a part of the table. Those of the others stay where they are."""
        new = [vid for vid in vids if vid not in self._parts]
        if new:
            table = (_header.Bucket * (len(self._table) + self._buckets * len(new)))()
            C.memmove(table, self._table, C.sizeof(self._table))
            self._parts = {**self._parts, **{vid: len(self._table) + self._buckets * at for at, vid in enumerate(new)}}
            self._table = table

    def _left(self, call, received, frame):
        if received.discarded:
            raise Error(f"the frame was discarded: {received.discarded.name}")
        told = _header.Received(vid=received.vid, kind=self._kind, priority=received.priority,
                                drop_eligible=received.drop_eligible)
        buffer, at = bytearray(4) + bytes(memoryview(frame)), C.c_size_t()
        with lent(buffer) as (first, length):
            status = call(told, first, length, at)
        if status == Status.STAYS:
            raise Error("the frame is too short for its header or its tag: it is not the one that was received")
        required(status)
        return bytes(memoryview(buffer)[at.value:])

    def __getstate__(self) -> Dict[str, Any]:
        return {**{name: value for name, value in vars(self).items() if name != "_told"}, "_table": bytes(self._table)}

    def __setstate__(self, state: Dict[str, Any]) -> None:
        vars(self).update(state)
        content = state["_table"]
        self._table = (_header.Bucket * (len(content) // C.sizeof(_header.Bucket))).from_buffer_copy(content)
        self._set_up()

    def __repr__(self) -> str:
        return f"<etherpeel.Bridge with {len(self._ports)} ports>"


def _vid(name, value):
    """The identifier of a VLAN."""
    return between(name, value, 1, 4094)


def _members(port):
    """The VLANs that a port is a member of."""
    return port.tagged | port.untagged | (frozenset() if port.pvid is None else {port.pvid})


def _default_types(pvid, tagged, untagged):
    """The frames that name a VLAN of a port with these VLANs."""
    if pvid is None:
        return FrameTypes.VLAN_TAGGED
    return FrameTypes.ALL if (tagged | untagged) - {pvid} or pvid in tagged else FrameTypes.UNTAGGED_AND_PRIORITY_TAGGED


def _port(port):
    """A port as a struct of C."""
    return _header.Port(pvid=port.pvid or 1, frame_types=port.frame_types, refuses_second_tag=port.refuses_second_tag,
                        ingress_filtering=port.ingress_filtering, default_priority=port.default_priority)


def _add_port(vlans, states, at, port):
    """Adds a port to its VLANs, and to what it may do now."""
    for vid in _members(port):
        _put(vlans[vid].members, (at,))
        if vid not in port.tagged:
            _put(vlans[vid].untagged, (at,))
    for has, ports in ((port.learning, states.learning), (port.forwarding, states.forwarding),
                       (port.isolated, states.isolated), (port.mirror, states.mirrors)):
        if has:
            _put(ports, (at,))


def _put(ports, numbers):
    """Adds ports to a set of C."""
    for it in numbers:
        ports.words[it // 64] |= 1 << it % 64


def _numbers(ports):
    return _set_of(*ports.words)


@lru_cache(maxsize=1024)
def _set_of(*words):
    """The numbers of the ports in a set of C."""
    return frozenset(64 * at + bit for at, word in enumerate(words) for bit in range(64) if word >> bit & 1)
