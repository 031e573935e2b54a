"""Whether the types that the package declares are those that a caller needs: typed.py FOLDER, where FOLDER has the
package. mypy, which this Python has, checks a program with its strict options; and the program is run. The last line is
'N passed, M failed'.
"""
import os
import subprocess
import sys
import tempfile

from checks import check, counts, words

# What is ignored must be wrong: mypy refuses a comment that ignores nothing.
PROGRAM = '''
import array
import contextlib
import ctypes
import gzip
import io
import mmap
import pathlib
from typing import Dict, FrozenSet, Iterator, List, Optional, Tuple, Union

import etherpeel

FRAME = bytes.fromhex("FFFFFFFFFFFF0200000000018100B123080045")
ARP = bytes.fromhex("FFFFFFFFFFFF020000000001080600010800060400010200000000010a0000010000000000000a000002")
CLASSIC = bytes.fromhex("a1b2c3d4000200040000000000000000" "0000ffff00000001" "00000000000000000000001300000013") + FRAME


def buffers() -> None:
    mapped = mmap.mmap(-1, len(FRAME))
    mapped[:] = FRAME
    text = (ctypes.c_uint8 * len(FRAME)).from_buffer_copy(FRAME)
    units: List[etherpeel.Unit] = etherpeel.walk(mapped)
    for others in (etherpeel.walk(array.array("B", FRAME)), etherpeel.walk(bytearray(FRAME)), etherpeel.walk(memoryview(FRAME)), etherpeel.walk(text)):
        assert others == units
    tag: etherpeel.Vlan = etherpeel.pop_vlan(mapped)
    etherpeel.push_vlan(mapped, tag)
    etherpeel.set_vlan_id(array.array("B", FRAME), 0, 5)
    count: int = etherpeel.write_back_into(mapped, FRAME)
    built: bytes = etherpeel.build([etherpeel.Ethernet2("ff:ff:ff:ff:ff:ff", b"123456"), tag], mapped, 0x0800)
    assert count == len(FRAME) and len(built) == 18 + len(mapped)
    try:
        etherpeel.walk("ffff")  # type: ignore[arg-type]
    except TypeError:
        pass


def tables() -> None:
    packets = etherpeel.open(CLASSIC)
    table: etherpeel.Table = packets.table()
    row: etherpeel.Row = table[0]
    ids: Tuple[int, ...] = row.vlan_ids
    rows: List[etherpeel.Row] = table[:]
    written = io.BytesIO()
    with etherpeel.Writer(written) as writer:
        writer.write(packets[0])
        writer.write(FRAME, time_ns=0)
        try:
            writer.write(7)  # type: ignore[arg-type]
        except TypeError:
            pass
    assert ids == (291,) and rows == [row]


def headers() -> None:
    packet: etherpeel.Packet = etherpeel.packet(FRAME)
    tag = packet.first(etherpeel.Vlan)
    assert tag is not None
    vid: int = tag.vid
    link: Optional[etherpeel.Ethernet2] = packet.first(etherpeel.Ethernet2)
    source: str = link.source.hex(":") if link else ""
    ids: Tuple[int, ...] = packet.vlan_ids
    fault: Optional[etherpeel.Fault] = packet.summary.fault
    column: str = etherpeel.fields(FRAME)[0].name.column
    name: Optional[str] = etherpeel.number_name(etherpeel.FieldKind.ETHER_TYPE, 0x0800)
    assert (vid, source, ids, fault, column, name) == (291, "02:00:00:00:00:01", (291,), None, "eth.dst", "IPv4")
    request = etherpeel.Arp(1, 0x0800, 1, "02:00:00:00:00:01", "10.0.0.1", bytes(6), "10.0.0.2")
    sender: bytes = request.sender_protocol
    assert sender == bytes((10, 0, 0, 1)) and etherpeel.walk(ARP)[1].header == request


def captures(path: pathlib.Path) -> None:
    path.write_bytes(CLASSIC)
    sources: List[Union[str, pathlib.Path]] = [str(path), path]
    for source in sources:
        with etherpeel.open(source) as packets:
            first: etherpeel.Captured = packets[0]
            some: List[etherpeel.Captured] = packets[:1]
            fault: Optional[etherpeel.CaptureError] = packets.fault
            length: int = len(packets)
            columns: List[str] = first.columns("vlan.vid")
            frame: Optional[etherpeel.Frame] = first.frame
            assert (some, fault, length, columns) == ([first], None, 1, ["291"]) and frame and frame.walk()
    with path.open("rb") as file:
        found: Iterator[etherpeel.Captured] = etherpeel.select("vlan", etherpeel.capture(file))
        assert len(list(found)) == 1 and len(etherpeel.open(io.BytesIO(CLASSIC))) == 1
    with path.open("rb") as file, mmap.mmap(file.fileno(), 0, access=mmap.ACCESS_READ) as mapped:
        assert len(list(etherpeel.capture(mapped))) == 1
    first.time_ns + 1  # type: ignore[operator]


def streams(path: pathlib.Path) -> None:
    with etherpeel.Reader(path) as reader:
        packet: etherpeel.Captured = next(reader)
        interface: Optional[etherpeel.Interface] = reader.interface
        name: Optional[str] = interface.name if interface else None
        comments: Tuple[str, ...] = reader.comments
        interfaces: List[etherpeel.Interface] = reader.interfaces
        assert (len(packet.packet), name, comments, interfaces) == (19, None, (), etherpeel.open(path).interfaces)
    with path.open("rb") as file, gzip.open(io.BytesIO(gzip.compress(CLASSIC))) as unpacked:
        found: Iterator[etherpeel.Captured] = etherpeel.select("vlan", etherpeel.Reader(file))
        assert len(list(found)) == len(list(etherpeel.Reader(unpacked))) == len(list(etherpeel.Reader(bytearray(CLASSIC)))) == 1
    with etherpeel.Copy(str(path), io.BytesIO(), growth=4) as copy:
        edits: etherpeel.Copy = copy
        for packet in edits:
            edits.edit(bytearray(4) + packet.packet, original_len=60)
            edits.leave_out()
    needed: Optional[int] = etherpeel.Filter("vlan").needed(FRAME[:13], original_len=60)
    one: Optional[etherpeel.Interface] = etherpeel.open(path).interface(0)
    assert needed == 14 and one is None
    with contextlib.suppress(TypeError):
        etherpeel.Reader(7)  # type: ignore[arg-type]
    with contextlib.suppress(TypeError):
        etherpeel.Copy(path, io.BytesIO(), "4")  # type: ignore[arg-type]


def filters() -> None:
    vlan = etherpeel.Filter("vlan 291")
    one: bool = vlan.matches(FRAME, etherpeel.Start.ETHERNET2)
    decision: etherpeel.Decision = vlan.decide(array.array("B", FRAME))
    marks: List[bool] = vlan.select([FRAME, bytearray(ARP)])
    text: str = vlan.text
    assert (one, decision, marks, text) == (True, etherpeel.Decision.MATCHES, [True, False], "vlan 291")
    try:
        etherpeel.Filter(b"vlan")  # type: ignore[arg-type]
    except TypeError as error:
        assert "str" in str(error)
    try:
        vlan.text = "arp"  # type: ignore[misc]
    except AttributeError:
        pass


def bridge() -> None:
    switch = etherpeel.Bridge(kind=etherpeel.BridgeKind.CUSTOMER, ageing_time=300, forwarded=range(2))
    switch.set_port(0, pvid=291, frame_types=etherpeel.FrameTypes.ALL)
    switch.set_port(1, tagged=[5, 291])
    switch.set_static(291, "02:00:00:00:00:07", {1})
    received: etherpeel.Received = switch.receive(0.5, 1, memoryview(FRAME))
    ports: FrozenSet[int] = received.untagged
    why: Optional[etherpeel.Discarded] = received.discarded
    leaving: Dict[int, bytes] = switch.leaving(received, FRAME)
    seen: Optional[etherpeel.Sighting] = switch.find(291, b"\\2\\0\\0\\0\\0\\1")
    port: etherpeel.Port = switch.ports[0]
    switch.change_port(0, learning=False)
    with contextlib.suppress(TypeError):
        switch.change_port(0, nonsense=1)  # type: ignore[call-arg]
    switch.ports[0] = port  # type: ignore[index]


buffers()
tables()
headers()
filters()
captures(pathlib.Path("f.pcap"))
streams(pathlib.Path("f.pcap"))
try:
    bridge()
except TypeError as error:
    print(error)
'''


def main():
    folder, = words("FOLDER")
    with tempfile.TemporaryDirectory() as work:
        with open(f"{work}/program.py", "w", encoding="ascii") as file:
            file.write(PROGRAM)
        environment = {**os.environ, "MYPYPATH": folder, "PYTHONPATH": os.pathsep.join(filter(None, (folder, os.environ.get("PYTHONPATH"))))}
        told = ["--strict", "--follow-imports=silent", "--no-error-summary", f"--cache-dir={work}/cache", "program.py"]
        for name, command, expected in (("mypy", ["-m", "mypy", *told], ""),
                                        ("run", ["program.py"], "'mappingproxy' object does not support item assignment\n")):
            ran = subprocess.run([sys.executable, *command], cwd=work, env=environment, stdin=subprocess.DEVNULL, stdout=subprocess.PIPE,
                                 stderr=subprocess.STDOUT, text=True, check=False)
            check(name, ran.stdout, expected)
            if ran.stdout != expected:
                print(ran.stdout)
    print(f"{counts[True]} passed, {counts[False]} failed")


if __name__ == "__main__":
    main()
