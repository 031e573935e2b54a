"""Tests that packets and errors of the package pass from one process to another: pools.py FOLDER [DASK], where FOLDER has the
package and DASK is a Python that has dask.distributed. The last line is 'N passed, M failed'.

All go through pickle and copy, and through workers of multiprocessing, of concurrent.futures and of dask. Each pool is in a process of
its own with a time limit, for a pool that can't read what a worker sends may wait for ever.
"""
import concurrent.futures
import copy
import multiprocessing
import os
import pickle
import signal
import subprocess
import sys
import tempfile

from checks import ADDRESSES, TAGGED, check, counts, words

if __name__ == "__main__":  # a server of forks has no words, but PYTHONPATH
    folder, other, method = words("FOLDER", "[DASK]", "[METHOD]")
    sys.path.insert(0, folder)
import etherpeel
from etherpeel import Difference, FaultKind, FilterErrorKind, Status

SECONDS = 60
# a classic file with two packets, of one byte and of none; its last record header begins at byte 41 and has 16 bytes
CAPTURE = bytes.fromhex("a1b2c3d4 00020004 00000000 00000000 0000ffff 00000001"
                        "00000001 00000002 00000001 00000001 ff 00000003 00000004 00000000 00000009")
STATION = ADDRESSES[6:]
LINK, TAG = etherpeel.Ethernet2(b"\xff" * 6, ADDRESSES[6:], 0x0800), etherpeel.Vlan(1)


class OwnError(etherpeel.CaptureError):
    """An error that a caller derives, with other words than the package's."""

    def __init__(self, path):
        super().__init__("cut", 41, 16)
        self.path = path


def own_error():
    raise OwnError("f.pcap")


# calls that raise each kind of error, with its fields
ERRORS = [
    (etherpeel.Error, lambda: etherpeel.write_back_into(bytearray(1), TAGGED), {}),
    (etherpeel.TagError, lambda: etherpeel.pop_vlan(bytearray(3)), {"status": Status.NO_LINK}),
    (etherpeel.ReplaceError, lambda: etherpeel.replace_link_ext(bytearray(TAGGED), 1, TAG),
     {"status": Status.NO_TAG, "tags": 1, "difference": None}),
    (etherpeel.ReplaceError, lambda: etherpeel.replace_link(bytearray(TAGGED), LINK),
     {"status": Status.DIFFERS, "tags": None, "difference": Difference.ETHER_TYPE}),
    (etherpeel.BuildError, lambda: etherpeel.build([LINK, LINK], b"", 0x0800), {"status": Status.BAD_KIND, "index": 1}),
    (etherpeel.Refused, lambda: etherpeel.walk(TAGGED[:16]),
     {"fault": etherpeel.summary(TAGGED[:16]).fault, "units": etherpeel.walk(TAGGED[:16], limit=0)}),
    (etherpeel.FilterError, lambda: etherpeel.select("vlan 4096", []),
     {"offset": 5, "kind": FilterErrorKind.NUMBER, "greatest": 4095}),
    (etherpeel.LinuxSll2Error, lambda: etherpeel.linux_sll2(b""), {"status": Status.SHORT, "packet_type": None}),
    (etherpeel.CaptureError, lambda: list(etherpeel.capture(CAPTURE[:50])), {"offset": 41, "needed": 16}),
    (OwnError, own_error, {"offset": 41, "needed": 16, "path": "f.pcap"}),
]


def error_of(call):
    try:
        call()
    except etherpeel.Error as error:
        return error
    raise AssertionError("no error")


def copies(thing):
    """Copies of a thing by each way to make one, with the name of the way; None in place of one that can't be made."""
    ways = {f"pickle {protocol}": lambda protocol=protocol: pickle.loads(pickle.dumps(thing, protocol))
            for protocol in range(pickle.HIGHEST_PROTOCOL + 1)}
    ways.update({"copy": lambda: copy.copy(thing), "deepcopy": lambda: copy.deepcopy(thing)})
    for name, way in ways.items():
        try:
            yield name, way()
        except Exception as error:
            print(f"{type(thing).__name__}: {name}: {error!r}")
            yield name, None


def errors():
    made = [error_of(call) for _, call, _ in ERRORS]
    for (kind, call, fields), error in zip(ERRORS, made):
        for way, it in copies(error):
            found = it and (type(it), str(it), {name: getattr(it, name) for name in fields})
            check(f"{kind.__name__}, {way}", found, (kind, str(error), fields))
            check(f"{kind.__name__}, equal, {way}", (it == error, it != error, hash(it) == hash(error)), (True, False, True))
        check(f"{kind.__name__}, made again", error_of(call) == error, True)
    check("different errors", [[one == other for other in made] for one in made],
          [[one is other for other in made] for one in made])
    check("no error of the package", made[0] == ValueError(*made[0].args), False)
    first, second = (etherpeel.CaptureError("text", 1, needed) for needed in (2, 3))
    check("another field", first == second, False)
    first.__notes__ = ["a note"]
    check("a note", [it and (it == etherpeel.CaptureError("text", 1, 2), it.__notes__) for _, it in copies(first)], [(True, ["a note"])] * 8)


def results_of_calls():
    whole = list(etherpeel.capture(CAPTURE))
    for name, memory in (("bytes", CAPTURE), ("bytearray", bytearray(CAPTURE)), ("view", memoryview(b"!" + CAPTURE)[1:])):
        for packet in etherpeel.capture(memory):
            for way, it in copies(packet):
                check(f"a packet in {name}, {way}", it and (type(it), type(it.packet), it), (type(packet), memoryview, packet))
    with tempfile.NamedTemporaryFile() as file:
        file.write(CAPTURE)
        file.flush()
        mapped = list(etherpeel.capture(open(file.name, "rb")))
        for way, it in copies(mapped[0]):
            check(f"a packet of a mapped file, {way}", it, whole[0])
    check("a copy is the packet", copy.copy(whole[0]) is whole[0], True)
    frame = etherpeel.captured_frame(whole[0])
    for way, it in copies(frame):
        check(f"a frame, {way}", it and (type(it), type(it.bytes), it), (etherpeel.Frame, memoryview, frame))
    for filter_of in (etherpeel.Filter("vlan 5"), etherpeel.Filter("arp or cut")):
        for way, it in copies(filter_of):
            check(f"a filter, {way}", it and (type(it), it, it.matches(TAGGED)), (etherpeel.Filter, filter_of, False))
    packet = etherpeel.packet(TAGGED[:16])
    for way, it in copies(packet):
        check(f"results, {way}", (it, it and it.summary.fault.kind is FaultKind.LENGTH), (packet, True))


# ---- pools, each in a process of its own

def read(content):
    """The packets of a capture. It runs in a worker."""
    return list(etherpeel.capture(content))


def marked(asked, content):
    """Which packets of a capture a filter selects, with the filter. It runs in a worker."""
    return asked, asked.select(etherpeel.open(content))


def bridged(bridge):
    """Where a station is that a bridge has seen, and where a frame to it goes. It runs in a worker."""
    return bridge.find(5, STATION).port, sorted(bridge.receive(1, 1, STATION + bytes.fromhex("020000000002 0800")).untagged)


def by_multiprocessing(method):
    with multiprocessing.get_context(method).Pool(2) as pool:
        return results(lambda call, *words: pool.apply_async(call, words).get())


def by_futures(method):
    with concurrent.futures.ProcessPoolExecutor(2, multiprocessing.get_context(method)) as pool:
        return results(lambda call, *words: pool.submit(call, *words).result())


def by_dask(_):
    from dask.distributed import Client
    with Client(n_workers=2, dashboard_address=None) as client:
        return results(lambda call, *words: client.submit(call, *words).result())


def results(call):
    """What workers raise of a cut capture, and return of a whole one and of a filter."""
    error = error_of(lambda: call(read, CAPTURE[:50]))
    whole = [bytes(packet.packet) for packet in call(read, CAPTURE)]
    bridge = etherpeel.Bridge()
    for port in range(3):
        bridge.set_port(port, pvid=5)
    bridge.receive(0, 0, bytes(6) + STATION + b"\x08\0")
    return f"{call(bridged, bridge)} {type(error).__name__} {error.offset} {error.needed} {whole} {call(marked, etherpeel.Filter('cut'), CAPTURE)}"


POOLS = {"multiprocessing": by_multiprocessing, "futures": by_futures, "dask": by_dask}


def in_time(python, *asked):
    """The last line that this file prints with these words, or why there is none."""
    with tempfile.TemporaryFile() as output:
        ran = subprocess.Popen([python, os.path.abspath(__file__), folder, *asked], env={**os.environ, "PYTHONPATH": folder},
                               stdin=subprocess.DEVNULL, stdout=output, stderr=subprocess.STDOUT, start_new_session=True)
        try:
            ran.wait(SECONDS)
        except subprocess.TimeoutExpired:
            return f"no end after {SECONDS} seconds"
        finally:
            try:
                os.killpg(ran.pid, signal.SIGKILL)
            except ProcessLookupError:
                pass
            ran.wait()
        output.seek(0)
        return output.read().decode().rstrip("\n").split("\n")[-1]


def main():
    errors()
    results_of_calls()
    expected = "(0, [0]) CaptureError 41 16 [b'\\xff', b''] (etherpeel.Filter('cut'), [False, True])"
    for method in multiprocessing.get_all_start_methods():
        for pool in ("multiprocessing", "futures"):
            check(f"{pool}, {method}", in_time(sys.executable, pool, method), expected)
    if other:
        check("dask", in_time(other, "dask", "-"), expected)
    else:
        print("left out: the workers of dask, since no Python with dask.distributed was found")
    print(f"{counts[True]} passed, {counts[False]} failed")


if __name__ == "__main__":
    if method:  # in a process of its own
        print(POOLS[other](method))
    else:
        main()
