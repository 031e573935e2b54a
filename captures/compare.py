"""Compares what `ether_capture` prints of made captures with tshark, and with what is known of them.

    python3 compare.py PROGRAM [TOOL]

PROGRAM is `ether_capture`; TOOL, if given, is `ether_tool`. For each capture:

- number, time, link type, captured and original length of each packet are those of tshark and of `make.py`;
- the bytes that tshark reads of each packet are those of `make.py`;
- destination, source and ether type of each Ethernet frame are those of tshark;
- the lines of each walk are those of the tool for the bytes that tshark read. Without a tool they are those of PROGRAM for a
  classic capture of these bytes. That tests how the file is read, but not the walks: only the Ethernet header is then compared
  with anything else;
- `--plain` prints the lines of the walks alone;
- a capture below 2,000 bytes is cut at every byte: the lines are those of the packets before the cut, then the totals if the cut
  is between two units, else `standard input: byte N: ..` on standard error, with the place where the last unit begins, and status 3;
- a capture below 700 bytes is given through a pipe byte by byte.

Known differences from tshark, which are not counted as failures:

- Simple packets have no time: tshark prints nothing, the program prints `-`.
- Custom blocks: tshark counts each as a frame, without an encapsulation; the program skips them, and does not number them.
- Resolutions finer than a nanosecond are rounded down by both. But tshark 4.0 multiplies the ticks within the second by 10 to the
  power of 9 in 64 bits, which overflows for picoseconds from about 18 milliseconds on (0.123456789999 becomes 0.012776325).
  These times are compared with `make.py` alone.
"""

import argparse
import subprocess
import sys
import tempfile
from pathlib import Path

import make

ENCAPSULATIONS = {"1": make.ETHERNET, "7": make.RAW_IP, "25": make.LINUX_SLL}
FIELDS = ["frame.time_epoch", "frame.cap_len", "frame.len", "frame.encap_type", "eth.dst", "eth.src", "eth.type"]
TOOL_LIMIT = 2048


def run(arguments, data=b""):
    done = subprocess.run(arguments, input=data, stdout=subprocess.PIPE, stderr=subprocess.DEVNULL, check=False)
    return done.returncode, done.stdout.decode()


def tshark_rows(path):
    """The fields of each frame that tshark reads, without those that it makes of custom blocks."""
    fields = [word for name in FIELDS for word in ("-e", name)]
    status, text = run(["tshark", "-n", "-r", path, "-T", "fields", "-E", "occurrence=f", *fields])
    assert status == 0, "tshark can't read the capture"
    rows = [dict(zip(FIELDS, line.split("\t"))) for line in text.splitlines()]
    return [row for row in rows if row["frame.encap_type"]]


def tshark_bytes(path):
    """The bytes of each frame that tshark reads."""
    arguments = ["tshark", "-n", "-r", path, "-Y", "frame.encap_type", "--hexdump", "frames", "--hexdump", "noascii"]
    frames, digits = [], []
    for line in run(arguments)[1].splitlines():
        if line.strip():
            digits += line.split()[1:]
        else:
            frames.append(bytes.fromhex("".join(digits)))
            digits = []
    return frames


def packets_of(text):
    """The lines of each packet, and the lines after the last one's walk."""
    packets, ends = [], []
    for line in text.splitlines():
        if line.startswith("frame "):
            packets.append([line])
        elif line.startswith(("total ", "byte ")):
            ends.append(line)
        else:
            packets[-1].append(line)
    return packets, ends


def time_text(nanoseconds):
    return f"{nanoseconds // 10**9}.{nanoseconds % 10**9:09}"


def packet_line(number, packet, skipped):
    """The line of a packet, from what is known of it."""
    time = "-" if packet.time is None else time_text(packet.time)
    line = f"frame {number} time {time} link {packet.link} captured {len(packet.data)} original {packet.original}"
    return line + " cut" * (len(packet.data) < packet.original) + " skipped" * skipped


def walk_input(packet, data):
    """The mode of the walk and the bytes that it reads; no mode if the packet is skipped."""
    is_cut = len(data) < packet.original
    if packet.link == make.ETHERNET and packet.fcs_len == 4 and not is_cut:
        return "fcs", data
    mode = {make.ETHERNET: "eth", make.LINUX_SLL: "sll"}.get(packet.link)
    return mode, data[: max(0, max(packet.original, len(data)) - packet.fcs_len)]


def beyond_a_cooked_header(tool, frame):
    """The line of a cooked header whose hardware type the tool refuses, and the tool's lines of the payload, whose places count from the packet."""
    packet_type, hardware, length = (int.from_bytes(frame[at:at + 2], "big") for at in (0, 2, 4))
    protocol = frame[14:16].hex().upper()
    lines = [f"linux_sll 0 packet {packet_type} hw {hardware} alen {length} addr {frame[6:14].hex()} 0x{protocol}"]
    for line in run([tool, "type", protocol], frame[16:].hex().encode() + b"\n")[1].splitlines():
        words = line.split()
        for at in (1, 2) if words[0] == "rest" else (1,):
            words[at] = str(int(words[at]) + 16)
        lines.append(" ".join(words))
    return lines


def walks(program, tool, inputs):
    """The lines of the walk of each input, by the tool or by a plain capture; None for a frame that the tool can't read."""
    lines = {}
    for mode, link, fcs_len in (("eth", 1, None), ("fcs", 1, 4), ("sll", 113, None)):
        chosen = [n for n, (of, data) in enumerate(inputs) if of == mode and (not tool or len(data) <= TOOL_LIMIT)]
        frames = [inputs[n][1] for n in chosen]
        if tool:
            for n, frame in zip(chosen, frames):
                lines[n] = run([tool, mode], frame.hex().encode() + b"\n")[1].splitlines()
                if mode == "sll" and " content sll_hardware_type " in lines[n][0]:
                    lines[n] = beyond_a_cooked_header(tool, frame)
        elif chosen:
            plain = make.classic("plain", "<", make.whole(frames), link, fcs_len=fcs_len)
            packets, _ = packets_of(run([program], plain.data())[1])
            lines.update((n, packet[1:]) for n, packet in zip(chosen, packets))
    return [[] if mode is None else lines.get(n) for n, (mode, _) in enumerate(inputs)]


def expect(found, wanted, what):
    assert found == wanted, f"{what}: {found!r} instead of {wanted!r}"


def compare_row(number, lines, packet, row):
    """Compares the lines of a packet with the fields that tshark prints."""
    words = lines[0].split()
    what = f"frame {number}"
    expect(words[1], str(number), what)
    if packet.time is None:
        expect((words[3], row["frame.time_epoch"]), ("-", ""), f"{what}, time")
    elif not packet.overflows:
        expect(words[3], row["frame.time_epoch"], f"{what}, time")
    expect(int(words[5]), ENCAPSULATIONS[row["frame.encap_type"]], f"{what}, link type")
    expect((words[7], words[9]), (row["frame.cap_len"], row["frame.len"]), f"{what}, lengths")
    if len(lines) > 1 and lines[1].startswith("ethernet2 ") and row["eth.type"]:
        header = lines[1].split()
        found = (header[2], header[3], int(header[4], 16))
        wanted = (row["eth.dst"].replace(":", ""), row["eth.src"].replace(":", ""), int(row["eth.type"], 16))
        expect(found, wanted, f"{what}, header")
        return 1
    return 0


def compare_cuts(program, capture, packets):
    """Cuts the capture at every byte. Returns the number of cuts."""
    data = capture.data()
    starts, known, place, read = [], [], 0, 0
    for unit, packet in capture.units:
        starts += [(place, read)] * len(unit)
        known.append(place)
        place, read = place + len(unit), read + (packet is not None)
    for end in range(len(data)):
        start, count = starts[end]
        done = subprocess.run([program], input=data[:end], capture_output=True, check=False)
        status, said = done.returncode, done.stderr.decode()
        found, ends = packets_of(done.stdout.decode())
        expect(found, packets[:count], f"cut at {end}")
        if end in known and end > 0:
            expect((len(ends), said), (1, ""), f"cut at {end}, last lines")
            assert ends[0].startswith(f"total frames {count} "), f"cut at {end}: {ends[0]}"
            assert status in (0, 1), f"cut at {end}: status {status}"
        else:
            expect((len(ends), status), (0, 3), f"cut at {end}, last lines and status")
            assert said.startswith(f"standard input: byte {start}: "), f"cut at {end}: {said}, the unit begins at {start}"
    return len(data)


def byte_by_byte(program, data):
    with subprocess.Popen([program], stdin=subprocess.PIPE, stdout=subprocess.PIPE, bufsize=0) as process:
        for byte in data:
            process.stdin.write(bytes([byte]))
        process.stdin.close()
        text = process.stdout.read().decode()
        return process.wait(), text


def compare(program, tool, capture, path):
    """Compares all of a capture. Returns what was compared, in words."""
    data, known = capture.data(), capture.packets()
    status, text = run([program], data)
    packets, ends = packets_of(text)
    rows, frames = tshark_rows(path), tshark_bytes(path)
    expect((len(packets), len(rows)), (len(known), len(known)), "number of packets")
    expect(frames, [packet.data for packet in known], "bytes that tshark reads")
    headers = 0
    inputs = [walk_input(packet, frame) for packet, frame in zip(known, frames)]
    for number, (lines, packet, row) in enumerate(zip(packets, known, rows), 1):
        expect(lines[0], packet_line(number, packet, inputs[number - 1][0] is None), f"frame {number}")
        headers += compare_row(number, lines, packet, row)
    compared = 0
    for number, (lines, wanted) in enumerate(zip(packets, walks(program, tool, inputs)), 1):
        if wanted is not None:
            expect(lines[1:], wanted, f"frame {number}, walk")
            compared += 1
    skipped = sum(mode is None for mode, _ in inputs)
    expect(ends, [f"total frames {len(known)} skipped {skipped}"], "totals")
    is_refused = any(line.startswith("fault ") for lines in packets for line in lines)
    expect(status, 1 if is_refused else 0, "status")
    plain = "".join(line + "\n" for lines in packets for line in lines[1:])
    expect(run([program, "--plain"], data), (status, plain), "--plain")
    words = f"{len(known)} packets, {headers} headers, {compared} walks"
    if len(data) < 2000:
        words += f", {compare_cuts(program, capture, packets)} cuts"
    if len(data) < 700:
        expect(byte_by_byte(program, data), (status, text), "byte by byte")
        words += ", byte by byte"
    return words


def main():
    words = argparse.ArgumentParser(description=__doc__, formatter_class=argparse.RawDescriptionHelpFormatter)
    words.add_argument("program", metavar="PROGRAM")
    words.add_argument("tool", metavar="TOOL", nargs="?")
    given = words.parse_args()
    program = str(Path(given.program).resolve())
    tool = str(Path(given.tool).resolve()) if given.tool else None
    passed = failed = 0
    with tempfile.TemporaryDirectory() as folder:
        for capture in make.captures():
            path = Path(folder, capture.name)
            path.write_bytes(capture.data())
            try:
                print(f"{capture.name}: {compare(program, tool, capture, str(path))}", flush=True)
                passed += 1
            except AssertionError as error:
                print(f"{capture.name}: FAILED: {error}", flush=True)
                failed += 1
    print(f"{passed} passed, {failed} failed")
    sys.exit(1 if failed else 0)


if __name__ == "__main__":
    main()
