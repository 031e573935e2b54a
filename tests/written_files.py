"""Tests of the files that `ether_capture -w` and `ether_make -w` write: what they have after a fault. Also of an output that is an input, and of streams
that are closed. ether_capture.py, ether_make.py and ether_tool.py run them."""

import os
import resource
import signal
import subprocess
import tempfile
from functools import partial

from capture_streams import OLD, contents, done, filled, not_written
from made_captures import CLASSIC, CUT_PACKET, ETHERNET, INPUT, SECTION_HEADER, classic, record_is_cut

RECORD = classic(bytes(60))[24:]
MANY = CLASSIC[:24] + RECORD * 4_000
BLOCKS = SECTION_HEADER + ETHERNET + CUT_PACKET * 4_000
LIMIT = 100_000
NO_SPACE = ": no space is left"
CLOSED = "Bad file descriptor (os error 9)\n"
IS_OUTPUT = "it is the output, too\n"
LINE = '{"headers":[{"header":"eth"}]}\n'
# A header and a record of 14 bytes, in nanoseconds of 1970 (draft-ietf-opsawg-pcap, sections 4 and 5).
HEADER = bytes.fromhex("4d3cb2a1 0200 0400 00000000 00000000 00000400 01000000")
FRAME = bytes.fromhex("00000000 00000000 0e000000 0e000000") + bytes(14)


def limited():
    """Files can't be longer than the limit, and the program sees that as an error."""
    signal.signal(signal.SIGXFSZ, signal.SIG_IGN)
    resource.setrlimit(resource.RLIMIT_FSIZE, (LIMIT, LIMIT))


def piped(program, words, given, files, **how):
    """The same as `done`, of bytes that come through a pipe."""
    with tempfile.TemporaryDirectory() as folder:
        filled(folder, files)
        ran = subprocess.run([program, *words], input=given, capture_output=True, cwd=folder, check=False, **how)
        return ran.stdout.decode("latin-1"), ran.stderr.decode(), ran.returncode, contents(folder)


def in_shell(program, command, files):
    """What a command of the shell, whose `$0` is the program, prints, says and returns in a folder that has these files, and what this has then."""
    with tempfile.TemporaryDirectory() as folder:
        filled(folder, files)
        ran = subprocess.run(["sh", "-c", command, os.path.realpath(program)], stdin=subprocess.DEVNULL, capture_output=True, cwd=folder, check=False, preexec_fn=limited)
        return ran.stdout.decode("latin-1"), ran.stderr.decode(), ran.returncode, contents(folder)


def whole(capture, header, unit, limit=LIMIT):
    """The front of a capture that has whole units up to the limit."""
    return capture[:header + (limit - header) // unit * unit]


def kept_copies(program):
    """Of what can't be read again the whole units before a fault are kept; a file that can be read again leaves the old copy."""
    cut, said = CLASSIC[:120], INPUT + record_is_cut(59, 62, 61)
    for files in ({}, {"copy": OLD}):
        name = "an old copy" if files else "no copy"
        yield f"a pipe that ends in a record, {name}", partial(piped, program, ["-w", "copy"], cut, files), ("", said, 3, {"copy": CLASSIC[:59]})
        yield f"a file that ends in a record, {name}", partial(done, program, ["-w", "copy"], cut, files), ("", said, 3, files)
        yield f"a pipe that ends in the file header, {name}", partial(lambda files: piped(program, ["-w", "copy"], cut[:10], files)[2:], files), (3, files)
        yield f"a pipe and no space, {name}", partial(piped, program, ["-w", "copy"], MANY, files, preexec_fn=limited), (
            "", not_written("copy", NO_SPACE), 4, {"copy": whole(MANY, 24, len(RECORD))})
        yield f"a pipe of blocks and no space, {name}", partial(piped, program, ["-w", "copy"], BLOCKS, files, preexec_fn=limited), (
            "", not_written("copy", NO_SPACE), 4, {"copy": whole(BLOCKS, len(SECTION_HEADER + ETHERNET), len(CUT_PACKET))})
    yield "a named file that ends in a record", partial(done, program, ["-r", "cut", "-w", "copy"], b"", {"cut": cut, "copy": OLD}), (
        "", "cut" + record_is_cut(59, 62, 61), 3, {"cut": cut, "copy": OLD})
    found = partial(done, program, ["-r", "many", "-w", "copy"], b"", {"many": MANY, "copy": OLD}, preexec_fn=limited)
    yield "a named file and no space", found, ("", not_written("copy", NO_SPACE), 4, {"many": MANY, "copy": OLD})


def own_captures(program):
    """What is written is not read again."""
    files = {"one": CLASSIC}
    for words in ("--write", "--plain"):
        yield f"a capture that is the output, {words}", partial(in_shell, program, f'"$0" {words} one >> one', files), (
            "", f"one: can't be opened: {IS_OUTPUT}", 4, files)
        yield f"standard input that is the output, {words}", partial(in_shell, program, f'"$0" {words} < one >> one', files), (
            "", f"ether_capture: standard input: {IS_OUTPUT}", 4, files)
    found = partial(in_shell, program, '"$0" --plain one two >> two', {**files, "two": CLASSIC})
    yield "one of several captures that is the output", found, partial(own_wanted, program, files)
    yield "an output that was read to its end before", partial(in_shell, program, '{ cat > /dev/null; "$0" --write; } < one >> one', files), (
        "", INPUT + ": byte 0: The header of a pcap file needs 24 byte(s); only 0 are available.\n", 3, files)


def own_wanted(program, files):
    """The lines of the other capture are there, and the one that is the output is named."""
    text = in_shell(program, '"$0" --plain one', files)[0]
    return "", f"two: can't be opened: {IS_OUTPUT}", 4, {**files, "two": CLASSIC + text.encode()}


def closed_streams(program, name, words, reads, lines=b"", begun=b""):
    """A standard stream that is closed is one that fails, if it is used. `reads` is a file that is read, `begun` what the first words print before they
    read."""
    files = {"one": CLASSIC, "lines": lines}
    for said in (*words, "--help", "--version"):
        yield f"standard output that is closed, {said}", partial(in_shell, program, f'"$0" {said} < {reads} >&-', files), (
            "", f"{name}: standard output: {CLOSED}", 4, files)
    yield "standard input that is closed", partial(in_shell, program, f'"$0" {words[0]} <&-', files), (
        begun.decode("latin-1"), f"{name}: standard input: {CLOSED}", 4, files)
    yield "both are closed", partial(in_shell, program, '"$0" --version <&- >&-', files), ("", f"{name}: standard output: {CLOSED}", 4, files)
    yield "all are closed", partial(in_shell, program, '"$0" --version <&- >&- 2>&-', files), ("", "", 4, files)
    yield "no stream is closed, but nothing has them", partial(in_shell, program, f'"$0" {words[0]} < {reads} > /dev/null', files), ("", "", 0, files)


def closed_beside_files(program):
    """No file gets the number of a stream that is closed."""
    files = {"one": CLASSIC}
    yield "a copy and closed streams", partial(in_shell, program, '"$0" -r one -w copy <&- >&- 2>&-', files), ("", "", 0, {**files, "copy": CLASSIC})
    yield "a capture and a closed output", partial(in_shell, program, '"$0" --plain one >&-', files), ("", f"ether_capture: standard output: {CLOSED}", 4, files)


def kept_frames(program):
    """A file of frames is written whole, or with the frames before a fault if their lines can't be read again."""
    one, bad = LINE.encode(), LINE.encode() + b"x\n"
    refused = "line 2: this is no JSON text\n"
    yield "a file that is its own source", partial(done, program, ["-w", "x", "x"], b"", {"x": one}), ("", "", 0, {"x": HEADER + FRAME})
    yield "a file that a link leads to", partial(linked, program, os.symlink), ("", "", 0, {"link": HEADER + FRAME, "x": HEADER + FRAME})
    yield "a file of two names", partial(linked, program, os.link), ("", "", 0, {"link": HEADER + FRAME, "x": one})
    for words, frame, header in ((["-w", "old"], FRAME, HEADER), (["--hex", "-w", "old"], b"0" * 28 + b"\n", b"")):
        form = words[0]
        yield f"a source that is not there, {form}", partial(done, program, [*words, "no"], b"", {"old": OLD}), (
            "", "ether_make: no: No such file or directory (os error 2)\n", 4, {"old": OLD})
        yield f"a line that is refused, {form}", partial(done, program, [*words, "bad"], b"", {"bad": bad, "old": OLD}), (
            "", f"ether_make: bad: {refused}", 3, {"bad": bad, "old": OLD})
        yield f"a first line that is refused, from a pipe, {form}", partial(piped, program, words, b"x\n", {"old": OLD}), (
            "", "ether_make: line 1: this is no JSON text\n", 3, {"old": OLD})
        yield f"a second line that is refused, from a pipe, {form}", partial(piped, program, words, bad, {"old": OLD}), (
            "", f"ether_make: {refused}", 3, {"old": header + frame})
        yield f"a second line that is refused, in a file that is standard input, {form}", partial(done, program, words, bad, {"old": OLD}), (
            "", f"ether_make: {refused}", 3, {"old": OLD})
        said = "ether_make: " + not_written("old", NO_SPACE)
        yield f"no space for frames of a pipe, {form}", partial(piped, program, [*words, "--count", "9000"], one, {"old": OLD}, preexec_fn=limited), (
            "", said, 4, {"old": header + frame * ((LIMIT - len(header)) // len(frame))})
        yield f"no space for frames of a file, {form}", partial(done, program, [*words, "--count", "9000", "one"], b"", {"one": one, "old": OLD}, preexec_fn=limited), (
            "", said, 4, {"one": one, "old": OLD})
    yield "lines that are the output", partial(in_shell, program, '"$0" one >> one', {"one": one}), ("", f"ether_make: one: {IS_OUTPUT}", 4, {"one": one})
    yield "standard input that is the output", partial(in_shell, program, '"$0" < one >> one', {"one": one}), (
        "", f"ether_make: standard input: {IS_OUTPUT}", 4, {"one": one})
    for word in ("--help", "--version"):
        yield f"{word} and no space", partial(in_shell, program, f'"$0" {word} > /dev/full', {}), (
            "", "ether_make: standard output: No space left on device (os error 28)\n", 4, {})


def linked(program, link):
    """The same as `done`, with an output that is a second name of the source."""
    with tempfile.TemporaryDirectory() as folder:
        filled(folder, {"x": LINE.encode()})
        link("x" if link == os.symlink else os.path.join(folder, "x"), os.path.join(folder, "link"))
        ran = subprocess.run([program, "-w", "link", "x"], capture_output=True, cwd=folder, check=False)
        return ran.stdout.decode("latin-1"), ran.stderr.decode(), ran.returncode, contents(folder)


def capture_cases(program):
    yield from kept_copies(program)
    yield from own_captures(program)
    yield from closed_streams(program, "ether_capture", ("--write", "--plain -c 1"), "one")
    yield from closed_beside_files(program)


def make_cases(program):
    yield from kept_frames(program)
    yield from closed_streams(program, "ether_make", ("--pad", "--hex"), "lines", LINE.encode(), HEADER)
