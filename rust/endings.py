"""Tests how `ether_capture` and `ether_make`, as cargo builds them, end on SIGINT, SIGTERM and SIGHUP.

    python3 rust/endings.py PROGRAM [WORD]

PROGRAM is the built ether_capture, with ether_make next to it, WORD one that the names of the cases have which count, all if it is left out. What is left out is said, and why.
The last line is 'N passed, M failed'.
"""
import argparse
import concurrent.futures
import contextlib
import gzip
import os
import pty
import random
import re
import select
import signal
import socket
import subprocess
import sys
import tempfile
import time
import zlib
from functools import partial
from shutil import which

sys.dont_write_bytecode = True
sys.path.insert(0, os.path.join(os.path.dirname(os.path.dirname(os.path.abspath(__file__))), "tests"))
from capture_streams import contents, until  # noqa: E402
from made_captures import CLASSIC, NO_FILE, SIX, classic  # noqa: E402
from programs import count, run_apart  # noqa: E402

SECONDS = 15  # for what does not end by itself
RUNS = 5  # of `timeout`
UNIT = CLASSIC[24:59]  # a record of 35 bytes
MANY = CLASSIC[:24] + UNIT * 20_000
UNREAD = "the rest of the input was not read\n"
BY_INT, BY_TERM, BY_HUP = (f"ether_capture: ended by {name}: {UNREAD}" for name in ("SIGINT", "SIGTERM", "SIGHUP"))
LINE = b'{"headers":[{"header":"eth"}]}\n'
FRAMES = bytes.fromhex("4d3cb2a1 0200 0400 00000000 00000000 00000400 01000000") + (bytes.fromhex("00000000 00000000 0e000000 0e000000") + bytes(14)) * 1_000
# Writes a capture as tcpdump does: some packets at once and some later; those that wait when SIGINT comes it writes then, and ends.
WRITER = f"""
import os, signal, sys, time
header, unit, folder = bytes.fromhex({CLASSIC[:24].hex()!r}), bytes.fromhex({UNIT.hex()!r}), sys.argv[1]
sent = open(os.path.join(folder, "sent"), "wb", buffering=0)
def send(data):
    os.write(1, data)
    sent.write(data)
def end(*_):
    time.sleep(0.3)
    send(unit * 900)
    os._exit(0)
signal.signal(signal.SIGINT, end)
send(header + unit * 30)
while True:
    time.sleep(0.05)
    send(unit[:20])
    send(unit[20:])
"""


def size_of(path):
    try:
        return os.path.getsize(path)
    except FileNotFoundError:
        return 0


def without_wait(path):
    """What a file has, or None."""
    try:
        with open(path, "rb") as file:
            return file.read()
    except FileNotFoundError:
        return None


def ended(child):
    """Waits until a process has ended, and kills it if it does not."""
    try:
        child.wait(SECONDS)
    except subprocess.TimeoutExpired:
        child.kill()
        child.wait()


def kinds(names):
    """The names of a folder's files that say something of a copy."""
    return sorted(it for it in names if "copy" in it)


# ---- Ctrl-C in a terminal

def in_terminal(command, folder, is_ready, key=b"\x03"):
    """Runs a command of the shell in a pseudo terminal, presses a key once it is ready, and returns whether it was, what it showed, and its status.
    The shell itself goes on after Ctrl-C."""
    child, master = pty.fork()
    if child == 0:
        os.chdir(folder)
        os.execvp("sh", ["sh", "-c", f"trap : INT; {command}; echo $? > status"])
    was_ready = until(is_ready)
    os.write(master, key)
    shown = b""
    try:
        while select.select([master], [], [], SECONDS)[0] and (piece := os.read(master, 4096)):
            shown += piece
    except OSError:
        pass  # nobody has the other end any more
    os.close(master)  # which ends what still runs there
    os.waitpid(child, 0)
    return was_ready, shown.decode().replace("^C", "").replace("\r\n", "\n"), (without_wait(os.path.join(folder, "status")) or b"none").decode().strip()


def pressed(program):
    """Ctrl-C reaches the writer of a pipe and its reader: the copy and the counts have all that the writer has sent."""
    with tempfile.TemporaryDirectory() as folder:
        writer = os.path.join(folder, "writer.py")
        with open(writer, "w", encoding="utf-8") as file:
            file.write(WRITER)
        sends = f"'{sys.executable}' '{writer}' '{folder}'"
        sent = lambda: without_wait(os.path.join(folder, "sent"))  # noqa: E731
        goes_on = lambda: len(sent() or b"") > 24 + 35 * 40  # noqa: E731
        found = in_terminal(f"{sends} | '{program}' -w copy", folder, goes_on)
        whole = without_wait(os.path.join(folder, "copy")) == sent() and (len(sent()) - 24) // len(UNIT) > 930
        yield "Ctrl-C, a copy", (found, whole, kinds(os.listdir(folder))), ((True, "", "0"), True, ["copy"])
        os.remove(os.path.join(folder, "sent"))
        found = in_terminal(f"{sends} | '{program}' --stats --fields eth.type > counts", folder, goes_on)
        counts = re.findall(r"^total\t\t(\d+)\t", without_wait(os.path.join(folder, "counts")).decode(), re.M)
        yield "Ctrl-C, counts", (found, counts), ((True, "", "1"), [str((len(sent()) - 24) // len(UNIT))])
        yield "Ctrl-C, a terminal as the input", partial(at_a_terminal, program, folder), (True, "ether_capture: ended by SIGINT: " + UNREAD, "130", True)


def at_a_terminal(program, folder):
    """Where the terminal itself is the input no program ends it, so nothing is waited for."""
    begun = time.monotonic()
    was_ready, shown, status = in_terminal(f"touch begun; '{program}'", folder, lambda: os.path.exists(os.path.join(folder, "begun")) and not time.sleep(0.2))
    return was_ready, shown, status, time.monotonic() - begun < 1


def captured(program):
    """The same with tcpdump, which captures on the loopback interface."""
    if not which("tcpdump") or not which("capinfos") or os.getuid() != 0:
        print("left out: Ctrl-C for tcpdump, since that, capinfos or the right to capture is missing")
        return
    with tempfile.TemporaryDirectory() as folder, socket.socket(socket.AF_INET, socket.SOCK_DGRAM) as sends:
        os.chmod(folder, 0o755)
        part = os.path.join(folder, "copy.part")

        def goes_on():
            sends.sendto(b"to nobody", ("127.0.0.1", 9))
            return size_of(part) > 2_000
        command = f"tcpdump -i lo -w - -U -n udp port 9 2> told | '{program}' -w copy"
        found = in_terminal(command, folder, goes_on)
        told = without_wait(os.path.join(folder, "told")).decode()
        if "packet" not in told:
            print(f"left out: Ctrl-C for tcpdump, since it does not capture here: {told.strip()}")
            return
        read = subprocess.run(["capinfos", "-M", "-c", os.path.join(folder, "copy")], capture_output=True, text=True, check=False)
        counts = re.findall(r"^(\d+) packets? captured", told, re.M), re.findall(r"Number of packets:\s+(\d+)", read.stdout)
        yield "Ctrl-C, tcpdump", (found, counts[0] == counts[1] != [], kinds(os.listdir(folder))), ((True, "", "0"), True, ["copy"])


# ---- signals to the program alone

def signalled(program, words, given, signals, folder, is_ready, rest=b"", pause=0.0, ends=False, **how):
    """Starts the program, gives it the bytes, and when it is ready the signals, each after so many seconds (a run is short for 0.05); then further bytes, and if `ends` the end
    of the input. Returns whether it was ready, what it printed and said, its status, and how many seconds it took from the first signal on."""
    with tempfile.TemporaryFile() as out, tempfile.TemporaryFile() as said:
        how = {"stdin": subprocess.PIPE, "stdout": out, **how}
        with subprocess.Popen([program, *words], stderr=said, bufsize=0, cwd=folder, **how) as child:
            if given:
                child.stdin.write(given)
            was_ready = until(is_ready)
            begun = time.monotonic()
            for number, after in signals:
                time.sleep(after)
                child.send_signal(number)
            time.sleep(pause)
            if rest:
                with contextlib.suppress(BrokenPipeError):  # the program has ended
                    child.stdin.write(rest)
            if ends:
                child.stdin.close()
            ended(child)
            seconds = time.monotonic() - begun
            if child.stdin and not ends:
                child.stdin.close()
        out.seek(0)
        said.seek(0)
        return was_ready, out.read(), said.read().decode(), child.returncode, seconds


def has_part(folder, size):
    return lambda: size_of(os.path.join(folder, "copy.part")) >= size


def copies(program):
    """Signals to the program alone, while the writer goes on, or says nothing, or ends after a while."""
    cut = MANY[:24 + 35 * 100 + 17]  # a packet is cut
    for name, signals, status, said in (
        ("SIGTERM", [(signal.SIGTERM, 0)], 143, BY_TERM),
        ("SIGINT", [(signal.SIGINT, 0)], 130, BY_INT),
        ("SIGHUP", [(signal.SIGHUP, 0)], 129, BY_HUP),
        ("SIGTERM twice at once", [(signal.SIGTERM, 0.2), (signal.SIGTERM, 0.02)], 143, BY_TERM),
    ):
        for words in (["-w", "copy"], ["-r", "/dev/stdin", "-w", "copy"]):
            with tempfile.TemporaryDirectory() as folder:
                found = signalled(program, words, cut, signals, folder, has_part(folder, 24 + 35 * 100))
                yield (f"{name}, a copy {words}", (found[:4], 0.9 < found[4] < 3, contents(folder)),
                       ((True, b"", said, status), True, {"copy": MANY[:24 + 35 * 100]}))
    with tempfile.TemporaryDirectory() as folder:
        found = signalled(program, ["-w", "copy"], cut, [(signal.SIGTERM, 0)], folder, has_part(folder, 24), MANY[len(cut):24 + 35 * 150], 0.4, True)
        yield "the writer ends in time", (found[:4], contents(folder)), ((True, b"", "", 0), {"copy": MANY[:24 + 35 * 150]})
        found = signalled(program, ["-w", "copy"], cut, [(signal.SIGTERM, 0)], folder, has_part(folder, 24), b"", 0.4, True)
        wanted = f"standard input: byte {24 + 35 * 100}: A record of a pcap file needs 35 byte(s); only 17 are available.\n"
        yield "the writer ends in time, amid a packet", (found[:4], contents(folder)), ((True, b"", wanted, 3), {"copy": MANY[:24 + 35 * 100]})
    yield "a writer that goes on", partial(endless, program), (143, BY_TERM, True, True, ["copy"], "")
    with tempfile.TemporaryDirectory() as folder:
        found = signalled(program, ["-w", "copy"], b"", [(signal.SIGTERM, 0)], folder, lambda: os.path.exists(os.path.join(folder, "copy.part")))
        yield "no byte has come", (found[:4], contents(folder)), ((True, b"", BY_TERM, 143), {})
    with tempfile.TemporaryDirectory() as folder:
        is_there = lambda: size_of(os.path.join(folder, "copy.part")) >= 24 and not os.mkdir(os.path.join(folder, "copy"))  # noqa: E731
        found = signalled(program, ["-w", "copy"], cut, [(signal.SIGTERM, 0)], folder, is_there)
        said = BY_TERM + "copy: can't be written: it is a folder\n"
        yield "a copy that does not get its name", (found[:4], os.listdir(folder)), ((True, b"", said, 4), ["copy"])
    with tempfile.TemporaryDirectory() as folder:
        packer = zlib.compressobj(wbits=31)
        packed = packer.compress(cut) + packer.flush(zlib.Z_SYNC_FLUSH)
        found = signalled(program, ["-w", "copy"], packed, [(signal.SIGTERM, 0)], folder, has_part(folder, 24 + 35 * 100))
        yield "a packed capture that goes on", (found[:4], contents(folder)), ((True, b"", BY_TERM, 143), {"copy": MANY[:24 + 35 * 100]})


def endless(program):
    """The status, what is said, whether the copy is one of the first units, whether it took about a second, which files there are, and what tcpdump
    says of the copy."""
    source = f"import sys\nsys.stdout.buffer.write(bytes.fromhex({CLASSIC[:24].hex()!r}))\nwhile True: sys.stdout.buffer.write(bytes.fromhex({UNIT.hex()!r}))"
    with tempfile.TemporaryDirectory() as folder:
        with subprocess.Popen([sys.executable, "-c", source], stdout=subprocess.PIPE, stderr=subprocess.DEVNULL) as writer:
            with subprocess.Popen([program, "-w", "copy"], stdin=writer.stdout, stderr=subprocess.PIPE, cwd=folder, text=True) as child:
                writer.stdout.close()
                until(has_part(folder, 100_000))
                begun = time.monotonic()
                child.terminate()
                ended(child)
                said = child.stderr.read()
                seconds = time.monotonic() - begun
        copy = without_wait(os.path.join(folder, "copy")) or b""
        units = (len(copy) - 24) // 35
        is_whole = units > 1_000 and copy == CLASSIC[:24] + UNIT * units
        faults = ""
        if which("tcpdump"):
            read = subprocess.run(["tcpdump", "-nr", "copy", "-c", "1", "--count"], cwd=folder, capture_output=True, text=True, check=False)
            faults = "" if read.returncode == 0 else read.stderr
        return child.returncode, said, is_whole, 0.9 < seconds < 3, os.listdir(folder), faults


def lines(program):
    """Lines, counts, several captures: what came before the signal is printed."""
    text = run_apart(program, [], MANY[:24 + 35 * 3])[0]
    before, total = text[:text.index("total")], text[text.index("total"):]
    with tempfile.TemporaryDirectory() as folder:
        with open(os.path.join(folder, "other"), "wb") as file:
            file.write(classic(*SIX))
        ready = lambda: not time.sleep(0.3)  # noqa: E731
        for name, words, wanted, said in (
            ("lines", [], before, BY_INT),
            ("the walks alone", ["--plain"], "".join(line for line in before.splitlines(True) if not line.startswith("frame ")), BY_INT),
            ("counts", ["--stats", "--fields", "vlan.vid"], run_apart(program, ["--stats", "--fields", "vlan.vid"], MANY[:24 + 35 * 3])[0], BY_INT),
            ("the first of several", ["-", "other", "none"], before + total, BY_INT),
            ("the last of several", ["none", "-"], before + total, "none" + NO_FILE + BY_INT),
            ("a copy to standard output", ["--write"], MANY[:24 + 35 * 3].decode("latin-1"), BY_INT),
        ):
            found = signalled(program, words, MANY[:24 + 35 * 3 + 9], [(signal.SIGINT, 0)], folder, ready)
            yield f"SIGINT, {name}", (found[1].decode("latin-1"), *found[2:4]), (wanted, said, 130)
        with open("/dev/full", "wb") as full:
            found = signalled(program, ["--stats"], MANY[:24 + 35 * 3], [(signal.SIGINT, 0)], folder, ready, stdout=full)
        yield "SIGINT, counts that can't be printed", found[2:4], (BY_INT + "ether_capture: standard output: No space left on device (os error 28)\n", 4)
        name = os.path.join(folder, "fifo")
        os.mkfifo(name)
        found = signalled(program, ["fifo"], b"", [(signal.SIGINT, 0)], folder, ready)
        yield "a FIFO that nobody opens", (found[1:4], found[4] < 0.9), ((b"", "", -signal.SIGINT), True)
        found = signalled(program, ["-w", "fifo"], b"", [(signal.SIGINT, 0)], folder, ready)
        yield "a FIFO that nobody reads", (found[1:4], found[4] < 0.9), ((b"", "", -signal.SIGINT), True)
    yield "SIGINT amid a regular file", partial(amid_a_file, program, [(signal.SIGINT, 0)]), (130, BY_INT, True, True)
    yield "SIGTERM amid a regular file", partial(amid_a_file, program, [(signal.SIGTERM, 0)], ["other"]), (143, BY_TERM, True, True)
    yield "SIGINT after the last read of a file", partial(after_a_file, program), (True, "", 1)
    yield "SIGINT amid a packed file", partial(amid_a_file, program, [(signal.SIGINT, 0)], packs=True), (130, BY_INT, True, True)


def after_a_file(program):
    """Whether all is printed of a file that was read in one read, if the signal comes while its lines wait for a reader, what is said, and the status."""
    capture = MANY[:24 + 35 * 1_700]
    wanted = run_apart(program, [], capture)[0].encode()
    with tempfile.TemporaryFile() as file:
        file.write(capture)
        file.seek(0)
        with subprocess.Popen([program], stdin=file, stdout=subprocess.PIPE, stderr=subprocess.PIPE) as child:
            time.sleep(0.3)
            child.send_signal(signal.SIGINT)
            text, said = child.communicate()
    return len(wanted) > 200_000 and text == wanted, said.decode(), child.returncode


def amid_a_file(program, signals, others=(), packs=False):
    """The status and what is said, if the lines of a long file are read only after the signals, whether they are the first ones, and whether they end
    with the last line of a packet."""
    drawn = random.Random(1)
    capture = CLASSIC[:24] + b"".join(UNIT[:8] + b"\0\0\1\0" * 2 + bytes(12) + b"\x88\xB5" + drawn.randbytes(242) for _ in range(9_000))
    with tempfile.TemporaryDirectory() as folder:
        for name in ("long", *others):
            with open(os.path.join(folder, name), "wb") as file:
                file.write(gzip.compress(capture) if packs else capture)
        wanted = run_apart(program, ["--plain", "long"], b"", cwd=folder)[0].encode()
        words = [program, "--plain", "long", *others]
        with subprocess.Popen(words, stdout=subprocess.PIPE, stderr=subprocess.PIPE, cwd=folder) as child:
            time.sleep(0.3)  # the pipe is full, and the program waits
            for number, after in signals:
                time.sleep(after)
                child.send_signal(number)
            time.sleep(0.1)
            text, said = child.communicate()
        is_first = 60_000 < len(text) < len(wanted) and wanted.startswith(text)
        return child.returncode, said.decode(), is_first, len(text) % (len(wanted) // 9_000) == 0


def later(program):
    """Signals after the first, and those that are ignored."""
    cut = MANY[:24 + 35 * 100 + 17]
    for first, second, after in ((signal.SIGINT, signal.SIGINT, 0), (signal.SIGTERM, signal.SIGTERM, 0.2), (signal.SIGINT, signal.SIGTERM, 0.2)):
        with tempfile.TemporaryDirectory() as folder:
            found = signalled(program, ["-w", "copy"], cut, [(first, after), (second, 0.4)], folder, has_part(folder, 24 + 35 * 100))
            yield (f"{second.name} after {first.name} kills", (found[:4], found[4] < 1.1, os.listdir(folder)),
                   ((True, b"", "", -second), True, ["copy.part"]))
    yield "a second signal kills a run whose output nobody reads", partial(killed_writer, program), (-signal.SIGINT, b"")
    with tempfile.TemporaryDirectory() as folder:
        ignore = {"preexec_fn": lambda: signal.signal(signal.SIGINT, signal.SIG_IGN)}
        words, ready, twice = ["-w", "copy"], has_part(folder, 24), [(signal.SIGINT, 0), (signal.SIGINT, 0.2)]
        found = signalled(program, words, cut, twice, folder, ready, MANY[len(cut):24 + 35 * 150], 1.5, True, **ignore)
        yield "an ignored SIGINT stays ignored", (found[:4], contents(folder)), ((True, b"", "", 0), {"copy": MANY[:24 + 35 * 150]})
        found = signalled(program, words, cut, [(signal.SIGINT, 0), (signal.SIGTERM, 0.2)], folder, ready, **ignore)
        yield "SIGTERM after an ignored SIGINT", (found[:4], contents(folder)), ((True, b"", BY_TERM, 143), {"copy": MANY[:24 + 35 * 100]})
    if which("timeout"):
        yield "timeout, which sends its signal twice", partial(timed_out, program), [(124, b"", BY_TERM.encode(), {"copy": MANY[:24 + 35 * 100]})] * RUNS


def killed_writer(program):
    """The status and the words of a run that waits for a reader of its lines when two signals come."""
    with tempfile.TemporaryFile() as file:
        file.write(MANY)
        file.seek(0)
        with subprocess.Popen([program, "--plain"], stdin=file, stdout=subprocess.PIPE, stderr=subprocess.PIPE) as child:
            for after in (0.3, 0.3):
                time.sleep(after)
                child.send_signal(signal.SIGINT)
            ended(child)
            return child.returncode, child.stderr.read()


def timed_out(program):
    """Some runs that `timeout` ends: the status, what is printed and said, and the files."""
    found = []
    for _ in range(RUNS):
        with tempfile.TemporaryDirectory() as folder:
            source, sink = os.pipe()
            os.write(sink, MANY[:24 + 35 * 100])
            ran = subprocess.run(["timeout", "0.5", program, "-w", "copy"], stdin=source, capture_output=True, cwd=folder, check=False)
            os.close(source)
            os.close(sink)
            found.append((ran.returncode, ran.stdout, ran.stderr, contents(folder)))
    return found


def frames(program):
    """Signals to `ether_make`: the frames of whole lines are kept."""
    make = os.path.join(os.path.dirname(program), "ether_make")
    for number, status in ((signal.SIGINT, 130), (signal.SIGTERM, 143), (signal.SIGHUP, 129)):
        said = f"ether_make: ended by {number.name}: {UNREAD}"
        with tempfile.TemporaryDirectory() as folder:
            found = signalled(make, ["-w", "copy"], LINE * 1_000 + LINE[:9], [(number, 0)], folder, has_part(folder, 1_000))
            yield f"{number.name}, frames", (found[:4], 0.9 < found[4] < 3, contents(folder)), ((True, b"", said, status), True, {"copy": FRAMES})
        with tempfile.TemporaryDirectory() as folder:
            found = signalled(make, ["-w", "copy", "--hex", "--count", str(10 ** 12)], LINE, [(number, 0)], folder, has_part(folder, 1_000), ends=True)
            copy = contents(folder).get("copy", b"")
            yield f"{number.name}, a line without end", (found[:4], found[4] < 5, kinds(os.listdir(folder)), copy == (b"0" * 28 + b"\n") * (len(copy) // 29)), (
                (True, b"", said, status), True, ["copy"], True)
    with tempfile.TemporaryDirectory() as folder:
        found = signalled(make, ["-w", "copy"], b"", [(signal.SIGTERM, 0)], folder, lambda: os.path.exists(os.path.join(folder, "copy.part")))
        yield "no line has come", (found[:4], contents(folder)), ((True, b"", f"ether_make: ended by SIGTERM: {UNREAD}", 143), {})
        found = signalled(make, ["-w", "copy"], LINE * 900, [(signal.SIGTERM, 0)], folder, has_part(folder, 1_000), LINE * 100, 0.3, True)
        yield "the writer of lines ends in time", (found[:4], contents(folder)), ((True, b"", "", 0), {"copy": FRAMES})


GROUPS = (pressed, captured, copies, lines, later, frames)


TRIES = 3


def ran(group, program):
    """The runs of a group: the name of each, what was found, and what is wanted. They take what time a busy machine has for them, so a group in which
    a run differs is tried again."""
    for _ in range(TRIES):
        runs = [(name, found() if callable(found) else found, wanted) for name, found, wanted in group(program)]
        if all(found == wanted for _, found, wanted in runs):
            break
    return runs


def main():
    words = argparse.ArgumentParser(description=__doc__, formatter_class=argparse.RawDescriptionHelpFormatter)
    words.add_argument("program", metavar="PROGRAM")
    words.add_argument("word", metavar="WORD", nargs="?", default="")
    given = words.parse_args()
    program = os.path.realpath(given.program)
    for number in (signal.SIGINT, signal.SIGTERM, signal.SIGHUP):
        signal.signal(number, signal.SIG_DFL)  # a shell ignores SIGINT in its jobs in the background, and what they start does so, too
    with concurrent.futures.ProcessPoolExecutor(len(GROUPS)) as pool:
        return count((it for listed in pool.map(ran, GROUPS, [program] * len(GROUPS)) for it in listed), given.word)


if __name__ == "__main__":
    sys.exit(main())
