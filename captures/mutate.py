"""Changes bytes of made captures at random, with a fixed seed, and runs the program on them.

    python3 captures/mutate.py PROGRAM [COUNT]

PROGRAM is the built `ether_capture`, COUNT the number of captures, 10,000 if it is left out. Each run ends with status 0, 1 or 3, and
with 3 its last line names a place within the capture. Of each fiftieth pcapng capture tshark, if it is installed, prints the lengths and
times of as many packets as the program has printed: they are the same, but for what tshark shows otherwise: lengths above
2,147,483,647, times before 1970 and finer than nanoseconds. Custom blocks count as packets there, and of a classic file it guesses the
variant, so these are left out. The last line is 'N passed, M failed'.
"""

import argparse
import random
import re
import shutil
import subprocess
import sys
import tempfile

import make

FIELDS = ["frame.cap_len", "frame.len", "frame.time_epoch"]


def changed(data, chance):
    """A capture with some bytes changed, taken out or repeated."""
    data = bytearray(data)
    for _ in range(chance.randint(1, 3)):
        place = chance.randrange(len(data))
        kind = chance.randrange(4)
        if kind == 0:
            data[place] = chance.randrange(256)
        elif kind == 1:
            data[place] ^= 1 << chance.randrange(8)
        elif kind == 2:
            del data[place:place + chance.randint(1, 8)]
        else:
            data[place:place] = data[place:place + chance.randint(1, 40)]
        if not data:
            return bytes(1)
    return bytes(data)


def printed(text):
    """The captured and original length and the time of each packet that was printed."""
    return [(words[7], words[9], words[3]) for words in (line.split() for line in text.splitlines()) if words[0] == "frame"]


def shown(path, count):
    """The same of the first packets, by tshark."""
    words = ["tshark", "-r", path, "-c", str(count), "-T", "fields"]
    for field in FIELDS:
        words += ["-e", field]
    done = subprocess.run(words, stdout=subprocess.PIPE, stderr=subprocess.DEVNULL, text=True, check=False)
    return [tuple(line.split("\t")) for line in done.stdout.splitlines()]


def fault_of(program, data, against):
    """What is wrong with a run, or None."""
    with tempfile.NamedTemporaryFile(suffix=".pcap") as file:
        file.write(data)
        file.flush()
        file.seek(0)
        done = subprocess.run([program], stdin=file, stdout=subprocess.PIPE, stderr=subprocess.STDOUT, check=False)
        text = done.stdout.decode()
        if done.returncode not in (0, 1, 3):
            return f"status {done.returncode}"
        if done.returncode == 3:
            told = re.match(r"standard input: byte (\d+): ", text.splitlines()[-1])
            if not told or int(told[1]) > len(data):
                return f"last line {text.splitlines()[-1]!r}"
        ours = printed(text)
        if against and ours:
            theirs = shown(file.name, len(ours))
            for number, (one, other) in enumerate(zip(ours, theirs), 1):
                if int(one[1]) < 2**31 and (one[:2] != other[:2] or "-" not in (one[2], other[2][:1]) and one[2] != other[2]):
                    return f"packet {number}: {one}, not {other}"
    return None


def main():
    words = argparse.ArgumentParser(description=__doc__, formatter_class=argparse.RawDescriptionHelpFormatter)
    words.add_argument("program", metavar="PROGRAM")
    words.add_argument("count", metavar="COUNT", nargs="?", type=int, default=10_000)
    given = words.parse_args()
    chance = random.Random(802)
    small = [capture.data() for capture in make.captures() if len(capture.data()) < 3000 and not re.search("custom|resolutions", capture.name)]
    has_tshark = shutil.which("tshark") is not None
    failed = 0
    for number in range(given.count):
        data = changed(chance.choice(small), chance)
        fault = fault_of(given.program, data, has_tshark and number % 50 == 0 and data[:4] == b"\n\r\r\n")
        if fault:
            failed += 1
            print(f"capture {number}: {fault}")
    print(f"{given.count - failed} passed, {failed} failed")
    return 1 if failed else 0


if __name__ == "__main__":
    sys.exit(main())
