"""Measures programs that read a capture with a block of 15 MiB, which comes through a pipe in pieces of 4 KiB.

    python3 bench/captures/pieces.py NAME=COMMAND ..

Prints the least processor time of three turns of each.
"""
import argparse
import resource
import shlex
import subprocess

PIECE, ROUNDS = 4096, 3


def block(number, body):
    total_len = (len(body) + 12).to_bytes(4, "little")
    return number.to_bytes(4, "little") + total_len + body + total_len


def capture():
    """A section with an interface of Ethernet, decryption secrets of 15 MiB, which are not read, and a packet."""
    section = block(0x0A0D_0D0A, bytes.fromhex("4d3c2b1a01000000") + bytes([255]) * 8)
    frame = bytes.fromhex("02000000000a02000000001488b5") + bytes(46)
    head = b"".join(number.to_bytes(4, "little") for number in (0, 0, 0, len(frame), len(frame)))
    return section + block(1, bytes.fromhex("0100000000000000")) + block(10, bytes(15 << 20)) + block(6, head + frame)


def seconds(command, given):
    """The processor time of a command that reads these bytes."""
    before = resource.getrusage(resource.RUSAGE_CHILDREN)
    with subprocess.Popen(command, stdin=subprocess.PIPE, stdout=subprocess.DEVNULL, stderr=subprocess.DEVNULL, bufsize=0) as child:
        for at in range(0, len(given), PIECE):
            child.stdin.write(given[at:at + PIECE])
        child.stdin.close()
        child.wait()
    after = resource.getrusage(resource.RUSAGE_CHILDREN)
    return after.ru_utime + after.ru_stime - before.ru_utime - before.ru_stime


def main():
    words = argparse.ArgumentParser(description=__doc__, formatter_class=argparse.RawDescriptionHelpFormatter)
    words.add_argument("commands", metavar="NAME=COMMAND", nargs="+")
    commands, given = words.parse_args().commands, capture()
    for word in commands:
        name, _, command = word.partition("=")
        print(f"{name}: {min(seconds(shlex.split(command), given) for _ in range(ROUNDS)):.3f} s")


if __name__ == "__main__":
    main()
