#!/usr/bin/env python3
"""race.py FILE ROUNDS -- NAME=COMMAND ..: runs the commands in turns with FILE as standard input and their output to /dev/null.

Prints the least processor time of each, the least time, the ratio of the processor time to that of the last command, and the most memory of one more
run (VmHWM, read each millisecond).
"""
import argparse
import os
import re
import shlex
import time


def start(words, file):
    """The process of a command."""
    pid = os.fork()
    if pid == 0:
        os.dup2(os.open(file, os.O_RDONLY), 0)
        os.dup2(os.open("/dev/null", os.O_WRONLY), 1)
        os.execv(words[0], words)
    return pid


def memory(words, file):
    """The most memory of a run, in KiB, or None if it was too short to see."""
    most, pid = None, start(words, file)
    while os.waitpid(pid, os.WNOHANG)[0] == 0:
        with open(f"/proc/{pid}/comm", encoding="ascii") as comm:
            has_begun = not comm.read().startswith("python")
        with open(f"/proc/{pid}/status", encoding="ascii") as status:
            found = re.search(r"VmHWM:\s+(\d+)", status.read())
        if has_begun and found:
            most = int(found[1])
        time.sleep(0.001)
    return most


def run(words, file):
    """The seconds and the seconds of processor time of one run."""
    begun = time.perf_counter()
    _, _, usage = os.wait4(start(words, file), 0)
    return time.perf_counter() - begun, usage.ru_utime + usage.ru_stime


def main():
    words = argparse.ArgumentParser(description=__doc__, formatter_class=argparse.RawDescriptionHelpFormatter)
    words.add_argument("file", metavar="FILE")
    words.add_argument("rounds", metavar="ROUNDS", type=int)
    words.add_argument("commands", metavar="NAME=COMMAND", nargs="+")
    given = words.parse_args()
    file, rounds, commands = given.file, given.rounds, [word.split("=", 1) for word in given.commands]
    least = {name: [float("inf"), float("inf")] for name, _ in commands}
    for _ in range(rounds):
        for name, command in commands:
            least[name] = [min(pair) for pair in zip(least[name], run(shlex.split(command), file))]
    last = least[commands[-1][0]][1]
    for name, command in commands:
        passed, spent = least[name]
        most = memory(shlex.split(command), file)
        print(f"{name:6} processor time {spent:.3f} s, time {passed:.3f} s, ratio {spent / last:.2f}, memory {most} KiB")


if __name__ == "__main__":
    main()
