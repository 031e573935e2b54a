#!/usr/bin/env python3
"""jobs.py PROGRAM [MEGABYTES] [ROUNDS]: ether_capture with 1, 2, 3 and 4 threads, in turns, over captures that make.py makes.

Prints the least time of each and how much less it is than that of one thread, and the least processor time. The last rows of a capture run so many
programs of one thread at once: no more can be gained where these disturb each other.
"""
import argparse
import os
import subprocess
import sys
import tempfile
import time

HERE = os.path.dirname(os.path.abspath(__file__))
FORMATS = [[], ["--plain"], ["--format", "json"], ["--format", "brief"], ["--fields", "vlan.vid,eth.src"], ["--select", "vlan 5 or arp"]]
THREADS = (1, 2, 3, 4)


def started(words):
    """A process whose output goes nowhere."""
    pid = os.fork()
    if pid == 0:
        os.dup2(os.open("/dev/null", os.O_WRONLY), 1)
        os.execv(words[0], words)
    return pid


def run(words, copies=1):
    """The seconds and the seconds of processor time of runs at once."""
    begun = time.perf_counter()
    pids = [started(words) for _ in range(copies)]
    used = [os.wait4(pid, 0)[2] for pid in pids]
    return time.perf_counter() - begun, sum(it.ru_utime + it.ru_stime for it in used)


def least(runs, rounds):
    """The least of both times of each of some runs, which are made in turns."""
    found = [[] for _ in runs]
    for _ in range(rounds):
        for times, made in zip(found, runs):
            times.append(made())
    return [[min(it) for it in zip(*times)] for times in found]


def shown(name, times):
    """A line with the times of 1, 2, 3 and 4 threads or copies."""
    columns = (f"{number}: {passed * 1000:.0f} ms, {times[0][0] / passed:.2f} times, {spent * 1000:.0f} ms of processor time"
               for number, (passed, spent) in zip(THREADS, times))
    print(f"{name:34}", "; ".join(columns), flush=True)


def main():
    words = argparse.ArgumentParser(description=__doc__, formatter_class=argparse.RawDescriptionHelpFormatter)
    words.add_argument("program", metavar="PROGRAM")
    words.add_argument("megabytes", metavar="MEGABYTES", nargs="?", default="100")
    words.add_argument("rounds", metavar="ROUNDS", nargs="?", type=int, default=10)
    given = words.parse_args()
    program = os.path.realpath(given.program)
    with tempfile.TemporaryDirectory() as folder:
        subprocess.run([sys.executable, f"{HERE}/make.py", folder, given.megabytes], check=True)
        for name in ("mixed", "small"):
            path = f"{folder}/{name}.pcap"
            for words in FORMATS:
                runs = [lambda number=number, words=words: run([program, *words, "--jobs", str(number), path]) for number in THREADS]  # noqa: B023
                shown(f"{name} {' '.join(words)}", least(runs, given.rounds))
            copies = [lambda number=number: run([program, "--format", "json", path], number) for number in THREADS]  # noqa: B023
            found = least(copies, given.rounds)
            alone = [[passed / number, spent] for number, (passed, spent) in zip(THREADS, found)]
            shown(f"{name} --format json, copies", alone)


if __name__ == "__main__":
    main()
