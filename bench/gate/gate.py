"""Runs the gate, the parts that COMMANDS lists, and stops at the first that fails.

Each line of these is passed on. After each proof a line says how many minutes have passed and how many minutes of processor time
it took; where the wrong bodies of a crate begin, how many have passed. The last line adds up what passed. With --table FILE the
minutes of each part of each crate are written there as a table, and how many tests of each part passed. Processor time is sampled each second, so the parts add up to a
little less than the total, which the system counts. It is not said of a system without /proc. With --anew nothing is taken from what an
earlier run on this machine has kept.
"""
import argparse
import collections
import os
import re
import resource
import subprocess
import sys
import threading
import time

TOP = os.path.dirname(os.path.dirname(os.path.dirname(os.path.abspath(__file__))))
COMMANDS = {
    "documents": [sys.executable, "docs/reading.py"],
    "tables": [sys.executable, "bench/figures.py", "--tables"],
    "clauses": [sys.executable, "tests/clauses.py"],
    "lines": [sys.executable, "tests/lines.py"],
    "versions": [sys.executable, "tests/versions.py"],
    "fields": [sys.executable, "fields.py", "--check"],
    "bindings": [sys.executable, "c/bindings.py", "--check"],
    "options": [sys.executable, "tests/options.py"],
    "scripts": [sys.executable, "tests/scripts.py"],
    "planted": [sys.executable, "tests/planted.py", "--check"],
    "manual pages": [sys.executable, "tests/manual_pages.py"],
    "first commands": [sys.executable, "tests/first_commands.py"],
    "rust": [sys.executable, "rust/test.py"],
    "crates": ["rt", "ci"],
    "tool": [sys.executable, "tests/ether_tool.py", "crates/ether_tool/out/ether_tool"],
    "frames": [sys.executable, "tests/ether_make.py", "crates/ether_make/out/ether_make"],
    "captures": [sys.executable, "tests/ether_capture.py", "crates/ether_capture/out/ether_capture"],
    "other programs": [sys.executable, "tests/other_programs.py", "crates/ether_capture/out/ether_capture"],
    "examples": [sys.executable, "tests/examples.py", *(f"crates/{name}/out/{name}" for name in ("example_switch", "example_vlan_rewriter"))],
    "bridges": [sys.executable, "tests/bridges.py", "crates/example_switch/out/example_switch"],
    "C": ["sh", "c/test.sh", "proved"],
    "switch": [sys.executable, "tests/switch.py", "crates/ether_c/out/libether_c.a"],
    "network": [sys.executable, "tests/network.py", "crates/ether_c/out/libether_c.a", "crates/example_switch/out/example_switch"],
    "C by cargo": ["sh", "c/test.sh", "cargo"],
    "programs by cargo": [sys.executable, "rust/programs.py"],
    "calls": [sys.executable, "rust/calls.py"],
    "properties": [sys.executable, "rust/properties.py"],
    "other processors": [sys.executable, "rust/processors.py"],
    "figures": [sys.executable, "bench/figures.py"],
    "page by cargo": [sys.executable, "page/test.py", "--build", "cargo"],
    "page": [sys.executable, "page/test.py", "--build", "proved"],
    "release": [sys.executable, "tests/release.py"],
}
PARTS = ["proof", "with tests", "wrong bodies"]


def stat_of(pid):
    """The parent, the seconds of processor time and the start of a process."""
    with open(f"/proc/{pid}/stat", encoding="utf-8", errors="replace") as file:
        fields = file.read().rpartition(")")[2].split()
    return int(fields[1]), (int(fields[11]) + int(fields[12])) / os.sysconf("SC_CLK_TCK"), fields[19]


def part_of(pid):
    """The crate and the part for which a process of the prover runs, or None."""
    with open(f"/proc/{pid}/cmdline", encoding="utf-8", errors="replace") as file:
        words = file.read().split("\0")
    if "--crate-name" not in words or not os.path.basename(words[0]) == "rattle":
        return None
    crate = words[words.index("--crate-name") + 1]
    if os.path.basename(os.readlink(f"/proc/{pid}/cwd")).startswith("rt-edit"):
        return crate, "wrong bodies"
    return crate, "with tests" if "--test" in words else "proof"


class Clock:
    """The processor time of all processes below this one, by crate and part."""

    def __init__(self):
        self.begin = time.monotonic()
        self.seen = {}
        self.parts = {}
        self.lock = threading.Lock()
        threading.Thread(target=self.run, daemon=True).start()

    def run(self):
        while os.path.isdir("/proc/self"):
            self.sample()
            time.sleep(1)

    def sample(self):
        found = {}
        for pid in filter(str.isdigit, os.listdir("/proc")):
            try:
                found[int(pid)] = stat_of(pid)
            except (OSError, ValueError, IndexError):
                pass
        mine = {os.getpid()}
        for pid in sorted(found, key=lambda pid: int(found[pid][2])):
            parent, seconds, start = found[pid]
            if parent in mine:
                mine.add(pid)
                self.note(pid, start, seconds)

    def note(self, pid, start, seconds):
        with self.lock:
            key = pid, start
            if key not in self.parts or self.parts[key] is None:
                try:
                    self.parts[key] = part_of(pid)
                except (OSError, ValueError, IndexError):
                    self.parts.setdefault(key, None)
            self.seen[key] = seconds

    def minutes(self):
        """The minutes of each part that has one."""
        sums = collections.Counter()
        with self.lock:
            for key, seconds in self.seen.items():
                if self.parts.get(key):
                    sums[self.parts[key]] += seconds / 60
        return sums

    def passed(self):
        return (time.monotonic() - self.begin) / 60


def spent():
    """The minutes of processor time of all that has ended below this process."""
    usage = resource.getrusage(resource.RUSAGE_CHILDREN)
    return (usage.ru_utime + usage.ru_stime) / 60


def follow(line, clock):
    """Says after a proof how long it took, and when the wrong bodies of a crate begin."""
    if re.match(r"rt: \w+: trying its must-fail edits", line):
        print(f"gate: {clock.passed():.1f} min", flush=True)
    told = re.match(r"rt: (\w+)(: its tests are)? proved$", line)
    if told:
        part = "with tests" if told[2] else "proof"
        took = clock.minutes()[told[1], part]
        print(f"gate: {clock.passed():.1f} min: {told[1]}, {part}: {took:.1f} CPU min", flush=True)


def table(clock, ends):
    """The minutes as a table of text."""
    minutes = clock.minutes()
    with open(f"{TOP}/crates.txt", encoding="utf-8") as file:
        crates = [line.split(":")[0].split()[0] for line in file if line.strip() and not line.startswith("#")]
    parts = [part for part in PARTS if any(minutes[crate, part] for crate in crates)]
    rows = [["Crate", *parts]]
    for crate in crates:
        row = [minutes[crate, part] for part in parts]
        rows.append([crate, *(f"{it:.1f}" if it else "" for it in row)])
    sums = [sum(minutes[crate, part] for crate in crates) for part in parts]
    rows.append(["sum", *(f"{it:.1f}" for it in sums)])
    widths = [max(len(row[at]) for row in rows) for at in range(len(rows[0]))]
    lines = ["    " + "  ".join(it.ljust(width) for it, width in zip(row, widths)).rstrip() for row in rows]
    width = max(len(name) for name, *_ in ends)
    lines += ["", f"    {'Part'.ljust(width)}  passed  processor time  by the clock"]
    sums = "sum", *(sum(column) for column in list(zip(*ends))[1:])
    lines += [f"    {name.ljust(width)}  {passed:<6,}  {cpu:<14.1f}  {wall:.1f}" for name, passed, cpu, wall in [*ends, sums]]
    return "\n".join(lines) + "\n"


def main():
    words = argparse.ArgumentParser(description=__doc__, formatter_class=argparse.RawDescriptionHelpFormatter)
    words.add_argument("--table", metavar="FILE", help="where the table is written")
    words.add_argument("--anew", action="store_true", help="prove and try all, also what an earlier run has kept")
    given = words.parse_args()
    os.chdir(TOP)
    clock, ends, counts, status = Clock(), [], [0, 0], 0
    for name, command in COMMANDS.items():
        command = command + ["--anew"] * (given.anew and name == "crates")
        cpu, wall, before = spent(), clock.passed(), counts[0]
        with subprocess.Popen(command, stdin=subprocess.DEVNULL, stdout=subprocess.PIPE, text=True, errors="replace") as run:
            for line in run.stdout:
                told = re.match(r"(\d+) passed, (\d+) failed$", line)
                if told:
                    counts = [one + int(other) for one, other in zip(counts, told.groups())]
                print(f"gate: {line}" if told else line, end="", flush=True)
                follow(line.rstrip("\n"), clock)
        status = run.returncode
        ends.append((name, counts[0] - before, spent() - cpu, clock.passed() - wall))
        print(f"gate: {clock.passed():.1f} min: {name}: {ends[-1][2]:.1f} CPU min", flush=True)
        if status:
            break
    if given.table:
        with open(given.table, "w", encoding="utf-8") as file:
            file.write(table(clock, ends))
    if status and not counts[1]:
        counts[1] = 1
    print(f"{counts[0]} passed, {counts[1]} failed")
    return status


if __name__ == "__main__":
    sys.exit(main())
