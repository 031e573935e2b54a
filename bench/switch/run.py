"""Counts the frames a second that pass through switches in user space, and their processor time for each.

    python3 bench/switch/run.py LIBRARY

Needs root, gcc, iproute2; Open vSwitch and vde2 are left out where they are not installed. A sender in a network namespace sends frames of 60
bytes by veth, as fast as it can for three seconds; counted are those that come out at the other end, and the processor time of the switch.
The sender has one core, the switch another; each figure is the median of three runs. The rows:

    untagged        from an access port to another one, to one station
    to a trunk      from an access port to a trunk, which puts a tag in
    from a trunk    from a trunk to an access port, which takes it off
"""
import argparse
import os
import shutil
import signal
import statistics
import subprocess
import sys
import tempfile
import time

TOP = os.path.dirname(os.path.dirname(os.path.dirname(os.path.abspath(__file__))))
SECONDS, RUNS = 3, 3
# For each row: the VLANs of the port that receives frames and of the one that sends them, and the tag of the frames that arrive.
ROWS = {"untagged": ("pvid=5", "pvid=5", 0), "to a trunk": ("pvid=5", "tagged=5", 0), "from a trunk": ("tagged=5", "pvid=5", 5)}
LINKS = [("sender", "eth", "middle", "come"), ("receiver", "eth", "middle", "leave")]
STATION, TYPE = bytes([2, 0, 0, 0, 0, 2]), b"\x88\xb5"
SAY = "import socket,sys;s=socket.socket(socket.AF_PACKET,socket.SOCK_RAW);s.bind(('eth',0));s.send(bytes.fromhex(sys.argv[1]))"


def space(name):
    return f"bench{os.getpid()}{name}"


def run(*words, **more):
    return subprocess.run(words, check=True, capture_output=True, text=True, **more).stdout


def within(name, *words):
    return ["ip", "netns", "exec", space(name), *words]


def make():
    for name in ("sender", "receiver", "middle"):
        run("ip", "netns", "add", space(name))
    for one, first, other, second in LINKS:
        run("ip", "link", "add", first, "netns", space(one), "type", "veth", "peer", "name", second, "netns", space(other))
        for name, link in ((one, first), (other, second)):
            run(*within(name, "ip", "link", "set", link, "addrgenmode", "none", "up"))


def remove():
    for name in ("sender", "receiver", "middle"):
        subprocess.run(["ip", "netns", "delete", space(name)], check=False, capture_output=True)


class Ours:
    """The switch of c/examples."""

    name = "switch.c"

    def __init__(self, folder, words):
        command = within("middle", "taskset", "-c", "1", f"{folder}/switch", f"come:{words[0]}", f"leave:{words[1]}")
        self.program = subprocess.Popen(command, stdout=subprocess.PIPE, text=True)
        self.program.stdout.readline()

    def pids(self):
        return [self.program.pid]

    def stop(self):
        self.program.send_signal(signal.SIGTERM)
        self.program.wait()


class OpenVSwitch:
    """Open vSwitch with its datapath in user space."""

    name = "Open vSwitch"

    def __init__(self, folder, words):
        self.folder = tempfile.mkdtemp(dir=folder)
        names = ("OVS_RUNDIR", "OVS_LOGDIR", "OVS_DBDIR", "OVS_SYSCONFDIR")
        self.env = {**os.environ, **{name: self.folder for name in names}}
        run("ovsdb-tool", "create", f"{self.folder}/conf.db", "/usr/share/openvswitch/vswitch.ovsschema", env=self.env)
        self.programs = [self.start("ovsdb-server", f"{self.folder}/conf.db", f"--remote=punix:{self.folder}/db.sock")]
        self.wait(f"{self.folder}/db.sock")
        self.configure("--no-wait", "init")
        self.programs.append(self.start("taskset", "-c", "1", "ovs-vswitchd", f"unix:{self.folder}/db.sock"))
        self.configure("add-br", "br0", "--", "set", "bridge", "br0", "datapath_type=netdev", "fail-mode=standalone")
        for name, given in zip(("come", "leave"), words):
            kind, _, vlan = given.partition("=")
            self.configure("add-port", "br0", name, *([f"tag={vlan}"] if kind == "pvid" else ["vlan_mode=trunk", f"trunks={vlan}"]))

    def start(self, *words):
        command = within("middle", *words, "--log-file=/dev/null", "-vconsole:off", f"--pidfile={self.folder}/{len(words)}.pid",
                         f"--unixctl={self.folder}/{len(words)}.ctl")
        return subprocess.Popen(command, env=self.env, stdout=subprocess.DEVNULL, stderr=subprocess.DEVNULL)

    def wait(self, path):
        for _ in range(100):
            if os.path.exists(path):
                return
            time.sleep(0.1)

    def configure(self, *words):
        run("ovs-vsctl", "--timeout=20", f"--db=unix:{self.folder}/db.sock", *words, env=self.env)

    def pids(self):
        return [self.programs[1].pid]

    def stop(self):
        for program in reversed(self.programs):
            program.terminate()
            program.wait()


class Vde:
    """vde_switch, with a process for each interface."""

    name = "vde_switch"

    def __init__(self, folder, words):
        self.folder = tempfile.mkdtemp(dir=folder)
        commands = ["vlan/create 5", "port/create 1", "port/create 2"]
        for port, given in enumerate(words, 1):
            commands.append(f"port/setvlan {port} 5" if given.startswith("pvid") else f"vlan/addport 5 {port}")
        with open(f"{self.folder}/commands", "w", encoding="ascii") as file:
            file.write("\n".join(commands) + "\n")
        self.programs = [self.start("vde_switch", "-s", f"{self.folder}/switch", "-f", f"{self.folder}/commands", "-n", "16")]
        time.sleep(1)
        for port, link in enumerate(("come", "leave"), 1):
            self.programs.append(self.start("vde_pcapplug", "-p", str(port), "-s", f"{self.folder}/switch", link))

    def start(self, *words):
        return subprocess.Popen(within("middle", "taskset", "-c", "1", *words), stdin=subprocess.PIPE, stdout=subprocess.DEVNULL,
                                stderr=subprocess.DEVNULL)

    def pids(self):
        return [program.pid for program in self.programs]

    def stop(self):
        for program in reversed(self.programs):
            program.terminate()
            program.wait()


def spent(pids):
    """The seconds of processor time of processes, their threads among them."""
    ticks = 0
    for pid in pids:
        with open(f"/proc/{pid}/stat", encoding="ascii") as file:
            ticks += sum(map(int, file.read().rpartition(")")[2].split()[11:13]))
    return ticks / os.sysconf("SC_CLK_TCK")


def arrived():
    return int(run(*within("receiver", "cat", "/sys/class/net/eth/statistics/rx_packets")))


def measured(kind, folder, row):
    """The frames a second that arrive, and the microseconds of processor time of the switch for each."""
    come, leave, vid = ROWS[row]
    switch = kind(folder, (come, leave))
    try:
        time.sleep(2)
        tag = bytes([0x81, 0, 0, 5]) if leave.startswith("tagged") else b""
        run(*within("receiver", sys.executable, "-c", SAY, (b"\xff" * 6 + STATION + tag + TYPE).ljust(60, b"\0").hex()))
        time.sleep(0.5)
        results = []
        for _ in range(RUNS):
            before, first = spent(switch.pids()), arrived()
            run(*within("sender", "taskset", "-c", "0", f"{folder}/send", "eth", str(SECONDS), str(vid), "1"))
            time.sleep(0.5)
            count = arrived() - first
            results.append((count / SECONDS, (spent(switch.pids()) - before) / max(count, 1) * 1e6))
        return [statistics.median(column) for column in zip(*results)]
    finally:
        switch.stop()


def main():
    words = argparse.ArgumentParser(description=__doc__, formatter_class=argparse.RawDescriptionHelpFormatter)
    words.add_argument("library", metavar="LIBRARY")
    library = os.path.realpath(words.parse_args().library)
    kinds = [Ours] + [OpenVSwitch] * bool(shutil.which("ovs-vswitchd")) + [Vde] * bool(shutil.which("vde_pcapplug"))
    with tempfile.TemporaryDirectory() as folder:
        run("gcc", "-O2", f"-I{TOP}/c", "-o", f"{folder}/switch", f"{TOP}/c/examples/switch.c", library)
        run("gcc", "-O2", "-o", f"{folder}/send", f"{TOP}/bench/switch/send.c")
        try:
            make()
            for row in ROWS:
                for kind in kinds:
                    rate, cost = measured(kind, folder, row)
                    print(f"{row:14}{kind.name:14}{rate:12,.0f} frames a second, {cost:.2f} us each", flush=True)
        finally:
            remove()


if __name__ == "__main__":
    sys.exit(main())
