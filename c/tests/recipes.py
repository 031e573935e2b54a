"""Runs the recipe for dask of docs/RECIPES.md by its words alone: recipes.py CC LIBRARY FOLDER. The last line is 'N passed, M failed'.

The commands are run in a copy of the repository's files, with the library that is given, and without a network: `apt-get` has nothing to
do. Of workers on several machines there are two, on this one.
"""
import os
import signal
import socket
import subprocess

from c_document import TOP, bin, check, clone, copy, counts, program, work

PYTHON = "/usr/bin/python3"
SECONDS = 120
VLANS = "10 100 291"  # c/examples/sample.pcap has the tags 8100 b123, 88a8 000a and 8100 0064


def commands():
    """The commands for dask, in their order."""
    with open(f"{TOP}/docs/RECIPES.md", encoding="utf-8") as file:
        section = file.read().split("\n## Many captures\n")[1].split("\n## ")[0]
    told = [line[4:] for line in section.split("\n") if line.startswith("    ")]
    return told[next(i for i, line in enumerate(told) if line.startswith("apt-get") and "distributed" in line):]


def start(command):
    words = {"PATH": f"{bin}:{os.environ['PATH']}", "PIP_NO_INDEX": "1", "TMPDIR": work}
    return subprocess.Popen(["sh", "-c", command], cwd=clone, stdin=subprocess.DEVNULL, stdout=subprocess.PIPE, stderr=subprocess.PIPE,
                            text=True, start_new_session=True, env={**os.environ, **words})


def stop(ran):
    """Ends a command with all that it has started."""
    try:
        os.killpg(ran.pid, signal.SIGKILL)
    except ProcessLookupError:
        pass
    ran.communicate()


def run(command, expected):
    """Runs a command to its end, and compares what it prints last."""
    ran = start(command)
    try:
        out, err = ran.communicate(timeout=SECONDS)
        check(command, ran.returncode == 0 and out.endswith(expected), f"status {ran.returncode}\n{out}{err}")
    except subprocess.TimeoutExpired:
        check(command, False, f"no end after {SECONDS} seconds")
    finally:
        stop(ran)


def free_port():
    with socket.socket() as it:
        it.bind(("127.0.0.1", 0))
        return it.getsockname()[1]


def main():
    if subprocess.run([PYTHON, "-c", "import dask.distributed, ensurepip, venv"], stdout=subprocess.PIPE, stderr=subprocess.PIPE).returncode:
        print(f"left out: the recipe for dask, since {PYTHON} has no dask.distributed or no venv")
    else:
        copy()
        program("apt-get", "exit 0")
        os.link(f"{clone}/c/examples/sample.pcap", f"{clone}/f.pcap")
        *setting_up, here, scheduler, worker, there = commands()
        for command in setting_up:
            run(command, "")
        run(here, f"f.pcap {VLANS}\n")
        address = f"127.0.0.1:{free_port()}"
        cluster = [start(f"exec {it}") for it in (f"{scheduler} --host {address.replace(':', ' --port ')} --no-dashboard",
                                                  *[worker.replace("HOST:8786", address) + " --no-dashboard"] * 2)]
        run(there.replace("HOST:8786", address), f"{clone}/f.pcap {VLANS}\n")
        for it in cluster:
            stop(it)
    print(f"{counts[True]} passed, {counts[False]} failed")


main()
