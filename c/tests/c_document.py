"""Runs docs/C.md by its words alone: c_document.py CC LIBRARY FOLDER. The last line is 'N passed, M failed'.

The commands are run in order in a copy of the repository's files, with the library that is given in place of what `rust/build.sh`
and `rt lib` make, and without a network. What they print last is compared with the text after them; examples in C are compiled, those
in Python are run. What needs a program that is missing is left out, and a line says so. Where RUNNER has words that run what CC compiles, for another
processor, only the examples in C are tried.
"""
import os
import re
import shutil
import subprocess
import sys

from checks import words

TOP = os.path.dirname(os.path.dirname(os.path.dirname(os.path.abspath(__file__))))
WARNINGS = ["-std=c99", "-D_DEFAULT_SOURCE", "-Wall", "-Wextra", "-Werror", f"-I{TOP}/c", "-x", "c"]
# What is printed of a frame that is moved to the VLAN 7: tags of IEEE 802.1Q, 9.6, with the drop eligible indicator or without.
MOVED = {
    "88a8b005 0800 45": "88a8b007 0800 45",
    "8100a005 0800 45": "8100a007 0800 45",
    "9100ffff 8100e005 0800 45": "9100f007 8100e005 0800 45",
    "8100e000 0800 45": "8100e007 0800 45",
    "0800 45": "81000007 0800 45",
    "88e5 0003 00000001 0800 45": "81000007 88e5 0003 00000001 0800 45",
}
MOVING = """
#include <stdio.h>
int main(int argc, char **argv) {
    uint8_t buffer[100] = {0};
    size_t len = 4;
    for (const char *at = argv[argc - 1]; *at; at += 2, len++)
        sscanf(at, "%2hhx", &buffer[len]);
    const uint8_t *moved = move_to_vlan(buffer, len, 7);
    while (moved && moved < buffer + len) printf("%02x", *moved++);
    return moved == NULL || move_to_vlan(buffer, len, 4096) != NULL;
}
"""
# What becomes of c/examples/sample.pcap if it comes from a pipe: the first bytes that the program takes, its packets, what is returned.
# Its file header has 24 bytes; the longest of its four records has 58, so that many bytes of memory are enough.
READ = {
    (190, 190): (4, 0),
    (190, 58): (4, 0),
    (190, 57): (1, 12),
    (24, 58): (0, 0),
    (100, 58): (1, 12),
    (0, 58): (0, 12),
}
READING = """
#include <stdio.h>
#include <stdlib.h>
static int found;
void use_packet(const etherpeel_captured *packet) { found += packet->packet_len > 0; }
int main(int argc, char **argv) {
    static uint8_t buffer[190];
    const uint32_t status = read_capture(0, buffer, (size_t)atoi(argv[argc - 1]));
    printf("%d %u", found, status);
    return 0;
}
"""
cc, library, work = words("CC", "LIBRARY", "FOLDER")
runner = os.environ.get("RUNNER", "").split()
clone, bin = f"{work}/clone", f"{work}/bin"
counts = {True: 0, False: 0}


def check(what, holds, said):
    counts[holds] += 1
    if not holds:
        print(f"{what}: {said}")


def program(name, text):
    with open(f"{bin}/{name}", "w") as file:
        file.write(f"#!/bin/sh\n{text}\n")
    os.chmod(f"{bin}/{name}", 0o755)


def copy():
    """The files that the page names, and programs: `rt`, which has nothing to do, and the compiler."""
    os.makedirs(f"{clone}/crates/ether_c/out")
    shutil.copy(library, f"{clone}/crates/ether_c/out/libether_c.a")
    os.makedirs(f"{clone}/rust/built")
    shutil.copy(library, f"{clone}/rust/built/libetherpeel_c.a")
    with open(f"{clone}/rust/build.sh", "w") as file:
        file.write('cd "$(dirname "$0")/built" && pwd\n')
    shutil.copytree(f"{TOP}/c", f"{clone}/c", ignore=shutil.ignore_patterns("__pycache__"))
    os.makedirs(bin)
    program("rt", 'test "$*" = lib && test -f out/libether_c.a')
    program("cc", f'exec "{shutil.which(cc) or cc}" "$@"')


def blocks():
    """The language and the text of each block of the page."""
    with open(f"{TOP}/docs/C.md", encoding="utf-8") as file:
        return re.findall(r"^```(\w+)\n(.*?)^```$", file.read(), re.M | re.S)


def missing(text):
    """What a block needs and is not there, or None."""
    if "pkg-config" in text and not shutil.which("pkg-config"):
        return "pkg-config"
    if "pcap.h" in text and subprocess.run([cc, "-x", "c", "-fsyntax-only", "-include", "pcap/pcap.h", "/dev/null"],
                                           capture_output=True).returncode:
        return "pcap/pcap.h"
    if "environment" in text and subprocess.run([sys.executable, "-c", "import ensurepip, venv"], capture_output=True).returncode:
        return "a Python with venv"
    return None


def run(commands):
    """Runs blocks of commands in one shell, and returns what each prints; the last one that began if one fails."""
    script = "".join(f"{{\n{text}}} > {work}/out{i} 2>&1\n" for i, text in enumerate(commands))
    done = subprocess.run(["sh", "-ec", script], cwd=clone, stdin=subprocess.DEVNULL, env={
        **os.environ, "PATH": f"{bin}:{os.environ['PATH']}", "PIP_NO_INDEX": "1", "PIP_DISABLE_PIP_VERSION_CHECK": "1"})
    said = []
    for i in range(len(commands)):
        if os.path.exists(f"{work}/out{i}"):
            with open(f"{work}/out{i}") as file:
                said.append(file.read())
    check("the commands", done.returncode == 0, said[-1] if said else "nothing ran")
    return said


def built(name, code):
    """The path of a program that has an example, or None if it can't be built."""
    path = f"{work}/{name}"
    done = subprocess.run([cc, *WARNINGS, "-o", path, "-", "-x", "none", library], input=code, capture_output=True, text=True)
    check(f"{name} is built", done.returncode == 0, done.stderr)
    return path if done.returncode == 0 else None


def moves(code):
    """Runs the example that moves a frame to another VLAN."""
    path, addresses = built("move_to_vlan", code + MOVING), "ffffffffffff020000000001"
    for frame, wanted in MOVED.items() if path else ():
        ran = subprocess.run([*runner, path, addresses + frame.replace(" ", "")], stdout=subprocess.PIPE, text=True)
        found = (ran.stdout, ran.returncode)
        check(f"{frame} in the VLAN 7", found == (addresses + wanted.replace(" ", ""), 0), found)


def reads(code):
    """Runs the example that reads a capture from a pipe."""
    path = built("read_capture", code + READING)
    with open(f"{TOP}/c/examples/sample.pcap", "rb") as file:
        capture = file.read()
    for (len_, room), wanted in READ.items() if path else ():
        ran = subprocess.run([*runner, path, str(room)], input=capture[:len_], stdout=subprocess.PIPE)
        check(f"{len_} bytes in {room}", ran.stdout.decode() == "%d %d" % wanted, ran.stdout)


def main():
    copy()
    program("python3", f'exec "{sys.executable}" "$@"')
    commands, expected, codes = [], {}, []
    ran = False  # whether the last block that prints something is among the commands
    for language, text in blocks():
        if runner and language != "c":
            continue
        lacking = missing("environment" if language == "python" else text)
        if language == "text":
            if ran:
                expected[len(commands) - 1] = text
            continue
        ran = lacking is None and language != "c"
        if lacking:
            print(f"left out: a block of docs/C.md, since {lacking} was not found")
        elif language == "sh":
            commands.append(text)
        elif language == "python":
            name = f"example{len(commands)}.py"
            with open(f"{clone}/{name}", "w") as file:
                file.write(text)
            commands.append(f"environment/bin/python {name}\n")
        else:
            codes.append(text)
    said = run(commands) if commands else []
    for i, text in expected.items():
        check(f"after {commands[i]}", i < len(said) and said[i].endswith(text), said[i] if i < len(said) else "")
    for code in codes:
        done = subprocess.run([cc, *WARNINGS, "-c", "-o", os.devnull, "-"], input=code, capture_output=True, text=True)
        check("an example in C", done.returncode == 0, done.stderr)
    moves(*(code for code in codes if "move_to_vlan" in code))
    reads(*(code for code in codes if "read_capture" in code))
    print(f"{counts[True]} passed, {counts[False]} failed")


if __name__ == "__main__":
    main()
