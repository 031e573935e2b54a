"""Counts instructions by callgrind, whose counts do not depend on what else the machine does."""
import os
import re
import subprocess
import sys
import tempfile

# The C library picks its functions by the processor's features, so these are the same on all machines that have them.
FEATURES = "glibc.cpu.hwcaps=-AVX512F,-AVX512VL,-AVX512BW,-ERMS,-FSRM"
ENVIRONMENT = {**os.environ, "LC_ALL": "C", "GLIBC_TUNABLES": FEATURES, "PYTHONHASHSEED": "0"}


def ran(command, stdin, *options):
    """What callgrind says of a program that reads the file `stdin`. A program may end with any status."""
    with open(stdin or os.devnull, "rb") as given:
        told = subprocess.run(["valgrind", "--tool=callgrind", *options, *command], stdin=given, stdout=subprocess.DEVNULL,
                              stderr=subprocess.PIPE, env=ENVIRONMENT)
    text = told.stderr.decode(errors="replace")
    if not re.search(r"Collected : \d+", text):
        sys.exit(f"{' '.join(command)}: {text[-2000:]}")
    return text


def total(command, stdin=None):
    """The instructions of a run of a program."""
    return int(re.search(r"Collected : (\d+)", ran(command, stdin, "--callgrind-out-file=/dev/null"))[1])


def of_functions(command, names, may_miss=False):
    """The instructions of each of these functions in a run of a program, with those that they call; `may_miss` says that some may have
    another name, whose code is the same."""
    with tempfile.TemporaryDirectory() as folder:
        ran(command, None, f"--callgrind-out-file={folder}/out")
        words = ["callgrind_annotate", "--inclusive=yes", "--threshold=100", "--auto=no", f"{folder}/out"]
        text = subprocess.run(words, stdout=subprocess.PIPE, stderr=subprocess.DEVNULL, text=True, check=True).stdout
    most = dict.fromkeys(names, 0)
    for count, place in re.findall(r"^\s*([\d,]+) \([^)]*\)\s+(.*)$", text, re.M):
        function = re.sub(r" \[[^]]*\]$", "", place).partition(":")[2]
        if function in most:
            most[function] = max(most[function], int(count.replace(",", "")))
    none = [name for name, instructions in most.items() if not instructions]
    if none and not may_miss:
        sys.exit(f"{' '.join(command)}: callgrind did not see {', '.join(none)}")
    return most
