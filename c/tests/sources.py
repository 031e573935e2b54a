"""What `capture` reads: paths, files of each kind, compressed files, pipes."""
import bz2
import gzip
import io
import lzma
import mmap
import os
import pathlib
import signal
import subprocess
import sys
import tarfile
import tempfile

import etherpeel
from checks import check


class Reversed(io.BufferedReader):
    """A file whose bytes are not those that its descriptor names."""

    def read(self, size=-1):
        return super().read(size)[::-1]


def packets(source):
    """The bytes of the packets of a capture, or the kind of exception if it is not read."""
    try:
        return [bytes(packet.packet) for packet in etherpeel.capture(source)]
    except Exception as error:
        return type(error)


def is_mapped(file):
    return all(isinstance(packet.packet.obj, mmap.mmap) for packet in etherpeel.capture(file))


def sources(content, expected):
    """A capture with its packets, by each kind of source."""
    with tempfile.TemporaryDirectory() as folder:
        path = os.path.join(folder, "f.pcap")
        with open(path, "wb") as file:
            file.write(content)
        for name, source in (("str", path), ("Path", pathlib.Path(path)), ("BytesIO", io.BytesIO(content))):
            check(name, packets(source), expected)
        compressed(path, content, expected)
        plain(path, expected)
        piped(path, expected)
        refused(folder, path)
        truncated(path)


def compressed(path, content, expected):
    for module in (gzip, bz2, lzma):
        packed = f"{path}.{module.__name__}"
        with module.open(packed, "wb") as file:
            file.write(b"??" + content)
        with module.open(packed, "rb") as file:
            file.read(2)
            check(module.__name__, packets(file), expected)
        with module.open(packed, "rb") as file, io.BufferedReader(file) as around:
            around.read(2)
            check(f"{module.__name__} in a reader", packets(around), expected)
        check(f"{module.__name__}, its own bytes", packets(packed), etherpeel.CaptureError)
    with tarfile.open(f"{path}.tar", "w") as archive:
        archive.add(path, "f.pcap")
    with tarfile.open(f"{path}.tar") as archive:
        check("tar", packets(archive.extractfile("f.pcap")), expected)
    with open(f"{path}.reversed", "wb") as file:
        file.write(content[::-1])
    with Reversed(io.FileIO(f"{path}.reversed")) as file:
        check("a reader with a read of its own", packets(file), expected)


def plain(path, expected):
    """Plain files are mapped, from where they are on, and stay there."""
    with open(path, "rb") as file:
        content = file.read()
    with open(f"{path}.later", "wb") as file:
        file.write(b"??" + content)
    for mode, buffering in (("rb", -1), ("r+b", -1), ("rb", 0)):
        with open(f"{path}.later", mode, buffering) as file:
            file.seek(2)
            check(f"{mode} {buffering}", (packets(file), is_mapped(file), file.tell()), (expected, True, 2))
    with open(path, encoding="latin-1") as file:
        check("a text file", packets(file), expected)
    with tempfile.NamedTemporaryFile() as file:
        file.write(content)
        file.seek(0)
        check("a named file", packets(file), expected)
    with open(path, "rb") as file, mmap.mmap(file.fileno(), 0, access=mmap.ACCESS_READ) as memory:
        check("mmap", packets(memory), expected)


def piped(path, expected):
    told = [sys.executable, "-c", "import shutil, sys; shutil.copyfileobj(open(sys.argv[1], 'rb'), sys.stdout.buffer)", path]
    for buffering in (-1, 0):
        with subprocess.Popen(told, bufsize=buffering, stdout=subprocess.PIPE) as ran:
            check(f"a pipe {buffering}", packets(ran.stdout), expected)
    with os.popen(f"cat '{path}'") as file:
        check("popen", packets(file), expected)


def refused(folder, path):
    check("no file", packets(f"{path}.none"), FileNotFoundError)
    check("a folder", packets(folder), IsADirectoryError)
    check("no source", [packets(it) for it in (7, None, io.StringIO("text"))], [TypeError] * 3)
    with open(path, "rb") as file:
        pass
    check("a closed file", packets(file), ValueError)
    with open(f"{path}.empty", "wb"):
        pass
    check("an empty file", packets(f"{path}.empty"), etherpeel.CaptureError)


TRUNCATED = """
import sys
sys.path.insert(0, sys.argv[1])
import etherpeel
with open(sys.argv[2], "wb") as file:
    file.write(bytes.fromhex("a1b2c3d4 00020004 00000000 00000000 00040000 00000001" "00000000 00000000 00004000 00004000") + bytes(16384))
with open(sys.argv[2], "rb") as file:
    packet = next(etherpeel.capture(file.read() if sys.argv[3] == "read" else file)).packet
    with open(sys.argv[2], "wb"):
        pass
    print(packet[-1])
"""


def truncated(path):
    """A file that is truncated while a packet is in use: this kills the process if the file is mapped, as the documentation says."""
    for way, expected in (("read", (0, "0\n")), ("mapped", (-signal.SIGBUS, ""))):
        ran = subprocess.run([sys.executable, "-c", TRUNCATED, os.path.dirname(os.path.dirname(etherpeel.__file__)), f"{path}.cut", way],
                             stdout=subprocess.PIPE, text=True)
        check(f"truncated, {way}", (ran.returncode, ran.stdout), expected)
