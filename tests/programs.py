"""What the tests of the programs share: runs of a built program, and the count of those that end as they should."""

import itertools
import os
import resource
import socket
import subprocess
import tempfile

SHOWN, WIDTH = 5, 400  # how many differences of a run are printed, and how many characters of each value


class _Nothing:
    def __repr__(self):
        return "nothing"


NOTHING = _Nothing()  # where one of two values ends


def run(program, words, given):
    """What the program prints for input that is a file, and its status."""
    with tempfile.TemporaryFile() as file:
        file.write(given)
        file.seek(0)
        done = subprocess.run([program, *words], stdin=file, stdout=subprocess.PIPE, stderr=subprocess.DEVNULL, check=False)
    return done.stdout.decode(), done.returncode


def run_in_pieces(program, words, given, step):
    """The same of input that comes through a pipe, some bytes at a time."""
    with tempfile.TemporaryFile() as written:
        with subprocess.Popen([program, *words], stdin=subprocess.PIPE, stdout=written, bufsize=0) as child:
            try:
                for at in range(0, len(given), step):
                    child.stdin.write(given[at:at + step])
                child.stdin.close()
            except BrokenPipeError:
                pass  # the program has ended
        written.seek(0)
        return written.read().decode(), child.returncode


def run_apart(program, words, given, step=None, **how):
    """What the program prints for this input, what it says on standard error, and its status. The input is a file, or comes some bytes at a time."""
    with tempfile.TemporaryFile() as file, tempfile.TemporaryFile() as out, tempfile.TemporaryFile() as said:
        if step is None:
            file.write(given)
            file.seek(0)
        with subprocess.Popen([program, *words], stdin=subprocess.PIPE if step else file, stdout=out, stderr=said, bufsize=0, **how) as child:
            try:
                for at in range(0, len(given) if step else 0, step or 1):
                    child.stdin.write(given[at:at + step])
                if step:
                    child.stdin.close()
            except BrokenPipeError:
                pass  # the program has ended
        out.seek(0)
        said.seek(0)
        return out.read().decode(), said.read().decode(), child.returncode


def run_until_a_fault(program, words, given):
    """The same of a reader that fails after these bytes. Each byte that is printed is one character."""
    ours, theirs = socket.socketpair()
    theirs.send(b"unread")  # so that closing our end is a fault of theirs
    ours.sendall(given)
    with subprocess.Popen([program, *words], stdin=theirs, stdout=subprocess.PIPE, stderr=subprocess.DEVNULL) as child:
        theirs.close()
        ours.close()
        text = child.stdout.read().decode("latin-1")
    return text, child.returncode


def interrupted(program, words, given):
    """What the program prints, what it says on standard error, and its status, if signals interrupt every second read of its input, a file `in`
    that may also be named, and every second write of its output."""
    with tempfile.TemporaryDirectory() as folder:
        paths = [os.path.join(os.path.realpath(folder), name) for name in ("in", "out")]
        with open(paths[0], "wb") as file:
            file.write(given)
        traced = ["strace", "-qq", "-o", "/dev/null", *(word for it in paths for word in ("-P", it)), "-e", "inject=read,write:error=EINTR:when=1+2"]
        with open(paths[0], "rb") as file, open(paths[1], "wb") as out:
            done = subprocess.run([*traced, program, *words], stdin=file, stdout=out, stderr=subprocess.PIPE, cwd=folder, check=False)
        with open(paths[1], "rb") as out:
            return out.read().decode(), done.stderr.decode(), done.returncode


def on_a_full_disk(program, words, given):
    """What the program says on standard error if nothing can be written, and its status."""
    with open("/dev/full", "wb") as full:
        done = subprocess.run([program, *words], input=given, stdout=full, stderr=subprocess.PIPE, check=False)
    return done.stderr.decode(), done.returncode


def without_memory(program, capture, words=()):
    """What the program prints, what it says on standard error, and its status, if it may have 8 MiB."""
    return run_apart(program, words, capture, preexec_fn=lambda: resource.setrlimit(resource.RLIMIT_AS, (8 << 20, 8 << 20)))


def places(found, wanted, path=""):
    """Where two values differ, each with its path, what was found and what is wanted: members of lists, tuples and dictionaries, lines of texts."""
    if isinstance(found, str) and isinstance(wanted, str) and "\n" in found[:-1] + wanted[:-1]:
        found, wanted = found.splitlines(keepends=True), wanted.splitlines(keepends=True)
    if isinstance(found, (list, tuple)) and isinstance(wanted, (list, tuple)):
        found, wanted = dict(enumerate(found)), dict(enumerate(wanted))
    if not (isinstance(found, dict) and isinstance(wanted, dict)):
        if found != wanted:
            yield path, found, wanted
        return
    for key in dict.fromkeys([*wanted, *found]):
        yield from places(found.get(key, NOTHING), wanted.get(key, NOTHING), f"{path}[{key!r}]")


def differences(found, wanted):
    """The first places where what was found is not what is wanted, each cut to a line that can be read."""
    first = list(itertools.islice(places(found, wanted), SHOWN + 1)) or [("", found, wanted)]
    listed = [f"{path}{' ' if path else ''}{shortened(it)}, not {shortened(other)}" for path, it, other in first[:SHOWN]]
    return "; ".join([*listed, *["and more"] * (len(first) > SHOWN)])


def shortened(value):
    text = repr(value)
    return text if len(text) <= WIDTH else f"{text[:WIDTH]}.. ({len(text)} characters)"


def count(tried, word="", each=1):
    """Prints each run that ended otherwise than wanted, and how many there are of both kinds, of those whose names have a word. With a number N
    only each Nth of these is made. What is found or wanted may be a call, which is made for these alone. Answers the exit status."""
    counts = {True: 0, False: 0}
    for name, found, wanted in itertools.islice((it for it in tried if word in it[0]), 0, None, each):
        found, wanted = (it() if callable(it) else it for it in (found, wanted))
        counts[found == wanted] += 1
        if found != wanted:
            print(f"{name}: {differences(found, wanted)}")
    print(f"{counts[True]} passed, {counts[False]} failed")
    return 1 if counts[False] or word and not counts[True] else 0
