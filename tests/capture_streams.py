"""Tests of `ether_capture` on where things go: lines and copies, and what is said of faults."""

import os
import re
import resource
import signal
import subprocess
import tempfile
import time
from functools import partial
from shutil import which

from made_captures import CLASSIC, CLASSIC_LINES, INPUT, IS_FOLDER, NO_FILE, SIX, classic, joined, record_is_cut
from capture_copies import copied
from programs import interrupted, run_apart

OLD = b"what the file had before"
SURPLUS = "ether_capture: one: this is one FILE too many; try --help\n"
CLASH = "ether_capture: these options do not go together; try --help\n"
# Both packets with a tag after their first header, and a snap length that is 4 greater.
PUSHED = (CLASSIC[:16] + (0xFFFF + 4).to_bytes(4, "big") + CLASSIC[20:24]
          + CLASSIC[24:32] + joined("00000017 00000040") + CLASSIC[40:52] + joined("8100 0005") + CLASSIC[52:59]
          + CLASSIC[59:67] + joined("00000032 00000032") + CLASSIC[75:87] + joined("8100 0005") + CLASSIC[87:])
LONG = classic(*SIX) + classic(*SIX)[24:] * 4_000


def contents(folder):
    """The files in a folder, and what they have."""
    found = {}
    for name in sorted(os.listdir(folder)):
        with open(os.path.join(folder, name), "rb") as file:
            found[name] = file.read()
    return found


def contents_of(folder, name):
    """What a file has, or None."""
    try:
        with open(os.path.join(folder, name), "rb") as file:
            return file.read()
    except FileNotFoundError:
        return None


def filled(folder, files):
    for name, text in files.items():
        with open(os.path.join(folder, name), "wb") as file:
            file.write(text)


def done(program, words, given, files, **how):
    """What the program prints, says and returns in a folder that has these files, and what this has then."""
    with tempfile.TemporaryDirectory() as folder:
        filled(folder, files)
        return *run_apart(program, words, given, cwd=folder, **how), contents(folder)


def not_written(name, reason=""):
    return f"{name}: can't be written{reason}\n"


# The words, standard input, the files; what is printed, said, returned, and how the files have changed.
COPIES = [
    ("a new file", ["-w", "new", "one"], b"", {"one": CLASSIC}, "", "", 0, {"new": CLASSIC}),
    ("a file that is there", ["--write", "-w", "two", "one"], b"", {"one": CLASSIC, "two": OLD}, "", "", 0, {"two": CLASSIC}),
    ("standard input", ["-w", "new"], CLASSIC, {}, "", "", 0, {"new": CLASSIC}),
    ("the only file", ["-r", "one", "-w", "one", "-c", "1"], b"", {"one": CLASSIC}, "", "", 0, {"one": CLASSIC[:59]}),
    ("no packet", ["-wnew", "--select", "macsec", "-r", "one"], b"", {"one": CLASSIC}, "", "", 0, {"new": CLASSIC[:24]}),
    ("a device", ["-w", "/dev/null", "one"], b"", {"one": CLASSIC}, "", "", 0, {}),
    ("a full disk", ["-w", "/dev/full", "one"], b"", {"one": CLASSIC}, "", not_written("/dev/full", ": no space is left"), 4, {}),
    ("a folder", ["-w", ".", "one"], b"", {"one": CLASSIC}, "", not_written(".", ": it is a folder"), 4, {}),
    ("a folder that is not there", ["-w", "no/new", "one"], b"", {"one": CLASSIC}, "", not_written("no/new", ": there is no such folder"), 4, {}),
    ("no name", ["-w", "", "one"], b"", {"one": CLASSIC}, "", not_written("", ": its name is empty"), 4, {}),
    ("a file in place of a folder", ["-w", "one/new", "one"], b"", {"one": CLASSIC}, "", not_written("one/new", ": there is no such folder"), 4, {}),
    ("a capture that is cut", ["-w", "two", "one"], b"", {"one": CLASSIC[:120], "two": OLD}, "", "one" + record_is_cut(59, 62, 61), 3, {}),
    ("standard input that is cut", ["-w", "two"], CLASSIC[:120], {"two": OLD}, "", INPUT + record_is_cut(59, 62, 61), 3, {}),
    ("a capture that is not there", ["-w", "two", "one"], b"", {"two": OLD}, "", "one" + NO_FILE, 4, {}),
    ("a capture that is a folder", ["-w", "two", "."], b"", {"two": OLD}, "", "." + IS_FOLDER, 4, {}),
    ("no expression", ["-w", "two", "--select", "vlan x"], CLASSIC, {"two": OLD}, "",
     "--select: At byte 5: expected a number up to 4095, `and`, `or`, `)` or the end.\n", 2, {}),
    ("lines", ["-w", "two", "--plain"], CLASSIC, {"two": OLD}, "", CLASH, 2, {}),
    ("a limit", ["-w", "two", "--limit", "1"], CLASSIC, {"two": OLD}, "", CLASH, 2, {}),
    ("two captures", ["-w", "two", "one", "one"], b"", {"one": CLASSIC, "two": OLD}, "", SURPLUS, 2, {}),
]
READS = [
    ("a file by -r", ["-r", "one"], b"", {"one": CLASSIC}, CLASSIC_LINES, "", 1, {}),
    ("the same in one word", ["-rone"], b"", {"one": CLASSIC}, CLASSIC_LINES, "", 1, {}),
    ("standard input by -r", ["-r", "-"], CLASSIC, {}, CLASSIC_LINES, "", 1, {}),
    ("a file that is not there by -r", ["-r", "one"], CLASSIC, {}, "", "one" + NO_FILE, 4, {}),
    ("a file by -r and one besides", ["-r", "one", "one"], b"", {"one": CLASSIC}, "", SURPLUS, 2, {}),
    ("nothing shown of no expression", ["--progress", "--select", "vlan x"], b"", {}, "",
     "--select: At byte 5: expected a number up to 4095, `and`, `or`, `)` or the end.\n", 2, {}),
    ("two files by -r", ["-r", "one", "-r", "one"], b"", {"one": CLASSIC}, "",
     "ether_capture: an option occurs twice, or has a value and takes none; try --help\n", 2, {}),
]


def files_too_large(program):
    """A copy with more bytes than a file may have."""
    limit = {"preexec_fn": lambda: resource.setrlimit(resource.RLIMIT_FSIZE, (4_096, 4_096)), "restore_signals": False}
    files = {"one": LONG, "two": OLD}
    wanted = "", not_written("two", ": no space is left"), 4, files
    return [("a copy that is too large for a file", done(program, ["-w", "two", "one"], b"", files, **limit), wanted)]


def files_of_others(program):
    """A copy to a folder that may not be written. Root may write each, so the program runs as another there."""
    with tempfile.TemporaryDirectory() as folder:
        filled(folder, {"one": CLASSIC, "two": OLD})
        os.chmod(folder, 0o555)
        other = {"user": 65_534} if os.getuid() == 0 else {}
        found = run_apart(program, ["-w", "two", "one"], b"", cwd=folder, **other)
        files = contents(folder)
        os.chmod(folder, 0o755)
    wanted = ("", not_written("two", ": permission denied"), 4), {"one": CLASSIC, "two": OLD}
    return [("a copy to a folder of others", (found, files), wanted)]


def protected_files(program):
    """A copy to a file that may not be written, in a folder that may."""
    with tempfile.TemporaryDirectory() as folder:
        filled(folder, {"one": CLASSIC, "two": OLD})
        os.chmod(folder, 0o777)
        os.chmod(os.path.join(folder, "two"), 0o444)
        other = {"user": 65_534} if os.getuid() == 0 else {}
        found = run_apart(program, ["-w", "two", "one"], b"", cwd=folder, **other)
        wanted = ("", not_written("two", ": permission denied"), 4), {"one": CLASSIC, "two": OLD}
        return [("a copy to a protected file", (found, contents(folder)), wanted)]


def in_place(program, words, files, given=None, how=0o555):
    """What becomes of files that all may write, in a folder of others with this mode; standard input is the file of the name `given`, if there is one."""
    with tempfile.TemporaryDirectory() as folder:
        filled(folder, files)
        for name in files:
            os.chmod(os.path.join(folder, name), 0o666)
        os.chmod(folder, how)
        other = {"user": 65_534} if os.getuid() == 0 else {}
        with open(os.path.join(folder, given) if given else os.devnull, "rb") as stdin:
            ran = subprocess.run([program, *words], stdin=stdin, capture_output=True, cwd=folder, check=False, **other)
        found = contents(folder)
        os.chmod(folder, 0o755)
    return (ran.stdout, ran.stderr.decode(), ran.returncode), {name: text for name, text in found.items() if text != files.get(name)}


def copies_in_place(program):
    """Copies to files in a folder where none can be made: they are written in place, unless the copy is of the file itself."""
    files = {"one": CLASSIC, "two": OLD * 1000, "cut": CLASSIC[:120]}
    denied = not_written("one", ": permission denied")
    return [(f"in place: {name}", in_place(program, words, files, given), ((b"", said, status), changed)) for name, words, given, said, status, changed in (
        ("a shorter copy", ["-w", "two", "one", "-c", "1"], None, "", 0, {"two": CLASSIC[:59]}),
        ("a longer copy", ["-w", "two", "one", "--push-vlan", "0x8100:5"], None, "", 0, {"two": PUSHED}),
        ("standard input", ["-w", "two"], "one", "", 0, {"two": CLASSIC}),
        ("a capture that is cut", ["-w", "two", "cut"], None, "cut" + record_is_cut(59, 62, 61), 3, {"two": CLASSIC[:59]}),
        ("a copy of the file itself", ["-w", "one", "one", "--push-vlan", "0x8100:5"], None, denied, 4, {}),
        ("the same by another name", ["-w", "one", "./one", "-c", "1"], None, denied, 4, {}),
        ("the same by standard input", ["-w", "one"], "one", denied, 4, {}),
        ("a new file", ["-w", "new", "one"], None, not_written("new", ": permission denied"), 4, {}),
    )]


def links(program):
    """Copies by symbolic links: to a file in another folder, to one that is not there, to a link, to a folder that is not there, to itself."""
    tried = []
    with tempfile.TemporaryDirectory() as folder, tempfile.TemporaryDirectory() as other:
        filled(other, {"two": OLD})
        leads = {"link": os.path.join(other, "two"), "new": os.path.join(other, "three"), "near": "here", "twice": "near", "far": "gone/new", "round": "round"}
        for name, to in leads.items():
            os.symlink(to, os.path.join(folder, name))
        for name in leads:
            tried.append((name, run_apart(program, ["-w", name], CLASSIC, cwd=folder)))
        tried.append(("a fault", run_apart(program, ["-w", "new"], CLASSIC[:120], cwd=folder)))
        are_links = all(os.path.islink(os.path.join(folder, name)) for name in leads)
        found = tried, are_links, sorted(os.listdir(folder)), contents(other), contents_of(folder, "here")
    ends = [(name, ("", "", 0)) for name in ("link", "new", "near", "twice")]
    ends += [("far", ("", not_written("far", ": there is no such folder"), 4)), ("round", ("", not_written("round"), 4)),
             ("a fault", ("", INPUT + record_is_cut(59, 62, 61), 3))]
    yield "copies by links", found, (ends, True, sorted([*leads, "here"]), {"two": CLASSIC, "three": CLASSIC}, CLASSIC)
    with tempfile.TemporaryDirectory() as folder, tempfile.TemporaryDirectory() as other:
        os.symlink(os.path.join(other, "two"), os.path.join(folder, "link"))
        with subprocess.Popen([program, "-w", "link"], stdin=subprocess.PIPE, cwd=folder) as child:
            child.stdin.write(CLASSIC[:59])
            child.stdin.flush()
            is_there = until(lambda: os.path.exists(os.path.join(other, "two.part")))
            child.communicate(CLASSIC[59:])
        yield "a copy by a link is written in the folder of the file", (is_there, os.listdir(folder)), (True, ["link"])


def until(holds):
    """Waits some seconds until something holds, and says whether it does."""
    for _ in range(1_000):
        if holds():
            return True
        time.sleep(0.01)
    return False


def killed_runs(program):
    """A run that is killed amid a copy, and the one after it."""
    with tempfile.TemporaryDirectory() as folder:
        filled(folder, {"two": OLD})
        part = os.path.join(folder, "two.part")
        with subprocess.Popen([program, "-w", "two"], stdin=subprocess.PIPE, cwd=folder, bufsize=0) as child:
            child.stdin.write(LONG[:-1])
            has_begun = until(lambda: os.path.exists(part) and os.path.getsize(part) > 60_000)
            child.kill()
            status = child.wait()
        files = contents(folder)
        has_part = LONG.startswith(files.pop("two.part", b"none"))
        again = run_apart(program, ["-w", "two"], LONG, cwd=folder)
        files_again = contents(folder)
    return [
        ("a copy that is killed", (has_begun, status, has_part, files), (True, -signal.SIGKILL, True, {"two": OLD})),
        ("a copy after it", (again, files_again["two"] == LONG, len(files_again)), (("", "", 0), True, 2)),
    ]


def owners(program):
    """A copy keeps the owner and the group of its file, which root alone can set."""
    if os.getuid() != 0:
        print("left out: the owner of a copy, since the tests don't run as root")
        return
    with tempfile.TemporaryDirectory() as folder:
        filled(folder, {"one": CLASSIC, "two": OLD})
        path = os.path.join(folder, "two")
        os.chmod(path, 0o640)
        os.chown(path, 12_345, 23_456)
        status = run_apart(program, ["-w", "two", "one"], b"", cwd=folder)[2]
        found = os.stat(path)
    yield "the owner of a copy", (status, found.st_uid, found.st_gid, found.st_mode & 0o777, found.st_size), (0, 12_345, 23_456, 0o640, len(CLASSIC))


def modes(program):
    """What may be done with a file before and after it gets a copy."""
    with tempfile.TemporaryDirectory() as folder:
        filled(folder, {"two": OLD})
        os.chmod(os.path.join(folder, "two"), 0o640)
        run_apart(program, ["-w", "two"], CLASSIC, cwd=folder)
        return [("who may read a copy", os.stat(os.path.join(folder, "two")).st_mode & 0o777, 0o640)]


def to_nobody(program, words, given):
    """What the program says, and its status, if nobody reads what it prints."""
    gone, end = os.pipe()
    os.close(gone)
    with os.fdopen(end, "wb") as out:
        ran = subprocess.run([program, *words], input=given, stdout=out, stderr=subprocess.PIPE, check=False)
    return ran.stderr.decode(), ran.returncode


def first_line(program, words):
    """How many lines are read of one that is wanted, and what is said meanwhile."""
    ran = subprocess.run(f"'{program}' {words} | head -n 1", shell=True, input=LONG, capture_output=True, check=False)
    return ran.stdout.count(b"\n"), ran.stderr


def closed_pipes(program):
    """Output that nobody reads, from the start or any more."""
    for name, words in (("lines", ""), ("walks", "--plain"), ("selected packets", "--select 'not arp or arp'")):
        yield f"the first of the {name}", partial(first_line, program, words), (1, b"")
    for words in ([], ["--plain"], ["--write"], ["-w", "-"], ["--help"], ["--version"], ["-r", "-"], ["/dev/stdin", "/dev/stdin"]):
        yield f"nobody reads {words}", partial(to_nobody, program, words, CLASSIC), ("", 4)
    yield "nobody reads, and a file is not there", partial(to_nobody, program, ["no", "/dev/stdin"], CLASSIC), ("no" + NO_FILE, 4)
    yield "nobody reads what is not printed", partial(to_nobody, program, ["no"], CLASSIC), ("no" + NO_FILE, 4)
    yield "nobody reads lines, and a record is cut", partial(to_nobody, program, [], CLASSIC[:120]), ("", 4)


def interrupted_calls(program):
    """Reads and writes that signals interrupt. They are tried again, so that the run ends as ever."""
    if not which("strace"):
        print("left out: interrupted calls, since there is no strace")
        return
    for words, said, status in (([], "", 1), (["in"], "", 1), (["-r", "in"], "", 1), (["in", "no"], "no" + NO_FILE, 4)):
        yield f"interrupted reads and writes {words}", partial(interrupted, program, words, CLASSIC), (CLASSIC_LINES, said, status)


def synced(program):
    """A copy is on the disk before it gets its name, and its folder after that: fsync(2) or fdatasync(2) of the file, rename(2), and fsync(2) of the folder,
    as strace sees them."""
    if not which("strace") or subprocess.run(["strace", "-o", "/dev/null", "true"], stderr=subprocess.DEVNULL, check=False).returncode:
        print("left out: whether a copy is on the disk before it gets its name, since strace is not there, or may not trace")
        return
    with tempfile.TemporaryDirectory() as folder:
        log = os.path.join(folder, "log")
        words = ["strace", "-f", "-y", "-e", "trace=fsync,fdatasync,rename,renameat,renameat2", "-o", log, program, "-w", "two"]
        done = subprocess.run(words, input=CLASSIC, cwd=folder, check=False)
        with open(log, encoding="utf-8") as file:
            calls = re.findall(r"(sync|rename)\w*\(.*?([\w.]+)[>\"]", file.read())
    yield "a copy is on the disk before it gets its name", (done.returncode, calls), (0, [("sync", "two.part"), ("rename", "two.part"), ("sync", os.path.basename(folder))])


def name_taken(program):
    """A folder gets the name of the copy while that is written."""
    with tempfile.TemporaryDirectory() as folder:
        with subprocess.Popen([program, "-w", "two"], stdin=subprocess.PIPE, stderr=subprocess.PIPE, cwd=folder) as child:
            child.stdin.write(CLASSIC[:59])
            child.stdin.flush()
            has_begun = until(lambda: os.path.exists(os.path.join(folder, "two.part")))
            os.mkdir(os.path.join(folder, "two"))
            said = child.communicate(CLASSIC[59:])[1].decode()
        found = has_begun, said, child.returncode, os.listdir(folder)
    yield "a folder that takes the name of a copy", found, (True, not_written("two", ": it is a folder"), 4, ["two"])


def shown(said):
    """What of the text on standard error is shown of reading: how often, the last bytes and their number in all, and what is said besides."""
    *others, end = said.split("\r")
    last, _, rest = end.partition("\n")
    told = re.fullmatch(r"(\d+)(?: of (\d+))? bytes, \d+ kB/s *", last)
    return len(others), told and told.groups(), rest


def progress(program):
    """What is shown of reading, on standard error alone."""
    size = str(len(CLASSIC))
    with tempfile.TemporaryDirectory() as folder:
        filled(folder, {"one": CLASSIC, "cut": CLASSIC[:120]})
        for words, given, text, status, wanted in (
            (["one"], b"", CLASSIC_LINES, 1, (1, (size, size), "")),
            ([], CLASSIC, CLASSIC_LINES, 1, (1, (size, None), "")),
            (["cut", "-w", "new"], b"", "", 3, (1, ("120", "120"), "cut" + record_is_cut(59, 62, 61))),
        ):
            found = run_apart(program, ["--progress", *words], given, cwd=folder)
            yield f"--progress {words}", (found[0], shown(found[1]), found[2]), (text, wanted, status)
        found = run_apart(program, ["--progress", "--plain", "cut", "no", "one"], b"", cwd=folder)
        lines = [line.rpartition("\r")[2].split(",")[0] for line in found[1].split("\n")]
        said = ["120 of 120 bytes", *("cut" + record_is_cut(59, 62, 61) + "no" + NO_FILE).splitlines(), f"{size} of {size} bytes", ""]
        yield "--progress of several files", (lines, found[2]), (said, 4)
    yield "--progress before counts", partial(shown_before_counts, program), "total\t\t2\t106\nvlan.vid\t1\t1\t60\nvlan.vid\t291\t1\t46\n"
    yield "--progress of a pipe with a name", partial(named_pipe, program), (CLASSIC_LINES, (size, None), 1)
    yield "--progress of a second", partial(slow_progress, program), (True, True, ((str(len(LONG)), None), ""))


def shown_before_counts(program):
    """What one file gets as standard output and standard error, as a terminal does: the line of reading has ended when the counts come."""
    ran = subprocess.run([program, "--progress", "--stats", "--fields", "vlan.vid"], input=CLASSIC, stdout=subprocess.PIPE, stderr=subprocess.STDOUT, check=False)
    return ran.stdout.decode().partition("\n")[2]


def named_pipe(program):
    """The lines, what is shown last of a file whose size is not known, and the status."""
    text, said, status = run_apart(program, ["--progress", "/dev/stdin"], CLASSIC, len(CLASSIC))
    return text, shown(said)[1], status


def slow_progress(program):
    """Whether reading for a second is shown twice to five times a second, whether the last rate is about that, and what is shown last."""
    begun = time.monotonic()
    slow = subprocess.Popen([program, "--progress", "--plain"], stdin=subprocess.PIPE, stdout=subprocess.DEVNULL, stderr=subprocess.PIPE, bufsize=0)
    with slow as child:
        for place in range(0, len(LONG), len(LONG) // 10):
            child.stdin.write(LONG[place:place + len(LONG) // 10])
            time.sleep(0.1)
        child.stdin.close()
        said = child.stderr.read().decode()
    seconds = time.monotonic() - begun
    rate, wanted = int(re.search(r"(\d+) kB/s *$", said.rstrip("\n"))[1]), len(LONG) / seconds / 1000
    return 2 <= said.count("\r") <= 5 * seconds + 2, wanted / 2 <= rate <= 2 * wanted, shown(said)[1:]


def streams(program):
    yield "a copy to standard output by its name", partial(copied, program, ["-w", "-"], CLASSIC), (CLASSIC, "", 0)
    for name, words, given, files, text, said, status, changed in COPIES + READS:
        yield f"-w or -r: {name}", partial(done, program, words, given, files), (text, said, status, {**files, **changed})
    for more in (files_too_large, files_of_others, protected_files, copies_in_place, links, synced, name_taken, killed_runs, owners, modes, closed_pipes, interrupted_calls,
                 progress):
        yield from more(program)
