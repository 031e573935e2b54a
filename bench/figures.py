"""Counts instructions by callgrind, and compares them with those that were handed over (bench/figures.txt).

    python3 bench/figures.py                 counts all rows, and fails if one has grown by more than 3 %
    python3 bench/figures.py GROUP..         counts the rows of these groups
    python3 bench/figures.py --take GROUP..  writes what it counts to bench/figures.txt, and the tables of docs/MEASURED.md
    python3 bench/figures.py --tables        compares the tables of docs/MEASURED.md, and the figures of README.md, with bench/figures.txt

A row has the instructions of the proved build, which needs what `rt ci` and `sh c/test.sh proved` leave in crates/*/out, those
of cargo's build, and those of what it is compared with, which are counted in the same run. A group is a module of bench/counting,
which says what its rows are. The last line is 'N passed, M failed'. Needs the kit, cargo, gcc, valgrind, libpcap and tcpdump.
"""
import argparse
import concurrent.futures
import importlib
import os
import re
import shutil
import sys
import tempfile

sys.dont_write_bytecode = True
from counting import builds  # noqa: E402

HERE = os.path.dirname(os.path.abspath(__file__))
FIGURES, MEASURED = f"{HERE}/figures.txt", f"{builds.TOP}/docs/MEASURED.md"
# A row, and how README.md says its numbers.
TOLD = "walks/walk: mixed", "takes {} instructions in the proved walk, {} by cargo, and {} in C by hand"
# Each group with what its rows are divided by.
GROUPS = {
    "walks": "C by hand", "calls": "the original", "packets": "the walk", "tags": "C by hand", "building": "one by one", "c_calls": "C by hand",
    "switch": "C by hand", "filter_calls": "libpcap", "filters": "tcpdump", "captures": "the lines", "rows": "C by hand", "frames": "compared with",
    "tool": "", "python": "",
}
GROWN = 1.03
HEAD = """# Instructions of an item, by callgrind: what is counted, the proved build, cargo's build, and what both are divided by.
# `python3 bench/figures.py` counts them again, and fails if one has grown by more than 3 %; with --take it writes this file.
"""


def read():
    """The rows of bench/figures.txt: for each name the three numbers."""
    found = {}
    if os.path.exists(FIGURES):
        with open(FIGURES, encoding="utf-8") as file:
            for line in file:
                if line.strip() and not line.startswith("#"):
                    name, *numbers = re.split(r"\s{2,}", line.strip())
                    found[name] = [None if it == "-" else float(it) for it in numbers]
    return found


def write(rows):
    """Writes bench/figures.txt, group by group."""
    width = max(map(len, rows))
    lines = [HEAD]
    for group in GROUPS:
        own = {name: numbers for name, numbers in rows.items() if name.startswith(f"{group}/")}
        lines.append("\n" * bool(own) + "".join(
            f"{name.ljust(width)}  {'  '.join(('-' if it is None else f'{it:.1f}').rjust(9) for it in numbers)}\n" for name, numbers in own.items()))
    with open(FIGURES, "w", encoding="utf-8") as file:
        file.write("".join(lines))


def count(groups, room, wanted):
    """The rows of these groups, counted in each build that is there, as many at a time as there are processors."""
    jobs = [(build, group) for build in wanted for group in groups]
    with concurrent.futures.ThreadPoolExecutor(len(os.sched_getaffinity(0))) as pool:
        counted = list(pool.map(lambda job: counted_in(*job, f"{room}/{job[0].name}/{job[1]}"), jobs))
    rows = {}
    for (build, group), found in zip(jobs, counted):
        for name, here, beside in found:
            row = rows.setdefault(f"{group}/{name}", [None, None, None])
            row[builds.BUILDS.index(build)] = here
            row[2] = beside if row[2] is None else row[2]
    return rows


def counted_in(build, group, room):
    """The rows of a group in a build, which are made in the folder `room`."""
    os.makedirs(room)
    found = list(importlib.import_module(f"counting.{group}").rows(build, room))
    print(f"{group}, {build.name}: {len(found)} rows", flush=True)
    return found


def differences(rows, known, whole):
    """A line for each figure that has grown, or that is not among those that were handed over."""
    for name, numbers in rows.items():
        group = name.partition("/")[0]
        again = f"python3 bench/figures.py {group}"
        if name not in known:
            yield f"{name}: it has no figure; {again} --take"
            continue
        for build, now, before in zip(builds.BUILDS, numbers, known[name]):
            if now is not None and (before is None or now > GROWN * before):
                yield f"{name}, {build.name}: {now:.1f} instructions, {before} handed over; {again}"
    if whole:
        yield from (f"{name}: it is not counted any more" for name in known if name not in rows)


def ratio(numbers, at):
    return "-" if numbers[at] is None else f"{numbers[at]:,.0f}" if numbers[2] is None else f"{numbers[at]:,.0f}, {numbers[at] / numbers[2]:.2f}"


def table(group, rows, above=0.0):
    """The rows of a group as a table: the two builds, each with its ratio, and what they are divided by. Rows whose ratios are not above
    the least one are left out."""
    beside = GROUPS[group]
    lines = [["", "proved", "by cargo", *([beside] if beside else [])]]
    for name, numbers in rows.items():
        if name.startswith(f"{group}/") and (not above or any(it and it > above * numbers[2] for it in numbers[:2])):
            last = ["" if numbers[2] is None else f"{numbers[2]:,.0f}"] if beside else []
            lines.append([name.partition("/")[2], ratio(numbers, 0), ratio(numbers, 1), *last])
    widths = [max(map(len, column)) for column in zip(*lines)]
    return "\n".join("    " + "  ".join(it.ljust(width) for it, width in zip(line, widths)).rstrip() for line in lines)


def measured(rows):
    """The text of docs/MEASURED.md with the table of each group that it names."""
    with open(MEASURED, encoding="utf-8") as file:
        text = file.read()
    between = r"(?:\n.*?)??\n(<!-- end -->)"
    return re.sub(r"(<!-- figures: (\w+)(?: above ([\d.]+))? -->)" + between,
                  lambda m: f"{m[1]}\n\n{table(m[2], rows, float(m[3] or 0))}\n\n{m[4]}", text, flags=re.S)


def take(rows, groups):
    known = {name: numbers for name, numbers in read().items() if name.partition("/")[0] not in groups}
    write({**known, **rows})
    text = measured(read())
    with open(MEASURED, "w", encoding="utf-8") as file:
        file.write(text)


def tables():
    """Whether the document has a table of each group, and these and README.md have the figures."""
    with open(MEASURED, encoding="utf-8") as file:
        text = file.read()
    missing = [name for name in [f"figures: {group}" for group in GROUPS] if not re.search(f"<!-- {name} .*-->", text)]
    for name in missing:
        print(f"docs/MEASURED.md: it has no table <!-- {name} -->")
    same = not missing and text == measured(read())
    if not same:
        print("docs/MEASURED.md: its tables are not those of bench/figures.txt; python3 bench/figures.py --take")
    name, form = TOLD
    said = form.format(*(f"{it:,.0f}" for it in read()[name]))
    with open(f"{builds.TOP}/README.md", encoding="utf-8") as file:
        is_told = said in " ".join(file.read().split())
    if not is_told:
        print(f"README.md: it does not say that a frame {said}")
    failed = [same, is_told].count(False)
    print(f"{2 - failed} passed, {failed} failed")
    return int(failed > 0)


def main():
    words = argparse.ArgumentParser(description=__doc__, formatter_class=argparse.RawDescriptionHelpFormatter)
    words.add_argument("groups", metavar="GROUP", nargs="*", choices=[[], *GROUPS], help=", ".join(GROUPS))
    words.add_argument("--take", action="store_true")
    words.add_argument("--tables", action="store_true")
    given = words.parse_args()
    if given.tables:
        return tables()
    missing = [name for name in ("valgrind", "gcc", "tcpdump") if shutil.which(name) is None]
    missing += [] if os.path.exists("/usr/include/pcap/pcap.h") else ["libpcap's header"]
    wanted = [] if missing else [build for build in builds.BUILDS if not build.missing()]
    for why in [*(f"{name} was not found" for name in missing), *filter(None, (build.missing() for build in builds.BUILDS))]:
        print(f"left out: {why}")
    with tempfile.TemporaryDirectory() as room:
        rows = count(given.groups or list(GROUPS), room, wanted)
    if given.groups:
        print("\n\n".join(f"{group}\n{table(group, rows)}" for group in given.groups))
    if given.take:
        return take(rows, given.groups or list(GROUPS))
    grown = list(differences(rows, read(), not given.groups and not missing))
    print("\n".join(grown))
    print(f"{len(rows) - len(grown)} passed, {len(grown)} failed")
    return int(bool(grown))


if __name__ == "__main__":
    sys.exit(main())
