"""Compares what names options of ether_capture and ether_make with their tables, crates/*/src/option_table.rt.

    python3 tests/options.py --set

writes the lines of the options in the help, and its usage stays as it is; `python3 rust/erase.py` then writes what cargo builds. The usage has
each option, the manual page has it with the word for its value, and the code asks for exactly these options. The last line is 'N passed, M failed'.
"""
import argparse
import os
import re
import sys
from dataclasses import dataclass

TOP = os.path.dirname(os.path.dirname(os.path.abspath(__file__)))
# Where the text of an option begins, unless its name is too long.
COLUMN = 20
ROW = re.compile(r"""OptionRow \{
        name: "(.*)",
        spelling: Spelling::(\w+)(?:\('(.)'\))?,
        value: (?:None|Some\("(.*)"\)),
        group: "(.*)",
        help:(?: |\n            )"(.*)",
    \},""")


@dataclass
class Program:
    """The files of a program, and what is in its help after the lines of the options."""

    table: str
    code: str
    help: str
    messages: str
    page: str
    after: str


PROGRAMS = [
    Program(*(os.path.join(TOP, path) for path in (
        "crates/ether_capture/src/option_table.rt", "crates/ether_capture/src/options.rt", "crates/ether_stream/src/about.rt",
        "crates/ether_stream/src/messages.rt", "man/ether_capture.1")), "EXPR "),
    Program(*(os.path.join(TOP, path) for path in (
        "crates/ether_make/src/option_table.rt", "crates/ether_make/src/options.rt", "crates/ether_make/src/about.rt",
        "crates/ether_make/src/request.rt", "man/ether_make.1")), "Exit status: "),
]


def text(path):
    with open(path, encoding="utf-8") as file:
        return file.read()


def options(program):
    """Each row of the table: its name, how the option is written, the word for its value or '', its group, and what it does."""
    table = text(program.table)
    for name, spelling, letter, value, group, does in ROW.findall(table):
        written = {"Name": [f"--{name}"], "Letter": [f"-{letter}"], "Both": [f"-{letter}", f"--{name}"]}[spelling]
        yield name, written, value, group, does


def lines(program):
    """The lines of the options in the help, without the last LF."""
    told, before = [], ""
    for _, written, value, group, does in options(program):
        if before != group:
            told += [""] + ([f"{group}:"] if group else [])
        before = group
        begin = "  " + " ".join([", ".join(written), *filter(None, [value])])
        if len(begin) > COLUMN - 2:
            told.append(begin)
            begin = ""
        told.append(begin.ljust(COLUMN) + does)
    return "\n".join(told).lstrip("\n")


def page_items(program):
    """The options of the manual page: the line after each .TP of its section, without macros and fonts."""
    section = text(program.page).partition("\n.SH OPTIONS\n")[2].partition("\n.SH ")[0]
    for line in re.findall(r"^\.TP\n(.*)", section, re.M):
        plain = re.sub(r"^\.[A-Z]+ ", "", line).replace("\\-", "-")
        yield plain.replace('"', "").replace(" ", "")


def failures(program, about):
    """For each comparison None, or what is wrong there."""
    rows = list(options(program))
    count = re.search(r"OptionRow<&str>; (\d+)\]", text(program.table))[1]
    yield None if len(rows) == int(count) else f"{program.table}: {len(rows)} rows of {count} have the form that is known here"
    yield None if lines(program) in about else f"{program.help}: the options are not those of the table: run tests/options.py --set"
    usage, items = about.partition("usage: ")[2].partition("\n\n")[0], set(page_items(program))
    for _, written, value, _, _ in rows:
        yield None if len(written) > 1 or any(re.search(rf"{it}(?![\w-])", usage) for it in written) else f"{program.help}: the usage lacks {written[0]}"
        item = (", ".join(written) + value).replace(" ", "")
        yield None if item in items else f"{program.page}: there is no item {item}"
    asked = set(re.findall(r'\(matches, "([\w-]+)"\)', text(program.code)))
    own = {name for name, written, _, _, _ in rows if len(written) == 1}
    yield None if asked == own else f"{program.code}: not asked for, or not in the table: {', '.join(sorted(asked ^ own))}"
    told = set(re.findall(r'= "(--?\w[\w-]*)"', text(program.messages))) - {it for _, written, _, _, _ in rows for it in written}
    yield f"{program.messages}: not in the table: {', '.join(sorted(told))}" if told else None


def written(program):
    """The help with the lines of the options as they are in the table, which are all indented or headings."""
    found = lambda _: lines(program) + "\n\n" + program.after  # noqa: E731
    return re.sub(rf"(?<=\n\n)(?:\w[\w ]*:\n)?  -(?:(?!\n\n{program.after}).)*\n\n{program.after}", found, text(program.help), count=1, flags=re.S)


def main():
    words = argparse.ArgumentParser(description=__doc__, formatter_class=argparse.RawDescriptionHelpFormatter)
    words.add_argument("--set", action="store_true", help="write the lines of the options in the help")
    given = words.parse_args()
    if given.set:
        for program in PROGRAMS:
            about = written(program)
            with open(program.help, "w", encoding="utf-8") as file:
                file.write(about)
    found = [wrong for program in PROGRAMS for wrong in failures(program, text(program.help))]
    for wrong in filter(None, found):
        print(wrong)
    failed = sum(it is not None for it in found)
    print(f"{len(found) - failed} passed, {failed} failed")
    return 1 if failed else 0


if __name__ == "__main__":
    sys.exit(main())
