"""Writes a manual page for each group of calls of etherpeel.h, and for each call one that leads to it.

    python3 c/manual.py FOLDER
"""
import argparse
import os
import re

HERE = os.path.dirname(os.path.abspath(__file__))
# The comment above a group: the page, and what its calls are for.
GROUPS = {
    "The library": ("etherpeel_library", "what a program can ask of the library"),
    "Calls": ("etherpeel_walks", "the walk through a frame"),
    "VLAN tags changed in place": ("etherpeel_vlan_tags", "VLAN tags changed in place"),
    "Headers replaced in place": ("etherpeel_replacing", "headers replaced in place"),
    "Packets built": ("etherpeel_building", "packets built from headers and a payload"),
    "Capture files": ("etherpeel_captures", "the packets of capture files"),
    "Capture files as streams": ("etherpeel_readers", "capture files read unit by unit"),
    "Packets on one line": ("etherpeel_lines", "packets on one line"),
    "Names": ("etherpeel_names", "what fields and numbers are called"),
    "Linux cooked capture v2": ("etherpeel_cooked_v2", "headers of Linux cooked capture v2"),
    "Filters": ("etherpeel_filters", "filters of packets"),
    "A switch": ("etherpeel_switch", "the forwarding of a bridge with VLANs"),
}
CALL = re.compile(r"/\* (etherpeel_\w+) - (.*?)\*/\n((?:(?:static inline )?[\w ]+\*?\w+\([^;{]*[;{].*?\n)+)", re.S)


def plain(text):
    """The text of a comment without its marks."""
    return "\n".join(re.sub(r"^ \* ?", "", line).rstrip() for line in text.split("\n")).strip()


def escaped(text):
    return re.sub(r"^(['.])", r"\\&\1", text.replace("\\", "\\e").replace("-", "\\-"), flags=re.M)


def prototypes(declared):
    """The declarations after a comment, each in lines as they stand there."""
    for found in re.finditer(r"^(?:static inline )?(\w+ etherpeel_\w+\([^;{]*\))", declared, re.M):
        yield found[1] + ";"


def page(name, brief, version, head, calls):
    """The page of a group: the comment above its calls, and each call."""
    lines = [f'.TH {name.upper()} 3 "" "etherpeel {version}" "Library Functions Manual"', ".SH NAME"]
    lines += [", ".join(it[0] for it in calls) + f" \\- {brief}", ".SH SYNOPSIS", ".nf", ".B #include <etherpeel.h>", ".PP"]
    for call, _, _, declared in calls:
        lines += [escaped(it) for it in prototypes(declared)] + [""]
    lines += [".fi", ".SH DESCRIPTION"]
    if head:
        lines += [escaped(head), ".PP"]
    for call, what, text, _ in calls:
        lines += [".SS " + call, escaped(what[0].upper() + what[1:]) + ".", ".PP", ".nf", escaped(text), ".fi"]
    return "\n".join([*lines, ".SH SEE ALSO", ".BR etherpeel (3)", ""]).replace("\n\n", "\n.PP\n").replace("\n.PP\n.fi", "\n.fi")


def pages():
    """The name and the text of each page."""
    with open(f"{HERE}/etherpeel.h", encoding="utf-8") as file:
        header = file.read()
    major, minor = re.search(r"VERSION_MAJOR (\d+)\n#define ETHERPEEL_VERSION_MINOR (\d+)", header).groups()
    parts = re.split(r"^/\* ---- (.*?) ----(.*?)\*/$", header, flags=re.M | re.S)
    for title, head, body in zip(parts[1::3], parts[2::3], parts[3::3]):
        if title not in GROUPS:
            continue
        name, brief = GROUPS[title]
        calls = []
        for call, text, declared in CALL.findall(body):
            what, _, more = plain(text).partition("\n\n")
            calls.append((call, " ".join(what.split()), more, declared))
        yield name, page(name, brief, f"{major}.{minor}", plain(head), calls)
        for _, _, _, declared in calls:
            for call in re.findall(r"\b(etherpeel_\w+)\(", "".join(prototypes(declared))):
                yield call, f".so man3/{name}.3\n"


def main():
    words = argparse.ArgumentParser(description=__doc__, formatter_class=argparse.RawDescriptionHelpFormatter)
    words.add_argument("folder", metavar="FOLDER")
    folder = words.parse_args().folder
    os.makedirs(folder, exist_ok=True)
    for name, text in pages():
        with open(os.path.join(folder, f"{name}.3"), "w", encoding="utf-8") as file:
            file.write(text)


if __name__ == "__main__":
    main()
