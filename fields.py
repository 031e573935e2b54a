"""Writes what is made of the tables of fields and names, crates/ether_fields/specs/Rows.antt and Names.antt.

    python3 fields.py
    python3 fields.py --check

A field is a row of the first table. This script writes the rows in Rust (crates/ether_fields/src/rows), which are proved to be these rows;
and, between lines that say so, what can't read that table: the numbers of fields in C and in Python, the schema of JSON, and the lists of
columns in the manual and in docs/FORMAT.md. The name of a number is a row of the second table, which it writes in Rust, too
(crates/ether_fields/src/names.rt). With --check it writes nothing, compares, and prints 'N passed, M failed' last.
"""
import argparse
import json
import os
import re
import sys
from typing import NamedTuple

TOP = os.path.dirname(os.path.abspath(__file__))
TABLE = "crates/ether_fields/specs/Rows.antt"
NAMES = "crates/ether_fields/specs/Names.antt"
TEXT = r'(?:\(codes "([^"]*)"\)|\[\])'
FIELD = rf"field {TEXT} {TEXT} {TEXT} kind\.(\w+) \(?(\w+)(?: (\d+)\))? (\d+) {TEXT}"
COMPUTED = rf"computed {TEXT} {TEXT} kind\.(\w+)"
# The sections in their order: the name of each, the name of its rows in the table, and whether it is a kind of header.
SECTIONS = [("frame", "frame", False), ("eth", "ethernet2", True), ("sll", "linux_sll", True), ("sll2", "linux_sll2", True),
            ("vlan", "vlan", True), ("macsec", "macsec", True), ("arp", "arp", True), ("headers", "place", False), ("rest", "rest", False),
            ("fault", "fault", False)]


class Row(NamedTuple):
    """A row of the table."""

    name: str
    title: str
    abbreviation: str
    kind: str
    extent: str
    bits: int
    number: int
    symbol: str
    is_member: bool
    is_column: bool


def table():
    """Of each block of rows its comment and its rows, by the name of the block."""
    with open(os.path.join(TOP, TABLE), encoding="utf-8") as file:
        text = file.read()
    blocks = {}
    for comment, name, rows in re.findall(r"((?:^-- .*\n)+)abbrev pub (\w+)_rows : List Row\n\w+ =\n((?:    .*\n)+)", text, re.M):
        rows = " ".join(rows.split())
        told = [row_of(found) for found in re.finditer(rf"(?:(hidden|column_only) \()?(?:{FIELD}|{COMPUTED})", rows)]
        if len(told) != rows.count("∷"):
            raise SystemExit(f"{TABLE}: a row of {name}_rows can't be read")
        blocks[name] = (" ".join(line.removeprefix("-- ") for line in comment.splitlines()), told)
    return blocks


def names():
    """Of each list of names what its numbers are, and its rows: a number as it is written there, and its name."""
    text = text_of(NAMES)
    for comment, name, rows in re.findall(r"^-- (.*)\nabbrev pub (\w+)_names : List .*\n\w+ =\n((?:    .*\n)+)", text, re.M):
        told = re.findall(r'\((\w+), codes "([^"]*)"\)', rows)
        if len(told) != rows.count("∷"):
            raise SystemExit(f"{NAMES}: a row of {name}_names can't be read")
        yield name, re.split(r"[,;]? \(|,", comment)[0], told


def row_of(found):
    """A row by its match."""
    among, *field = found.groups()
    is_member, is_column = among is None, among != "hidden"
    name, title, abbreviation, kind, extent, bits, number, symbol, *computed = field
    if name is None:
        name, title, kind = computed
        return Row(name, title, "", kind, "Computed", 0, 0, "", is_member, is_column)
    return Row(name, title, abbreviation or "", kind, extent, int(bits or 0), int(number), symbol, is_member, is_column)


def rows_of(blocks):
    """Of each section its rows, with those of the name and the place of a header first."""
    place = blocks["place"][1]
    return {name: (place if is_header else []) + blocks[block][1] for name, block, is_header in SECTIONS}


# ---- in Rust


def rust_text(text):
    """A text in Rust."""
    return '"' + text.replace('"', '\\"') + '"'


def rust_row(section, row, index):
    """A row of a section in Rust, as `rt fmt` lays it out."""
    key = ("{" if index == 0 else ",") + f'"{row.name}":'
    column = f"{section}.{row.name}"
    extent = f"Extent::{row.extent}" + (f"({row.bits})" if row.extent == "Bits" else "")
    values = [("name", rust_text(row.name)), ("key", rust_text(key)), ("column", rust_text(column)),
              ("title", rust_text(row.title)), ("abbreviation", rust_text(row.abbreviation)), ("kind", f"Kind::{row.kind}"), ("extent", extent), ("number", row.number),
              ("symbol", rust_text(row.symbol)), ("is_member", str(row.is_member).lower()), ("is_column", str(row.is_column).lower())]
    return "    Field {\n" + "".join(f"        {name}: {value},\n" for name, value in values) + "    },\n"


def rust(blocks):
    """Of each file of rows in Rust its name and its text."""
    sections = rows_of(blocks)
    names = sorted(sections)
    yield "rows", ("//! The rows of the table of fields, as `fields.py` writes them.\n\n" + "".join(f"mod {name};\n" for name in names) + "\n"
                   + "".join(f"pub use {name}::{name.upper()};\n" for name in names))
    for section, rows in sections.items():
        body = "".join(rust_row(section, row, index) for index, row in enumerate(rows))
        yield f"rows/{section}", (f"//! The rows of the section `{section}`, as `fields.py` writes them.\n"
                                  "use crate::extent::Extent;\nuse crate::field::Field;\nuse crate::kind::Kind;\n\n"
                                  f"/// The fields of the section `{section}`, in order.\n"
                                  f"pub static {section.upper()}: [Field; {len(rows)}] = [\n{body}];\n")


def rust_names():
    """The names of numbers in Rust."""
    lists = list(names())
    text = ("//! The names of numbers, as `fields.py` writes them.\n"
            "ghost use Rattle.std.specs.Prelude.{◌≡◌};\n"
            "ghost use Rattle.std.specs.Option.{option_map};\n"
            "ghost use Rattle.ether_base.specs.Texts.NumberText.{description_in};\n"
            "ghost use Rattle.ether_fields.specs.Names.{" + ", ".join(sorted(f"{name}_names" for name, _, _ in lists)) + "};\n")
    for name, what, rows in lists:
        arms = "".join(f"        {number} => Some({rust_text(told)}),\n" for number, told in rows)
        text += (f"\n/// Names {what}.\n"
                 "#[inline]\n"
                 f"pub(crate) fn {name}_name(number: u64) -> Option<&'static str>\n"
                 f"    ensures {{ option_map (λ s. s.now) result ≡ description_in {name}_names number }}\n"
                 f"{{\n    match number {{\n{arms}        _ => None,\n    }}\n}}\n")
    return text


# ---- elsewhere


def numbered(blocks):
    """The blocks whose rows have numbers, each with its comment and these rows."""
    return [(comment, rows) for comment, rows in ((comment, [row for row in rows if row.number]) for comment, rows in blocks.values()) if rows]


def c_numbers(blocks):
    """The numbers of fields in C."""
    parts = []
    for comment, rows in numbered(blocks):
        comment = comment.partition(";")[0]
        lines = [f"    ETHERPEEL_FIELD_{row.symbol} = {row.number}," for row in rows]
        parts.append("\n".join([f"    /* {comment[0].upper()}{comment[1:]}. */", *lines]))
    return "\n\n".join(parts).removesuffix(",") + "\n"


def python_numbers(blocks):
    """The numbers of fields in Python, by number."""
    rows = sorted((row for _, rows in numbered(blocks) for row in rows), key=lambda row: row.number)
    return "".join(f"    {row.symbol} = {row.number}\n" for row in rows)


def format_columns(blocks):
    """The list of columns in docs/FORMAT.md."""
    lines = ["Section | Columns", "---|---"]
    for name, block, is_header in SECTIONS:
        names = ", ".join(f"`{row.name}`" for row in blocks[block][1] if row.is_column)
        lines.append(f"`{name}` | {'those of `headers`, and ' if is_header else ''}{names}")
    return "\n".join(lines) + "\n"


def manual_columns(blocks):
    """The list of columns in the manual."""
    lines = []
    for name, block, is_header in SECTIONS:
        names = [row.name for row in blocks[block][1] if row.is_column]
        lines += [".TP", f".B {name}", *(["those of headers, and"] if is_header else []), ".BR " + ' ", " '.join(names)]
    return "\n".join(lines) + "\n"


# Where a part of a file is written: the line before it, the line after it, and what makes it.
PARTS = {
    "c/etherpeel.h": ("enum etherpeel_field_name {", "};", c_numbers),
    "c/python/etherpeel/_types.py": ("    # by number, as fields.py writes them", "", python_numbers),
    "docs/FORMAT.md": ("<!-- columns -->", "<!-- -->", format_columns),
    "man/ether_capture.1": ('.\\" columns, as fields.py writes them', '.\\" end of columns', manual_columns),
}


def with_part(text, path, blocks):
    """The text of a file with the part that is made of the table."""
    before, after, make = PARTS[path]
    head, found, rest = text.partition(f"{before}\n")
    lines = rest.split("\n")
    if not found or after not in lines:
        raise SystemExit(f"{path}: there is no line '{before}', or no line '{after}' after it")
    return head + found + make(blocks) + "\n".join(lines[lines.index(after):])


SCHEMA = "docs/packet.schema.json"
WIDTH = 120
SIMPLE = {"Flag": {"enum": [0, 1]}, "Truth": {"type": "boolean"}, "EtherType": {"$ref": "#/$defs/type"}, "HardwareType": {"$ref": "#/$defs/type"},
          "Operation": {"$ref": "#/$defs/type"}, "Bytes": {"$ref": "#/$defs/bytes"}, "ProtocolAddress": {"$ref": "#/$defs/address"}}
NULLABLE = {"EtherType": {"$ref": "#/$defs/type_or_null"}, "Bytes": {"$ref": "#/$defs/bytes_or_null"}}


def schema_value(row):
    """What the schema says of a field of a header."""
    if row.extent in ("SecureChannel", "PayloadType", "CheckSequence"):
        return NULLABLE[row.kind]
    if row.kind == "PacketType":
        return {"type": "integer", "minimum": 0, "maximum": 7}
    if row.kind == "Number":
        return {"type": "integer", "minimum": 0, "maximum": 2 ** row.bits - 1}
    return SIMPLE.get(row.kind)


def schema(text, blocks):
    """The schema with the members of each header."""
    told = json.loads(text)
    for name, block, is_header in SECTIONS:
        if is_header:
            given = told["$defs"].get(name, {"properties": {}})["properties"]
            rows = [row for row in blocks[block][1] if row.is_member]
            # reserved bits are a member if they are not 0 and all bytes are asked for
            rare = {row.name: {**schema_value(row), "minimum": 1} for row in blocks[block][1] if row.name == "reserved"}
            values = {row.name: schema_value(row) or given[row.name] for row in rows} | rare
            told["$defs"][name] = {"required": [row.name for row in rows], "properties": {"header": {"const": name}, **values}}
    return laid_out(told, 0, 0) + "\n"


def laid_out(value, indent, used):
    """A value of JSON on one line if that is short enough after what is used of it, or else with a line for each item."""
    line = json.dumps(value)
    if len(line) + indent + used < WIDTH or not isinstance(value, (dict, list)):
        return line
    inner = " " * (indent + 2)
    if isinstance(value, dict):
        names = {name: f"{json.dumps(name)}: " for name in value}
        items = [names[name] + laid_out(it, indent + 2, len(names[name])) for name, it in value.items()]
    else:
        items = [laid_out(it, indent + 2, 0) for it in value]
    begin, end = "{}" if isinstance(value, dict) else "[]"
    return f"{begin}\n{inner}" + f",\n{inner}".join(items) + f"\n{' ' * indent}{end}"


def results():
    """Each file that is made of the table, or a part of it, with its text."""
    blocks = table()
    for name, text in rust(blocks):
        yield f"crates/ether_fields/src/{name}.rt", text
    yield "crates/ether_fields/src/names.rt", rust_names()
    for path in PARTS:
        yield path, with_part(text_of(path), path, blocks)
    yield SCHEMA, schema(text_of(SCHEMA), blocks)


def text_of(path):
    """The text of a file, or nothing if it is not there."""
    if not os.path.exists(os.path.join(TOP, path)):
        return ""
    with open(os.path.join(TOP, path), encoding="utf-8") as file:
        return file.read()


def main():
    """Writes the files, or compares them."""
    parser = argparse.ArgumentParser(description=__doc__, formatter_class=argparse.RawDescriptionHelpFormatter)
    parser.add_argument("--check", action="store_true", help="compare in place of writing")
    is_check = parser.parse_args().check
    failed = count = 0
    for path, text in results():
        count += 1
        if is_check and text != text_of(path):
            print(f"{path} is not what python3 fields.py writes")
            failed += 1
        elif not is_check:
            os.makedirs(os.path.dirname(os.path.join(TOP, path)), exist_ok=True)
            with open(os.path.join(TOP, path), "w", encoding="utf-8") as file:
                file.write(text)
    if is_check:
        print(f"{count - failed} passed, {failed} failed")
    sys.exit(failed > 0)


if __name__ == "__main__":
    main()
