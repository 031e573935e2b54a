"""Writes what the Python package and the page have of etherpeel.h: its numbers as enumerations, its structs, and for
Python the types of its calls.

    python3 c/bindings.py
    python3 c/bindings.py --check

The results are c/python/etherpeel/_header.py and page/header.js. Only the numbers of fields are not in the first:
fields.py writes them, from the table that those in etherpeel.h are made of. With --check this writes nothing, compares,
and prints 'N passed, M failed' last.
"""
import argparse
import json
import os
import re
import sys
import textwrap

HERE = os.path.dirname(os.path.abspath(__file__))
TOP = os.path.dirname(HERE)
WIDTH = 120
HEAD = '''"""The numbers, structs and calls of etherpeel.h, as c/bindings.py writes them."""
import ctypes as C
from enum import IntEnum

u8, u16, u32, u64, i64, size = C.c_uint8, C.c_uint16, C.c_uint32, C.c_uint64, C.c_int64, C.c_size_t
'''
SCRIPT_HEAD = """// The numbers and structs of etherpeel.h, as c/bindings.py writes them.

// the numbers of each enumeration
const ENUMS = {
"""
SCRIPT_STRUCTS = """};

// the size of each struct; and of each field its offset, the size of a number or the name of a struct, and how many
// elements an array has
const STRUCTS = {
"""
NUMBERS = {"uint8_t": "u8", "uint16_t": "u16", "uint32_t": "u32", "uint64_t": "u64", "int64_t": "i64", "size_t": "size", "int": "C.c_int"}
# The sizes of numbers, and of an address, in the memory of the page's module.
SIZES = {"uint8_t": 1, "uint16_t": 2, "uint32_t": 4, "uint64_t": 8, "int64_t": 8, "size_t": 8, "int": 4}
ADDRESS_SIZE = 8
# The numbers of fields are made elsewhere; those of structs are their order in STRUCTS.
ELSEWHERE = "field_name", "struct"
# Numbers for nothing, for which Python has None.
NOTHING = "ETHERPEEL_FAULT_NONE", "ETHERPEEL_DISCARDED_NOT"
# What is said of an enumeration whose comment is about calls from C.
TOLD = {
    "start": "What a frame begins with.",
    "layer": "The layer of a length fault.",
    "len_source": "What gave the length that was available or required in a length fault.",
    "decision": "Whether a filter selects a packet, as far as its captured bytes tell.",
}
ENUM = re.compile(r"^/\* ((?:(?!\*/).)*)\*/\nenum etherpeel_(\w+) \{\n(.*?)^\};", re.M | re.S)
STRUCT = re.compile(r"^typedef struct etherpeel_\w+ \{\n(.*?)^\} etherpeel_(\w+);", re.M | re.S)
CALL = re.compile(r"^(\w+) etherpeel_(\w+)\(([^;{]*)\);", re.M)
COMMENT = re.compile(r"/\*.*?\*/", re.S)
FIELD = re.compile(r"    (?:const )?(\w+) (\*?)(\w+)(?:\[(\d+)\])?;")
MEMBER = re.compile(r"( *)/\*(.*?)\*/\n|    (\w+) = (\d+),?\n|(\n)", re.S)


def camel(name):
    """The name of a class in Python, of that of a struct or an enumeration in C."""
    return "".join(word.capitalize() for word in name.split("_"))


class Header:
    """What etherpeel.h declares."""

    def __init__(self, text):
        version = re.search(r"VERSION_MAJOR (\d+)\n#define ETHERPEEL_VERSION_MINOR (\d+)", text)
        self.version = int(version[1]), int(version[2])
        self.enums = [(name, comment, body) for comment, name, body in ENUM.findall(text)]
        self.structs = [(name, body) for body, name in STRUCT.findall(text)]
        self.calls = CALL.findall(text)
        self.prefixes = {name: prefix_of(body) for name, _, body in self.enums}
        for what, found in (("enum etherpeel_", self.enums), ("typedef struct", self.structs)):
            if len(found) != len(re.findall(f"^{what}", text, re.M)):
                sys.exit(f"etherpeel.h: a declaration that begins with '{what}' can't be read")

    def told(self, comment):
        """The text of a comment, with the names of Python in place of those of C."""
        text = " ".join(line.lstrip(" *") for line in comment.split("\n")).strip()
        text = re.sub(r"enum etherpeel_(\w+)", lambda it: f"`{camel(it[1])}`", text)
        text = re.sub(r"etherpeel_(\w+)", r"`\1`", text)
        return re.sub(r"ETHERPEEL_(\w+)", lambda it: f"`{self.short(it[0])}`", text)

    def short(self, number):
        """A number of C without the prefix that all of its enumeration have."""
        prefixes = [it for it in self.prefixes.values() if number.startswith(it)]
        return number[len(max(prefixes, key=len)):]


def prefix_of(body):
    """What the names of an enumeration have in common, up to an underscore."""
    common = os.path.commonprefix(re.findall(r"^    (ETHERPEEL_\w+) = ", body, re.M))
    return common[:common.rindex("_") + 1]


def quoted(text, indent):
    """A text as a docstring."""
    return textwrap.fill(f'"""{text}"""', WIDTH, initial_indent=indent, subsequent_indent=indent) + "\n"


def enumeration(header, name, comment, body):
    """An enumeration as a class. A comment is the docstring of the number after it, or one on all numbers up to the
    next empty line."""
    lines, waiting = [f"class {camel(name)}(IntEnum):\n", quoted(TOLD.get(name) or header.told(comment), "    ")], None
    if len(re.findall(r"    \w+ = \d+,?$", body, re.M)) != COMMENT.sub("", body).count("="):
        sys.exit(f"etherpeel.h: a number of enum etherpeel_{name} can't be read")
    for _, text, number, value, gap in MEMBER.findall(body):
        if gap and waiting:
            told = textwrap.fill(waiting, WIDTH, initial_indent="    # ", subsequent_indent="    # ")
            lines.append(f"\n{told}\n")
            waiting = None
        elif number and number not in NOTHING:
            lines.append(f"\n    {header.short(number)} = {value}\n" + (quoted(waiting, "    ") if waiting else ""))
        waiting = header.told(text) if text else None
    return "".join(lines)


def fields_of(struct_name, body):
    """The fields of a struct: the type, `*` for a pointer, the name, and the number of elements of an array."""
    for line in COMMENT.sub("", body).splitlines():
        told = FIELD.fullmatch(line.rstrip())
        if line.strip() and not told:
            sys.exit(f"etherpeel.h: '{line.strip()}' of etherpeel_{struct_name} can't be read")
        if told:
            yield told.groups()


def field(kind, star, name, count):
    """The name of a struct's field, and its type."""
    code = type_of(kind, star)
    return f'("{name}", {code} * {count})' if count else f'("{name}", {code})'


def type_of(kind, star):
    """A type of C, or a pointer to it. A pointer to bytes or text is an address."""
    if star and kind in ("uint8_t", "char", "void"):
        return "C.c_void_p"
    if kind not in NUMBERS and not kind.startswith("etherpeel_"):
        sys.exit(f"etherpeel.h: the type {kind} is not known")
    code = NUMBERS.get(kind) or camel(kind[len("etherpeel_"):])
    return f"C.POINTER({code})" if star else code


def struct(name, body):
    fields = [field(*it) for it in fields_of(name, body)]
    return laid_out(f"class {camel(name)}(C.Structure):\n    _fields_ = [", fields, "]\n")


def call(result, name, words):
    """What a call takes and returns."""
    types = []
    for word in words.replace("\n", " ").split(","):
        told = re.match(r" *(?:const )?(\w+) (\*?)\w+(\[\d+\])?$", word)
        if told:
            types.append(type_of(told[1], told[2] or told[3]))
        elif word != "void":
            sys.exit(f"etherpeel.h: '{word}' of etherpeel_{name} can't be read")
    returned = "None" if result == "void" else type_of(result, "")
    return laid_out(f'    "{name}": ({returned}, [', types, "]),\n")


def laid_out(before, items, after):
    """Items with a comma between two, in lines that are not too long."""
    column = len(before) - before.rfind("\n") - 1
    lines = textwrap.wrap(", ".join(item.replace(" ", "\0") for item in items), WIDTH - column - len(after) + 1)
    return before + ("\n" + " " * column).join(lines).replace("\0", " ") + after


def module(header):
    """The text of the module."""
    major, minor = header.version
    parts = [HEAD + f"MAJOR, VERSION = {major}, {major << 16 | minor << 8:#08x}\n"]
    parts += [enumeration(header, *it) for it in header.enums if it[0] not in ELSEWHERE]
    parts += [struct(*it) for it in header.structs]
    order = next(body for name, _, body in header.enums if name == "struct")
    names = [camel(it.lower()) for it in re.findall(r"STRUCT_(\w+) = ", order)]
    structs = laid_out("STRUCTS = [", names, "]\n")
    parts.append(f"# the structs in the order of enum etherpeel_struct, from 1 on\n{structs}")
    calls = "".join(call(*it) for it in header.calls)
    parts.append(f"# what each call returns, and what it takes\nCALLS = {{\n{calls}}}\n")
    return "\n\n".join(parts)


def layouts(header):
    """The size of each struct, and its fields: the name, the offset, the size of a number or the name of a struct, and
    the number of elements of an array."""
    sizes, found = {name: (size, size) for name, size in SIZES.items()}, {}
    for name, body in header.structs:
        at, greatest, fields = 0, 1, []
        for kind, star, field_name, count in fields_of(name, body):
            size, alignment = (ADDRESS_SIZE, ADDRESS_SIZE) if star else sizes[kind]
            at += -at % alignment
            is_struct = kind.startswith("etherpeel_") and not star
            fields.append((field_name, at, kind[len("etherpeel_"):] if is_struct else size, count))
            at += size * int(count or 1)
            greatest = max(greatest, alignment)
        at += -at % greatest
        sizes[f"etherpeel_{name}"] = at, greatest
        found[name] = at, fields
    return found


def script(header):
    """The text of the page's script."""
    lines = [SCRIPT_HEAD]
    for name, _, body in header.enums:
        numbers = re.findall(r"^    (ETHERPEEL_\w+) = (\d+)", body, re.M)
        items = [f"{number[len(header.prefixes[name]):]}: {value}" for number, value in numbers]
        lines.append(laid_out(f"  {name}: {{ ", items, " },\n"))
    lines.append(SCRIPT_STRUCTS)
    for name, (size, fields) in layouts(header).items():
        items = [f"{it}: {json.dumps([at, kind, *([int(count)] if count else [])])}" for it, at, kind, count in fields]
        lines.append(laid_out(f"  {name}: {{ size: {size}, fields: {{ ", items, " } },\n"))
    return "".join(lines) + "};\n"


# What is written, by the path below the top.
TARGETS = {"c/python/etherpeel/_header.py": module, "page/header.js": script}


def main():
    words = argparse.ArgumentParser(description=__doc__, formatter_class=argparse.RawDescriptionHelpFormatter)
    words.add_argument("--check", action="store_true", help="compare in place of writing")
    is_check = words.parse_args().check
    with open(f"{HERE}/etherpeel.h", encoding="ascii") as file:
        header = Header(file.read())
    texts = {target: text_of(header) for target, text_of in TARGETS.items()}
    if not is_check:
        for target, text in texts.items():
            with open(f"{TOP}/{target}", "w", encoding="ascii") as file:
                file.write(text)
        return 0
    failed = 0
    for target, text in texts.items():
        with open(f"{TOP}/{target}", encoding="ascii") as file:
            if file.read() != text:
                failed += 1
                print(f"{target} is not what python3 c/bindings.py writes")
    print(f"{len(texts) - failed} passed, {failed} failed")
    return int(failed > 0)


if __name__ == "__main__":
    sys.exit(main())
