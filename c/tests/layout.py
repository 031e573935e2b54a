"""Whether the structs of the package, and those of the page, are those that a C compiler makes of etherpeel.h: layout.py CC FOLDER, where FOLDER has
the package. Each field of each struct has the same offset and size. The last line is 'N passed, M failed'.
"""
import os
import re
import subprocess
import sys
import tempfile

from checks import check, counts, words

C = os.path.dirname(os.path.dirname(os.path.abspath(__file__)))
sys.path.insert(0, C)
import bindings  # noqa: E402

PROGRAM = """#include <etherpeel.h>
#include <stdio.h>
int main(void) {
%s    return 0;
}
"""


def fields(text, header):
    """The fields of the structs, by the names that these have in C, with their offsets and sizes in Python."""
    names = [name.lower() for name in re.findall(r"^    ETHERPEEL_STRUCT_(\w+) = ", text, re.M)]
    for name, struct in zip(names, header.STRUCTS):
        for field, _ in struct._fields_:
            found = getattr(struct, field)
            yield f"etherpeel_{name}", field, f"{found.offset} {found.size}"


def fields_of_page(text):
    """The same of the page."""
    layouts = bindings.layouts(bindings.Header(text))
    for name, (_, fields) in layouts.items():
        for field, offset, kind, count in fields:
            size = layouts[kind][0] if kind in layouts else kind
            yield f"etherpeel_{name}", field, f"{offset} {size * int(count or 1)}"


def main():
    cc, folder = words("CC", "FOLDER")
    sys.path.insert(0, folder)
    from etherpeel import _header
    with open(f"{C}/etherpeel.h", encoding="ascii") as file:
        text = file.read()
    listed = [*fields(text, _header), *fields_of_page(text)]
    lines = "".join(f'    printf("%zu %zu\\n", offsetof({struct}, {field}), sizeof((({struct} *)0)->{field}));\n' for struct, field, _ in listed)
    with tempfile.TemporaryDirectory() as work:
        with open(f"{work}/program.c", "w", encoding="ascii") as file:
            file.write(PROGRAM % lines)
        subprocess.run([cc, f"-I{C}", f"{work}/program.c", "-o", f"{work}/program"], check=True)
        found = subprocess.run([f"{work}/program"], stdout=subprocess.PIPE, text=True, check=True).stdout.splitlines()
    for (struct, field, wanted), line in zip(listed, found):
        check(f"{struct}.{field}", wanted, line)
    check("fields", (len(listed) > 300, len(found)), (True, len(listed)))
    print(f"{counts[True]} passed, {counts[False]} failed")


if __name__ == "__main__":
    main()
