"""What the tests of the package in Python are written with: words of the command line, checks that are counted, and frames."""
import argparse
import sys

counts = {True: 0, False: 0}


def words(*names):
    """The words of the command line, by their names; one in brackets may be left out. --help prints what the script says of itself."""
    parser = argparse.ArgumentParser(description=sys.modules["__main__"].__doc__, formatter_class=argparse.RawDescriptionHelpFormatter)
    for name in names:
        parser.add_argument(name.strip("[]"), nargs="?" if name.startswith("[") else None)
    return list(vars(parser.parse_args()).values())


def check(what, found, expected):
    counts[found == expected] += 1
    if found != expected:
        print(f"{what}: {found!r} and not {expected!r}")


def raised(call, *words, **named):
    """The kind of exception that a call raises, or None."""
    try:
        call(*words, **named)
    except Exception as error:
        return type(error)
    return None


ADDRESSES = bytes.fromhex("ffffffffffff020000000001")
TAGGED = ADDRESSES + bytes.fromhex("8100b123080045")
ARP = ADDRESSES + bytes.fromhex("0806 0001080006040001 020000000001 0a000001 000000000000 0a000002")
