"""`ether_tool` over a frame with a VLAN tag, many times."""
from . import builds, callgrind

FRAME = "ffffffffffff3aeeb62ff6d78100b12308004500001c00010000400100000a0900020a0900010800f7fd00010001\n"
TIMES = 20_000


def rows(build, room):
    """The instructions of a line."""
    builds.write(room, {"frames": FRAME * TIMES})
    yield "ether_tool eth", callgrind.total([build.tool, "eth"], f"{room}/frames") / TIMES, None
