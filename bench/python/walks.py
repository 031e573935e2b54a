"""Walks a frame many times with the Python package, for callgrind: `python3 walks.py FOLDER DIGITS NUMBER`, where FOLDER has the package."""
import sys

if "--help" in sys.argv:
    print(__doc__)
    sys.exit(0)
if len(sys.argv) != 4:
    sys.exit(2)
sys.path.insert(0, sys.argv[1])
import etherpeel  # noqa: E402

frame = bytes.fromhex(sys.argv[2])
for _ in range(int(sys.argv[3])):
    etherpeel.walk(frame)
