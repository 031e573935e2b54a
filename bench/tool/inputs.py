#!/usr/bin/env python3
"""inputs.py FOLDER: inputs of the tool, made from a fixed seed.

example.txt: the 36-digit example line, 1,000,000 times. frames.txt: 100,000 frames of 60 to 1,500 bytes, of them a fifth tagged.
len_D.txt: frames of D digits, 16 MB each. cut.txt: 100,000 frames cut short.
"""
import argparse
import os
import random

words = argparse.ArgumentParser(description=__doc__, formatter_class=argparse.RawDescriptionHelpFormatter)
words.add_argument("folder", metavar="FOLDER")
out = words.parse_args().folder
os.makedirs(out, exist_ok=True)
rng = random.Random(5)


def digits(n):
    return "%0*x" % (n, rng.getrandbits(4 * n))


def frame(size):
    tag = rng.choice(["8100" + digits(4), "88a8" + digits(4) + "8100" + digits(4)]) if rng.random() < 0.2 else ""
    text = digits(24) + tag + rng.choice(["0800", "0800", "86dd"])
    return text + digits(max(2 * size - len(text), 2))


def write(name, lines):
    with open(f"{out}/{name}", "w") as f:
        f.writelines(line + "\n" for line in lines)


write("example.txt", ("ffffffffffff0200000000018100b1230800" for _ in range(1_000_000)))
write("frames.txt", (frame(rng.choice([60, 66, 90, 150, 590, 1500])) for _ in range(100_000)))
write("cut.txt", (frame(90)[: 2 * rng.randrange(0, 30)] for _ in range(100_000)))
for d in (36, 256, 1024, 4096):
    write(f"len_{d}.txt", ("ffffffffffff0200000000010800" + digits(d - 28) for _ in range(16_000_000 // (d + 1))))
