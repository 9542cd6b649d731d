#!/usr/bin/env python3
"""table.py PROGRAM: what PROGRAM prints, one decimal number a line, is the numbers of the constant in
crates/whole_root/src/table.rt as they stand there, in the same order."""
import pathlib
import re
import subprocess
import sys

TOP = pathlib.Path(__file__).resolve().parents[3]


def main():
    source = (TOP / "crates/whole_root/src/table.rt").read_text()
    constants = re.findall(r"^const ROOTS: \[u16; 768\] = \[\n(.*?)^\];$", source, re.M | re.S)
    if len(constants) != 1:
        print("the constant stands %d times in table.rt" % len(constants))
        return 1
    numbers = re.findall(r"\d+", re.sub(r"//.*", "", constants[0]))
    printed = subprocess.run([sys.argv[1]], stdin=subprocess.DEVNULL, capture_output=True, check=True).stdout.decode("ascii")
    if printed != "".join(number + "\n" for number in numbers) or len(numbers) != 768:
        lines = printed.split("\n")[:-1]
        place = next((k for k, pair in enumerate(zip(numbers, lines)) if pair[0] != pair[1]), min(len(numbers), len(lines)))
        print("the constant has %d numbers, the program prints %d lines; they first differ at entry %d" % (len(numbers), len(lines), 256 + place))
        return 1
    print("the table worked out afresh has the constant's 768 numbers, in their order")
    return 0


sys.exit(main())
