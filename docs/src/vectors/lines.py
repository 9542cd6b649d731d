#!/usr/bin/env python3
"""Writes the line call's outside vectors: crates/line_bytes/stdin and stdout.

What each call leaves in its bytes is worked out here from document 01's sentences alone ('Listing',
question 24): the line at the front of the lent slice, or an empty part where the section is not below
512 or the slice is shorter than 72 bytes; every other byte keeps its mark. Nothing of the product is
used. A NaN is printed as 7ff8000000000000, as docs/DECISIONS.md says.
"""
import pathlib
import struct

ALL = 128  # bytes that hold the lent slice, all of which the program prints
RECORD = "<QQQQQBB"  # section, four patterns, how many bytes are lent, the mark

TEN, FOUR, FOURTEEN = 0x4024000000000000, 0x4010000000000000, 0x402C000000000000
ZERO, MINUS_ZERO = 0, 1 << 63
INF, MINUS_INF = 0x7FF0000000000000, 0xFFF0000000000000
LEAST, GREATEST_SUBNORMAL, LEAST_NORMAL = 1, 0x000FFFFFFFFFFFFF, 0x0010000000000000
GREATEST, EVERY_DIGIT = 0x7FEFFFFFFFFFFFFF, 0x0123456789ABCDEF
NANS = [0x7FF8000000000000, 0x7FF0000000000001, 0xFFFFFFFFFFFFFFFF]

KINDS = [
    (TEN, FOUR, FOURTEEN, ZERO),
    (MINUS_ZERO, INF, MINUS_INF, LEAST),
    (1 << 63 | LEAST, GREATEST_SUBNORMAL, LEAST_NORMAL, GREATEST),
    (NANS[0], NANS[1], NANS[2], EVERY_DIGIT),
    (0xFEDCBA9876543210, NANS[2], MINUS_ZERO, GREATEST | 1 << 63),
]
SECTIONS = [0, 7, 9, 10, 99, 100, 511]
NOT_SECTIONS = [512, 513, 1000, 65536, (1 << 64) - 1]


def pattern(bits):
    return "%016x" % (NANS[0] if bits & ~MINUS_ZERO > INF else bits)


def line(section, values, lent):
    """The part that the line call hands back."""
    if section >= 512 or lent < 72:
        return b""
    return (" ".join([str(section)] + [pattern(v) for v in values]) + "\n").encode()


def calls():
    """Section, values and how many bytes are lent, of each call."""
    accepted = [(s, KINDS[i % len(KINDS)], 72 + 8 * i) for i, s in enumerate(SECTIONS)]  # 72 to 120
    accepted += [(s, KINDS[i % len(KINDS)], lent) for i, (s, lent) in enumerate(
        [(0, 72), (511, 72), (511, 73), (10, 73), (3, 128), (510, 127), (88, 100), (255, 128)])]
    accepted += [(s, k, 90) for s, k in zip([1, 23, 456, 78, 9], KINDS)]
    too_high = [(s, KINDS[i % len(KINDS)], lent) for i, s in enumerate(NOT_SECTIONS) for lent in (72, 128)]
    too_short = [(s, KINDS[i % len(KINDS)], lent) for i, lent in enumerate([71, 70, 64, 36, 2, 1, 0]) for s in (0, 511)]
    both = [(512, KINDS[0], 71), ((1 << 64) - 1, KINDS[3], 0)]
    return accepted + too_high + too_short + both


def marks():
    """Printable bytes that no line has, another one for each call in a row."""
    free = [b for b in range(33, 127) if chr(b) not in "0123456789abcdef"]
    while True:
        yield from free


if __name__ == "__main__":
    crate = pathlib.Path(__file__).resolve().parents[3] / "crates" / "line_bytes"
    given, left = b"", b""
    for (section, values, lent), mark in zip(calls(), marks()):
        given += struct.pack(RECORD, section, *values, lent, mark)
        part = line(section, values, lent)
        left += b"%d\n" % len(part) + part + bytes([mark]) * (ALL - len(part)) + b"\n"
    (crate / "stdin").write_bytes(given)
    (crate / "stdout").write_bytes(left)
    print(len(calls()), "calls,", len(given), "bytes")
