#!/usr/bin/env python3
"""Writes the root's outside vectors: crates/root_vectors/stdin and stdout.

The roots are worked out here in Python's whole numbers, from the sentence of document 02, 2/12, alone:
"The root becomes the f64 nearest the exact root, ties to the even last bit, still +0 for either zero,
judged over whole numbers; 2 now ends in cd". Nothing of the product is used.
"""
import math
import pathlib
import random

LEAST = -1074  # the exponent of the least subnormal


def root(bits):
    """The pattern of the root of the pattern `bits`, or None where question 23 refuses it."""
    sign, field, low = bits >> 63, bits >> 52 & 2047, bits & (1 << 52) - 1
    if field == 2047 or (sign and (field or low)):
        return None
    if not field and not low:
        return 0
    digits, power = (low, LEAST) if field == 0 else (low | 1 << 52, field - 1 + LEAST)
    # in units of 2^-1074 the root is the root of the argument in units of 2^-2148; it has over 53 digits
    square = digits << power - 2 * LEAST
    units = math.isqrt(square)
    cut = units.bit_length() - 53
    kept = units >> cut
    # the middle between the f64 at or below the root and the next one
    middle = (2 * kept + 1) << cut - 1
    up = square > middle**2 or square == middle**2 and kept % 2 == 1
    # a significand of 2^53 carries into the exponent
    return (cut << 52) + kept + up


for argument, nearest in [(0x4000000000000000, 0x3FF6A09E667F3BCD), (0x3FF0000000000001, 0x3FF0000000000000),
                          (0x400FFFFFFFFFFFFF, 0x3FFFFFFFFFFFFFFF), (1, 0x1E60000000000000)]:
    assert root(argument) == nearest


def vectors():
    # among them: an argument whose rest equals its whole root (3ff0000000000001), and the one just below 4, whose
    # root rounded up would carry into the exponent
    edges = [0, 1, 2, 3, 0x000FFFFFFFFFFFFF, 0x0010000000000000, 0x0010000000000001, 0x001FFFFFFFFFFFFF,
             0x0020000000000000, 0x3FEFFFFFFFFFFFFF, 0x3FF0000000000000, 0x3FF0000000000001, 0x3FF0000000000002,
             0x3FF0000000000003, 0x3FFFFFFFFFFFFFFF, 0x4000000000000000, 0x400FFFFFFFFFFFFE, 0x400FFFFFFFFFFFFF,
             0x4010000000000000, 0x4010000000000001, 0x4062000000000000, 0x7FEFFFFFFFFFFFFE, 0x7FEFFFFFFFFFFFFF,
             0x7FF0000000000000, 0x8000000000000000, 0x8000000000000001, 0xBFF0000000000000,
             0xFFEFFFFFFFFFFFFF, 0xFFF0000000000000]
    rng = random.Random(1)
    squares = []
    for _ in range(60):  # the exact square of a number of 26 digits, and the f64 just below and above it
        n = rng.randrange(1 << 25, 1 << 26) ** 2
        k = 53 - n.bit_length()
        p = (1075 - k << 52) + (n << k) - (1 << 52)
        squares += [p - 1, p, p + 1]
    subnormal = [rng.getrandbits(rng.randrange(1, 53)) for _ in range(120)]
    normal = [rng.randrange(0x0010000000000000, 0x7FF0000000000000) for _ in range(140)]
    return edges + squares + subnormal + normal


if __name__ == "__main__":
    crate = pathlib.Path(__file__).resolve().parents[3] / "crates" / "root_vectors"
    patterns = vectors()
    assert len(patterns) <= 512, "more than the program's buffer holds"
    (crate / "stdin").write_bytes(b"".join(b.to_bytes(8, "little") for b in patterns))
    answers = ["refused 23" if root(b) is None else "%016x" % root(b) for b in patterns]
    (crate / "stdout").write_text("".join(a + "\n" for a in answers))
    print(len(patterns), "vectors")
