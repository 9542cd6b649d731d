#!/usr/bin/env python3
"""Prints the figures of crates/wave/specs/Figures.antt that turn on rounding, as bit patterns.

Python's floats are binary64 with one rounding an operation, and the root is worked out in whole
numbers (roots.py), so this is a reckoning of document 01's equations, with document 02, 1/12, for the
valve and 2/12 for the root, apart from the product.
"""
import math
import struct
from fractions import Fraction

import roots


def pattern(x):
    return struct.unpack(">Q", struct.pack(">d", x))[0]


def bits(x):
    return "%016x" % pattern(x)


def root(x):
    """The f64 nearest the exact root, ties to the even last bit."""
    return struct.unpack(">d", struct.pack(">Q", roots.root(pattern(x))))[0]


def root_cut_down(x):
    """The root of document 01, which request 2 replaced."""
    nearest = root(x)
    return math.nextafter(nearest, 0.0) if Fraction(nearest) ** 2 > Fraction(x) else nearest


def root_rounded_up(x):
    nearest = root(x)
    return math.nextafter(nearest, math.inf) if Fraction(nearest) ** 2 < Fraction(x) else nearest


# Python's own root is the machine's, which is to nearest.
for x in [2.0, 3.0, 0.1, 144.0, 1.0 + 2.0**-52, 4.0 - 2.0**-51, 5e-324, 3e-310, 1.7976931348623157e308]:
    assert root(x) == math.sqrt(x)
assert bits(root(2.0)).endswith("cd") and bits(root_cut_down(2.0)).endswith("cc")


def above(s, r, h, q):
    return (q + s * h) - (r * q) * (-q if q < 0 else q)


def below(s, r, h, q):
    return (q - s * h) - (r * q) * (-q if q < 0 else q)


def orifice_argument(w, z):
    return w * w + 4.0 * (w * z)


def orifice(w, z, root=root):
    return ((z + z) * w) / (w + root(orifice_argument(w, z)))


def outlet_flow(w, y):
    """q of a valve into open air; none where the argument of the root that is taken is not finite."""
    if not y > 0.0 or w == 0.0:
        return 0.0
    return orifice(w, y) if math.isfinite(orifice_argument(w, y)) else None


def lift(b, t, y, root=root):
    return (y + y) / (1.0 + root(1.0 + 4.0 * ((b * t) * y)))


# B at T = 0.1: y above zero though B/T is b = 2.4, and y = 0 though B/T is above b = 6.
ABOVE_BY_Y = 0.1 * 2.4 + 2.0**-55
LEVEL_BY_Y = 0.1 * 6.0
assert ABOVE_BY_Y - 0.1 * 2.4 > 0 and ABOVE_BY_Y / 0.1 == 2.4
assert LEVEL_BY_Y - 0.1 * 6.0 == 0 and LEVEL_BY_Y / 0.1 > 6.0

# w and z, and b, T and y, whose q another root would change: one cut down; one rounded up, where the exact root lies
# just below the middle of two f64 (argument 1 + 2^-52, and 16 times that).
TO_NEAREST, BELOW_MIDDLE = (2.0, 3.0), (2.0**-26, 2.0**24)
LIFT_TO_NEAREST, LIFT_BELOW_MIDDLE = (1.5, 0.5, 3.0), (1.0, 1.0, 3.75 + 2.0**-50)
assert orifice(*TO_NEAREST, root_cut_down) != orifice(*TO_NEAREST)
assert orifice(*BELOW_MIDDLE, root_rounded_up) != orifice(*BELOW_MIDDLE)
assert lift(*LIFT_TO_NEAREST, root_cut_down) != lift(*LIFT_TO_NEAREST)
assert lift(*LIFT_BELOW_MIDDLE, root_rounded_up) != lift(*LIFT_BELOW_MIDDLE)

# w and z, and b, T and y, whose q another order of the operations would change too.
ROUNDED, LIFT_ROUNDED = (1.3, 1.2), (0.6, 0.7, 0.8)


def orifice_otherwise(w, z):
    r = root(orifice_argument(w, z))
    other_root = root(w * (w + 4.0 * z))
    return [(z + z) * (w / (w + r)), (z + z) / (w + r) * w, (z + z) * w / (w + other_root), (r - w) / 2.0]


def lift_otherwise(b, t, y):
    return [(y + y) / (1.0 + root(1.0 + 4.0 * product)) for product in [b * (t * y), (b * y) * t]]


assert orifice(*ROUNDED) not in [orifice(*ROUNDED, root_cut_down), *orifice_otherwise(*ROUNDED)]
assert lift(*LIFT_ROUNDED) not in [lift(*LIFT_ROUNDED, root_cut_down), *lift_otherwise(*LIFT_ROUNDED)]

FIGURES = {
    "above-rounded": above(1.2, 0.7, 1.2, -0.9),
    "below-rounded": below(1.2, 0.7, 1.2, -0.9),
    "inner-rounded head": (0.1 - -4.0) / (0.3 + 0.3),
    "inner-rounded flow": (0.1 + -4.0) / 2.0,
    "junction-rounded": (0.3 - 0.1) / 0.4,
    "valve-w-rounded": ((0.1 * 1.1) * (0.1 * 1.1)) / 1.7,
    "orifice-rounded": orifice(*ROUNDED),
    "orifice-to-nearest": orifice(*TO_NEAREST),
    "orifice-below-middle": orifice(*BELOW_MIDDLE),
    "orifice-subnormal": orifice_argument(2.0**-600, 3 * 2.0**-476),
    "valve-above-by-y B": ABOVE_BY_Y,
    "valve-above-by-y q": outlet_flow((2.0 * 2.0) / 0.1, ABOVE_BY_Y - 0.1 * 2.4),
    "valve-level-by-y B": LEVEL_BY_Y,
    "valve-level-by-y q": outlet_flow((2.0**400 * 2.0**400) / 0.1, LEVEL_BY_Y - 0.1 * 6.0),
    "valve-level-by-y H": LEVEL_BY_Y / 0.1,
    "pump-h-rounded": 0.1 + (0.1 * 0.1) * 2.3,
    "lift-rounded": lift(*LIFT_ROUNDED),
    "lift-to-nearest": lift(*LIFT_TO_NEAREST),
    "lift-below-middle": lift(*LIFT_BELOW_MIDDLE),
    "lift-near-overflow": lift(2.0**1023, 1.0, 2.0**-11),
    "pump-H-rounded": (0.2 + 0.1) / 0.3,
}

if __name__ == "__main__":
    for name, value in FIGURES.items():
        print(bits(value), name)
