"""Jobs by their parts, for jobs.py, jobs_six_pairs.py and jobs_seven_pairs.py. Nothing of the product is used."""
import copy
import math
import struct

TINY = 5e-324  # the least f64 above zero
NAN, INF = math.nan, math.inf


def f64(x):
    return struct.pack("<d", x)


class Job:
    """A job by its parts; `changed` makes one with other parts, `long` one that counts in table 6."""

    def __init__(self, pipes, nodes, schedules, steps=1):
        self.steps = steps
        self.count = None  # the count of pairs, where it is not that of the tables
        self.table5 = None  # table 5, where it is not that of the schedules
        self.table6 = None  # table 6, where it has a pair
        self.table7 = None  # table 7, where it has a pair; table 6 has one then too
        self.pipes, self.nodes, self.schedules = pipes, nodes, schedules
        reaches = sum(n for _, _, n, _ in pipes)
        self.sections = reaches + len(pipes)
        self.friction = [0.5] * reaches
        self.initial = [(10.0, 4.0, 0.0)] * self.sections
        self.odd = [b""] * 7  # bytes at the end of a table that make no record
        self.pairs = None  # the pairs, where they are not those of the tables
        self.after = b""  # bytes after the last table

    def changed(self, **parts):
        other = copy.deepcopy(self)
        for name, value in parts.items():
            setattr(other, name, value)
        return other

    def long(self):
        return self.changed(table6=b"".join(struct.pack("<H", len(v)) for v in self.schedules))

    def entries(self):
        return b"".join(f64(x) for v in self.schedules for x in v)

    def tables(self):
        width = 0 if self.table6 else 255
        bodies = [
            b"".join(struct.pack("<BBH", s, e, n) + f64(c) for s, e, n, c in self.pipes),
            b"".join(struct.pack("<BB", k, len(v) & width if m is None else m) + f64(a) + f64(b) + f64(c)
                     for (k, a, b, c, m), v in zip(self.nodes, self.schedules)),
            b"".join(f64(r) for r in self.friction),
            b"".join(f64(h) + f64(q) + f64(z) for h, q, z in self.initial),
            self.entries() if self.table5 is None else self.table5,
        ]
        if self.table6 is not None or self.table7 is not None:
            bodies.append(self.table6 or b"")
        if self.table7 is not None:
            bodies.append(self.table7)
        return [body + odd for body, odd in zip(bodies, self.odd)]

    def laid(self):
        pairs, at = [], 6 + 8 * len(self.tables())
        for body in self.tables():
            pairs.append((at, len(body)))
            at += len(body)
        return pairs

    def bytes(self):
        pairs = self.laid() if self.pairs is None else self.pairs
        count = len(self.tables()) if self.count is None else self.count
        head = struct.pack("<HI", count, self.steps) + b"".join(struct.pack("<II", *p) for p in pairs)
        return head + b"".join(self.tables()) + self.after

    def held(self):
        return "accepted %d %d" % (self.sections, self.steps)


def node(kind, a=0.0, b=0.0, c=0.0, count=None):
    """A node; `count` is the byte of its record where it is not the number of its entries, nor 0 beside table 6."""
    return (kind, a, b, c, count)


def trips(*records):
    """Table 7, of records (node, trip step, G, t0, t1)."""
    return b"".join(struct.pack("<HI", y, step) + f64(g) + f64(t0) + f64(t1) for y, step, g, t0, t1 in records)


def chain(reaches, steps=1, entries=1):
    """A chain from a reservoir to a valve, with junctions between."""
    n = len(reaches)
    pipes = [(i, i + 1, r, 1.0) for i, r in enumerate(reaches)]
    nodes = [node(1)] + [node(0)] * (n - 1) + [node(2, 2.0, 6.0)]
    schedules = [[10.0] * entries] + [[0.0] * entries] * (n - 1) + [[0.5] * entries]
    return Job(pipes, nodes, schedules, steps)


def put(items, i, value):
    return items[:i] + [value] + items[i + 1:]


JOB_Q = chain([2]).changed(friction=[0.0, 0.0], schedules=[[10.0], [0.0]])

# a reservoir, a valve, a pump and a junction; two pipes
KINDS = Job(
    [(0, 1, 1, 1.0), (2, 3, 3, 2.0)],
    [node(1), node(2, 2.0, 6.0), node(3, 10.0, 1.5, -3.0), node(0)],
    [[10.0], [1.0, 0.5, 0.25], [1.0, 0.0], [-4.0]],
    7,
)

# two pumps that deliver to a reservoir; one trips at step 3, the other at step 2
TRIP, OTHER = (1, 3, 0.5, 1.0, 2.0), (0, 2, 0.25, 0.0, 1.0)
PUMPS = Job(
    [(0, 2, 1, 1.0), (1, 2, 1, 2.0)],
    [node(3, 10.0, 1.5, -3.0), node(3, 8.0, 1.0), node(1)],
    [[1.0], [0.5], [10.0]],
    5,
).changed(table7=trips(TRIP, OTHER))
