#!/usr/bin/env python3
"""Prints the figures of request 7 (crates/wave/specs/RundownFigures.antt, crates/recurrence/specs/PowerFailure.antt)
that a run of pumps comes to, as bit patterns.

A reckoning of documents 01 and 02 apart from the product, as in wave.py and steps.py: pumps, reservoirs and junctions
joined by pipes, in Python's floats, one rounding an operation. Of a pair that is not finite it tells the lowest section
of its node.
"""
import math
import sys

from steps import at, show, sums
from wave import above, below, bits, lift

MOST = sys.float_info.max


def rundown(g, t0, t1, speed, inflow):
    new = speed - g * ((t0 * speed) * speed + (t1 * speed) * inflow)
    return 0.0 if new < 0.0 else new


class Pumps:
    """pipes: (start, finish, S, R of each reach); nodes: (kind, figures, schedule), kind one of "pump", "reservoir" and
    "junction"; the initial (head, flow) of each section; trips: node to (trip step, G, t0, t1)."""

    def __init__(self, pipes, nodes, initial, trips):
        self.pipes, self.nodes, self.trips = pipes, nodes, trips
        self.state = [tuple(map(float, section)) for section in initial]
        self.speeds = [at(schedule, 1) if kind == "pump" else 0.0 for kind, _, schedule in nodes]
        self.inflows = [0.0] * len(nodes)
        self.steps = 0

    def laid(self):
        first = 0
        for start, finish, s, friction in self.pipes:
            yield start, finish, s, friction, first, first + len(friction)
            first += len(friction) + 1

    def value(self, node):
        trip = self.trips.get(node)
        if trip and self.steps >= trip[0]:
            return rundown(*trip[1:], self.speeds[node], self.inflows[node])
        return at(self.nodes[node][2], self.steps)

    def solve(self, node, b, t):
        """Head, speed and inflow."""
        (kind, figures, _), v = self.nodes[node], self.value(node)
        if kind == "reservoir":
            return v, 0.0, 0.0
        if kind == "junction":
            return (b - v) / t, 0.0, 0.0
        shut_off, curve, sump = figures
        y = t * (sump + (v * v) * shut_off) - b
        q = lift(curve, t, y) if y > 0.0 else 0.0
        return (b + q) / t, v, q

    def step(self):
        """False, with nothing changed but the count, where a pair is not finite; `lowest` is then its section."""
        self.steps += 1
        old, new, ends = self.state, list(self.state), [[] for _ in self.nodes]
        for start, finish, s, friction, first, last in self.laid():
            ends[start].append((-below(s, friction[0], *old[first + 1]), s, first))
            ends[finish].append((above(s, friction[-1], *old[last - 1]), s, last))
        solved = [self.solve(node, *sums([(k, s) for k, s, _ in met])) for node, met in enumerate(ends)]
        bad = [node for node, (_, v, q) in enumerate(solved) if not (math.isfinite(v) and math.isfinite(q))]
        if bad:
            self.lowest = min(section for node in bad for _, _, section in ends[node])
            return False
        for start, finish, s, friction, first, last in self.laid():
            for i in range(first + 1, last):
                cp = above(s, friction[i - first - 1], *old[i - 1])
                cm = below(s, friction[i - first], *old[i + 1])
                new[i] = ((cp - cm) / (s + s), (cp + cm) / 2.0)
            k = {section: k for met in (ends[start], ends[finish]) for k, _, section in met}
            new[first] = (solved[start][0], s * solved[start][0] - k[first])
            new[last] = (solved[finish][0], k[last] - s * solved[finish][0])
        self.state = new
        self.speeds, self.inflows = [v for _, v, _ in solved], [q for _, _, q in solved]
        return True

    def show(self, name):
        print(f"{name}, step {self.steps}")
        show("  speeds", self.speeds)
        show("  inflows", self.inflows)
        show("  heads", [h for h, _ in self.state])
        show("  flows", [q for _, q in self.state])


def pumping_main(trips):
    nodes = [("pump", (10.0, 1.5, 0.0), [1.0, 0.5]), ("reservoir", (), [3.0])]
    return Pumps([(0, 1, 0.7, [0.25])], nodes, [(4, 1.5)] * 2, trips)


def two_pumps():
    pump = (8.0, 0.0, 0.0)
    nodes = [("pump", pump, [1.0, 1.0, 0.25]), ("junction", (), [16.0]), ("pump", pump, [1.0] * 4 + [0.5])]
    pipes = [(0, 1, 1.0, [0.0]), (2, 1, 1.0, [0.0])]
    return Pumps(pipes, nodes, [(8, 8)] * 4, {0: (3, 0.25, 1.0, 0.125)})


def between_reservoirs():
    """The pump's ends are sections 3 and 4; its speed is no number at step 2."""
    nodes = [("pump", (10.0, 1.5, 0.0), [1.0]), ("reservoir", (), [2.0]), ("reservoir", (), [2.0])]
    pipes = [(1, 2, 1.0, [0.0]), (1, 0, 1.0, [0.0]), (0, 2, 1.0, [0.0])]
    return Pumps(pipes, nodes, [(2, 1)] * 6, {0: (2, 0.0, 2.0**1023, 2.0**1023)})


def run(name, pumps, steps):
    for _ in range(steps):
        if not pumps.step():
            return print(f"{name}: step {pumps.steps} stops as 40 at section {pumps.lowest}")
        pumps.show(name)


if __name__ == "__main__":
    print("rounded", bits(rundown(0.3, 2.5, 0.7, 0.1, 0.8)))
    for torque in [2.5 * (0.1 * 0.1) + (0.7 * 0.1) * 0.8, (2.5 * 0.1) * 0.1 + 0.7 * (0.1 * 0.8)]:
        print("  by another order", bits(0.1 - 0.3 * torque))
    print("minus infinity", bits(rundown(1.0, MOST, MOST, 1.0, 1.0)), "no number", rundown(0.0, MOST, MOST, 1.0, 1.0))
    run("pumping main", pumping_main({0: (2, 0.1, 0.9, 1.1)}), 3)
    run("two pumps", two_pumps(), 5)
    run("between reservoirs", between_reservoirs(), 4)
