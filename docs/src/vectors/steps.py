#!/usr/bin/env python3
"""Prints the figures of crates/recurrence/specs/OwnFigures.antt of runs to a valve, as bit patterns.

A reckoning of documents 01 and 02 apart from the product, as in wave.py: pipes end to end from a
reservoir over junctions to a valve, in Python's floats, one rounding an operation.
"""
import math

from wave import above, below, bits, outlet_flow


def at(schedule, step):
    return schedule[min(step, len(schedule)) - 1]


def sums(ends):
    b = t = 0.0
    for k, s in ends:
        b, t = b + k, t + s
    return b, t


class Chain:
    """Pipes (S and the R of each reach), the initial (head, flow) of each section, and schedules:
    the reservoir's level, one junction's draw-off a joint, the valve's opening."""

    def __init__(self, pipes, initial, level, draws, valve, openings):
        self.pipes, self.state = pipes, [tuple(map(float, s)) for s in initial]
        self.level, self.draws, (self.a, self.b), self.openings = level, draws, valve, openings
        self.highest = self.lowest = [h for h, _ in self.state]
        self.steps = 0

    def laid(self):
        first = 0
        for s, friction in self.pipes:
            yield first, s, friction
            first += len(friction) + 1

    def node_heads(self, k):
        """k: (K at the start, K at the finish) of each pipe."""
        yield at(self.level, self.steps)
        for number, draw in enumerate(self.draws):
            b, t = sums([(k[number][1], self.pipes[number][0]), (k[number + 1][0], self.pipes[number + 1][0])])
            yield (b - at(draw, self.steps)) / t
        b, t = sums([(k[-1][1], self.pipes[-1][0])])
        v = at(self.openings, self.steps)
        self.y = b - t * self.b
        self.q = outlet_flow(((v * self.a) * (v * self.a)) / t, self.y)
        yield math.inf if self.q is None else (b - self.q) / t

    def step(self):
        self.steps += 1
        old, new, k = self.state, list(self.state), []
        for first, s, friction in self.laid():
            last = first + len(friction)
            k.append((-below(s, friction[0], *old[first + 1]), above(s, friction[-1], *old[last - 1])))
        heads = list(self.node_heads(k))
        for number, (first, s, friction) in enumerate(self.laid()):
            last = first + len(friction)
            for i in range(first + 1, last):
                cp = above(s, friction[i - first - 1], *old[i - 1])
                cm = below(s, friction[i - first], *old[i + 1])
                new[i] = ((cp - cm) / (s + s), (cp + cm) / 2.0)
            start, finish = heads[number], heads[number + 1]
            new[first] = (start, s * start - k[number][0])
            new[last] = (finish, k[number][1] - s * finish)
        self.state = new
        self.highest = [max(m, h) for m, (h, _) in zip(self.highest, new)]
        self.lowest = [min(m, h) for m, (h, _) in zip(self.lowest, new)]


def show(name, numbers):
    print(name, *map(bits, numbers))


def two_pipes():
    initial = [(13, 4), (11, 1), (11, 4), (9, 4), (7, 5), (7, 4)]
    run = Chain([(2.0, [0.25]), (0.7, [0.5, 0.125, 0.0625])], initial, [11.0, 5.0], [[0.5]], (2.0, 6.0), [1.0, 0.5])
    for _ in range(3):
        run.step()
        print("two pipes, step %d: y = %r, q = %r" % (run.steps, run.y, run.q))
        show("heads", [h for h, _ in run.state])
        show("flows", [q for _, q in run.state])
    show("highest", run.highest)
    show("lowest", run.lowest)


def outlet(b, flow):
    """One reach, S = 0.1, no friction, at rest at b but for the flow above, to an outlet at b."""
    run = Chain([(0.1, [0.0])], [(b, flow), (b, 0)], [b], [], (2.0**400, b), [1.0])
    k = above(0.1, 0.0, *run.state[0])
    print("outlet at %r: y = %r, B/T above b: %s" % (b, k - 0.1 * b, k / 0.1 > b))
    run.step()
    show("heads", [h for h, _ in run.state])
    show("flows", [q for _, q in run.state])


if __name__ == "__main__":
    two_pipes()
    outlet(6.0, 0.0)
    outlet(2.4, 2.0**-55)
