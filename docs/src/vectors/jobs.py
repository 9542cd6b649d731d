#!/usr/bin/env python3
"""Writes the reader's outside vectors: crates/job_vectors/stdin and stdout, and jobs.txt beside this file.

Each job is built here from pipes, nodes and numbers, and its answer is stated with it, from the questions of
documents 01 and 02: what was done to a good job says which question gets the first no. Nothing of the
product is used. job_reader.py, which reads jobs apart from these statements, must answer the same; with each
slip that it knows it must answer otherwise somewhere.
"""
import pathlib
import struct

import job_reader
import jobs_seven_pairs
import jobs_six_pairs
from job_parts import INF, JOB_Q, KINDS, NAN, TINY, Job, chain, node, put


def size():
    """Question 1."""
    q = JOB_Q.bytes()
    # 8 pipes, 9 nodes, 504 reaches, 512 sections, 2,009 schedule entries
    full = chain([63] * 8, 1000000)
    full.schedules = [[v[0]] * n for v, n in zip(full.schedules, [223] * 8 + [225])]
    assert len(full.bytes()) == 32768
    yield "no bytes", b"", "refused 1"
    yield "one byte", q[:1], "refused 1"
    yield "45 bytes", q[:45], "refused 1"
    none = struct.pack("<HI", 5, 1) + struct.pack("<II", 46, 0) * 5
    yield "46 bytes: five tables with nothing in them", none, "refused 5"
    yield "45 bytes and too many steps and pairs", struct.pack("<HI", 9, 2000000) + bytes(39), "refused 1"
    yield "32,768 bytes, 512 sections, 1,000,000 steps", full.bytes(), full.held()
    yield "32,769 bytes", full.bytes() + b"\0", "refused 1"


def pairs():
    """Questions 2 to 4."""
    q = JOB_Q
    laid = q.laid()
    end = laid[4][0] + laid[4][1]
    for n in (0, 1, 2, 3, 4, 8, 9, 256 * 5, 256 * 6, 256 * 7, 65535):
        yield "%d pairs" % n, q.changed(count=n).bytes(), "refused 2"
    yield "four pairs and too many steps", q.changed(count=4, steps=2000000).bytes(), "refused 2"
    for what, i, pair in [
        ("the first table begins at 45", 0, (45, 13)),
        ("the first table begins at 47", 0, (47, 11)),
        ("a gap before the second table", 1, (laid[1][0] + 1, laid[1][1] - 1)),
        ("the second table begins inside the first", 1, (laid[1][0] - 1, laid[1][1] + 1)),
        ("the last table ends one byte early", 4, (laid[4][0], laid[4][1] - 1)),
        ("the last table ends past the file", 4, (laid[4][0], laid[4][1] + 1)),
        ("the third offset lies past the file", 2, (100000, laid[2][1])),
        ("the last offset is the greatest", 4, (2**32 - 1, laid[4][1])),
    ]:
        yield what, q.changed(pairs=put(laid, i, pair)).bytes(), "refused 3"
    # an offset and a length that come to 2^32 and a little: in 32 bits they would be that little
    wrapped = [(46, 12), (58, 2**32 - 12), (46, 0), (46, 0), (46, end - 46)]
    yield "the second table ends past 2^32, and the third begins where 32 bits would have it", q.changed(pairs=wrapped).bytes(), "refused 3"
    last = [(46, 12), (58, 2**32 - 1 - 58), (2**32 - 1, 0), (2**32 - 1, 0), (2**32 - 1, end + 1)]
    yield "the fifth table ends past 2^32, and with the file in 32 bits", q.changed(pairs=last).bytes(), "refused 3"
    swapped = [laid[1], laid[0]] + laid[2:]
    yield "the pairs of tables 1 and 2 in the other order", q.changed(pairs=swapped).bytes(), "refused 3"
    yield "a byte after the fifth table", q.changed(after=b"\0").bytes(), "refused 3"
    yield "a byte after the fifth table and too many steps", q.changed(after=b"\0", steps=1000001).bytes(), "refused 3"
    yield "1,000,000 steps", q.changed(steps=1000000).bytes(), "accepted 3 1000000"
    yield "0 steps", q.changed(steps=0).bytes(), "accepted 3 0"
    yield "1,000,001 steps", q.changed(steps=1000001).bytes(), "refused 4"
    yield "4,294,967,295 steps", q.changed(steps=2**32 - 1).bytes(), "refused 4"
    yield "too many steps, and no pipe", q.changed(steps=1000001, pipes=[], friction=[], initial=[]).bytes(), "refused 4"


def pipes():
    """Questions 5 to 9."""
    q = JOB_Q
    odd = lambda job, t, b: job.changed(odd=put(job.odd, t, b))
    yield "a byte over in table 1", odd(q, 0, b"\0").bytes(), "refused 5"
    yield "11 bytes over in table 1", odd(q, 0, bytes(11)).bytes(), "refused 5"
    yield "no pipe", q.changed(pipes=[]).bytes(), "refused 5"
    yield "no pipe, and one node", q.changed(pipes=[], nodes=q.nodes[:1], schedules=q.schedules[:1]).bytes(), "refused 5"
    net = lambda count: Job([(0, 1, 1, 1.0)] * count, q.nodes, q.schedules)
    yield "32 pipes", net(32).bytes(), "accepted 64 1"
    yield "33 pipes", net(33).bytes(), "refused 5"
    yield "a byte over in table 2", odd(q, 1, b"\0").bytes(), "refused 6"
    yield "one node", q.changed(nodes=q.nodes[:1], schedules=q.schedules[:1]).bytes(), "refused 6"
    many = lambda count: chain([1] * (count - 1))
    yield "32 nodes", many(32).bytes(), "accepted 62 1"
    more = many(32)
    yield "33 nodes", more.changed(nodes=more.nodes + [node(0)], schedules=more.schedules + [[0.0]]).bytes(), "refused 6"
    yield "one node and a pipe whose ends are one node", q.changed(nodes=q.nodes[:1], schedules=q.schedules[:1], pipes=[(0, 0, 2, 1.0)]).bytes(), "refused 6"
    for what, pipe in [
        ("a pipe from node 1 to node 1", (1, 1, 2, 1.0)),
        ("a start node that is not there", (2, 1, 2, 1.0)),
        ("a finish node that is not there", (0, 2, 2, 1.0)),
        ("finish node 255", (0, 255, 2, 1.0)),
        ("no reach", (0, 1, 0, 1.0)),
        ("512 reaches", (0, 1, 512, 1.0)),
        ("65,535 reaches", (0, 1, 65535, 1.0)),
    ]:
        yield what, q.changed(pipes=[pipe]).bytes(), "refused 7"
    yield "511 reaches", chain([511]).bytes(), "accepted 512 1"
    late = chain([300, 300, 1])
    yield "too many sections, and a pipe of one node after them", late.changed(pipes=put(late.pipes, 2, (2, 2, 1, 1.0))).bytes(), "refused 7"
    yield "512 sections of two pipes", chain([509, 1]).bytes(), "accepted 512 1"
    yield "513 sections", chain([510, 1]).bytes(), "refused 8"
    three = chain([2, 2, 2])
    yield "8 is asked before 9", chain([510, 1]).changed(pipes=[(0, 1, 510, 0.0), (1, 2, 1, 1.0)]).bytes(), "refused 8"
    yield "sections that 16 bits would lose", Job([(0, 1, 511, 1.0)] * 32, q.nodes, q.schedules).changed(friction=[], initial=[]).bytes(), "refused 8"
    for what, c in [("0", 0.0), ("-0", -0.0), ("below zero", -1.0), ("the least below zero", -TINY), ("infinite", INF), ("minus infinite", -INF), ("a NaN", NAN)]:
        yield "S is " + what, q.changed(pipes=[(0, 1, 2, c)]).bytes(), "refused 9"
    yield "S of the last pipe is 0", three.changed(pipes=put(three.pipes, 2, (2, 3, 2, 0.0))).bytes(), "refused 9"
    yield "S is the least above zero", q.changed(pipes=[(0, 1, 2, TINY)]).bytes(), "accepted 3 1"
    yield "S is the greatest", q.changed(pipes=[(0, 1, 2, 1.7976931348623157e308)]).bytes(), "accepted 3 1"


def nodes():
    """Questions 10 to 12."""
    q, kinds = JOB_Q, KINDS
    with_node = lambda job, y, n: job.changed(nodes=put(job.nodes, y, n))
    yield "9 is asked before 10", with_node(q.changed(pipes=[(0, 1, 2, 0.0)]), 0, node(9)).bytes(), "refused 9"
    yield "kind 4", with_node(q, 0, node(4)).bytes(), "refused 10"
    yield "kind 255", with_node(q, 1, node(255)).bytes(), "refused 10"
    yield "a schedule count of 0", with_node(q, 1, node(2, 2.0, 6.0, count=0)).bytes(), "refused 10"
    yield "no schedule entry at all", q.changed(schedules=[[10.0], []]).bytes(), "refused 10"
    yield "the first node fails 11, the last 10", with_node(with_node(kinds, 0, node(1, 1.0)), 3, node(4)).bytes(), "refused 10"
    good = [
        ("valve a is -0", 1, node(2, -0.0, 6.0)),
        ("valve a is 0 and b below zero", 1, node(2, 0.0, -6.0)),
        ("pump a and b are -0, c below zero", 2, node(3, -0.0, -0.0, -7.5)),
    ]
    for what, y, n in good:
        yield what, with_node(kinds, y, n).bytes(), kinds.held()
    for what, y, n in [
        ("valve a below zero", 1, node(2, -1.0, 6.0)),
        ("valve a the least below zero", 1, node(2, -TINY, 6.0)),
        ("valve a infinite", 1, node(2, INF, 6.0)),
        ("valve a a NaN", 1, node(2, NAN, 6.0)),
        ("valve b infinite", 1, node(2, 2.0, -INF)),
        ("valve b a NaN", 1, node(2, 2.0, NAN)),
        ("valve c -0", 1, node(2, 2.0, 6.0, -0.0)),
        ("valve c 1", 1, node(2, 2.0, 6.0, 1.0)),
        ("valve c the least above zero", 1, node(2, 2.0, 6.0, TINY)),
        ("valve c a NaN", 1, node(2, 2.0, 6.0, NAN)),
        ("pump a below zero", 2, node(3, -10.0, 1.5, -3.0)),
        ("pump b below zero", 2, node(3, 10.0, -1.5, -3.0)),
        ("pump b infinite", 2, node(3, 10.0, INF, -3.0)),
        ("pump c a NaN", 2, node(3, 10.0, 1.5, NAN)),
        ("pump c infinite", 2, node(3, 10.0, 1.5, INF)),
        ("reservoir a -0", 0, node(1, -0.0)),
        ("reservoir b 1", 0, node(1, 0.0, 1.0)),
        ("reservoir c the least above zero", 0, node(1, 0.0, 0.0, TINY)),
        ("junction a 1", 3, node(0, 1.0)),
        ("junction b -0", 3, node(0, 0.0, -0.0)),
        ("junction c a NaN", 3, node(0, 0.0, 0.0, NAN)),
    ]:
        yield what, with_node(kinds, y, n).bytes(), "refused 11"
    lone = kinds.changed(nodes=kinds.nodes + [node(0)], schedules=kinds.schedules + [[0.0]])
    yield "the last node has no pipe end", lone.bytes(), "refused 12"
    first = kinds.changed(pipes=[(1, 2, 1, 1.0), (2, 3, 3, 2.0)])
    yield "node 0 has no pipe end", first.bytes(), "refused 12"
    yield "11 is asked before 12", with_node(lone, 3, node(0, 1.0)).bytes(), "refused 11"
    yield "12 is asked before 13", lone.changed(friction=kinds.friction[1:]).bytes(), "refused 12"
    yield "each node at one end only", kinds.bytes(), kinds.held()


def values():
    """Questions 13 to 15."""
    q, kinds = JOB_Q, KINDS
    odd = lambda job, t, b: job.changed(odd=put(job.odd, t, b))
    r = lambda i, x: kinds.changed(friction=put(kinds.friction, i, x))
    yield "an R too few", kinds.changed(friction=kinds.friction[1:]).bytes(), "refused 13"
    yield "an R too many", kinds.changed(friction=kinds.friction + [0.0]).bytes(), "refused 13"
    yield "a byte over in table 3", odd(kinds, 2, b"\0").bytes(), "refused 13"
    yield "no R", kinds.changed(friction=[]).bytes(), "refused 13"
    for what, x in [("below zero", -0.25), ("the least below zero", -TINY), ("infinite", INF), ("a NaN", NAN)]:
        yield "the first R is " + what, r(0, x).bytes(), "refused 13"
        yield "the last R is " + what, r(3, x).bytes(), "refused 13"
    yield "R is -0", r(1, -0.0).bytes(), kinds.held()
    yield "R is the greatest", r(1, 1.7976931348623157e308).bytes(), kinds.held()
    s = lambda i, x: kinds.changed(initial=put(kinds.initial, i, x))
    yield "13 is asked before 14", r(3, NAN).changed(initial=kinds.initial[1:]).bytes(), "refused 13"
    yield "a section too few", kinds.changed(initial=kinds.initial[1:]).bytes(), "refused 14"
    yield "a section too many", kinds.changed(initial=kinds.initial + [(0.0, 0.0, 0.0)]).bytes(), "refused 14"
    yield "8 bytes over in table 4", odd(kinds, 3, bytes(8)).bytes(), "refused 14"
    for what, x in [
        ("a head that is a NaN", (NAN, 0.0, 0.0)),
        ("an infinite head", (INF, 0.0, 0.0)),
        ("an infinite flow", (1.0, -INF, 0.0)),
        ("a flow that is a NaN", (1.0, NAN, 0.0)),
        ("a floor that is a NaN", (1.0, 0.0, NAN)),
        ("a floor of minus infinity", (1.0, 0.0, -INF)),
        ("a head below its floor", (1.0, 0.0, 2.0)),
        ("a head just below its floor", (0.0, 0.0, TINY)),
    ]:
        yield "first section: " + what, s(0, x).bytes(), "refused 14"
        yield "last section: " + what, s(5, x).bytes(), "refused 14"
    yield "a head on its floor", s(5, (7.0, 1.0, 7.0)).bytes(), kinds.held()
    yield "a head of -0 on a floor of 0", s(0, (-0.0, 1.0, 0.0)).bytes(), kinds.held()
    v = lambda y, i, x: kinds.changed(schedules=put(kinds.schedules, y, put(kinds.schedules[y], i, x)))
    yield "14 is asked before 15", s(5, (1.0, 0.0, 2.0)).changed(schedules=put(kinds.schedules, 0, [NAN])).bytes(), "refused 14"
    counts = lambda y, m: kinds.changed(nodes=put(kinds.nodes, y, kinds.nodes[y][:4] + (m,)))
    yield "a schedule count one more than the entries", counts(3, 2).bytes(), "refused 15"
    yield "a schedule count one fewer than the entries", counts(1, 2).bytes(), "refused 15"
    yield "8 bytes over in table 5", odd(kinds, 4, bytes(8)).bytes(), "refused 15"
    yield "a byte over in table 5", odd(kinds, 4, b"\0").bytes(), "refused 15"
    for what, y, i, x, want in [
        ("the reservoir's head is infinite", 0, 0, INF, False),
        ("the reservoir's head is -2", 0, 0, -2.0, True),
        ("the valve's first opening is a NaN", 1, 0, NAN, False),
        ("the valve's last opening is just above 1", 1, 2, 1.0000000000000002, False),
        ("the valve's last opening is 1", 1, 2, 1.0, True),
        ("the valve's opening is -0", 1, 1, -0.0, True),
        ("the valve's opening is the least below zero", 1, 1, -TINY, False),
        ("the pump's first speed is 2", 2, 0, 2.0, False),
        ("the pump's last speed is -1", 2, 1, -1.0, False),
        ("the pump's speed is the least above zero", 2, 1, TINY, True),
        ("the junction draws 1e308", 3, 0, 1e308, True),
        ("the junction draws -1e308", 3, 0, -1e308, True),
        ("the junction draws a NaN", 3, 0, NAN, False),
    ]:
        yield what, v(y, i, x).bytes(), kinds.held() if want else "refused 15"
    long = q.changed(schedules=[[10.0], [0.5] * 255])
    yield "255 entries", long.bytes(), "accepted 3 1"
    yield "255 entries, the last above 1", long.changed(schedules=[[10.0], [0.5] * 254 + [1.5]]).bytes(), "refused 15"
    yield "ranges go by the node's kind, not by the entry", kinds.changed(schedules=[[2.0], [1.0, 0.5, 0.25], [1.0, 0.0], [2.0]]).bytes(), kinds.held()


def check(rows):
    """The reader of job_reader.py against what is stated, as it should be and with each slip."""
    for what, job, answer in rows:
        assert job_reader.read(job) == answer, (what, answer, job_reader.read(job))
    for slip in job_reader.SLIPS:
        told = [what for what, job, answer in rows if job_reader.read(job, slip) != answer]
        assert told, "no job tells the slip '%s'" % slip
        print("%3d jobs tell the slip '%s'" % (len(told), slip))


def main():
    here = pathlib.Path(__file__).resolve()
    crate = here.parents[3] / "crates" / "job_vectors"
    rows = [("job Q", JOB_Q.bytes(), "accepted 3 1"), ("all four kinds", KINDS.bytes(), "accepted 6 7")]
    for part in (size, pairs, pipes, nodes, values, *jobs_six_pairs.PARTS, *jobs_seven_pairs.PARTS):
        rows += list(part())
    check(rows)
    assert len(JOB_Q.bytes()) == 214
    (crate / "stdin").write_bytes(b"".join(struct.pack("<I", len(b)) + b for _, b, _ in rows))
    (crate / "stdout").write_text("".join(answer + "\n" for _, _, answer in rows))
    here.with_suffix(".txt").write_text("".join("%s: %s\n" % (answer, what) for what, _, answer in rows))
    print(len(rows), "jobs")


if __name__ == "__main__":
    main()
