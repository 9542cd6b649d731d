"""Jobs of seven pairs for jobs.py, request 7 of document 02: the forms, question 53, and the eighth pair."""
import struct

from job_parts import INF, JOB_Q, KINDS, NAN, OTHER, PUMPS, TINY, TRIP, Job, chain, node, put, trips

EMPTY_Q = JOB_Q.changed(table7=b"")
LONG_Q = JOB_Q.long().changed(table7=b"")
LONG_PUMPS = PUMPS.long()
# 32 pumps in a ring, each of which trips, the last first
RING = Job([(i, (i + 1) % 32, 1, 1.0) for i in range(32)], [node(3, 10.0, 1.0)] * 32, [[1.0]] * 32)
RING = RING.changed(table7=trips(*((31 - i, i, 0.5, 1.0, 2.0) for i in range(32))))


def with_trips(job, *records):
    return job.changed(table7=trips(*records))


def forms():
    """Tables 6 and 7, each empty and full."""
    assert (len(EMPTY_Q.bytes()), len(LONG_Q.bytes()), len(PUMPS.bytes())) == (230, 234, 360)
    yield "job Q, seven pairs, tables 6 and 7 empty", EMPTY_Q.bytes(), "accepted 3 1"
    yield "job Q, seven pairs, a full table 6 and an empty table 7", LONG_Q.bytes(), "accepted 3 1"
    for form, job in [("an empty table 6", PUMPS), ("a full table 6", LONG_PUMPS)]:
        yield form + ": two pumps, both in table 7", job.bytes(), "accepted 4 5"
        yield form + ": two pumps, one in table 7", with_trips(job, TRIP).bytes(), "accepted 4 5"
        yield form + ": two pumps, table 7 empty", with_trips(job).bytes(), "accepted 4 5"
    yield "32 pumps, each in table 7", RING.bytes(), "accepted 64 1"
    yield "a full table 6, 32 pumps, each in table 7", RING.long().bytes(), "accepted 64 1"
    for step in (0, 1, 5, 6, 65536, 2**32 - 1):
        yield "a trip step of %d" % step, with_trips(PUMPS, (1, step, 0.5, 1.0, 2.0)).bytes(), "accepted 4 5"
    # 8 pipes, 9 nodes, 504 reaches, 512 sections, 2,007 schedule entries
    full = chain([63] * 8, 1000000).changed(table7=b"")
    full.schedules = [[v[0]] * 223 for v in full.schedules]
    assert len(full.bytes()) == 32768
    yield "32,768 bytes, tables 6 and 7 empty", full.bytes(), full.held()
    yield "32,769 bytes, a byte in table 7", full.changed(table7=b"\0").bytes(), "refused 1"


def pairs():
    """Questions 2 and 3."""
    q = EMPTY_Q.bytes()
    for n in range(45, 62):
        yield "seven pairs in %d bytes" % n, q[:n], "refused %d" % (1 if n < 46 else 2)
    yield "62 bytes of seven pairs", q[:62], "refused 3"
    none = struct.pack("<HI", 7, 1) + struct.pack("<II", 62, 0) * 7
    yield "62 bytes: seven tables with nothing in them", none, "refused 5"
    for n in (0, 1, 2, 3, 4, 8, 9, 256 * 7, 65535):
        yield "%d pairs, laid out for seven" % n, PUMPS.changed(count=n).bytes(), "refused 2"
    for what, last in [("nothing", b""), ("eight bytes", bytes(8))]:
        body = PUMPS.tables() + [last]
        ends = [70 + sum(map(len, body[:i])) for i in range(8)]
        head = b"".join(struct.pack("<II", at, len(b)) for at, b in zip(ends, body))
        eight = struct.pack("<HI", 8, 1) + head + b"".join(body)
        yield "eight pairs, well laid out, table 8 of " + what, eight, "refused 2"
    for what, job, n in [("five", JOB_Q, 7), ("six", JOB_Q.long(), 7), ("seven", EMPTY_Q, 5), ("seven", EMPTY_Q, 6)]:
        yield "%d pairs counted, laid out for %s" % (n, what), job.changed(count=n).bytes(), "refused 3"
    laid = PUMPS.laid()
    end = laid[6][0] + laid[6][1]
    for what, i, pair in [
        ("the first table begins at 46, sixteen bytes longer", 0, (46, 40)),
        ("a gap before table 7", 6, (laid[6][0] + 1, laid[6][1] - 1)),
        ("table 7 begins inside table 5", 6, (laid[6][0] - 2, laid[6][1] + 2)),
        ("table 7 ends a byte early", 6, (laid[6][0], laid[6][1] - 1)),
        ("table 7 ends past the file", 6, (laid[6][0], laid[6][1] + 1)),
        ("table 7 has offset 0", 6, (0, laid[6][1])),
        ("an empty table 6 with offset 0", 5, (0, 0)),
    ]:
        yield "seven pairs: " + what, PUMPS.changed(pairs=put(laid, i, pair)).bytes(), "refused 3"
    last = [(62, 12), (74, 2**32 - 75)] + [(2**32 - 1, 0)] * 4 + [(2**32 - 1, end + 1)]
    yield "table 7 ends past 2^32, and with the file in 32 bits", PUMPS.changed(pairs=last).bytes(), "refused 3"
    yield "a byte after table 7", PUMPS.changed(after=b"\0").bytes(), "refused 3"


def whole():
    """Question 53: the length of table 7."""
    for form, job in [("an empty table 6", PUMPS), ("a full table 6", LONG_PUMPS)]:
        for n in (1, 2, 28, 29, 31, 56, 59, 61, 84, 89):
            cut = job.changed(table7=(job.table7 * 2)[:n])
            yield "%s: table 7 of %d bytes" % (form, n), cut.bytes(), "refused 53"
    # 420 bytes are 14 records of 30 bytes and 15 of 28.
    yield "14 trips", RING.changed(table7=RING.table7[:420]).bytes(), "accepted 64 1"


def named():
    """Question 53: the node."""
    for y, what in [(0, "a reservoir"), (1, "a valve"), (3, "a junction")]:
        yield "the trip of " + what, with_trips(KINDS, (y,) + TRIP[1:]).bytes(), "refused 53"
    yield "the trip of a pump among all kinds", with_trips(KINDS, (2,) + TRIP[1:]).bytes(), KINDS.held()
    yield "a trip of job Q, which has no pump", with_trips(JOB_Q, OTHER).bytes(), "refused 53"
    for y in (3, 4, 255, 256, 257, 65535):
        yield "the trip of node %d of three" % y, with_trips(PUMPS, (y,) + TRIP[1:]).bytes(), "refused 53"
        yield "the second trip of node %d of three" % y, with_trips(PUMPS, TRIP, (y,) + OTHER[1:]).bytes(), "refused 53"
    yield "the second trip of the reservoir", with_trips(PUMPS, TRIP, (2,) + OTHER[1:]).bytes(), "refused 53"
    yield "one record twice", with_trips(PUMPS, TRIP, TRIP).bytes(), "refused 53"
    yield "two records of one node", with_trips(PUMPS, TRIP, (1,) + OTHER[1:]).bytes(), "refused 53"
    yield "the third record of the first's node", with_trips(PUMPS, TRIP, OTHER, TRIP).bytes(), "refused 53"
    again = RING.changed(table7=RING.table7 + RING.table7[:30])
    yield "the last of 33 records of the first's node", again.bytes(), "refused 53"
    yield "node 32 of 32", RING.changed(table7=RING.table7[:-30] + trips((32, 1, 0.5, 1.0, 2.0))).bytes(), "refused 53"


def constants():
    """Question 53: G, t0 and t1."""
    bad = [("a NaN", NAN), ("infinite", INF), ("minus infinite", -INF), ("-1", -1.0), ("the least below zero", -TINY)]
    good = [("-0", -0.0), ("0", 0.0), ("the least above zero", TINY), ("the greatest", 1.7976931348623157e308)]
    for i, name in enumerate(("G", "t0", "t1")):
        first = lambda x: with_trips(PUMPS, TRIP[:2 + i] + (x,) + TRIP[3 + i:], OTHER).bytes()
        last = lambda x: with_trips(PUMPS, TRIP, OTHER[:2 + i] + (x,) + OTHER[3 + i:]).bytes()
        for what, x in bad:
            yield "%s of the first trip is %s" % (name, what), first(x), "refused 53"
            yield "%s of the last trip is %s" % (name, what), last(x), "refused 53"
        for what, x in good:
            yield "%s of a trip is %s" % (name, what), first(x), "accepted 4 5"
    yield "every constant -0", with_trips(PUMPS, (1, 3, -0.0, -0.0, -0.0)).bytes(), "accepted 4 5"


def order():
    """53 is asked straight after 50, and before 11."""
    lone = LONG_PUMPS.changed(nodes=PUMPS.nodes + [node(0)], schedules=PUMPS.schedules + [[0.0]])
    for what, table in [
        ("table 7 a byte short", PUMPS.table7[:-1]),
        ("the trip of the reservoir", trips((2,) + TRIP[1:])),
        ("the trip of no node", trips((7,) + TRIP[1:])),
        ("one record twice", trips(TRIP, TRIP)),
        ("t1 below zero", trips(TRIP[:4] + (-1.0,))),
    ]:
        job = LONG_PUMPS.changed(table7=table)
        yield what + ", a full table 6", job.bytes(), "refused 53"
        other = job.changed(nodes=put(job.nodes, 2, node(4)))
        yield what + ", and the last node of kind 4", other.bytes(), "refused 10"
        yield what + ", and a count of 0", job.changed(table6=bytes(2) + job.table6[2:]).bytes(), "refused 50"
        yield what + ", and table 6 a byte short", job.changed(table6=job.table6[:-1]).bytes(), "refused 50"
        other = job.changed(nodes=put(job.nodes, 0, node(3, -1.0)))
        yield what + ", and a pump's a below zero", other.bytes(), "refused 53"
        yield what + ", and a node without a pipe end", lone.long().changed(table7=table).bytes(), "refused 53"
        yield what + ", and an R too few", job.changed(friction=job.friction[1:]).bytes(), "refused 53"
        yield what + ", and S is 0", job.changed(pipes=put(job.pipes, 0, (0, 2, 1, 0.0))).bytes(), "refused 9"
    yield "a pump's a below zero, trips", PUMPS.changed(nodes=put(PUMPS.nodes, 0, node(3, -1.0))).bytes(), "refused 11"
    yield "a node without a pipe end, trips", lone.long().bytes(), "refused 12"


PARTS = (forms, pairs, whole, named, constants, order)
