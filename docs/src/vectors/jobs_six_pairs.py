"""Jobs of six pairs for jobs.py, request 3 of document 02, and of both forms, request 5; where refusals begin."""
import struct

from job_parts import INF, JOB_Q, KINDS, NAN, Job, chain, node, put


def counts(*numbers):
    return b"".join(struct.pack("<H", n) for n in numbers)


EMPTY_Q = JOB_Q.changed(table6=b"")
LONG_Q = JOB_Q.long()
LONG_KINDS = KINDS.long()
# Job Q with 300 openings, of which the last differs.
OPENINGS = JOB_Q.changed(schedules=[[10.0], [0.5] * 299 + [0.25]]).long()


def forms():
    """Job Q in its three forms, and schedules of more than 255 entries."""
    assert (len(EMPTY_Q.bytes()), len(LONG_Q.bytes())) == (222, 226)
    yield "job Q, six pairs and an empty table 6", EMPTY_Q.bytes(), "accepted 3 1"
    yield "job Q, six pairs and a full table 6", LONG_Q.bytes(), "accepted 3 1"
    yield "all four kinds, an empty table 6", KINDS.changed(table6=b"").bytes(), KINDS.held()
    yield "all four kinds, a full table 6", LONG_KINDS.bytes(), KINDS.held()
    yield "1,000,001 steps, a full table 6", LONG_Q.changed(steps=1000001).bytes(), "refused 4"
    for n in (255, 256, 257, 300, 512):
        many = JOB_Q.changed(schedules=[[10.0] * n, [0.5]]).long()
        yield "%d levels" % n, many.bytes(), "accepted 3 1"
        many = JOB_Q.changed(schedules=[[10.0], [0.5] * n]).long()
        yield "%d openings" % n, many.bytes(), "accepted 3 1"
    many = KINDS.changed(schedules=[[5.0] * 300, [0.5] * 2, [1.0] * 700, [-4.0] * 256]).long()
    yield "schedules of 300, 2, 700 and 256 entries", many.bytes(), many.held()


def with_node(job, y, record):
    """The job with another record of node y."""
    return job.changed(nodes=put(job.nodes, y, record))


def longest():
    """A full table 6 makes the length 2 modulo 4, so that 32,766 bytes are the most with it."""
    one = JOB_Q.changed(pipes=[(0, 1, 1, 1.0)], friction=[0.5], initial=[(10.0, 4.0, 0.0)] * 2, sections=2)
    two = Job([(0, 1, 1, 1.0)] * 2, JOB_Q.nodes, JOB_Q.schedules)
    ring = Job([(i, (i + 1) % 32, 1, 1.0) for i in range(32)], [node(1)] * 32, [[10.0]] * 32)
    for what, job, entries, size in [
        ("one pipe of one reach, 4,072 openings", one, [1, 4072], 32762),
        ("two pipes beside each other, 4,064 openings", two, [1, 4064], 32766),
        ("32 nodes of 115 and 116 levels", ring, [115] * 7 + [116] * 25, 32766),
    ]:
        full = job.changed(schedules=[[v[0]] * n for v, n in zip(job.schedules, entries)]).long()
        assert len(full.bytes()) == size
        yield what, full.bytes(), full.held()
    over = ring.changed(schedules=[[10.0] * 116] * 26 + [[10.0] * 115] * 6).long()
    assert len(over.bytes()) == 32774
    yield "32,774 bytes, a full table 6", over.bytes(), "refused 1"
    # 8 pipes, 9 nodes, 504 reaches, 512 sections, 2,008 schedule entries
    full = chain([63] * 8, 1000000).changed(table6=b"")
    full.schedules = [[v[0]] * n for v, n in zip(full.schedules, [223] * 8 + [224])]
    assert len(full.bytes()) == 32768
    yield "32,768 bytes, an empty table 6", full.bytes(), full.held()
    yield "32,769 bytes, a byte in table 6", full.changed(table6=b"\1").bytes(), "refused 1"


def pairs():
    """Questions 2 and 3."""
    q = LONG_Q.bytes()
    for n in range(45, 54):
        yield "six pairs in %d bytes" % n, q[:n], "refused %d" % (1 if n < 46 else 2)
    yield "54 bytes of six pairs", q[:54], "refused 3"
    none = struct.pack("<HI", 6, 1) + struct.pack("<II", 54, 0) * 6
    yield "54 bytes: six tables with nothing in them", none, "refused 5"
    none = struct.pack("<HI", 6, 2000000) + struct.pack("<II", 46, 0) * 5
    yield "six pairs in 46 bytes and too many steps", none, "refused 2"
    for n in (0, 1, 2, 3, 4, 8, 9, 256 * 6, 65535):
        yield "%d pairs, laid out for six" % n, LONG_Q.changed(count=n).bytes(), "refused 2"
    yield "five pairs counted, laid out for six", LONG_Q.changed(count=5).bytes(), "refused 3"
    yield "six pairs counted, laid out for five", JOB_Q.changed(count=6).bytes(), "refused 3"
    shifted = JOB_Q.changed(pairs=[(o + 8, n) for o, n in JOB_Q.laid()]).bytes()
    yield "five pairs, the first table at 54", shifted[:46] + bytes(8) + shifted[46:], "refused 3"
    yield from places(EMPTY_Q, "an empty table 6")
    yield from places(LONG_Q, "a full table 6")


def places(q, form):
    """Question 3 of six pairs."""
    laid = q.laid()
    end = laid[5][0] + laid[5][1]
    for what, i, pair in [
        ("the first table begins at 46, eight bytes longer", 0, (46, 20)),
        ("the first table begins at 53", 0, (53, 13)),
        ("the first table begins at 55", 0, (55, 11)),
        ("a gap before the second table", 1, (laid[1][0] + 1, laid[1][1] - 1)),
        ("the second table begins inside the first", 1, (laid[1][0] - 1, laid[1][1] + 1)),
        ("a gap before table 6", 5, (end + 1, 0)),
        ("table 6 begins inside table 5", 5, (laid[5][0] - 2, laid[5][1] + 2)),
        ("table 6 ends past the file", 5, (laid[5][0], laid[5][1] + 1)),
        ("table 6 has offset 0 and no length", 5, (0, 0)),
        ("table 5 ends one byte early", 4, (laid[4][0], laid[4][1] - 1)),
    ]:
        yield "%s: %s" % (form, what), q.changed(pairs=put(laid, i, pair)).bytes(), "refused 3"
    wrapped = [(54, 12), (66, 2**32 - 12), (54, 0), (54, 0), (54, 0), (54, end - 54)]
    yield form + ": a table ends past 2^32", q.changed(pairs=wrapped).bytes(), "refused 3"
    last = [(54, 12), (66, 2**32 - 67)] + [(2**32 - 1, 0)] * 3 + [(2**32 - 1, end + 1)]
    what = form + ": table 6 ends past 2^32, and with the file in 32 bits"
    yield what, q.changed(pairs=last).bytes(), "refused 3"
    yield form + ": a byte after table 6", q.changed(after=b"\0").bytes(), "refused 3"


def kinds():
    """Question 10: the byte is asked where table 6 is empty."""
    empty = KINDS.changed(table6=b"")
    for what, job in [("five pairs", KINDS), ("an empty table 6", empty), ("a full table 6", LONG_KINDS)]:
        for kind in (4, 255):
            yield "%s: the first node of kind %d" % (what, kind), with_node(job, 0, node(kind)).bytes(), "refused 10"
            yield "%s: the last node of kind %d" % (what, kind), with_node(job, 3, node(kind)).bytes(), "refused 10"
        answer = job.held() if job is LONG_KINDS else "refused 10"
        for y in (0, 3):
            yield "%s: a byte of 0 at node %d" % (what, y), with_node(job, y, job.nodes[y][:4] + (0,)).bytes(), answer


def fifty():
    """Question 50: the length of table 6, its counts, and the bytes that it replaces."""
    job, right = LONG_KINDS, LONG_KINDS.table6
    for n in (1, 2, 3, 4, 6, 7, 9, 10, 12, 16):
        cut = job.changed(table6=(right * 2)[:n])
        yield "table 6 of %d bytes for four nodes" % n, cut.bytes(), "refused 50"
    narrow = job.changed(table6=bytes([1, 3, 2, 1]))
    yield "table 6 of a byte per node, the counts in it", narrow.bytes(), "refused 50"
    for y in range(4):
        zero = right[:2 * y] + counts(0) + right[2 * y + 2:]
        yield "count %d is 0" % y, job.changed(table6=zero).bytes(), "refused 50"
        for byte in (1, len(job.schedules[y]), 255):
            stays = put(job.nodes, y, job.nodes[y][:4] + (byte,))
            yield "the byte of node %d is %d" % (y, byte), job.changed(nodes=stays).bytes(), "refused 50"
    none = job.changed(table6=counts(1, 3, 0, 1), schedules=put(job.schedules, 2, []))
    yield "a count of 0, and no entry for it", none.bytes(), "refused 50"
    yield "every count 0", job.changed(table6=bytes(8)).bytes(), "refused 50"
    stay = [n[:4] + (len(v),) for n, v in zip(job.nodes, job.schedules)]
    yield "every byte stays beside its count", job.changed(nodes=stay).bytes(), "refused 50"
    low = JOB_Q.changed(schedules=[[10.0], [0.5] * 256]).long()
    assert low.table6 == bytes([1, 0, 0, 1])
    yield "a count of 256, whose low byte is 0", low.bytes(), "accepted 3 1"


def order():
    """50 is asked straight after 10, and before 11."""
    for what, job in [
        ("table 6 a byte short", LONG_KINDS.changed(table6=LONG_KINDS.table6[:-1])),
        ("table 6 of one byte", LONG_KINDS.changed(table6=b"\1")),
        ("the first count 0", LONG_KINDS.changed(table6=counts(0, 3, 2, 1))),
        ("the first byte 1", with_node(LONG_KINDS, 0, node(1, count=1))),
    ]:
        yield what + ", and the last node of kind 4", with_node(job, 3, node(4)).bytes(), "refused 10"
        yield what + ", and a junction's a is 1", with_node(job, 3, node(0, 1.0)).bytes(), "refused 50"
        yield what + ", and an R too few", job.changed(friction=job.friction[1:]).bytes(), "refused 50"
        pipe = [(0, 1, 1, 0.0), (2, 3, 3, 2.0)]
        yield what + ", and S is 0", job.changed(pipes=pipe).bytes(), "refused 9"
    lone = KINDS.changed(nodes=KINDS.nodes + [node(0)], schedules=KINDS.schedules + [[0.0]]).long()
    yield "a node without a pipe end, a full table 6", lone.bytes(), "refused 12"
    yield "the same, and its count 0", lone.changed(table6=counts(1, 3, 2, 1, 0)).bytes(), "refused 50"
    yield "a junction's a is 1, a full table 6", with_node(LONG_KINDS, 3, node(0, 1.0)).bytes(), "refused 11"


def entries():
    """Question 15 goes by the counts of table 6."""
    job = OPENINGS
    opening = lambda i, x: job.changed(schedules=[[10.0], put(job.schedules[1], i, x)]).bytes()
    for n in (299, 301, 44, 45, 1, 65535):
        yield "a count of %d for 300 openings" % n, job.changed(table6=counts(1, n)).bytes(), "refused 15"
    yield "the counts big-endian", job.changed(table6=struct.pack(">HH", 1, 300)).bytes(), "refused 15"
    low = job.changed(schedules=[[10.0], [0.5] * 44])
    yield "entries as the counts' low bytes have it", low.bytes(), "refused 15"
    yield "one entry for each node", job.changed(schedules=[[10.0], [0.5]]).bytes(), "refused 15"
    yield "a byte over in table 5", job.changed(odd=put(job.odd, 4, b"\0")).bytes(), "refused 15"
    for i in (0, 43, 254, 255, 256, 299):
        for what, x in [("a NaN", NAN), ("infinite", INF), ("just above 1", 1.0000000000000002), ("-1", -1.0)]:
            yield "opening %d is %s" % (i + 1, what), opening(i, x), "refused 15"
    yield "opening 300 is 1", opening(299, 1.0), "accepted 3 1"
    # Levels of 2 in the first 300 entries: with a count of 44 some of them would be openings.
    late = JOB_Q.changed(schedules=[[2.0] * 300, [0.5] * 44]).long()
    yield "300 levels of 2 and 44 openings", late.bytes(), "accepted 3 1"
    yield "the same with the counts exchanged", late.changed(table6=counts(44, 300)).bytes(), "refused 15"


def schedule_places():
    """In either form: a table 5 that ends early or goes on, and levels and draw-offs that are no openings or speeds."""
    for form, job in [("five pairs", KINDS), ("a full table 6", LONG_KINDS)]:
        right = job.entries()
        for n in (0, 7, 8, 15, 31, 32, 47, 48, 55, 57, 64):
            other = job.changed(table5=(right * 2)[:n])
            yield "%s: table 5 of %d bytes for seven entries" % (form, n), other.bytes(), "refused 15"
        own = [[2.0, -3.0], [1.0, 0.5, 0.25], [0.0], [7.0, 8.0, 9.0]]
        moved = lambda schedules: job.changed(schedules=schedules, table6=job.table6 and counts(2, 3, 1, 3))
        yield form + ": levels and draw-offs that are no openings or speeds", moved(own).bytes(), job.held()
        for y, v in enumerate(own):
            for i in sorted({0, len(v) - 1}):
                bad = moved(put(own, y, put(v, i, NAN))).bytes()
                yield "%s: entry %d of node %d is a NaN" % (form, i + 1, y), bad, "refused 15"


PARTS = (forms, longest, pairs, kinds, fifty, order, entries, schedule_places)
