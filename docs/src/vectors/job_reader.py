"""A reader of jobs from documents 01 and 02, which can make one slip at a time.

`read` answers `accepted` with sections and steps, or `refused` with the number of the question that gets the
first no.
"""
import math
import struct

SLIPS = [
    "an eighth pair passed",
    "a seventh pair refused",
    "the pairs not asked to lie inside the file",
    "the first table at 46 in either form",
    "offset and length added in 32 bits",
    "an empty table 6 taken as full",
    "the byte read though table 6 stands",
    "counts one byte wide",
    "counts big-endian",
    "the length of table 6 at least two bytes per node",
    "a count of 0 passed",
    "the last count not asked",
    "a byte not 0 passed",
    "the last byte not asked",
    "10 asks the byte in either form",
    "10 asks the byte in six pairs never",
    "50 before 10",
    "50 after 11",
    "50 stops at its first node",
    "one entry too few carried",
    "the count of the first node carried past each",
    "a table 5 that ends early passed",
    "a table 5 that goes on passed",
    "an empty table 6 refused in seven pairs",
    "a table 7 that is not whole passed",
    "an empty table 7 refused",
    "records of 28 bytes",
    "a node that is no pump passed",
    "a node past the last passed",
    "a node one byte wide",
    "a node in two records passed",
    "a node compared with that of the record before only",
    "G not asked",
    "t0 not asked",
    "t1 not asked",
    "a constant that is a NaN passed",
    "an infinite constant passed",
    "a constant below zero passed",
    "-0 refused as a constant",
    "53 stops at its first record",
    "the last record not asked",
    "53 before 50",
    "53 after 11",
    "53 after 12",
]


def u16(data, at, slip=None):
    return struct.unpack_from(">H" if slip == "counts big-endian" else "<H", data, at)[0]


def all_f64(data):
    return struct.unpack("<%dd" % (len(data) // 8), data)


def pairs_of(job, count):
    return [struct.unpack_from("<II", job, 6 + 8 * i) for i in range(count)]


def pairs_admitted(job, slip):
    count = u16(job, 0)
    inside = 6 + 8 * count <= len(job) or slip == "the pairs not asked to lie inside the file"
    most = {"an eighth pair passed": 8, "a seventh pair refused": 6}.get(slip, 7)
    return 5 <= count <= most and inside


def tables_adjoin(job, slip):
    count = u16(job, 0)
    if 6 + 8 * count > len(job):
        return False
    end = 46 if slip == "the first table at 46 in either form" else 6 + 8 * count
    for offset, length in pairs_of(job, count):
        if offset != end:
            return False
        end += length
        if slip == "offset and length added in 32 bits":
            end %= 2**32
    return end == len(job)


def figures_admitted(record):
    kind, figures, bits = record[0], all_f64(record[2:]), struct.unpack("<3Q", record[2:])
    named, sizes = {2: (2, 1), 3: (3, 2)}.get(kind, (0, 0))
    return (all(map(math.isfinite, figures)) and all(x >= 0 for x in figures[:sizes])
            and not any(bits[named:]))


def counts_admitted(nodes, table, slip):
    """Question 50."""
    width = 1 if slip == "counts one byte wide" else 2
    if not table and slip != "an empty table 6 taken as full":
        return True
    if slip == "the length of table 6 at least two bytes per node":
        table = table[:2 * len(nodes)]
    if len(table) != width * len(nodes):
        return False
    counts = list(table) if width == 1 else [u16(table, 2 * i, slip) for i in range(len(nodes))]
    zero = [n == 0 for n in counts]
    stays = [record[1] != 0 for record in nodes]
    if slip == "50 stops at its first node":
        zero, stays = zero[:1], stays[:1]
    if slip == "the last count not asked":
        zero = zero[:-1]
    if slip == "the last byte not asked":
        stays = stays[:-1]
    return not (any(zero) and slip != "a count of 0 passed" or any(stays) and slip != "a byte not 0 passed")


def kinds_admitted(nodes, table, six, slip):
    """Question 10."""
    byte = not table or slip == "10 asks the byte in either form"
    if slip == "10 asks the byte in six pairs never" and six:
        byte = False
    return all(record[0] <= 3 and (record[1] >= 1 or not byte) for record in nodes)


def constant_admitted(x, slip):
    if math.isnan(x):
        return slip == "a constant that is a NaN passed"
    if math.isinf(x) and x > 0:
        return slip == "an infinite constant passed"
    if x < 0:
        return slip == "a constant below zero passed"
    return slip != "-0 refused as a constant" or math.copysign(1.0, x) > 0


def trip_admitted(nodes, records, i, slip):
    """Question 53 of record i, which names a node among those before it."""
    y, _, *constants = records[i]
    if slip == "a node one byte wide":
        y %= 256
    if y >= len(nodes):
        return slip == "a node past the last passed"
    before = [record[0] for record in records[:i]]
    if slip == "a node compared with that of the record before only":
        before = before[-1:]
    asked = [x for name, x in zip(("G", "t0", "t1"), constants) if slip != name + " not asked"]
    return ((nodes[y][0] == 3 or slip == "a node that is no pump passed")
            and (y not in before or slip == "a node in two records passed")
            and all(constant_admitted(x, slip) for x in asked))


def trips_admitted(nodes, table, slip):
    """Question 53."""
    width = 28 if slip == "records of 28 bytes" else 30
    if not table and slip == "an empty table 7 refused":
        return False
    if len(table) % width and slip != "a table 7 that is not whole passed":
        return False
    starts = range(0, len(table) // width * width, width)
    records = [struct.unpack_from("<HIddd", table + bytes(2), at) for at in starts]
    asked = range(len(records))
    if slip == "53 stops at its first record":
        asked = asked[:1]
    if slip == "the last record not asked":
        asked = asked[:-1]
    return all(trip_admitted(nodes, records, i, slip) for i in asked)


def counts_in_force(nodes, table, slip):
    if not table or slip == "the byte read though table 6 stands":
        return [record[1] for record in nodes]
    if slip == "counts one byte wide":
        return list(table)
    return [u16(table, 2 * i, slip) for i in range(len(nodes))]


def length_admitted(length, counts, slip):
    early = length < 8 * sum(counts) and slip != "a table 5 that ends early passed"
    return not (early or length > 8 * sum(counts) and slip != "a table 5 that goes on passed")


def entries_admitted(nodes, counts, entries, slip):
    at = 0
    for record, count in zip(nodes, counts):
        for v in entries[at:at + count]:
            if not math.isfinite(v) or record[0] >= 2 and not 0 <= v <= 1:
                return False
        if slip == "one entry too few carried":
            count -= 1
        if slip == "the count of the first node carried past each":
            count = counts[0]
        at += count
    return True


def node_questions(nodes, tables, pipes, slip):
    order = {
        "50 before 10": (50, 10, 53, 11, 12),
        "50 after 11": (10, 53, 11, 50, 12),
        "53 before 50": (10, 53, 50, 11, 12),
        "53 after 11": (10, 50, 11, 53, 12),
        "53 after 12": (10, 50, 11, 12, 53),
    }.get(slip, (10, 50, 53, 11, 12))
    for number in order:
        if number == 10:
            yield 10, kinds_admitted(nodes, tables[5], len(tables) > 7, slip)
        elif number == 50:
            needed = slip == "an empty table 6 refused in seven pairs" and len(tables) == 9
            yield 50, counts_admitted(nodes, tables[5], slip) and not (needed and not tables[5])
        elif number == 53:
            yield 53, trips_admitted(nodes, tables[6], slip)
        elif number == 11:
            yield 11, all(map(figures_admitted, nodes))
        else:
            yield 12, set(range(len(nodes))) == {end for a, b, _, _ in pipes for end in (a, b)}


def questions(job, slip):
    """Each question's number and answer, in the order in which they are asked; at last 0 and what is held."""
    yield 1, 46 <= len(job) <= 32768
    yield 2, pairs_admitted(job, slip)
    yield 3, tables_adjoin(job, slip)
    count, steps = struct.unpack_from("<HI", job)
    yield 4, steps <= 1000000
    tables = [job[o:o + n] for o, n in pairs_of(job, count)] + [b""] * 2
    yield 5, len(tables[0]) % 12 == 0 and 1 <= len(tables[0]) // 12 <= 32
    yield 6, len(tables[1]) % 26 == 0 and 2 <= len(tables[1]) // 26 <= 32
    pipes = [struct.unpack_from("<BBHd", tables[0], at) for at in range(0, len(tables[0]), 12)]
    nodes = [tables[1][at:at + 26] for at in range(0, len(tables[1]), 26)]
    yield 7, all(a != b and max(a, b) < len(nodes) and 1 <= n <= 511 for a, b, n, _ in pipes)
    reaches = sum(n for _, _, n, _ in pipes)
    sections = reaches + len(pipes)
    yield 8, sections <= 512
    yield 9, all(math.isfinite(s) and s > 0 for *_, s in pipes)
    yield from node_questions(nodes, tables, pipes, slip)
    yield 13, len(tables[2]) == 8 * reaches and all(math.isfinite(r) and r >= 0 for r in all_f64(tables[2]))
    yield 14, len(tables[3]) == 24 * sections
    rows = [struct.unpack_from("<ddd", tables[3], at) for at in range(0, len(tables[3]), 24)]
    yield 14, all(all(map(math.isfinite, row)) and row[0] >= row[2] for row in rows)
    counts = counts_in_force(nodes, tables[5], slip)
    yield 15, length_admitted(len(tables[4]), counts, slip)
    yield 15, entries_admitted(nodes, counts, all_f64(tables[4][:len(tables[4]) // 8 * 8]), slip)
    yield 0, (sections, steps)


def read(job, slip=None):
    for number, answer in questions(job, slip):
        if number == 0:
            return "accepted %d %d" % answer
        if not answer:
            return "refused %d" % number
