#!/usr/bin/env python3
"""plan_reference.py: an independent reader and writer of plan files, by document 01 alone. It shares no code with the crates. Writes the
plans of tests/stored/plans and its file `lines`: what `cabinet-stored` finds in each plan, and what the writer answers to the tables that
it lends.

    tests/plan_reference.py            write them
    tests/plan_reference.py --check    write nothing; exit status 1 where a file differs from what would be written"""
import struct
import sys

sys.dont_write_bytecode = True
from stored_files import settle  # noqa: E402

STORED = "tests/stored/plans"

LIMIT = 1 << 32


def pack(words):
    return struct.pack("<%dI" % len(words), *[w % LIMIT for w in words])


def write(interval, cycle, factors, connections, arrivals):
    """The bytes of a plan; entries are tuples. Nothing is tested here."""
    c, k, a = len(factors), len(connections), len(arrivals)
    size = 40 + 4 * c + 16 * k + 12 * a
    head = [size, interval, cycle, c, 40, k, 40 + 4 * c, a, 40 + 4 * c + 16 * k]
    tables = list(factors) + [n for e in connections for n in e] + [n for e in arrivals for n in e]
    return pack(head + [-sum(head + tables)] + tables)


def resum(data):
    """The same bytes with the sum word solved for anew."""
    words = list(struct.unpack("<%dI" % (len(data) // 4), data[: len(data) // 4 * 4]))
    words[9] = 0
    words[9] = -sum(words) % LIMIT
    return pack(words) + data[len(data) // 4 * 4:]


def change(data, **at):
    """The bytes with some words of the header changed, and the sum solved for anew."""
    words = list(struct.unpack("<%dI" % (len(data) // 4), data))
    for name, value in at.items():
        words[int(name[1:])] = value
    return resum(pack(words))


def read(data):
    """The number of the answer, and the contents where it is 0."""
    n = len(data)
    if n < 40 or n > 65536 or n % 4 or struct.unpack_from("<I", data)[0] != n:
        return 13, None
    w = struct.unpack("<%dI" % (n // 4), data)
    if sum(w) % LIMIT:
        return 14, None
    c, co, k, ko, a, ao = w[3:9]
    if c > 8 or k > 32 or a > 4096 or co != 40 or ko != 40 + 4 * c or ao != ko + 16 * k or n != ao + 12 * a:
        return 15, None
    factors = w[10:10 + c]
    first = 10 + c
    connections = [w[first + 4 * i:first + 4 * i + 4] for i in range(k)]
    first += 4 * k
    arrivals = [w[first + 3 * i:first + 3 * i + 3] for i in range(a)]
    slots = [e[0] for e in arrivals]
    if any(s > 1000000 for s in slots) or any(s > t for s, t in zip(slots, slots[1:])):
        return 16, None
    return 0, (w[1], w[2], factors, connections, arrivals, list(w[3:9]))


def plans():
    """Good plans, and one for each clause of each refusal."""
    worked = write(4, 8, [1, 2], [(1, 1, 1, 4), (2, 3, 1, 8)], [(0, 2, 3), (1, 1, 1), (2, 1, 1), (5, 1, 1), (8, 2, 2)])
    bare = write(4, 8, [], [], [])
    same = write(4, 8, [1], [(1, 1, 1, 4)], [(3, 1, 1), (3, 1, 2), (3, 1, 3), (7, 1, 1)])
    connections = [(1 + i % 8, 64, 64, 4096) for i in range(32)]
    full = write(256, 4096, range(1, 9), connections, [(i // 2000, 1 + i % 32, 1 + i % 64) for i in range(4096)])
    yield "worked", worked
    yield "bare", bare
    yield "same", same
    yield "full", full
    yield "last", write(1, 1, [63], [], [(1000000, 4294967295, 0)])
    yield "odd", write(4294967295, 0, [0], [(0, 0, 0, 0)], [(9, 0, 4294967295)])
    # 13
    yield "empty", b""
    yield "bytes39", worked[:39]
    yield "bytes41", worked[:40] + b"\0"
    yield "bytes65540", resum(pack([65540]) + worked[4:] + bytes(65540 - len(worked)))
    yield "word0", change(worked, w0=144)
    # 14
    yield "sum", worked[:36] + pack([struct.unpack_from("<I", worked, 36)[0] + 1]) + worked[40:]
    yield "sum_first", change(worked, w3=9)[:36] + worked[36:]
    # 15
    yield "classes9", write(4, 8, range(1, 10), [], [])
    yield "connections33", write(4, 8, [1], [(1, 1, 1, 4)] * 33, [])
    yield "arrivals4097", write(4, 8, [1], [], [(0, 1, 1)] * 4097)
    yield "classes_more", change(worked, w3=3)
    yield "connections_more", change(worked, w5=3)
    yield "arrivals_more", change(worked, w7=6)
    yield "classes_wrap", change(bare, w3=1 << 30)
    yield "connections_wrap", change(bare, w5=1 << 28)
    yield "arrivals_wrap", change(bare, w7=1 << 30)
    yield "classes_offset", change(worked, w4=44)
    yield "connections_offset", change(worked, w6=52)
    yield "arrivals_offset", change(worked, w8=84)
    yield "bare_offset", change(bare, w8=44)
    yield "cut", change(worked[:-4], w0=len(worked) - 4)
    yield "longer", change(worked + bytes(4), w0=len(worked) + 4)
    yield "layout_first", change(write(4, 8, [1], [], [(5, 1, 1), (4, 1, 1)]), w4=44)
    # 16
    yield "falling", write(4, 8, [1], [(1, 1, 1, 4)], [(5, 1, 1), (4, 1, 1)])
    yield "falling_last", write(4, 8, [1], [], [(0, 1, 1), (7, 1, 1), (7, 1, 1), (6, 1, 1)])
    yield "slot1000001", write(4, 8, [1], [], [(1000001, 1, 1)])


def writing(factors, connections, arrivals, room):
    """The number that the writer answers to tables of words, and the size where it is 0."""
    if len(factors) > 8 or len(connections) % 4 or len(connections) > 4 * 32 or len(arrivals) % 3 or len(arrivals) > 3 * 4096:
        return 15, 0
    slots = arrivals[::3]
    if max(slots, default=0) > 1000000 or sorted(slots) != slots:
        return 16, 0
    size = 4 * (10 + len(factors) + len(connections) + len(arrivals))
    return (17, 0) if room < size else (0, size)


def tables():
    """What the writer is lent, in the order in which `cabinet-stored` lends it."""
    f, c, a, falling = [1] * 2, [1] * 4, [1] * 3, [5, 1, 1, 4, 1, 1]
    yield [1] * 9, c, a, 60000
    yield f, [1] * 5, a, 60000
    yield f, [1] * 132, a, 60000
    yield f, c, [1] * 4, 60000
    yield f, c, [1] * 12291, 60000
    yield [1] * 9, c, falling, 0
    yield f, c, falling, 60000
    yield f, c, [1000001, 1, 1], 60000
    yield f, c, falling, 0
    yield f, c, a, 75
    yield f, c, a, 76
    yield f, c, [1000000, 1, 1], 60000
    yield [1] * 8, [1] * 128, a, 60000


def lines(name, data):
    """What is found in one plan."""
    number, contents = read(data)
    if number:
        return ["%s %d" % (name, number)]
    interval, cycle, factors, connections, arrivals, header = contents
    out = ["%s 0 %d %d %s" % (name, interval, cycle, " ".join(map(str, header)))]
    out += ["FACTOR %d" % f for f in factors]
    out += ["CONNECTION %d %d %d %d" % tuple(e) for e in connections]
    for slot in range(10):
        of_slot = [(i, e) for i, e in enumerate(arrivals, 1) if e[0] == slot]
        out.append("SLOT %d %d" % (slot, len(of_slot)))
        out += ["ARRIVAL %d %d %d %d" % ((i,) + tuple(e)) for i, e in of_slot[:4]]
    again = write(interval, cycle, factors, connections, arrivals)
    out.append("WRITTEN 0 %d" % len(again))
    if again == data:
        out.append("SAME")
    return out


def main(words):
    files, text = {}, []
    for name, data in plans():
        files["%s/%s" % (STORED, name)] = data
        text += lines(name, data)
    for lent in tables():
        number, size = writing(*lent)
        text += ["WRITTEN %d" % number, "KEPT"] if number else ["WRITTEN 0 %d" % size]
    files[STORED + "/lines"] = "".join(line + "\n" for line in text).encode()
    return settle("plan vectors", files, [STORED + "/*"], words)


if __name__ == "__main__":
    sys.exit(main(sys.argv[1:]))
