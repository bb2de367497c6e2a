#!/usr/bin/env python3
"""make_admission_vectors.py: the calls that `cabinet-stored` makes on lent words. Writes the files of tests/stored/calls: `sides`, P1 to
P10 of document 01, whose answers stand here by hand; `numbers`, the answers that no plan of at most 32 admissions can give, by hand as
well; `tables`, random tables of admissions, whose answers and every t come from the independent program in tests/reference, which is
built first; and `lines`, the answers. A call is a row of five words: its kind, and four numbers.

    tests/make_admission_vectors.py            write them
    tests/make_admission_vectors.py --check    write nothing; exit status 1 where a file differs from what would be written"""
import os
import random
import sys

sys.dont_write_bytecode = True
HERE = os.path.dirname(os.path.abspath(__file__))
ROOT = os.path.dirname(HERE)
sys.path.insert(0, os.path.join(ROOT, "tools"))
from plan_reference import pack, write  # noqa: E402
from make_run_vectors import build_reference, lines_of  # noqa: E402
from stored_files import settle  # noqa: E402

STORED = "tests/stored/calls"
HUGE = 4294967295
TABLES = 240
WORDS = 4371
OPEN, ADMIT, OFFER, STEP, FACTOR, WORD = range(6)


class Calls:
    """A list of calls, and the lines that they must print."""

    def __init__(self, name):
        self.rows, self.lines = [], [name]

    def row(self, kind, numbers, line=None):
        self.rows.append([kind] + list(numbers) + [0] * (4 - len(numbers)))
        if line is not None:
            self.lines.append(line)

    def open(self, interval, cycle, factors, answer=0, words=WORDS):
        for i, factor in enumerate(factors):
            self.row(FACTOR, (i, factor))
        self.row(OPEN, (interval, cycle, len(factors), words), "OPEN %d" % answer)

    def admit(self, connection, answer, value):
        self.row(ADMIT, connection, "ADMIT %d %d" % (answer, value))

    def offer(self, number, units, answer, serial=0):
        self.row(OFFER, (number, units), "OFFER %d %d" % (answer, serial))

    def step(self, line):
        self.row(STEP, (), line)

    def idle(self, times):
        for _ in range(times):
            self.step("IDLE")

    def word(self, at, value):
        self.row(WORD, (at, value))

    def data(self):
        return b"".join(pack(row) for row in self.rows)

    def text(self):
        return "".join(line + "\n" for line in self.lines)


def admissions(c):
    """P1 to P6."""
    one, two = (1, 1, 1, 4), (2, 3, 1, 8)
    for second, answer, value in ((two, 0, 2), ((2, 4, 1, 8), 6, 4)):  # P1, P2
        c.open(4, 8, [1, 2])
        c.admit(one, 0, 1)
        c.admit(second, answer, value)
    c.open(4, 8, [1, 2])  # P3
    c.admit((1, 4, 1, 4), 0, 1)
    c.admit((2, 1, 1, 8), 5, 0)
    c.open(4, 8, [1, 2])  # P4, P5
    c.admit((1, 5, 1, 8), 6, 4)
    c.admit((1, 1, 1, 3), 3, 0)
    for longest, answer, value in ((3, 0, 2), (4, 6, 4)):  # P6
        c.open(4, 8, [1, 3])
        c.admit((1, 1, 1, 8), 0, 1)
        c.admit((2, longest, 1, 8), answer, value)


def offers(c):
    """P7, P8 and P10."""
    c.open(4, 8, [1, 2])  # P7
    c.admit((1, 1, 1, 4), 0, 1)
    c.offer(1, 1, 0, 1)
    c.step("DEPARTED 1 1 0 1")
    c.idle(2)
    c.offer(1, 1, 9)
    c.idle(1)
    c.offer(1, 1, 0, 2)
    c.open(4, 8, [1, 2])  # P8
    c.admit((1, 1, 1, 4), 0, 1)
    c.idle(3)
    c.offer(1, 1, 0, 1)
    c.step("DEPARTED 1 1 3 4")
    c.offer(1, 1, 9)
    for longest in range(1, 5):  # P10
        c.open(4, 8, [1, 2])
        c.admit((1, longest, 1, 8), 0, 1)
        for units, answer in ((0, 8), (longest + 1, 8), (HUGE, 8), (longest, 0), (1, 9)):
            c.offer(1, units, answer, 1 if answer == 0 else 0)


def third_box(c):
    """The box of P9: one connection of class 1, two of class 2, the last with packets of two units."""
    c.open(4, 8, [1, 2])
    for number, connection in enumerate(((1, 1, 1, 8), (2, 1, 1, 8), (2, 2, 1, 8)), 1):
        c.admit(connection, 0, number)


def steps(c):
    """P9: a packet of connection 3 keeps the link busy while the two others come to wait."""
    third_box(c)  # class 2 at 3, class 1 at 4
    c.idle(3)
    c.offer(3, 2, 0, 1)
    c.offer(2, 1, 0, 2)
    c.step("SENDING 1 1")
    c.offer(1, 1, 0, 3)
    c.step("DEPARTED 1 3 3 5")
    c.step("DEPARTED 2 2 3 6")
    c.step("DEPARTED 3 1 4 7")
    c.idle(1)
    third_box(c)  # both at 3
    c.idle(2)
    c.offer(3, 2, 0, 1)
    c.step("SENDING 1 1")
    c.offer(2, 1, 0, 2)
    c.offer(1, 1, 0, 3)
    c.step("DEPARTED 1 3 2 4")
    c.step("DEPARTED 3 1 3 5")
    c.step("DEPARTED 2 2 3 6")
    c.idle(1)


def sides():
    c = Calls("sides")
    admissions(c)
    offers(c)
    steps(c)
    return c


def refusals(c):
    """1, 2, 17, 12 and 7; every other field of a refusal is 0."""
    c.admit((1, 1, 1, 4), 1, 0)  # words that no one has opened
    c.offer(1, 1, 1)
    c.step("STEP 1")
    c.open(4, 8, [1, 2], 17, WORDS - 1)
    c.open(0, 8, [1, 2], 2, WORDS - 1)
    c.step("STEP 1")
    c.open(4, 8, [1, 2])
    c.open(4, 8, [2, 2], 2)  # a box stands, and stays
    c.offer(1, 1, 7)
    c.admit((1, 1, 1, 4), 0, 1)
    c.offer(0, 1, 7)
    c.offer(2, 1, 7)
    c.word(204, 3999999999)
    c.step("IDLE")
    c.step("STEP 12")
    c.offer(1, 1, 0, 1)
    c.step("STEP 12")
    c.word(204, 4000000001)
    c.step("STEP 1")


def blocked(c):
    """11: ten packets of one slot of class 1, whose bound is 4, by a burst written into the words: the step that would turn them away is
    refused."""
    c.open(4, 8, [1, 2])
    c.admit((1, 1, 1, 4), 0, 1)
    c.word(14, 10)
    c.word(17, 10)
    for serial in range(1, 11):
        c.offer(1, 1, 0, serial)
    for serial in range(1, 8):
        c.step("DEPARTED %d 1 0 %d" % (serial, serial))
    c.step("STEP 11")
    c.step("STEP 11")


def full(c):
    """4: a connection after the 32nd. 10: a packet after the 1,024th that waits, by credits written into the words."""
    c.open(32, 64, [1, 2])
    for number in range(1, 33):
        c.admit((1, 1, 1, 64), 0, number)
    c.admit((1, 1, 1, 64), 4, 0)
    c.admit((3, 1, 1, 64), 3, 0)
    c.open(256, 4096, [4])
    for number in range(1, 17):
        c.admit((1, 1, 64, 4096), 0, number)
    for serial in range(1, 1025):
        c.offer(1 + serial % 16, 1, 0, serial)
    c.offer(1, 1, 9)
    c.word(16, 0)
    c.word(17, 64)
    c.offer(1, 1, 10)
    c.step("DEPARTED 1 2 0 1")
    c.offer(1, 1, 0, 1025)


def numbers():
    c = Calls("numbers")
    refusals(c)
    blocked(c)
    full(c)
    return c


def random_table(rng):
    """A box that opens, and the connections that ask in turn."""
    interval = rng.choice([1, 2, 3, 4, 5, 8, 16])
    cycle = rng.choice([8, 12, 24, 48, 60, 64, 120, 240, 720, 4096])
    factors = sorted(rng.sample(range(1, 24), rng.randrange(1, 6)))
    periods = [t for t in range(1, cycle + 1) if cycle % t == 0 and t >= cycle // 12]
    top = rng.choice([2, 4, 8, 12])
    connections = [
        (rng.randrange(1, len(factors) + 1), rng.randrange(1, top), rng.randrange(1, rng.choice([2, 3, 6])), rng.choice(periods))
        for _ in range(32)]
    for _ in range(rng.randrange(3)):
        at, field = rng.randrange(32), rng.randrange(4)
        connections[at] = tuple(rng.choice([0, 7, 65, HUGE]) if k == field else n for k, n in enumerate(connections[at]))
    return interval, cycle, factors, connections


def answers_of(program, interval, cycle, factors, connections):
    """The answer and t of every admission of the table."""
    rows = [line.split() for line in lines_of(program, write(interval, cycle, factors, connections, [])).decode().splitlines()]
    found = [(int(row[2]), int(row[3])) for row in rows if row[0] == "ADMIT"]
    assert len(found) == len(connections)
    return found


def tables(program):
    """Each table goes on until it has refused four times."""
    c, rng, seen, beyond = Calls("tables"), random.Random(11), {}, 0
    for _ in range(TABLES):
        interval, cycle, factors, connections = random_table(rng)
        c.open(interval, cycle, factors)
        taken, refused = 0, 0
        for connection, (answer, t) in zip(connections, answers_of(program, interval, cycle, factors, connections)):
            taken, refused = taken + (answer == 0), refused + (answer != 0)
            c.admit(connection, answer, t if answer else taken)
            seen.setdefault(answer, []).append(t)
            beyond += answer == 6 and t >= factors[-1] * interval
            if refused == 4:
                break
    assert set(seen) == {0, 3, 5, 6} and len(set(seen[6])) >= 40 and beyond >= 80  # a search that ends at dP would miss those beyond
    return c, seen


def expected():
    """Every file to be written, by its path from the root, and what the tables give."""
    some, seen = tables(build_reference())
    lists = [sides(), numbers(), some]
    files = {"%s/%s" % (STORED, c.lines[0]): c.data() for c in lists}
    assert sum(map(len, files.values())) <= 100000
    files[STORED + "/lines"] = "".join(c.text() for c in lists).encode()
    return files, seen


def main(words):
    files, seen = expected()
    if not words:
        for answer in sorted(seen):
            print("%d tables: answer %d, %d times, %d different t" % (TABLES, answer, len(seen[answer]), len(set(seen[answer]))))
    return settle("admission vectors", files, [STORED + "/*"], words)


if __name__ == "__main__":
    sys.exit(main(sys.argv[1:]))
