#!/usr/bin/env python3
"""make_run_vectors.py: the whole runs that the built program must make. Writes the plans of tests/stored/runs, 01.plan upward, and its
file `lines`: for each plan in order a line `== NN` and the lines of its run. Writes examples/*.lines too, and the worked run of document
01 on which `rt` runs the program. The lines come from the independent program in tests/reference, which is built first. Every answer
number that a plan can give must be among them.

    tests/make_run_vectors.py            write them, and say which plan is which
    tests/make_run_vectors.py --check    write nothing; exit status 1 where a file differs from what would be written"""
import glob
import os
import random
import subprocess
import sys

sys.dont_write_bytecode = True
HERE = os.path.dirname(os.path.abspath(__file__))
ROOT = os.path.dirname(HERE)
sys.path.insert(0, os.path.join(ROOT, "tools"))
from plan_reference import change, pack, resum, write  # noqa: E402
from stored_files import settle  # noqa: E402
import plan_text  # noqa: E402

STORED = "tests/stored/runs"

MOST_PLANS = 60
MOST_BYTES = 2000000
HUGE = 4294967295

# The answers that a plan can give.
REFUSALS = {2, 13, 14, 15, 16}
ADMISSIONS = {0, 3, 5, 6}
OFFERS = {0, 7, 8, 9}

WORKED = write(4, 8, [1, 2], [(1, 1, 1, 4), (2, 3, 1, 8)], [(0, 2, 3), (1, 1, 1), (2, 1, 1), (5, 1, 1), (8, 2, 2)])


def refused_plans():
    """Plans that reading refuses (13 to 16)."""
    yield "13: empty input", b""
    yield "13: 39 bytes", WORKED[:39]
    yield "13: 41 bytes", change(write(4, 8, [], [], []), w0=41) + b"\0"
    yield "13: 65,540 bytes", resum(pack([65540]) + WORKED[4:] + bytes(65540 - len(WORKED)))
    yield "13: longer than word 0", WORKED + bytes(4)
    yield "13: shorter than word 0", WORKED[:-4]
    yield "14: the sum", WORKED[:4] + pack([5]) + WORKED[8:]
    yield "14 before 15: the sum, with 9 classes", change(WORKED, w3=9)[:36] + WORKED[36:]
    yield "15: 9 classes", write(4, 8, range(1, 10), [], [])
    yield "15: 33 connections", write(4, 8, [1], [(1, 1, 1, 4)] * 33, [])
    yield "15: 4,097 arrivals", write(4, 8, [1], [(1, 1, 1, 4)], [(0, 1, 1)] * 4097)
    yield "15: 2^30 arrivals, whose bytes wrap to 0", change(write(4, 8, [1], [], []), w7=1 << 30)
    yield "15 before 16: an offset, with falling slots", change(write(4, 8, [1], [], [(5, 1, 1), (4, 1, 1)]), w8=48)
    yield "16: slots fall", write(4, 8, [1], [(1, 1, 1, 4)], [(0, 1, 1), (5, 1, 1), (4, 1, 1)])
    yield "16: slot 1,000,001", write(0, 0, [], [], [(1000001, 1, 1)])


def unopened_plans():
    """Plans that opening refuses (2)."""
    yield "2: no class", write(4, 8, [], [], [])
    yield "2: D is 0", write(0, 8, [1], [(1, 1, 1, 4)], [(0, 1, 1)])
    yield "2: D is 257", write(257, 8, [1], [], [])
    yield "2: M is 0", write(4, 0, [1], [(1, 1, 1, 0)], [])
    yield "2: M is 4,097", write(4, 4097, [1], [], [])
    yield "2: factor 0", write(4, 8, [0, 1], [], [])
    yield "2: equal factors", write(4, 8, [1, 2, 2], [], [])
    yield "2: factor 64", write(1, 8, [1, 64], [], [])
    yield "2: the largest bound is 1,025", write(205, 8, [5], [], [])


def either_side():
    """P1 to P10 of document 01."""
    one, two = (1, 1, 1, 4), (2, 3, 1, 8)
    third = [(1, 1, 1, 8), (2, 1, 1, 8), (2, 2, 1, 8)]
    yield "P1", write(4, 8, [1, 2], [one, two], [])
    yield "P2", write(4, 8, [1, 2], [one, (2, 4, 1, 8)], [])
    yield "P3", write(4, 8, [1, 2], [(1, 4, 1, 4), (2, 1, 1, 8)], [])
    yield "P4", write(4, 8, [1, 2], [(1, 5, 1, 8)], [])
    yield "P5, and T 0 and 2^32 - 1", write(4, 8, [1, 2], [(1, 1, 1, 3), (1, 1, 1, 0), (1, 1, 1, HUGE), (1, 1, 1, 2)], [])
    yield "P6, both sides", write(4, 8, [1, 3], [(1, 1, 1, 8), (2, 4, 1, 8), (2, 3, 1, 8)], [])
    yield "P7", write(4, 8, [1, 2], [one], [(0, 1, 1), (3, 1, 1), (4, 1, 1)])
    yield "P8", write(4, 8, [1, 2], [one], [(3, 1, 1), (4, 1, 1)])
    yield "P9, class 2 at 3 and class 1 at 4", write(4, 8, [1, 2], third, [(3, 3, 2), (3, 2, 1), (4, 1, 1)])
    yield "P9, both at 3", write(4, 8, [1, 2], third, [(2, 3, 2), (3, 2, 1), (3, 1, 1)])
    yield "P10, none of them charged", write(
        4, 8, [1, 2], [(1, 2, 2, 8)], [(0, 1, 0), (0, 1, 3), (0, 1, HUGE), (0, 1, 1), (0, 1, 2), (0, 1, 2)])


def first_slots():
    """The first t that fails, where it is easy to get wrong."""
    yield "class 2 alone: t 4", write(4, 8, [1, 3], [(2, 5, 1, 8)], [])
    yield "(12) before a later (11): t 4", write(4, 64, [1, 4, 5], [(1, 1, 1, 64), (3, 4, 4, 64)], [])
    yield "beyond dP: t 27", write(3, 24, [5, 8], [(1, 10, 1, 12), (2, 4, 2, 24)], [])
    yield "M is 1, at the last slot of the range: t 4", write(4, 1, [1], [(1, 1, 5, 1), (1, 1, 4, 1)], [(0, 2, 1)] * 5 + [(1, 2, 1)] * 2)


def whole_runs():
    """Runs at the edges of the numbers."""
    yield "the worked run", WORKED
    yield "nothing to do", write(4, 8, [1, 2], [(1, 1, 1, 4)], [])
    yield "no connections, no arrivals", write(256, 4096, [4], [], [])
    yield "places and numbers differ", write(
        4, 8, [1, 2], [(3, 1, 1, 8), (1, 1, 1, 4), (1, 65, 1, 8), (1, 9, 1, 8), (2, 3, 1, 8)],
        [(0, 0, 1), (0, 1, 1), (0, 2, 1), (0, 3, 1), (0, 4, 0), (0, 5, 3), (0, 6, 1), (0, HUGE, 1), (4, 2, 1), (9, 5, 2), (9, 1, 0)])
    yield "entries far off range", write(
        4, 8, [1, 2], [(HUGE,) * 4, (0, 1, 1, 8), (1, 0, 1, 8), (1, 1, 0, 8), (1, 1, 65, 8), (1, HUGE, HUGE, 8), (1, 1, 1, 8)],
        [(0, HUGE, HUGE), (0, 7, HUGE), (0, 7, 1), (1, 6, 1)])
    yield "D 1, eight classes, factors to 63", write(
        1, 60, [9, 13, 20, 27, 33, 40, 50, 63],
        [(8, 7, 1, 60), (1, 1, 2, 30), (2, 2, 1, 20), (8, 6, 1, 60), (7, 4, 1, 60), (4, 3, 1, 30), (8, 5, 2, 60)],
        [(0, 7, 2), (0, 7, 5), (0, 1, 7), (1, 5, 4), (2, 3, 2), (2, 2, 1), (2, 6, 3), (3, 2, 1),
         (3, 2, 1), (7, 4, 1), (32, 2, 1), (33, 6, 2), (60, 1, 7)])
    yield "D 16, factor 63", write(
        16, 4096, [1, 63], [(1, 8, 1, 64), (2, 8, 30, 512)], [(s // 30 * 7, 2 - s % 2, 1 + s % 8) for s in range(90)])
    yield "the store full, the last leaves on its bound", write(
        256, 4096, [4], [(1, 1, 64, 4096)] * 16, [(0, 1 + i % 16, 1) for i in range(1024)] + [(0, 16, 1), (1, 1, 1), (4096, 1, 1)])
    yield "32 connections stand, all on one slot", write(
        32, 64, [1, 2], [(1, 1, 1, 64)] * 32, [(31, 32 - i, 1) for i in range(32)] + [(94, 1, 1), (95, 1, 1)])
    yield "4,096 arrivals on one slot", write(
        128, 4096, [1, 8], [(2, 1, 64, 64), (1, 2, 8, 256)], [(3, 1 + i % 3, 1 + i % 2) for i in range(4096)])
    yield "4,096 arrivals", write(
        16, 240, [1, 2, 4, 8], [(1, 1, 2, 8), (2, 2, 3, 16), (3, 3, 2, 24), (4, 4, 4, 40), (1, 1, 1, 48)],
        [(i * 3 // 4, 1 + i * 7 % 11 % 6, 1 + i % 4) for i in range(4096)])
    yield "slot 1,000,000, refused", write(4, 8, [1], [(1, 1, 1, 4)], [(1000000, 2, 1)])
    yield "slot 1,000,000, accepted", write(4, 8, [1, 2], [(1, 1, 1, 4), (2, 3, 1, 8)], [(0, 1, 1), (1000000, 2, 3), (1000000, 1, 1)])


def random_plan(rng):
    """A plan whose box opens; most of its connections and arrivals are in range, and arrivals come in bursts."""
    interval = rng.choice([2, 3, 4, 8, 16])
    cycle = rng.choice([48, 60, 64, 120, 240])
    factors = sorted(rng.sample(range(2, 20), rng.randrange(1, 6)))
    periods = [t for t in range(12, cycle + 1) if cycle % t == 0]
    connections = [
        (rng.randrange(1, len(factors) + 1), rng.randrange(1, 5), rng.randrange(1, 4), rng.choice(periods + [7]))
        for _ in range(rng.randrange(4, 12))]
    arrivals, slot = [], 0
    for _ in range(rng.randrange(80, 200)):
        slot += rng.choice([0, 0, 0, 0, 0, 1, 1, 2, 20])
        place = rng.randrange(len(connections) + 2)
        longest = connections[place - 1][1] if 1 <= place <= len(connections) else 1
        arrivals.append((slot, place, rng.choice([longest, longest, 1, rng.randrange(6)])))
    return write(interval, cycle, factors, connections, arrivals)


def random_plans():
    rng = random.Random(20)
    for i in range(7):
        yield "random %d" % (i + 1), random_plan(rng)


def examples():
    """The plans of examples/, by their names."""
    for path in sorted(glob.glob(os.path.join(ROOT, "examples", "*.txt"))):
        yield os.path.basename(path)[:-4], plan_text.to_bytes(plan_text.read(path), path)


def plans():
    for some in (refused_plans, unopened_plans, either_side, first_slots, whole_runs, random_plans):
        yield from some()


def build_reference():
    """Build the reference; the path of its program."""
    folder = os.path.join(HERE, "reference")
    subprocess.run(["cargo", "build", "--release", "--offline", "--quiet"], cwd=folder, check=True)
    return os.path.join(folder, "target", "release", "reference")


def lines_of(program, plan):
    """The lines of the plan's run, as bytes."""
    return subprocess.run([program], input=plan, stdout=subprocess.PIPE, check=True).stdout


def answers(text, word, field):
    """The numbers that the lines of a kind have in this field."""
    rows = [line.split() for line in text.decode().splitlines()]
    return {int(row[field]) for row in rows if row[0] == word}


def expected():
    """Every file to be written, by its path from the root, and the names of the plans."""
    program = build_reference()
    files, names, text = {}, [], b""
    for n, (name, plan) in enumerate(plans(), 1):
        files["%s/%02d.plan" % (STORED, n)] = plan
        names.append("%02d %s" % (n, name))
        text += b"== %02d\n" % n + lines_of(program, plan)
    files[STORED + "/lines"] = text
    assert 45 <= len(names) <= MOST_PLANS and sum(map(len, files.values())) <= MOST_BYTES
    assert answers(text, "REFUSED", 1) == REFUSALS and answers(text, "STOP", 1) == set()
    assert answers(text, "ADMIT", 2) == ADMISSIONS and answers(text, "OFFER", 2) == OFFERS
    files["crates/gateway/stdin"] = WORKED
    files["crates/gateway/stdout"] = lines_of(program, WORKED)
    for name, plan in examples():
        files["examples/%s.lines" % name] = lines_of(program, plan)
    return files, names


def main(words):
    files, names = expected()
    if not words:
        print("\n".join(names))
    return settle("run vectors", files, [STORED + "/*", "examples/*.lines", "crates/gateway/std*"], words)


if __name__ == "__main__":
    sys.exit(main(sys.argv[1:]))
