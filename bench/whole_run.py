#!/usr/bin/env python3
"""whole_run.py: the plans of bench/whole_run.sh, and its table of times.

    bench/whole_run.py plans DIR                     writes DIR/NAME.plan for each plan
    bench/whole_run.py times ROUNDS DIR PROGRAM...   a table: each program on each plan, and the first program's time over each other one's

A time is that of a whole process, from its start to its end, with the plan as a file and the lines to /dev/null. The programs take turns,
so that what else the machine does falls on all of them."""
import os
import statistics
import subprocess
import sys
import time

sys.dont_write_bytecode = True
HERE = os.path.dirname(os.path.abspath(__file__))
sys.path.insert(0, os.path.join(os.path.dirname(HERE), "tools"))
from plan_text import Plan, bytes_of_plan  # noqa: E402

ARRIVALS = 4096
LAST_SLOT = 1000000


def spread():
    """32 connections of eight classes; bunches of eight packets up to the last slot, so rarely that each fits its envelope."""
    connections = [(1 + i % 8, 4 + i % 8, 1, 4096 >> i % 3) for i in range(32)]
    last = ARRIVALS // 8 - 1
    arrivals = [(i // 8 * LAST_SLOT // last, 1 + i % 32, 1 + i % 4) for i in range(ARRIVALS)]
    return Plan(128, 4096, range(1, 9), connections, arrivals)


def idle():
    """One connection, a packet in the first slot and one in the last: all slots between them are idle."""
    return Plan(4, 8, [1], [(1, 1, 1, 8)], [(0, 1, 1), (LAST_SLOT, 1, 1)])


def busy():
    """32 connections of four classes at the whole rate of the link: first all bursts at once, then a packet of each after each period. So
    the link never rests, and over 400 packets wait in queues of all tags until the arrivals end."""
    connections = [(1 + i % 4, 1, (8, 16, 16, 16)[i % 4], 32) for i in range(32)]
    first = [(0, 1 + i, 1) for i, c in enumerate(connections) for _ in range(c[2])]
    later = [(32 * (1 + i // 32), 1 + i % 32, 1) for i in range(ARRIVALS - len(first))]
    return Plan(256, 4096, range(1, 5), connections, first + later)


PLANS = [
    ("spread", "4,096 arrivals up to slot 1,000,000", lambda: bytes_of_plan(spread())),
    ("idle", "2 arrivals, at 0 and 1,000,000", lambda: bytes_of_plan(idle())),
    ("busy", "4,096 arrivals within 3,649 slots", lambda: bytes_of_plan(busy())),
    ("none", "empty input, a process alone", lambda: b""),
]


def write_plans(folder):
    for name, _, made in PLANS:
        with open(os.path.join(folder, name + ".plan"), "wb") as file:
            file.write(made())


def seconds(program, plan):
    """The time of one process. posix_spawn copies nothing of this one, so that its start costs little beside the run."""
    actions = [(os.POSIX_SPAWN_OPEN, 0, plan, os.O_RDONLY, 0), (os.POSIX_SPAWN_OPEN, 1, os.devnull, os.O_WRONLY, 0)]
    start = time.perf_counter()
    pid = os.posix_spawn(program, [program], {}, file_actions=actions)
    status = os.waitpid(pid, 0)[1]
    taken = time.perf_counter() - start
    if status:
        sys.exit("%s failed on %s" % (program, plan))
    return taken


def measure(programs, plan, rounds):
    """Best and median of each program, in milliseconds."""
    times = [[] for _ in programs]
    for _ in range(rounds):
        for program, taken in zip(programs, times):
            taken.append(1000 * seconds(program, plan))
    return [(min(t), statistics.median(t)) for t in times]


def ended(program, plan):
    """Connections admitted, slots and packets accepted, as the program's lines tell."""
    with open(plan, "rb") as file:
        text = subprocess.run([program], stdin=file, capture_output=True, check=True).stdout.decode()
    lines = [line.split() for line in text.splitlines()]
    admitted = sum(line[0] == "ADMIT" and line[2] == "0" for line in lines)
    slots, accepted = lines[-1][1:3] if lines[-1][0] == "END" else ("-", "-")
    return [str(admitted), slots, accepted]


def print_times(rounds, folder, programs):
    names = [os.path.basename(program) for program in programs]
    print("Best and median of %d rounds in ms, and %s over each C program." % (rounds, names[0]))
    heads = ["Plan", "admitted", "slots", "accepted"] + names + ["over " + name for name in names[1:]]
    print("| " + " | ".join(heads) + " |\n" + "|---" * len(heads) + "|")
    for name, story, _ in PLANS:
        plan = os.path.join(folder, name + ".plan")
        found = measure(programs, plan, rounds)
        cells = ["%.2f, %.2f" % pair for pair in found]
        cells += ["%.2f, %.2f" % (found[0][0] / best, found[0][1] / median) for best, median in found[1:]]
        print("| " + " | ".join([name + ": " + story] + ended(programs[0], plan) + cells) + " |")


def main(words):
    if words[:1] == ["plans"] and len(words) == 2:
        write_plans(words[1])
    elif words[:1] == ["times"] and len(words) > 4:
        print_times(int(words[1]), words[2], words[3:])
    else:
        sys.exit(__doc__)


if __name__ == "__main__":
    main(sys.argv[1:])
