#!/usr/bin/env python3
"""plan_text.py: plans as readable text, and back.

    tools/plan_text.py to-bytes FILE.txt > plan
    tools/plan_text.py to-text PLAN > text

FILE `-` is standard input. A refusal is a message on standard error and exit status 1, and nothing is written.

The text has one thing a line; `#` starts a comment and empty lines do not count:

    interval 4
    cycle 8
    class 1
    class 2
    connection class=1 longest=1 burst=1 period=4
    connection class=2 longest=3 burst=1 period=8
    arrival slot=0 connection=2 length=3

`interval` and `cycle` stand once. A `class` line gives the factor of the next class, counted from 1; connections and arrivals count from 1
in the same way, and an arrival names its connection by that place. Fields may come in any order. Numbers are decimal, below 2^32. As for
the plan reader, the ranges of single entries are left to opening, admission and offers."""
import re
import struct
import sys

LIMIT = 1 << 32
HEADER = 40
LARGEST = 65536
LAST_SLOT = 1000000
CONNECTION = ("class", "longest", "burst", "period")
ARRIVAL = ("slot", "connection", "length")
MOST = {"class": 8, "connection": 32, "arrival": 4096}
MANY = {"class": "classes", "connection": "connections", "arrival": "arrivals"}


class Refused(Exception):
    """A text or a plan that is refused; the message has the place and the reason."""


class Plan:
    """The contents of a plan; connections and arrivals are tuples of numbers in the order of CONNECTION and ARRIVAL."""

    def __init__(self, interval=0, cycle=0, classes=(), connections=(), arrivals=()):
        self.interval = interval
        self.cycle = cycle
        self.classes = list(classes)
        self.connections = list(connections)
        self.arrivals = list(arrivals)

    def __eq__(self, other):
        return vars(self) == vars(other)


# From text to a plan.

def number(word, name):
    """The number that a word says."""
    if not re.fullmatch("[0-9]+", word):
        raise Refused("%s '%s' is not a number" % (name, word))
    if len(word.lstrip("0")) > 10 or int(word) >= LIMIT:
        raise Refused("%s %s is above %d" % (name, word, LIMIT - 1))
    return int(word)


def fields(words, names):
    """The numbers of the words name=number, in the order of the names."""
    found = {}
    for word in words:
        name, equals, value = word.partition("=")
        if not equals:
            raise Refused("'%s' is not of the form name=number" % word)
        if name not in names:
            raise Refused("'%s' is not one of %s" % (name, ", ".join(names)))
        if name in found:
            raise Refused("%s is given twice" % name)
        found[name] = number(value, name)
    for name in names:
        if name not in found:
            raise Refused("%s is missing" % name)
    return tuple(found[name] for name in names)


def one_number(kind, words):
    """The number of a line that has one."""
    if len(words) != 1:
        raise Refused("%s takes one number" % kind)
    return number(words[0], kind)


def slot_fault(before, slot):
    """What is wrong with the slot of an arrival after the slots `before`, or None."""
    if slot > LAST_SLOT:
        return "slot %d is above %d" % (slot, LAST_SLOT)
    if before and slot < before[-1]:
        return "slot %d falls below slot %d" % (slot, before[-1])
    return None


def add_entry(table, kind, entry):
    """One more entry at the end of a table."""
    if len(table) == MOST[kind]:
        raise Refused("more than %d %s" % (MOST[kind], MANY[kind]))
    if kind == "arrival":
        fault = slot_fault([a[0] for a in table[-1:]], entry[0])
        if fault:
            raise Refused(fault)
    table.append(entry)


def add_line(plan, seen, words):
    """Add what one line says to the plan; `seen` has the lines that may stand only once."""
    kind, rest = words[0], words[1:]
    if kind in ("interval", "cycle"):
        if kind in seen:
            raise Refused("%s is given twice" % kind)
        seen.add(kind)
        setattr(plan, kind, one_number(kind, rest))
    elif kind == "class":
        add_entry(plan.classes, kind, one_number(kind, rest))
    elif kind == "connection":
        add_entry(plan.connections, kind, fields(rest, CONNECTION))
    elif kind == "arrival":
        add_entry(plan.arrivals, kind, fields(rest, ARRIVAL))
    else:
        raise Refused("'%s' is not interval, cycle, class, connection or arrival" % kind)


def words_of(line):
    """The words of a line of bytes, without its comment."""
    try:
        return line.decode("utf-8").split("#", 1)[0].split()
    except UnicodeDecodeError:
        raise Refused("not text in UTF-8")


def plan_of_text(text, name):
    """The plan that the bytes of a text say; `name` is the file's, for messages."""
    plan, seen, at = Plan(), set(), 0
    lines = text.split(b"\n")
    if len(lines) > 1 and not lines[-1]:
        lines.pop()
    try:
        for at, line in enumerate(lines, 1):
            words = words_of(line)
            if words:
                add_line(plan, seen, words)
        for kind in ("interval", "cycle"):
            if kind not in seen:
                raise Refused("%s is missing" % kind)
    except Refused as refused:
        raise Refused("%s:%d: %s" % (name, at, refused))
    return plan


# From a plan to text.

def entry_line(kind, names, entry):
    return kind + "".join(" %s=%d" % pair for pair in zip(names, entry))


def text_of_plan(plan):
    """The canonical text of a plan, as bytes."""
    lines = ["interval %d" % plan.interval, "cycle %d" % plan.cycle]
    lines += ["class %d" % factor for factor in plan.classes]
    lines += [entry_line("connection", CONNECTION, c) for c in plan.connections]
    lines += [entry_line("arrival", ARRIVAL, a) for a in plan.arrivals]
    return "".join(line + "\n" for line in lines).encode("ascii")


# From a plan to bytes.

def bytes_of_plan(plan):
    """The plan file."""
    classes, connections, arrivals = len(plan.classes), len(plan.connections), len(plan.arrivals)
    second = HEADER + 4 * classes
    third = second + 16 * connections
    size = third + 12 * arrivals
    head = [size, plan.interval, plan.cycle, classes, HEADER, connections, second, arrivals, third]
    tables = plan.classes + [n for c in plan.connections for n in c] + [n for a in plan.arrivals for n in a]
    words = head + [-sum(head + tables) % LIMIT] + tables
    return struct.pack("<%dI" % len(words), *words)


# From bytes to a plan.

def size_fault(data):
    """Why the answer is 13, or None."""
    if len(data) < HEADER:
        return "%d bytes, under %d" % (len(data), HEADER)
    if len(data) > LARGEST:
        return "%d bytes, above %d" % (len(data), LARGEST)
    if len(data) % 4:
        return "%d bytes, not a multiple of 4" % len(data)
    said = struct.unpack_from("<I", data)[0]
    if said != len(data):
        return "%d bytes, but word 0 says %d" % (len(data), said)
    return None


def layout_fault(words):
    """Why the answer is 15, or None."""
    for kind, at in (("class", 3), ("connection", 5), ("arrival", 7)):
        if words[at] > MOST[kind]:
            return "%d %s, above %d" % (words[at], MANY[kind], MOST[kind])
    start = HEADER
    for kind, at, size in (("class", 3, 4), ("connection", 5, 16), ("arrival", 7, 12)):
        if words[at + 1] != start:
            return "the %s start at byte %d, but their offset is %d" % (MANY[kind], start, words[at + 1])
        start += size * words[at]
    if words[0] != start:
        return "the tables end at byte %d, but the file has %d" % (start, words[0])
    return None


def order_fault(arrivals):
    """Why the answer is 16, or None."""
    before = []
    for place, entry in enumerate(arrivals, 1):
        fault = slot_fault(before, entry[0])
        if fault:
            return "arrival %d: %s" % (place, fault)
        before = [entry[0]]
    return None


def entries(words, start, count, size):
    """The entries of a table that starts at this word."""
    return [tuple(words[start + size * i:start + size * (i + 1)]) for i in range(count)]


def plan_of_bytes(data, name):
    """The plan in a plan file, or the number of its refusal with the reason; the order is 13, 14, 15, 16."""
    def judge(answer, fault):
        if fault:
            raise Refused("%s: refused %d: %s" % (name, answer, fault))

    judge(13, size_fault(data))
    words = struct.unpack("<%dI" % (len(data) // 4), data)
    total = sum(words) % LIMIT
    judge(14, "the words sum to %d and not to 0 modulo 2^32" % total if total else None)
    judge(15, layout_fault(words))
    second = 10 + words[3]
    third = second + 4 * words[5]
    arrivals = entries(words, third, words[7], 3)
    judge(16, order_fault(arrivals))
    return Plan(words[1], words[2], words[10:second], entries(words, second, words[5], 4), arrivals)


# The command.

def to_bytes(data, name):
    return bytes_of_plan(plan_of_text(data, name))


def to_text(data, name):
    return text_of_plan(plan_of_bytes(data, name))


def read(name):
    """The bytes of a file, or of standard input where its name is `-`."""
    if name == "-":
        return sys.stdin.buffer.read()
    with open(name, "rb") as file:
        return file.read()


def main(words):
    ways = {"to-bytes": to_bytes, "to-text": to_text}
    if len(words) != 2 or words[0] not in ways:
        print("usage: plan_text.py to-bytes FILE.txt | to-text PLAN   (- is standard input)", file=sys.stderr)
        return 2
    name = "stdin" if words[1] == "-" else words[1]
    try:
        result = ways[words[0]](read(words[1]), name)
    except (Refused, OSError) as refused:
        print(refused, file=sys.stderr)
        return 1
    sys.stdout.buffer.write(result)
    return 0


if __name__ == "__main__":
    sys.exit(main(sys.argv[1:]))
