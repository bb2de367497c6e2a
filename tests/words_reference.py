#!/usr/bin/env python3
"""The box in words, written again from docs/LAYOUT.md and document 01 and from nothing else: an independent test of soundness. Writes the
files of tests/stored/damage: `state`, the words of a rich sound state up to its last packet, and `lines`, the verdicts on its damage: for
each word of the state, and five after it, a digit, the verdicts on the word set to 0, plus one, minus one (both within 32 bits) and to
4,294,967,295 as bits 1, 2, 4 and 8.

    tests/words_reference.py            write them
    tests/words_reference.py --check    write nothing; exit status 1 where a file differs from what would be written"""
import sys

sys.dont_write_bytecode = True
from plan_reference import pack  # noqa: E402
from stored_files import settle  # noqa: E402

STORED = "tests/stored/damage"
WORDS = 4371
TOP = 2 ** 32 - 1


def rising(numbers, low):
    for n in numbers:
        if n <= low:
            return False
        low = n
    return True


def settings_ok(ws):
    d, m, p = ws[0], ws[1], ws[2]
    if not (1 <= d <= 256 and 1 <= m <= 4096 and 1 <= p <= 8):
        return False
    factors = ws[3:3 + p]
    return rising(factors, 0) and factors[-1] <= 63 and factors[-1] * d <= 1024 and not any(ws[3 + p:11])


def row_ok(ws, row):
    kind, s, b, t, nxt, credit = row
    if not (1 <= kind <= ws[2] and 1 <= s <= 64 and 1 <= b <= 64 and 1 <= t <= ws[1]) or ws[1] % t:
        return False
    return (credit == b and nxt == 0) or (credit < b and 1 <= nxt <= ws[204] + t)


def rows_of(ws):
    return [ws[12 + 6 * i:18 + 6 * i] for i in range(ws[11])]


def packet_ok(ws, rows, packet):
    serial, number, units, arrival = packet
    return 1 <= serial <= ws[205] and 1 <= number <= len(rows) and 1 <= units <= rows[number - 1][1] and arrival <= ws[204]


def sound(ws):
    if len(ws) < WORDS or not settings_ok(ws) or ws[11] > 32:
        return False
    rows = rows_of(ws)
    if any(ws[12 + 6 * len(rows):204]) or not all(row_ok(ws, r) for r in rows) or ws[204] > 4000000000:
        return False
    lengths = ws[211:275]
    if sum(lengths) > 1024:
        return False
    left, link = ws[206], ws[207:211]
    if left == 0:
        if any(link):
            return False
    elif not packet_ok(ws, rows, link) or not left <= link[2] - 1:
        return False
    if ws[205] > ws[204] + sum(lengths) + (1 if left else 0):
        return False
    largest, turns, at = ws[2 + ws[2]], ws[204] // ws[0], 275
    for place, length in enumerate(lengths):
        tag = (place - turns) % 64
        if tag > largest and length:
            return False
        queue = [ws[at + 4 * i:at + 4 * i + 4] for i in range(length)]
        at += 4 * length
        for packet in queue:
            if not packet_ok(ws, rows, packet):
                return False
            if packet[3] // ws[0] + ws[2 + rows[packet[1] - 1][0]] != turns + tag:
                return False
        if not rising([q[0] for q in queue], 0):
            return False
    return True


def rich_state():
    """D 4, M 24, factors 1 3 5; four connections; counter 250; a packet on the link; packets in several queues, whose places wrap round
    from 63 to 0."""
    ws = [0] * WORDS
    ws[0:3] = [4, 24, 3]
    ws[3:6] = [1, 3, 5]
    rows = [[1, 2, 1, 8, 253, 0], [2, 5, 3, 12, 0, 3], [3, 8, 2, 6, 256, 1], [2, 4, 64, 24, 274, 63]]
    ws[11] = len(rows)
    for i, row in enumerate(rows):
        ws[12 + 6 * i:18 + 6 * i] = row
    ws[204:206] = [250, 60]
    ws[206:211] = [2, 40, 3, 5, 239]
    waiting = [(41, 1, 2, 245), (43, 2, 5, 240), (45, 4, 1, 241), (46, 2, 3, 247), (50, 3, 8, 244), (51, 3, 7, 247), (52, 2, 1, 248),
               (53, 4, 4, 249), (54, 1, 1, 248), (55, 3, 6, 250), (56, 3, 1, 250), (60, 1, 2, 250)]
    factor = {1: 1, 2: 3, 3: 5}
    queues = {}
    for p in waiting:
        place = (p[3] // 4 + factor[rows[p[1] - 1][0]]) % 64
        queues.setdefault(place, []).append(p)
    at = 275
    for place in range(64):
        ws[211 + place] = len(queues.get(place, []))
        for p in queues.get(place, []):
            ws[at:at + 4] = p
            at += 4
    return ws, at


def digit(ws, i):
    bits = 0
    for bit, value in enumerate((0, min(ws[i] + 1, TOP), max(ws[i] - 1, 0), TOP)):
        changed = list(ws)
        changed[i] = value
        if sound(changed):
            bits |= 1 << bit
    return "0123456789abcdef"[bits]


def main(words):
    ws, end = rich_state()
    assert sound(ws), "the state is sound"
    text = "".join(digit(ws, i) for i in range(end + 5))
    rows = [text[i:i + 64] + "\n" for i in range(0, len(text), 64)]
    files = {STORED + "/state": pack(ws[:end]), STORED + "/lines": "".join(rows).encode()}
    return settle("damaged states", files, [STORED + "/*"], words)


if __name__ == "__main__":
    sys.exit(main(sys.argv[1:]))
