#!/usr/bin/env python3
"""Tests of tools/plan_text.py: good and bad input, both round trips, every refusal. Run: python3 tests/test_plan_text.py"""
import glob
import os
import random
import struct
import subprocess
import sys
import unittest

ROOT = os.path.dirname(os.path.dirname(os.path.abspath(__file__)))
TOOL = os.path.join(ROOT, "tools", "plan_text.py")
sys.dont_write_bytecode = True
sys.path.insert(0, os.path.dirname(TOOL))
import plan_text  # noqa: E402

# The worked run of document 01: its words, and its canonical text.
WORDS = [140, 4, 8, 2, 40, 2, 48, 5, 80, 4294966912, 1, 2, 1, 1, 1, 4, 2, 3, 1, 8,
         0, 2, 3, 1, 1, 1, 2, 1, 1, 5, 1, 1, 8, 2, 2]
TEXT = b"""interval 4
cycle 8
class 1
class 2
connection class=1 longest=1 burst=1 period=4
connection class=2 longest=3 burst=1 period=8
arrival slot=0 connection=2 length=3
arrival slot=1 connection=1 length=1
arrival slot=2 connection=1 length=1
arrival slot=5 connection=1 length=1
arrival slot=8 connection=2 length=2
"""
HEAD = b"interval 4\ncycle 8\n"
ARRIVAL = b"arrival slot=%d connection=1 length=1\n"


def pack(words):
    return struct.pack("<%dI" % len(words), *words)


def summed(words):
    """The words with word 9 solved for anew, as bytes."""
    words = list(words)
    words[9] = 0
    words[9] = -sum(words) % (1 << 32)
    return pack(words)


def changed(place, value):
    """The worked plan with one word changed and the sum solved for anew."""
    words = list(WORDS)
    words[place] = value
    return summed(words)


def random_plan(rng):
    """Any contents that read well, in range or not."""
    def word():
        return rng.choice([rng.randrange(10), rng.randrange(1 << 32), (1 << 32) - 1])

    slots = sorted(rng.choice([0, 1000000, rng.randrange(1000001)]) for _ in range(rng.randrange(20)))
    return plan_text.Plan(
        word(), word(), [word() for _ in range(rng.randrange(9))],
        [(word(), word(), word(), word()) for _ in range(rng.randrange(33))],
        [(slot, word(), word()) for slot in slots])


def command(*words, given=b""):
    """Run the tool: exit status, standard output and standard error."""
    done = subprocess.run([sys.executable, TOOL] + list(words), input=given, stdout=subprocess.PIPE, stderr=subprocess.PIPE)
    return done.returncode, done.stdout, done.stderr.decode()


class Good(unittest.TestCase):
    def test_worked_run(self):
        self.assertEqual(plan_text.to_bytes(TEXT, "p"), pack(WORDS))
        self.assertEqual(plan_text.to_text(pack(WORDS), "p"), TEXT)

    def test_bare(self):
        self.assertEqual(plan_text.to_bytes(b"interval 0\ncycle 0\n", "p"), summed([40, 0, 0, 0, 40, 0, 40, 0, 40, 0]))

    def test_freely_laid_out(self):
        free = (b"# a plan\r\n\r\narrival length=3 slot=00 connection=2 # first\n  class 1\n\tcycle 8\n"
                b"connection period=4 burst=1 class=1 longest=1\nclass 2\n# caf\xc3\xa9 \xe2\x80\xa8 one line\n"
                b"connection class=2 longest=3 burst=1 period=8\ninterval 4\n"
                + TEXT[TEXT.index(b"arrival slot=1"):].rstrip(b"\n"))
        self.assertEqual(plan_text.to_bytes(free, "p"), pack(WORDS))

    def test_largest(self):
        text = (b"interval 4294967295\ncycle 4294967295\n" + b"class 4294967295\n" * 8
                + b"connection class=4294967295 longest=0 burst=0 period=0\n" * 32 + ARRIVAL % 1000000 * 4096)
        data = plan_text.to_bytes(text, "p")
        self.assertEqual(len(data), 40 + 4 * 8 + 16 * 32 + 12 * 4096)
        self.assertEqual(plan_text.to_text(data, "p"), text)

    def test_round_trips(self):
        rng = random.Random(9)
        for _ in range(200):
            plan = random_plan(rng)
            data = plan_text.bytes_of_plan(plan)
            self.assertEqual(plan_text.plan_of_bytes(data, "p"), plan)
            text = plan_text.to_text(data, "p")
            self.assertEqual(plan_text.to_bytes(text, "p"), data)
            self.assertEqual(plan_text.to_text(plan_text.to_bytes(text, "p"), "p"), text)

    def test_examples(self):
        names = glob.glob(os.path.join(ROOT, "examples", "*.txt"))
        self.assertTrue(names)
        for name in names:
            data = plan_text.to_bytes(plan_text.read(name), name)
            self.assertEqual(plan_text.to_bytes(plan_text.to_text(data, name), name), data)


class TextRefused(unittest.TestCase):
    def refuses(self, text, message):
        with self.assertRaises(plan_text.Refused) as caught:
            plan_text.to_bytes(text, "plan.txt")
        self.assertEqual(str(caught.exception), "plan.txt:" + message)

    def test_missing(self):
        self.refuses(b"", "1: interval is missing")
        self.refuses(b"cycle 8\n\n", "2: interval is missing")
        self.refuses(b"interval 4\nclass 1\n", "2: cycle is missing")
        self.refuses(HEAD + b"connection class=1 longest=1 burst=1\n", "3: period is missing")
        self.refuses(HEAD + b"connection\n", "3: class is missing")
        self.refuses(HEAD + b"arrival slot=1 connection=1\n", "3: length is missing")

    def test_twice(self):
        self.refuses(HEAD + b"interval 4\n", "3: interval is given twice")
        self.refuses(HEAD + b"cycle 8\n", "3: cycle is given twice")
        self.refuses(HEAD + b"arrival slot=1 slot=1 connection=1 length=1\n", "3: slot is given twice")

    def test_unknown(self):
        self.refuses(b"# one\nspeed 4\n", "2: 'speed' is not interval, cycle, class, connection or arrival")
        self.refuses(HEAD + b"Class 1\n", "3: 'Class' is not interval, cycle, class, connection or arrival")
        self.refuses(HEAD + b"arrival slot=1 place=1 length=1\n", "3: 'place' is not one of slot, connection, length")
        self.refuses(HEAD + b"arrival 1 1 1\n", "3: '1' is not of the form name=number")
        self.refuses(b"interval \xff\n", "1: not text in UTF-8")

    def test_numbers(self):
        self.refuses(b"interval\n", "1: interval takes one number")
        self.refuses(b"interval 4 5\n", "1: interval takes one number")
        self.refuses(HEAD + b"class 1 2\n", "3: class takes one number")
        self.refuses(b"interval -4\n", "1: interval '-4' is not a number")
        self.refuses(b"interval 1_0\n", "1: interval '1_0' is not a number")
        self.refuses("cycle ٤\n".encode(), "1: cycle '٤' is not a number")
        self.refuses(HEAD + b"arrival slot= connection=1 length=1\n", "3: slot '' is not a number")
        self.refuses(HEAD + b"class 4294967296\n", "3: class 4294967296 is above 4294967295")
        self.refuses(b"interval 1" + b"0" * 9999, "1: interval 1" + "0" * 9999 + " is above 4294967295")

    def test_counts(self):
        self.refuses(HEAD + b"class 1\n" * 9, "11: more than 8 classes")
        self.refuses(HEAD + b"connection class=1 longest=1 burst=1 period=1\n" * 33, "35: more than 32 connections")
        self.refuses(HEAD + ARRIVAL % 0 * 4097, "4099: more than 4096 arrivals")

    def test_slots(self):
        self.refuses(HEAD + ARRIVAL % 5 + ARRIVAL % 4, "4: slot 4 falls below slot 5")
        self.refuses(HEAD + ARRIVAL % 1000001, "3: slot 1000001 is above 1000000")


class BytesRefused(unittest.TestCase):
    def refuses(self, data, message):
        with self.assertRaises(plan_text.Refused) as caught:
            plan_text.to_text(data, "plan")
        self.assertEqual(str(caught.exception), "plan: refused " + message)

    def test_13(self):
        worked = pack(WORDS)
        self.refuses(b"", "13: 0 bytes, under 40")
        self.refuses(worked[:39], "13: 39 bytes, under 40")
        self.refuses(worked + bytes(65540 - 140), "13: 65540 bytes, above 65536")
        self.refuses(worked[:41], "13: 41 bytes, not a multiple of 4")
        self.refuses(worked[:-4], "13: 136 bytes, but word 0 says 140")
        self.refuses(worked + bytes(4), "13: 144 bytes, but word 0 says 140")

    def test_14(self):
        self.refuses(pack(WORDS[:1] + [5] + WORDS[2:]), "14: the words sum to 1 and not to 0 modulo 2^32")
        self.refuses(pack(WORDS[:3] + [9] + WORDS[4:]), "14: the words sum to 7 and not to 0 modulo 2^32")

    def test_15(self):
        self.refuses(changed(3, 9), "15: 9 classes, above 8")
        self.refuses(changed(3, 1 << 30), "15: 1073741824 classes, above 8")
        self.refuses(changed(5, 33), "15: 33 connections, above 32")
        self.refuses(changed(7, 4097), "15: 4097 arrivals, above 4096")
        self.refuses(changed(4, 44), "15: the classes start at byte 40, but their offset is 44")
        self.refuses(changed(6, 44), "15: the connections start at byte 48, but their offset is 44")
        self.refuses(changed(8, 84), "15: the arrivals start at byte 80, but their offset is 84")
        self.refuses(changed(7, 4), "15: the tables end at byte 128, but the file has 140")

    def test_16(self):
        self.refuses(changed(23, 1000001), "16: arrival 2: slot 1000001 is above 1000000")
        self.refuses(changed(29, 1), "16: arrival 4: slot 1 falls below slot 2")


class Command(unittest.TestCase):
    def test_ways(self):
        self.assertEqual(command("to-bytes", "-", given=TEXT), (0, pack(WORDS), ""))
        self.assertEqual(command("to-text", "-", given=pack(WORDS)), (0, TEXT, ""))

    def test_refusals(self):
        self.assertEqual(command("to-bytes", "-", given=b"interval x\n"), (1, b"", "stdin:1: interval 'x' is not a number\n"))
        self.assertEqual(command("to-text", "-"), (1, b"", "stdin: refused 13: 0 bytes, under 40\n"))
        status, out, said = command("to-text", os.path.join(ROOT, "no such file"))
        self.assertEqual((status, out), (1, b""))
        self.assertIn("no such file", said)

    def test_usage(self):
        for words in ([], ["to-bytes"], ["to-bits", "-"], ["to-text", "-", "-"]):
            status, out, said = command(*words)
            self.assertEqual((status, out), (2, b""))
            self.assertIn("usage", said)


if __name__ == "__main__":
    unittest.main()
