import random
import unittest

from cases.file import decode, encode
from cases.model import ASK, Case, Mistake, Unsound

from .support import PAPER, PAPER_CASE, random_case


class Files(unittest.TestCase):
    def test_paper(self):
        self.assertEqual(decode(PAPER), PAPER_CASE)
        self.assertEqual(encode(PAPER_CASE), PAPER)

    def test_random_there_and_back(self):
        rng = random.Random(1)
        for _ in range(300):
            made = random_case(rng)
            self.assertEqual(decode(encode(made)), made)

    def test_every_cut_and_every_longer_file_is_unsound(self):
        for n in range(len(PAPER)):
            with self.assertRaises(Unsound):
                decode(PAPER[:n])
        with self.assertRaises(Unsound):
            decode(PAPER + b"\x00")

    def test_unsound(self):
        for at, value in ((0, 2), (1, 1), (2, 0x11), (2, 0x13), (5, 1), (6, 1), (8, 2), (12, 3), (12, 5), (13, 4), (19, 255)):
            with self.assertRaises(Unsound):
                decode(PAPER[:at] + bytes([value]) + PAPER[at + 1:])

    def test_a_byte_behind_the_last_call(self):
        with self.assertRaises(Unsound):
            decode(b"\x01\x00\x09\x01\x03" + b"\x00" * 6 + b"\x07")
        self.assertEqual(decode(b"\x01\x00\x08\x01\x03" + b"\x00" * 6), Case(1, 3))

    def test_longest(self):
        asks = Case(32, 32, [], [], [(ASK, None)] * 59992)
        data = encode(asks)
        self.assertEqual(len(data), 60003)
        self.assertEqual(decode(data), asks)
        asks.calls.append((ASK, None))
        with self.assertRaises(Mistake):
            encode(asks)
