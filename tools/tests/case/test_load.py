import os
import shutil
import subprocess
import sys

import case
from cases.file import decode
from cases.model import NO_CLUE, Case, border_count
from cases.read import read_bytes

from .support import ARCHIVE, WithCalls, run

# What `load` refuses, and how it says so.
REFUSED_LOADS = [
    ("1 0 1 1", "refused 1: a size is not within its limits (0 by 1, 1 calls)"),
    ("0 1 33 1", "refused 1: a size is not within its limits (1 by 33, 1 calls)"),
    ("1 18446744073709551617 1 1", "refused 1: a size is not within its limits (18446744073709551617 by 1, 1 calls)"),
    ("1 1 18446744073709551617 1", "refused 1: a size is not within its limits (1 by 18446744073709551617, 1 calls)"),
    ("0 1 1 1", "refused 13: the seed is 0 (1 by 1, 1 calls)"),
    ("0x0 32 32 59991", "refused 13: the seed is 0 (32 by 32, 59991 calls)"),
    ("1 1 1 59991", "refused 6: a buffer is too short, or a file too long (1 by 1, 59991 calls)"),
    ("1 1 1 18446744073709551617", "refused 6: a buffer is too short, or a file too long (1 by 1, 18446744073709551617 calls)"),
    ("4294967297 1 1 1", "the seed does not fit 32 bits"),
    ("0x100000000 1 1 1", "the seed does not fit 32 bits"),
]


class Loaded(WithCalls):
    def load(self, words, *options):
        """The file that the command writes, or what it says where it ends with status 2."""
        status, out, said = run("load", *words.split(), self.path, *options)
        self.assertEqual((status, out), (2 if said else 0, ""))
        return said or read_bytes(self.path)

    def test_bytes(self):
        for words, rest in (("7 3 2 0", "000a 0302 0000 0001 ffff 0000"),
                            ("16 1 1 1", "000b 0101 0000 0001 ffff 0001 03"),
                            ("9 1 1 2", "000c 0101 0000 0001 ffff 0002 03 03"),
                            ("1 1 2 2", "0010 0102 0000 0001 ffff 0002 010000 010000"),
                            ("20 2 3 4", "0012 0203 0000 0001 ffff 0004 010003 00 020005 03"),
                            ("4294967295 2 3 4", "0010 0203 0000 0001 ffff 0004 03 03 03 020004"),
                            ("1 32 32 1", "000d 2020 0000 0001 ffff 0001 010081")):
            self.assertEqual(self.load(words).hex(), "01" + rest.replace(" ", ""), words)

    def test_hexadecimal_seeds(self):
        for seed in ("0xFFFFffff", "0Xffffffff", "0x0ffffffff"):
            self.assertEqual(self.load(seed + " 5 7 50"), self.load("4294967295 5 7 50"))
        self.assertEqual(self.load("0x10 5 7 50"), self.load("16 5 7 50"))
        self.assertNotEqual(self.load("10 5 7 50"), self.load("16 5 7 50"))

    def test_the_case_of_a_seed(self):
        for height, width, count in ((1, 1, 0), (1, 1, 99), (1, 2, 99), (2, 1, 99), (5, 7, 999), (32, 32, 9999), (1, 1, 59990)):
            made = decode(self.load("99 %d %d %d" % (height, width, count)))
            self.assertEqual(made, Case(height, width, [], [NO_CLUE], made.calls))
            self.assertEqual(len(made.calls), count)
            self.assertEqual([b for _, b in made.calls if b is not None and b >= border_count(made)], [])

    def test_refusals_leave_the_file(self):
        kept = self.load("1 1 2 2")
        for words, said in REFUSED_LOADS:
            self.assertEqual(self.load(words), "case.py: %s\n" % said)
            self.assertEqual(read_bytes(self.path), kept)

    def test_words_that_are_no_numbers(self):
        for words in ("x 1 1 1", "-1 1 1 1", "0x 1 1 1", "0xg 1 1 1", "1_0 1 1 1", "1 0x1 1 1", "1 1 1.5 1", "1 1 1 -1", "1 1 1 ²", "1 1 1 ٣"):
            self.assertRegex(self.load(words), "^case.py: load: argument [A-Z]+: '.*' is no natural number [^\n]*\n$")

    def test_as_a_command(self):
        def done(words):
            command = [sys.executable, os.path.abspath(case.__file__), "load", *words.split()]
            ran = subprocess.run(command, cwd=os.path.dirname(self.path), stdout=subprocess.PIPE, stderr=subprocess.PIPE)
            return ran.returncode, ran.stdout.decode(), ran.stderr.decode()
        self.assertEqual(done("1 1 2 2"), (0, "", ""))
        kept = read_bytes(self.path)
        self.assertEqual(len(kept), 19)
        for words, said in REFUSED_LOADS:
            self.assertEqual(done(words), (2, "", "case.py: %s\n" % said))
        self.assertEqual(read_bytes(self.path), kept)

    def test_another_archive(self):
        copied = shutil.copy(ARCHIVE, self.path + ".a")
        self.assertEqual(self.load("20 2 3 4", "--library", copied), self.load("20 2 3 4"))
        self.assertRegex(self.load("20 2 3 4", "--library", self.path + ".none"), "^case.py: no .*none\n$")
