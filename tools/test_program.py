#!/usr/bin/env python3
"""Tests of the program, with its statuses and what it says on standard error. Run it anywhere: python3 tools/test_program.py [PROGRAM]

PROGRAM is target/bin/sendai, which bindings/prove program makes, where none is named. What is wrong with a file is held to a reader of its own here.
"""
import errno
import os
import random
import re
import resource
import signal
import socket
import stat
import subprocess
import sys
import tempfile
import unittest

TOP = os.path.dirname(os.path.dirname(os.path.abspath(__file__)))
PROGRAM = os.path.join(TOP, "target", "bin", "sendai")
SECONDS = 2  # nothing that is refused takes longer
PAPER = bytes.fromhex("010012010300000001FFFF0004020000010001" + "0300")
PAPER_LINES = b"decided\ndecided\nshape: 1 2\nundone\n"


def system(number):
    """The system's words for an error, as the program has them."""
    return "%s (os error %d)" % (os.strerror(number), number)


def case_file(rest, version=1):
    return bytes([version]) + len(rest).to_bytes(2, "big") + rest


def numbers(*values):
    return b"".join(v.to_bytes(2, "big") for v in (len(values),) + values)


def puzzle(height, width, walls, clues, calls=b"\0\0"):
    return case_file(bytes([height, width]) + numbers(*walls) + numbers(*clues) + calls)


def flaw(data):
    """What a file's line says after its name, by SPEC 5.1 to 5.3, or None where it is sound."""
    if len(data) > 60003:
        return "it is longer than 60,003 bytes"
    if len(data) < 5:
        return "it has %d bytes, and version, length, height and width take 5" % len(data)
    if data[0] != 1:
        return "byte 0: the version is %d, not 1" % data[0]
    length = int.from_bytes(data[1:3], "big")
    if length != len(data) - 3:
        return "byte 1: the length is %d, and %d bytes follow it" % (length, len(data) - 3)
    at = 5
    for name in ("given walls", "clues"):
        count = int.from_bytes(data[at:at + 2], "big")
        if at + 2 > len(data):
            return "byte %d: the count of %s is cut off by the end of the file" % (at, name)
        if at + 2 + 2 * count > len(data):
            return "byte %d: the count of %s, %d, runs past the end of the file" % (at, name, count)
        at += 2 + 2 * count
    if at + 2 > len(data):
        return "byte %d: the count of calls is cut off by the end of the file" % at
    return flaw_of_calls(data, at + 2, int.from_bytes(data[at:at + 2], "big"))


def flaw_of_calls(data, at, count):
    past = "byte %d: the count of calls runs past the end of the file: it ends %s this call"
    for _ in range(count):
        if at >= len(data):
            return past % (at, "before")
        if data[at] > 3:
            return "byte %d: the call is of kind %d, not 0 to 3" % (at, data[at])
        size = 3 if data[at] in (1, 2) else 1
        if at + size > len(data):
            return past % (at, "in")
        at += size
    return None if at == len(data) else "byte %d: the last call ends before this byte, and the file does not" % at


class Program(unittest.TestCase):
    def setUp(self):
        self.room = tempfile.TemporaryDirectory()
        self.addCleanup(self.room.cleanup)
        self.folder = self.room.name

    def path(self, name):
        return os.path.join(self.folder, name)

    def write(self, data, name="case.bin"):
        with open(self.path(name), "wb") as f:
            f.write(data)
        return name

    def run_program(self, *words, **options):
        options.setdefault("stdout", subprocess.PIPE)
        return subprocess.run([os.path.abspath(PROGRAM)] + list(words), cwd=self.folder, stdin=subprocess.DEVNULL, stderr=subprocess.PIPE,
                              timeout=options.pop("seconds", SECONDS), **options)

    def ends(self, words, status, printed, said=None):
        """The status, what standard output has, and the one line on standard error, or none where said is None."""
        done = self.run_program(*words)
        self.assertEqual((done.returncode, done.stdout), (status, printed))
        self.assertEqual(done.stderr.decode(), "" if said is None else said + "\n")

    def unsound(self, name, why):
        self.ends([name], 1, b"refused 11\n", "sendai: %s: %s" % (name, why))


class Files(Program):
    def test_a_good_file_runs(self):
        self.ends([self.write(PAPER)], 0, PAPER_LINES)

    def test_sendai_bin_is_read_where_no_file_is_named(self):
        self.write(PAPER, "sendai.bin")
        self.ends([], 0, PAPER_LINES)
        self.ends(["--"], 0, PAPER_LINES)

    def test_another_file_is_read_beside_sendai_bin(self):
        self.write(PAPER, "sendai.bin")
        self.ends([self.write(puzzle(1, 2, [], [65535], b"\0\1\3"))], 0, b"clear\n")

    def test_a_file_with_no_calls_prints_nothing(self):
        self.ends([self.write(puzzle(1, 3, [], [65535]))], 0, b"")

    def test_a_missing_file(self):
        self.unsound("none.bin", system(errno.ENOENT))
        self.ends([], 1, b"refused 11\n", "sendai: sendai.bin: " + system(errno.ENOENT))
        self.ends([""], 1, b"refused 11\n", "sendai: : " + system(errno.ENOENT))
        self.unsound(self.write(PAPER) + "/x", system(errno.ENOTDIR))

    def test_a_folder(self):
        os.mkdir(self.path("sub"))
        self.unsound("sub", "it is a folder")
        self.unsound("sub/", "it is a folder")

    def test_what_is_no_regular_file_is_not_waited_for(self):
        os.mkfifo(self.path("pipe"))
        os.symlink("pipe", self.path("link"))
        bound = socket.socket(socket.AF_UNIX)
        self.addCleanup(bound.close)
        bound.bind(self.path("socket"))
        for name in ("pipe", "link", "socket", "/dev/zero", "/dev/null", "/dev/full"):
            self.unsound(name, "it is no regular file")

    def test_a_link_to_a_file_is_followed(self):
        os.symlink(self.write(PAPER), self.path("link"))
        self.ends(["link"], 0, PAPER_LINES)

    @unittest.skipIf(os.geteuid() == 0, "root may read every file")
    def test_a_file_that_may_not_be_read(self):
        os.chmod(self.path(self.write(PAPER)), 0)
        self.unsound("case.bin", system(errno.EACCES))

    @unittest.skipUnless(os.path.isfile("/proc/self/mem"), "no regular file is at hand whose read fails")
    def test_a_read_that_fails(self):
        self.unsound("/proc/self/mem", system(errno.EIO))

    def test_a_long_name(self):
        self.unsound("x" * 300, system(errno.ENAMETOOLONG))
        self.unsound("x/" * 2047, system(errno.ENOENT))
        self.ends(["x" * 4096], 1, b"refused 11\n", "sendai: %s: %s" % ("x" * 4096, system(errno.ENAMETOOLONG)))
        self.ends(["x" * 4097], 2, b"", "sendai: an argument is longer than 4,096 bytes")

    def test_names_with_spaces_dashes_and_line_feeds(self):
        self.ends([self.write(PAPER, "two words.bin")], 0, PAPER_LINES)
        self.ends(["--", self.write(PAPER, "--help")], 0, PAPER_LINES)
        self.ends(["--", self.write(PAPER, "-")], 0, PAPER_LINES)
        self.ends(["./-"], 0, PAPER_LINES)
        self.ends(["a\nb\x1b\x7f"], 1, b"refused 11\n", "sendai: a?b??: " + system(errno.ENOENT))
        self.ends(["--", self.write(b"", "ä\r")], 1, b"refused 11\n", "sendai: ä?: %s" % flaw(b""))

    def test_a_name_that_is_no_text(self):
        name = self.write(PAPER, b"a\xff\n\xe9".decode(errors="surrogateescape"))
        self.ends([name], 1, b"refused 11\n", "sendai: a\ufffd?\ufffd: its name is not UTF-8, and can't be opened here")


class Flaws(Program):
    def test_an_empty_file_and_short_ones(self):
        for length in range(5):
            self.unsound(self.write(PAPER[:length]), "it has %d bytes, and version, length, height and width take 5" % length)

    def test_a_file_that_is_too_long(self):
        longest = puzzle(1, 1, [], [65535], (59990).to_bytes(2, "big") + b"\0" * 59990)
        self.assertEqual(len(longest), 60003)
        done = self.run_program(self.write(longest), seconds=120)
        self.assertEqual((done.returncode, done.stdout), (0, b"refused 5\n" * 59990))
        self.unsound(self.write(longest + bytes(1)), "it is longer than 60,003 bytes")
        self.unsound(self.write(PAPER + bytes(65536)), "it is longer than 60,003 bytes")

    def test_a_sparse_file_of_100_megabytes(self):
        with open(self.path("large.bin"), "wb") as f:
            f.truncate(100 * 1000 * 1000)
        self.unsound("large.bin", "it is longer than 60,003 bytes")

    def test_each_flaw(self):
        for data, why in [
            (b"\2" + PAPER[1:], "byte 0: the version is 2, not 1"),
            (PAPER + b"\0", "byte 1: the length is 18, and 19 bytes follow it"),
            (case_file(b"\1\3\0"), "byte 5: the count of given walls is cut off by the end of the file"),
            (case_file(b"\1\3\1\0" + bytes(20)), "byte 5: the count of given walls, 256, runs past the end of the file"),
            (case_file(b"\1\3\0\0"), "byte 7: the count of clues is cut off by the end of the file"),
            (case_file(b"\1\3\0\1\0\0\0\2\0\0"), "byte 9: the count of clues, 2, runs past the end of the file"),
            (case_file(b"\1\3\0\0\0\0\0"), "byte 9: the count of calls is cut off by the end of the file"),
            (case_file(b"\1\3\0\0\0\0\0\2\3"), "byte 12: the count of calls runs past the end of the file: it ends before this call"),
            (case_file(b"\1\3\0\0\0\0\0\2\3\2\0"), "byte 12: the count of calls runs past the end of the file: it ends in this call"),
            (case_file(b"\1\3\0\0\0\0\0\2\3\7\0"), "byte 12: the call is of kind 7, not 0 to 3"),
            (case_file(b"\1\3\0\0\0\0\0\1\3\3"), "byte 12: the last call ends before this byte, and the file does not"),
        ]:
            with self.subTest(why=why):
                self.assertEqual(flaw(data), why)
                self.unsound(self.write(data), why)

    def test_damaged_files(self):
        """Files that are drawn and damaged are refused for what the reader here finds, and only then."""
        drawn = random.Random(1)
        told = set()
        for _ in range(600):
            data = bytearray(puzzle(1, 3, [], [65535], b"\0\3\2\0\0\3\0"))
            for _ in range(drawn.randrange(3)):
                data[drawn.randrange(len(data))] = drawn.choice((0, 1, 2, 3, 4, 255))
            data = data[:drawn.choice((len(data), drawn.randrange(len(data) + 1)))] + bytes(drawn.choice((0, 0, 1)))
            if drawn.randrange(4):
                data[1:3] = max(0, len(data) - 3).to_bytes(2, "big")
            why = flaw(bytes(data))
            done = self.run_program(self.write(bytes(data)))
            if why is None:
                self.assertNotEqual(done.stdout, b"refused 11\n")
                continue
            told.add(re.sub("[0-9]+", "", why))
            self.assertEqual((done.returncode, done.stdout, done.stderr.decode()), (1, b"refused 11\n", "sendai: case.bin: %s\n" % why))
        self.assertGreater(len(told), 6)


class Puzzles(Program):
    def test_each_refusal(self):
        for data, number, why in [
            (puzzle(33, 1, [], []), 1, "a board of 33 by 1 cells is not within 1 to 32 a side"),
            (puzzle(0, 5, [], []), 1, "a board of 0 by 5 cells is not within 1 to 32 a side"),
            (puzzle(1, 3, [2], [65535]), 3, "a given wall names a border that the board does not have"),
            (puzzle(1, 3, [1, 0], [65535] * 3), 7, "the given walls do not rise strictly"),
            (puzzle(1, 3, [0], [65535]), 8, "there are not as many clues as rooms"),
            (puzzle(1, 3, [], [4]), 9, "a clue is more than its room has cells"),
        ]:
            with self.subTest(why=why):
                self.ends([self.write(data)], 1, b"refused %d\n" % number, "sendai: case.bin: " + why)

    def test_a_refused_call_is_no_refused_file(self):
        self.ends([self.write(puzzle(1, 3, [], [65535], b"\0\1\0"))], 0, b"refused 5\n")


class Use(Program):
    def test_wrong_uses(self):
        self.write(PAPER, "sendai.bin")
        many = "sendai: too many arguments: see sendai --help"
        for words in (["a", "b"], ["--help", "x"], ["x", "--"], ["--", "a", "b"], ["a", "b", "c", "d"]):
            self.ends(words, 2, b"", many)
        for word in ("-", "-h", "--what", "---", "-\n"):
            self.ends([word], 2, b"", "sendai: %s is no option: see sendai --help" % word.replace("\n", "?"))

    def test_help(self):
        done = self.run_program("--help")
        self.assertEqual((done.returncode, done.stderr), (0, b""))
        for word in (b"[FILE]", b"--version", b"sendai.bin", b"1 where", b"2 where", b"3 where"):
            self.assertIn(word, done.stdout)

    def test_version(self):
        with open(os.path.join(TOP, "crates", "version", "src", "lib.rt")) as f:
            number = int(re.search(r"VERSION: u32 = (\d+);", f.read()).group(1))
        self.ends(["--version"], 0, b"sendai %d.%d.%d\n" % (number // 10000, number // 100 % 100, number % 100))


class Output(Program):
    def not_written(self, words, why, **options):
        done = self.run_program(*words, **options)
        self.assertEqual((done.returncode, done.stderr.decode()), (3, "sendai: standard output can't be written, not all is out: %s\n" % why))
        return done

    def test_output_that_is_full(self):
        for words in ([self.write(PAPER)], ["none.bin"], [self.write(b"", "empty.bin")], ["--help"], ["--version"]):
            with open("/dev/full", "wb") as full:
                self.not_written(words, system(errno.ENOSPC), stdout=full)

    def test_a_pipe_that_no_one_reads(self):
        for words in ([self.write(PAPER)], ["none.bin"], ["--help"]):
            reader, writer = os.pipe()
            os.close(reader)
            try:
                self.not_written(words, system(errno.EPIPE), stdout=writer)
            finally:
                os.close(writer)

    def test_output_that_is_closed(self):
        for words in ([self.write(PAPER)], ["none.bin"], ["--version"]):
            self.not_written(words, system(errno.EBADF), stdout=None, preexec_fn=lambda: os.close(1))

    def test_output_that_fills_up(self):
        """The lines before the failed write stand, whole or cut, and nothing comes after them."""
        self.write(PAPER)
        with open(self.path("out"), "wb") as out:
            limit = len(b"decided\ndec")
            self.not_written(["case.bin"], system(errno.EFBIG), stdout=out, preexec_fn=lambda: limited(limit))
        with open(self.path("out"), "rb") as out:
            self.assertEqual(out.read(), PAPER_LINES[:limit])

    def test_closed_standard_error_changes_nothing_else(self):
        done = subprocess.run([os.path.abspath(PROGRAM), "none.bin"], cwd=self.folder, stdout=subprocess.PIPE, preexec_fn=lambda: os.close(2), timeout=SECONDS)
        self.assertEqual((done.returncode, done.stdout), (1, b"refused 11\n"))


def limited(size):
    """Lets the process write files of so many bytes, and tells it by an error and no signal."""
    signal.signal(signal.SIGXFSZ, signal.SIG_IGN)
    resource.setrlimit(resource.RLIMIT_FSIZE, (size, size))


if __name__ == "__main__":
    if len(sys.argv) > 1 and not sys.argv[1].startswith("-"):
        PROGRAM = sys.argv.pop(1)
    if not (os.path.exists(PROGRAM) and os.stat(PROGRAM).st_mode & stat.S_IXUSR):
        sys.exit("%s is not there: bindings/prove program makes it" % PROGRAM)
    unittest.main()
