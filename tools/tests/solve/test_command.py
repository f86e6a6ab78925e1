"""What the command takes, says and writes."""
import io
import json
import os
import signal
import subprocess
import sys
import tempfile
import time
import unittest
import unittest.mock

import solve
from cases.file import encode
from cases.model import CONNECT, NO_CLUE, UNDO, WALL, Case
from checker import sendai
from solver.report import effort, verdict
from solver.search import Found, NoSolver, Solver
from solver.trace import MAGIC

from ..case.support import Terminal


def played(data):
    """Plays a trace on a puzzle of its own, and holds each ask to what the trace says: the puzzle, and how many asks and faults it had."""
    at = len(MAGIC) + 2

    def words(count):
        nonlocal at
        at += 2 * count
        return [data[k] << 8 | data[k + 1] for k in range(at - 2 * count, at, 2)]
    assert data.startswith(MAGIC)
    puzzle = sendai.Puzzle(data[8], data[9], words(words(1)[0]), words(words(1)[0]))
    asks = faults = 0
    while at < len(data):
        kind = data[at]
        at += 1
        if kind == 0:
            puzzle.undo()
        elif kind == 1:
            puzzle.stroke(sendai.entries(words(words(1)[0])))
        else:
            fault, asks, faults = puzzle.ask(), asks + 1, faults + (kind > 2)
            told = None if kind == 2 else ("shape",) if kind == 3 else tuple(words(1))
            assert (fault and (fault.check, len(fault.list))) == (told and told + tuple(words(1)))
    return puzzle, asks, faults


class Command(unittest.TestCase):
    def setUp(self):
        folder = tempfile.TemporaryDirectory()
        self.addCleanup(folder.cleanup)
        self.path = os.path.join(folder.name, "sendai.bin")

    def told(self, case, *options, terminal=False):
        """The status, and the lines of both outputs, for a case or the bytes of a file."""
        said = Terminal() if terminal else io.StringIO()
        with open(self.path, "wb") as f:
            f.write(case if isinstance(case, bytes) else encode(case))
        with unittest.mock.patch("sys.stdout", io.StringIO()) as out, unittest.mock.patch("sys.stderr", said) as err:
            try:
                status = solve.main([self.path, *options])
            except SystemExit as e:
                status = e.code
        return status, out.getvalue().splitlines(), err.getvalue().splitlines()

    def test_several_answers(self):
        status, out, err = self.told(Case(1, 4, [], [NO_CLUE]), "--all")
        self.assertEqual((status, err, out[:2], out[3:]), (0, [], ["1 by 4, 0 given walls, clues: -", "2 answers: these are all"], [
            "started             in all answers      1                   2",
            "+---+---+---+---+   +---+---+---+---+   +---+---+---+---+   +---+---+---+---+",
            "|               |   |   ?   x   ?   |   |   O   x   O   |   |   X   x   X   |",
            "+---+---+---+---+   +---+---+---+---+   +---+---+---+---+   +---+---+---+---+",
            "X and O: Walls and Connected borders in which these answers differ"]))
        self.assertRegex(out[2], r"^\d+ asks, \d+ faults, \d+\.\d seconds$")

    def test_counts(self):
        found = Found()
        found.asks, found.faults, found.answers = 1, 1, [b""] * 1808
        self.assertEqual((effort(found), verdict(found)), ("1 ask, 1 fault, 0.0 seconds", "1,808 answers: these are all"))

    def test_a_limit_is_told(self):
        for options, count in (((), 2), (("--limit", "2"), 2), (("--limit", "3"), 3)):
            status, out, _ = self.told(Case(2, 4, [], [NO_CLUE]), *options)
            self.assertEqual((status, out[1]), (0, "at least %d answers; stopped at the limit" % count))
            self.assertIn("in these answers", out[3])
            self.assertTrue(out[-1].endswith("; others may differ elsewhere"))

    def test_how_many_are_drawn(self):
        for most, titles, drawn in ((0, "started             in all answers", True), (1, "started             in all answers      1", True),
                                    (2, "started             in all answers      1                   2", False)):
            out = self.told(Case(1, 4, [], [NO_CLUE]), "--all", "--draw", str(most))[1]
            self.assertEqual((out[3], out[-1] == "drawn are the first %d of 2 answers: --draw N for more" % most), (titles, drawn))

    def test_progress_on_a_terminal(self):
        row = Case(1, 4, [], [NO_CLUE])
        err = self.told(row, "--all", terminal=True)[2]
        self.assertRegex("\n".join(err), r"\x1b\[K\d+ asks, \d+ faults, \d+\.\d seconds, 1 found\n(.*, 2 found\n)+\x1b\[K$")
        self.assertEqual((self.told(row, "--all", "--quiet", terminal=True)[2], self.told(row, "--all")[2]), ([], []))

    def test_verdicts(self):
        for case, said in ((Case(1, 4, [1], [1, NO_CLUE]), "1 answer: it is the only one"), (Case(1, 1, [], [NO_CLUE]), "no answer"),
                           (Case(1, 4, [], [3]), "no answer"), (Case(1, 3, [0, 1], [NO_CLUE] * 3), "1 answer: it is the only one")):
            status, out, err = self.told(case, "--quiet")
            self.assertEqual((status, out[1], len(out), err), (0, said, 3, []))

    def test_a_start_is_extended(self):
        calls = [(WALL, 0), (UNDO, None), (CONNECT, 2), (CONNECT, 2)]
        self.assertEqual(self.told(Case(1, 4, [], [NO_CLUE], calls))[1][4:6], [
            "+---+---+---+---+   +---+---+---+---+", "|           o   |   |   o   x   o   |"])
        self.assertEqual(self.told(Case(1, 2, [], [NO_CLUE], [(CONNECT, 0)]))[1][1], "no answer")

    def test_json(self):
        told = json.loads(self.told(Case(1, 4, [], [NO_CLUE]), "--all", "--json")[1][0])
        self.assertEqual((told["answers"], told["stopped"]), ([[1, 2, 1], [2, 2, 2]], None))

    def test_wrong_input(self):
        row = Case(1, 4, [], [NO_CLUE])
        for case, options, said in ((b"", [], "."), (b"\x01\x00", [], "."), (b"\xff\xfe", [], "."), (Case(0, 3), [], "refused 1"),
                                    (Case(1, 3, [], [4]), [], "refused 9"), (row, ["--trace", "/no/such"], "/no/such: No such file")):
            status, out, err = self.told(case, *options)
            self.assertEqual((status, out, len(err)), (2, [], 1))
            self.assertRegex(err[0], "^solve.py: .*" + said)
        for options in (["--limit", "x"], ["--seconds", "-1"], ["--seconds", "nan"], ["--asks", "1.5"], ["--asks", "0"], ["--no-such"]):
            self.assertEqual(self.told(row, *options)[:2], (2, []))

    def test_missing_parts(self):
        row = Case(1, 4, [], [NO_CLUE])
        with unittest.mock.patch.dict(os.environ, PATH=os.path.dirname(self.path)):
            status, out, err = self.told(row)
        self.assertEqual((status, out, err), (3, [], ["solve.py: no clingo: No such file or directory (Debian's package gringo has it)"]))
        status, out, err = self.told(row, "--library", self.path + ".none")
        self.assertEqual((status, out, len(err)), (3, [], 1))
        self.addCleanup(sendai.load)
        with self.assertRaisesRegex(NoSolver, "^clingo failed: "):
            with Solver("false") as failing:
                failing.solve(sendai.Puzzle(1, 2))

    def test_stopped_early(self):
        status, out, _ = self.told(Case(9, 9, [], [NO_CLUE]), "--all", "--asks", "3")
        self.assertEqual((status, out[1]), (1, "no answer found yet; stopped after the asks"))

    def test_a_trace_played_again(self):
        trace = self.path + ".trace"
        status, out, _ = self.told(Case(2, 4, [1, 4], [2, NO_CLUE], [(WALL, 0)]), "--all", "--quiet", "--trace", trace)
        with open(trace, "rb") as f:
            puzzle, asks, faults = played(f.read())
        self.assertTrue(out[2].startswith("%d asks, %d faults, " % (asks, faults)))
        self.assertEqual((status, puzzle), (0, sendai.Puzzle(2, 4, [1, 4], [2, NO_CLUE])))

    @unittest.skipUnless(os.path.exists("/dev/full"), "no /dev/full")
    def test_an_output_that_takes_nothing(self):
        with open(self.path, "wb") as f:
            f.write(encode(Case(1, 4, [], [NO_CLUE])))
        command = [sys.executable, os.path.abspath(solve.__file__), self.path]
        for output, said in ((">&-", b"Bad file descriptor"), ("> /dev/full", b"No space left on device")):
            for words in ([], ["--help"]):
                done = subprocess.run(["sh", "-c", '"$@" ' + output, "sh"] + command + words, stderr=subprocess.PIPE)
                self.assertEqual((done.returncode, done.stderr), (2, b"solve.py: standard output: %s\n" % said))

    @unittest.skipUnless(os.path.exists("/dev/full"), "no /dev/full")
    def test_a_trace_that_takes_nothing(self):
        for case in (Case(1, 4, [], [NO_CLUE]), Case(6, 6, [], [NO_CLUE])):  # one whose trace is written at its end, and a long one
            status, out, err = self.told(case, "--trace", "/dev/full", "--all", "--asks", "20000")
            self.assertEqual((status, out, err), (2, [], ["solve.py: /dev/full: No space left on device"]))

    def test_interrupted(self):
        with open(self.path, "wb") as f:
            f.write(encode(Case(12, 12, [], [NO_CLUE])))
        command = [sys.executable, os.path.abspath(solve.__file__), self.path, "--all", "--quiet", "--trace", self.path + ".trace"]
        running = subprocess.Popen(command, stdout=subprocess.PIPE, stderr=subprocess.PIPE, text=True, start_new_session=True)
        late = time.monotonic() + 30
        while time.monotonic() < late and not (os.path.exists(command[-1]) and os.path.getsize(command[-1])):
            time.sleep(0.1)
        os.killpg(running.pid, signal.SIGINT)
        out, err = running.communicate(timeout=20)
        self.assertEqual((running.returncode, err), (130, ""))
        self.assertRegex(out.split("\n")[1], "; interrupted$")
        with open(command[-1], "rb") as f:
            puzzle, asks, _ = played(f.read())
        self.assertEqual(puzzle.strokes(), [])
        self.assertGreater(asks, 100)
