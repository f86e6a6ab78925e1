import random
import unittest

from cases import text
from cases.model import ASK, CONNECT, NO_CLUE, UNDO, WALL, Case, Mistake, refusal
from cases.turns import Choice, Turn, check_lines, turns

from .support import PAPER_CASE, PAPER_LINES, random_case


def report(made, lines):
    return "\n".join(text.report(made, lines))


class Answers(unittest.TestCase):
    def test_report(self):
        self.assertEqual(report(PAPER_CASE, PAPER_LINES).split("\n"), [
            "1 by 3, 0 given walls, clues: -",
            "+---+---+---+",
            "|           |",
            "+---+---+---+",
            "1  wall 0  ->  decided",
            "2  connect 1  ->  decided",
            "3  ask  ->  shape: 1 2",
            "+---+---+---+",
            "|   X   O   |",
            "+---+---+---+",
            "4  undo  ->  undone",
        ])

    def test_counts(self):
        self.assertEqual(text.heading(Case(1, 2, [0], [1, NO_CLUE])), "1 by 2, 1 given wall, clues: 1 -")
        self.assertIn(" 1,984 given walls,", text.heading(Case(32, 32, range(1984))))
        with self.assertRaisesRegex(Mistake, "^there is no step 2000: the case has 1,000$"):
            Choice([(2000, 2000)]).check(Case(1, 2, [], [NO_CLUE], [(ASK, None)] * 1000), None)

    def test_refused_calls_change_nothing(self):
        made = Case(1, 3, [0], [NO_CLUE, NO_CLUE], [(WALL, 0), (WALL, 1), (UNDO, None), (UNDO, None), (ASK, None)])
        wanted = [{0: 1}, {0: 1, 1: 1}, {0: 1}, {0: 1}, {0: 1}]
        for lines in (None, ["refused 4", "decided", "undone", "refused 5", "clear"]):
            self.assertEqual([dict(t.standing) for t in turns(made, lines)], wanted)

    def test_a_room_and_an_empty_list(self):
        self.assertEqual(Turn(1, (ASK, None), "room 4: 5 6", {}).listed, {2: 1, 3: 0})
        self.assertEqual(Turn(1, (ASK, None), "room 4: 5 6", {}).room, 4)
        self.assertEqual(Turn(1, (ASK, None), "shape:", {}).listed, {})
        self.assertEqual(Turn(1, (ASK, None), "refused 6", {}).listed, {})

    def test_a_refused_puzzle_and_a_board_that_is_not_drawn(self):
        self.assertIn("the puzzle is refused 8: there are not", report(Case(1, 3, [1], [], [(ASK, None)]), ["refused 8"]))
        self.assertIn("the puzzle is refused 8: there are not", report(Case(1, 3, [1], [], [(ASK, None)]), None))
        self.assertIn("no such board is drawn: the puzzle is refused 1", report(Case(0, 33), ["refused 1"]))
        self.assertEqual([refusal(made) for made in (
            Case(33, 1), Case(1, 3, [2]), Case(1, 3, [1, 0]), Case(1, 3, [0, 0]), Case(1, 3, [1]), Case(1, 3, [1], [0, 2]), Case(1, 3, [1], [2, 1]))],
            [1, 3, 7, 7, 8, 9, 0])

    def test_lines_that_are_none(self):
        made = Case(1, 3, [], [3], [(WALL, 0), (CONNECT, 1), (ASK, None), (UNDO, None)])
        for at, line, words in ((0, "decide", "'decide' is no line that the program prints"), (0, "", "'' is no line"),
                                (0, "clear", "'clear' is no answer to wall"), (2, "undone", "'undone' is no answer to ask"),
                                (3, "decided", "'decided' is no answer to undo"), (2, "shape: 1 x", "'shape: 1 x' is no line"),
                                (2, "shape: ²", "'shape: ²' is no line"), (2, "shape: 1  2", "'shape: 1  2' is no line"),
                                (2, "shape: 99", "entry 99 does not stand"), (2, "shape: 0 2", "entry 0 does not stand"),
                                (2, "shape: 1 2 " + "9 " * 99, "'shape: 1 2 9 9 9 9 9 9 9 9 9 9 9 9 9 ...' is no line"),
                                (2, "room 1: 2", "there is no room 1"), (4, "clear", "there is a line for 4 calls alone")):
            lines = PAPER_LINES[:at] + [line] + PAPER_LINES[at + 1:]
            with self.assertRaises(Mistake, msg=line) as raised:
                check_lines(made, lines)
            self.assertTrue(str(raised.exception).startswith("line %d: %s" % (at + 1, words)), str(raised.exception))
        with self.assertRaisesRegex(Mistake, "^line 1: the puzzle is refused 9, and that is the only line$"):
            check_lines(Case(1, 3, [], [4], [(ASK, None)]), ["clear"])

    def test_random_reports(self):
        rng = random.Random(4)
        for _ in range(30):
            self.assertGreater(len(report(random_case(rng), None)), 10)
