import os
import random
import shutil
import unittest
import unittest.mock
import xml.etree.ElementTree as ElementTree

from cases import svg, text
from cases.answers import found_answers, report
from cases.drawing import parse
from cases.file import encode
from cases.model import CONNECT, NO_CLUE, UNDO, WALL, ASK, Case
from checker import puzzle_of, sendai

from .support import ARCHIVE, PAPER, TURNED, TURNED_DRAWN, WithCalls, run
from .test_svg import labels, marks, titles

# The right boards of 1 by 4: two units of two cells, or four of one.
ROW_OF_FOUR = [[1, 2, 1], [2, 2, 2]]


class Listed:
    """Stands for a puzzle of one row whose right boards are known."""

    height, given, clues, images = 1, [], [NO_CLUE], False

    def __init__(self, boards, width=4):
        self.boards, self.width, self.decided = boards, width, [0] * (width - 1)

    def copy(self):
        other = Listed(self.boards, self.width)
        other.decided = list(self.decided)
        return other

    def decide(self, border, wall):
        self.decided[border] = WALL if wall else CONNECT

    def states(self):
        return self.decided

    def right_boards(self, cap):
        fitting = [b for b in self.boards if all(s in (0, t) for s, t in zip(self.decided, b))]
        return sendai.RightBoards(fitting[:cap], len(fitting) > cap)


class Drawn(unittest.TestCase):
    """How right boards are drawn, with or without the checker's calls at hand."""

    def found(self, cap, boards=ROW_OF_FOUR):
        return found_answers(Listed(boards), cap)

    def test_report(self):
        self.assertEqual(report(self.found(10)).split("\n"), [
            "1 by 4, 0 given walls, clues: -",
            "2 answers",
            "started             in all answers      1                   2",
            "+---+---+---+---+   +---+---+---+---+   +---+---+---+---+   +---+---+---+---+",
            "|               |   |   ?   x   ?   |   |   O   x   O   |   |   X   x   X   |",
            "+---+---+---+---+   +---+---+---+---+   +---+---+---+---+   +---+---+---+---+",
        ])

    def test_partners(self):
        found = self.found(10)
        self.assertEqual(report(found, found.partners()).split("\n")[2:], [
            "started             in all answers      1                   2",
            "+---+---+---+---+   +---+---+---+---+   +---+---+---+---+   +---+---+---+---+",
            "|               |   |   ?   x   ?   |   | a O a x b O b |   | a X b x c X d |",
            "+---+---+---+---+   +---+---+---+---+   +---+---+---+---+   +---+---+---+---+",
            "                                        a: image 0 is b     a: image 0 is b",
            "                                        b: image 0 is a     b: image 0 is a",
            "                                                            c: image 0 is b",
            "                                                            d: image 0 is c",
            "image 0: as it is"])
        self.assertEqual(report(self.found(0), self.found(0).partners()), report(self.found(0)))
        tree = ElementTree.fromstring(svg.answers(found, found.partners()))
        self.assertEqual(titles(tree), ["started: 2 answers", "in all answers", "1", "2"])
        self.assertEqual(labels(tree), ["a", "b 0", "b", "a 0", "a", "b 0", "b", "a 0", "c", "b 0", "d", "c 0"])
        self.assertIn("image 0: as it is", [e.text for e in tree.iter() if e.text])

    def test_what_is_told(self):
        told = [(cap, boards, self.found(cap, boards).told()) for cap in (0, 1, 2) for boards in ([], ROW_OF_FOUR[:1], ROW_OF_FOUR)]
        self.assertEqual([words for _, _, words in told], [
            "no answer", "an answer exists", "an answer exists",
            "no answer", "1 answer", "1 answer and more",
            "no answer", "1 answer", "2 answers"])

    def test_answers_that_are_not_shown_count_for_what_all_share(self):
        self.assertEqual(self.found(1).differing, [0, 2])
        self.assertEqual(self.found(1, ROW_OF_FOUR[:1]).differing, [])
        self.assertEqual(self.found(0).differing, [])
        self.assertEqual([title for title, _, _ in self.found(1).drawings()], ["started", "in all answers", "1"])
        self.assertEqual([title for title, _, _ in self.found(5, ROW_OF_FOUR[:1]).drawings()], ["started", "1"])

    def test_an_answer_and_what_all_share_drawn_again(self):
        found = self.found(10)
        drawn = [parse(text.draw(found.case, standing, marked)).calls[:-1] for _, standing, marked in found.drawings()]
        self.assertEqual(drawn, [[], [(WALL, 1)], [(CONNECT, 0), (WALL, 1), (CONNECT, 2)], [(WALL, 0), (WALL, 1), (WALL, 2)]])

    def test_rows_of_drawings(self):
        self.assertEqual(text.beside([["ab", "c"], ["d", "e"], ["f", "g"]], widest=7), ["ab   d", "c    e", "f", "g"])
        self.assertEqual(text.beside([["ab"], ["c"]], widest=1), ["ab", "c"])

    def test_picture(self):
        found = self.found(10)
        for widest, wide in ((0, 250), (1000, 4 * 250)):
            tree = ElementTree.fromstring(svg.picture(found.case, [svg.Panel(*drawn) for drawn in found.drawings()], svg.OF_ANSWERS, widest=widest))
            self.assertEqual(int(tree.get("width")), wide)
            self.assertEqual({k: v for k, v in marks(tree).items() if k != "gone"}, {"differs": 2, "listed": 4, "wall": 5, "connected": 2})
        self.assertEqual(labels(ElementTree.fromstring(svg.answers(found))), [])


class Called(WithCalls):
    def answers(self, made, *options):
        """What the command prints for a case, or a file's bytes; what it says where it ends with status 2."""
        path = self.file("sendai.bin", made if isinstance(made, bytes) else encode(made))
        status, out, said = run("answers", path, *options)
        self.assertEqual(status, 2 if said else 0)
        return said or out

    def count(self, made, *options):
        return self.answers(made, *options).split("\n")[1]

    def test_counts(self):
        row = Case(1, 4, [], [NO_CLUE])
        self.assertEqual([self.count(row, "--cap", n) for n in "012"], ["an answer exists", "1 answer and more", "2 answers"])
        self.assertEqual(self.count(row, "--cap", str(10 ** 30)), "2 answers")
        self.assertEqual(self.count(Case(1, 2, [], [NO_CLUE], [(CONNECT, 0)])), "no answer")
        self.assertEqual(self.count(Case(4, 4, [], [NO_CLUE])), "10 answers and more")
        self.assertEqual(self.count(Case(1, 4, [1], [1, NO_CLUE])), "1 answer")

    def test_images(self):
        turned = parse(TURNED)
        self.assertEqual(self.count(turned), "no answer")
        drawn = self.path + ".svg"
        said = self.answers(turned, "--images", "--svg", drawn).split("\n")
        self.assertEqual(said[:2], ["2 by 3, of images, 0 given walls, clues: 2", "1 answer"])
        # beside the drawing of what stands
        self.assertEqual([line[18:] if at < 7 else line for at, line in enumerate(said[3:])], TURNED_DRAWN.split("\n"))
        self.assertEqual(labels(ElementTree.parse(drawn).getroot()), ["a", "b 2", "b", "a 2"])
        pair = Case(1, 2, [], [NO_CLUE])
        self.assertNotIn("image", self.answers(pair))
        self.assertEqual(self.answers(pair, "--partners").split("\n")[-4:], ["                  a: image 0 is b", "                  b: image 0 is a",
                                                                             "image 0: as it is", ""])
        many = self.answers(Case(4, 5, [], [NO_CLUE]), "--images")
        self.assertEqual(many, "case.py: refused 12: more than 24 borders are undecided (31 undecided)\n")

    def test_the_calls_of_the_file_count(self):
        calls = [(WALL, 0)] * 40 + [(UNDO, None), (ASK, None), (CONNECT, 2)]
        self.assertEqual(self.answers(Case(1, 4, [], [NO_CLUE], calls)).split("\n")[3:], [
            "+---+---+---+---+   +---+---+---+---+",
            "|           o   |   |   o   x   o   |",
            "+---+---+---+---+   +---+---+---+---+",
            ""])

    def test_refusals(self):
        self.assertRegex(self.answers(PAPER[:-1]), "^case.py: .*sendai.bin: unsound: length 18, but 17 bytes behind it\n$")
        for number, made in ((1, Case(0, 3)), (3, Case(1, 3, [2], [NO_CLUE] * 2)), (7, Case(1, 3, [1, 0])),
                             (8, Case(1, 3)), (9, Case(1, 3, [], [4])), (12, Case(4, 5, [], [NO_CLUE]))):
            self.assertRegex(self.answers(made), "^case.py: refused %d: [a-z]" % number)
        many = self.answers(Case(4, 5, [], [NO_CLUE]))
        self.assertEqual(many, "case.py: refused 12: more than 24 borders are undecided (31 undecided); solve.py takes more\n")

    def test_missing_parts(self):
        row = Case(1, 4, [], [NO_CLUE])
        self.assertRegex(self.answers(row, "--library", self.path + ".a"), "^case.py: no .*sendai.bin.a\n$")
        self.assertRegex(self.answers(row, "--library", self.path), "^case.py: .*sendai.bin")
        with unittest.mock.patch.dict(os.environ, CC="no-such-compiler"):
            copied = shutil.copy(ARCHIVE, self.path + ".a")
            self.assertRegex(self.answers(row, "--library", copied), "^case.py: no C compiler")

    def test_another_archive(self):
        copied = shutil.copy(ARCHIVE, self.path + ".a")
        self.assertEqual(self.count(Case(1, 4, [], [NO_CLUE]), "--library", copied), "2 answers")

    def test_picture(self):
        drawn = self.path + ".svg"
        self.answers(Case(2, 2, [], [NO_CLUE]), "--svg", drawn, "--cap", "2")
        self.assertEqual(titles(ElementTree.parse(drawn).getroot()), ["started: 2 answers and more", "in all answers", "1", "2"])

    def test_what_all_share_whatever_the_cap(self):
        rng = random.Random(5)
        for _ in range(60):
            made = Case(rng.randint(1, 3), rng.randint(1, 4), [], [NO_CLUE])
            made.calls = [(rng.choice((CONNECT, WALL)), rng.randrange(20)) for _ in range(rng.randint(0, 4))]
            puzzle = puzzle_of(made)
            whole = found_answers(puzzle, 10 ** 6)
            self.assertFalse(whole.more)
            self.assertEqual(sorted(whole.boards, key=lambda board: list(board.values())), whole.boards)
            for cap in range(1, 4):
                some = found_answers(puzzle, cap)
                told = (whole.boards[:cap], len(whole.boards) > cap, whole.differing)
                self.assertEqual((some.boards, some.more, some.differing), told)
