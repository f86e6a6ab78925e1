"""The right boards of a case, as they are told and drawn."""
from itertools import zip_longest

from .images import IMAGES, TRANSLATES
from .model import CONNECT, WALL, Case, counted
from .partners import Partners, images_on, said
from .text import beside, heading, with_partners


class Answers:
    """The right boards of a case up to a cap, whether more exist, and the borders in which all that exist differ.

    A board has 1 for a Wall and 0 for a Connected border, by the border's number; `standing` has so the borders that are decided.
    """

    def __init__(self, case, standing, boards, more, differing):
        self.case, self.standing, self.boards, self.more, self.differing = case, standing, boards, more, differing

    def told(self):
        count = len(self.boards)
        if count == 0:
            return "an answer exists" if self.more else "no answer"
        return counted(count, "answer") + (" and more" if self.more else "")

    def drawings(self):
        """What stands, what all answers share where there are several, and each answer: titles, borders that stand, marked ones."""
        drawn = [("started", self.standing, {})]
        if self.differing:
            shared = {b: v for b, v in self.boards[0].items() if b not in self.differing}
            drawn.append(("in all answers", shared, dict.fromkeys(self.differing)))
        return drawn + [("%d" % k, board, {b: board[b] for b in self.differing}) for k, board in enumerate(self.boards, 1)]

    def partners(self):
        """For each of the drawings the partners of the units on it; None where it is no answer."""
        return [None] * (len(self.drawings()) - len(self.boards)) + [Partners(self.case, board) for board in self.boards]


def values(states):
    """The decided borders, each with 1 for Wall and 0 for Connected."""
    return {border: int(state == WALL) for border, state in enumerate(states) if state in (CONNECT, WALL)}


def found_answers(puzzle, cap):
    """The right boards of a puzzle up to a cap."""
    case = Case(puzzle.height, puzzle.width, puzzle.given, puzzle.clues, images=IMAGES if puzzle.images else TRANSLATES)
    standing = values(puzzle.states())
    boards, more = puzzle.right_boards(cap)
    boards = [values(board) for board in boards]
    differing = [b for b in boards[0] if differs(puzzle, boards, b, more and b not in standing)] if boards else []
    return Answers(case, standing, boards, more, differing)


def differs(puzzle, boards, border, others):
    """Whether answers differ in a border; where others exist that aren't shown, it is tried the other way."""
    value = boards[0][border]
    if any(board[border] != value for board in boards):
        return True
    if not others:
        return False
    otherwise = puzzle.copy()
    otherwise.decide(border, not value)
    return otherwise.right_boards(0).more


def report(found, partners=()):
    """The answers as text, with `found.partners()` where they are to be drawn."""
    blocks = ["\n".join([title] + with_partners(found.case, standing, marked, meant)).split("\n")
              for (title, standing, marked), meant in zip_longest(found.drawings(), partners)]
    return "\n".join([heading(found.case), found.told()] + beside(blocks) + said(images_on(partners)))
