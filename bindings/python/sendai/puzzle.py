"""A puzzle: a board, its given walls and a clue for each room."""
from __future__ import annotations

from array import array
from typing import Iterable, NamedTuple

from . import _records
from ._library import Calls, calls
from ._numbers import MAX_ENTRY, MAX_UNDECIDED, NO_CLUE, lent, natural, shorts, size, truth
from .board import Board, Standing
from .lists import STATES, Fault, State, again
from .refusal import Refusal, accepted

IMAGES = 1  # the kind of a puzzle of images
KINDS = "True for a puzzle of images or False for one of translates"
SHAPE_FAULT, ROOM_FAULT = 1, 2  # kinds of what an ask answers
FIRST_BOARDS, MORE_BOARDS = 1024, 16  # right boards that a first search has room for, and how many times more each next one has


class RightBoards(NamedTuple):
    """Right boards of a puzzle, rising."""

    boards: list[list[State]]
    """Each board's states, by border."""

    more: bool
    """Whether more exist beyond these."""

    @property
    def unique(self) -> bool:
        """Whether the puzzle has exactly one answer, the one here. A cap of 1 is enough to know; with a cap of 0 it is False."""
        return len(self.boards) == 1 and not self.more


class Puzzle(Standing):
    """A puzzle: a board, its given walls, a clue for each room, and its kind: a unit's partner is its translate, or any of its eight
    images, turned and mirrored ones among them. Rooms are the parts into which the given walls cut the board, numbered from 0 by first
    cell.

    One row of four cells with a given wall in the middle; the left room is to be one unit:

    >>> puzzle = Puzzle(1, 4, given=[1], clues=[1, NO_CLUE])
    >>> puzzle.decide(0, True)
    >>> puzzle.ask()
    Fault(check=0, list=[1])

    Two rows of three cells and two units, of which one is the other turned by half a turn:

    >>> turned = [(0, False), (1, True), (2, True), (3, False), (4, False), (5, True), (6, False)]
    >>> translates, images = Puzzle(2, 3), Puzzle(2, 3, images=True)
    >>> for puzzle in translates, images:
    ...     puzzle.stroke(turned)
    >>> translates.ask() is None, images.ask() is None
    (False, True)
    """

    __slots__ = ()
    _kind = "puzzle"

    def __init__(self, height: int, width: int, given: Iterable[int] = (), clues: Iterable[int | None] | None = None,
                 images: bool = False) -> None:
        """A fresh puzzle: the given walls' numbers, rising, and a clue for each room, NO_CLUE or None for none; without clues no room has
        one. `images` is True for a puzzle of images, False for one of translates. Refused: SIZES, MISSING, GIVEN_ORDER, CLUE_COUNT,
        CLUE_VALUE."""
        found, sides = calls(), (size(height), size(width))
        make = found.locked.sendai_puzzle_make_images if truth(images, KINDS) else found.locked.sendai_puzzle_make
        # a wall beyond all is one that no board has, a clue beyond all one that no room has, and NO_CLUE alone stands for none
        walls = shorts(natural(wall, MAX_ENTRY) for wall in given)
        told = shorts(clue_number(clue) for clue in ([None] if clues is None else clues))
        made = make(*sides, *lent(walls), *lent(told))
        if clues is None and made.code == Refusal.CLUE_COUNT:
            told = shorts([NO_CLUE] * rooms(*sides, walls))
            made = make(*sides, *lent(walls), *lent(told))
        accepted(made.code)
        self._keep(found, made.puzzle)

    def _keep(self, found: Calls, record: _records.Puzzle) -> None:
        self._hold(found, record, record.board, record.kind == IMAGES)

    def _making(self) -> tuple:
        return self.height, self.width, self.given, self.clues, self.images

    def ask(self) -> Fault | None:
        """The shape check, for the images of the puzzle's kind, then the counts of the clued rooms, up to the first fault: None where all
        is clear."""
        told = self._calls.locked.sendai_puzzle_ask_in_place(self._at, *lent(self._list))
        accepted(told.code)
        kind = told.kind
        if kind == SHAPE_FAULT:
            return Fault("shape", self._list[:told.length].tolist())
        if kind == ROOM_FAULT:
            return Fault(told.room, self._list[:told.length].tolist())
        return None

    def right_boards(self, cap: int | None = None) -> RightBoards:
        """All answers: every full board, right for the puzzle's kind, on which all that is decided stands, each once, rising, at most `cap`
        of them, and whether more exist. Refused: MANY_UNDECIDED.

        >>> Puzzle(1, 4).right_boards(0)
        RightBoards(boards=[], more=True)
        >>> [[int(state) for state in board] for board in Puzzle(1, 4).right_boards().boards]
        [[1, 2, 1], [2, 2, 2]]
        """
        # a cap above the number of ways to decide the rest says the same as one that is as great
        most = 2 ** min(self.undecided, MAX_UNDECIDED)
        cap = most if cap is None else natural(cap, most)
        # so that few answers of many ways don't take a buffer for all of them
        room = min(cap, FIRST_BOARDS)
        found = self._right_boards(room)
        while found.more and room < cap:
            room = min(cap, MORE_BOARDS * room)
            found = self._right_boards(room)
        return found

    def _right_boards(self, cap: int) -> RightBoards:
        """It may take long: it works on a copy, so that other threads go on."""
        borders = self.borders
        buffer = array("B", bytes(max(1, cap * borders)))
        call = self._calls.unlocked.sendai_puzzle_right_boards
        told = call(self.copy()._record, cap, buffer.buffer_info()[0], cap * borders)
        accepted(told.code, "%d undecided" % self.undecided)
        boards = [[STATES[state] for state in buffer[k * borders:(k + 1) * borders]] for k in range(told.count)]
        return RightBoards(boards, told.more)

    def board(self) -> Board:
        """A board on which the same borders stand, the given walls by its first stroke: for groups, paths and boundaries."""
        return again(Board, (self.height, self.width), [[(wall, True) for wall in self.given]] + self.strokes())

    @property
    def given(self) -> list[int]:
        """The given walls, rising."""
        return self._record.given[:self._record.given_len]

    @property
    def clues(self) -> list[int]:
        """The clues, by room, NO_CLUE for none."""
        return self._record.clues[:self._record.clues_len]

    @property
    def images(self) -> bool:
        """Whether it is a puzzle of images; else it is one of translates."""
        return self._record.kind == IMAGES

    def __repr__(self) -> str:
        kind = " of images," if self.images else ""
        size = (kind, self.height, self.width, self.given, self.clues, self.ledger())
        return "<Puzzle%s %d by %d, given %r, clues %r, decided %r>" % size


def clue_number(clue: int | None) -> int:
    return NO_CLUE if clue is None or clue == NO_CLUE else natural(clue, NO_CLUE - 1)


def rooms(height: int, width: int, given: Iterable[int]) -> int:
    """How many rooms the given walls make, which are sound."""
    board = Board(height, width)
    board.stroke((wall, True) for wall in given)
    return len(board.potential_units())
